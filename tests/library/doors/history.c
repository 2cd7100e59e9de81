/* history V1DATA V1EXCLUSIONS V2DATA V2EXCLUSIONS: a history of three nodes over two versions, by the calls alone.
 *
 * To be read beside 'For a host' of docs/PROMISES.md. Each EVENT is a line of a schedule, the call that does it (as in
 * np_world/specs/Calls), and the reply of the machine. What is printed are the replies; with no words it is the schedule,
 * over which `npss replay` has to give the same replies. */
#include "files.h"

#define LAST 1
#define ROOM 3
#define STRING(string) (const uint8_t *)(string), strlen(string)
#define MARKED "a\xcc\x82"                                       /* 0061 0302 */
#define WHOLE "\xc3\xa2"                                         /* 00E2, which is equivalent */
#define LATER "\xf0\x96\xb5\xa3\xf0\x96\xb5\xa7\xf0\x96\xb5\xa7" /* 16D63 16D67 16D67, assigned in the later version alone */
#define FORGED "C\0\0\0\3" MARKED "\0\0\0\3" MARKED              /* the string stands in the place of its key */

typedef struct bytes {
    uint8_t at[512];
    size_t length;
} bytes;

/* What a host keeps beside the nodes: the chain, each node's place in it and its last image, and the messages as told. */
static npss_handle chain[LAST + 1];
static npss_node nodes[3];
static size_t places[3] = {0, LAST, 0}, sent_count, event_count;
static bytes images[3], sent[8];

static npss_answer accept(int n, const char *string) {
    npss_answer a = npss_node_accept(&nodes[n], STRING(string));
    if (a.status == NPSS_DONE) {
        bytes *message = &sent[sent_count++];
        message->length = npss_node_message(&nodes[n], STRING(string), message->at, sizeof message->at).length;
    }
    return a;
}

static npss_answer deliver(int n, size_t message) {
    return npss_node_take(&nodes[n], sent[message].at, sent[message].length);
}

static npss_answer upgrade(int n) {
    npss_answer a = npss_node_upgrade(&nodes[n], &chain[places[n] + 1]);
    if (a.status == NPSS_DONE) places[n]++;
    return a;
}

static npss_answer save(int n) {
    npss_answer a = npss_node_image(&nodes[n], images[n].at, sizeof images[n].at);
    if (a.status == NPSS_DONE) images[n].length = a.length;
    return a;
}

/* From the last image, or new where there is none. */
static npss_answer restart(int n, size_t place) {
    npss_answer a = images[n].length ? npss_node_restore(&nodes[n], &chain[place], NPSS_NFC, ROOM, images[n].at, images[n].length)
                                     : npss_node_new(&nodes[n], &chain[place], NPSS_NFC, ROOM);
    if (a.status == NPSS_DONE) places[n] = place;
    return a;
}

static void event(const char *what, npss_answer a, uint32_t status, const char *reply) {
    CHECK(what, a.status == status);
    printf("%zu %s\n", event_count++, reply);
}

#define EVENT(line, call, status, reply) is_schedule ? (void)puts(line) : event(line, call, status, reply)

static void history(int is_schedule) {
    EVENT("accept 0 0066 0061", accept(0, "fa"), NPSS_DONE, "kept 0");
    EVENT("accept 1 0061 0302", accept(1, MARKED), NPSS_DONE, "kept 1");
    EVENT("deliver 1 0", deliver(1, 0), NPSS_DONE, "kept");
    EVENT("deliver 2 1", deliver(2, 1), NPSS_DONE, "kept");
    EVENT("deliver 2 1", deliver(2, 1), NPSS_KNOWN, "known"); /* a repeat; to node 2 message 0 is lost */
    EVENT("accept 1 16D63 16D67 16D67", accept(1, LATER), NPSS_DONE, "kept 2");
    EVENT("deliver 0 2", deliver(0, 2), NPSS_UNASSIGNED, "unassigned 16D63 at byte 0");
    EVENT("save 0", save(0), NPSS_DONE, "saved");
    EVENT("upgrade 0", upgrade(0), NPSS_DONE, "version 1");
    EVENT("deliver 0 2", deliver(0, 2), NPSS_DONE, "kept");
    EVENT("accept 0 00E2", accept(0, WHOLE), NPSS_DONE, "kept 3");
    EVENT("save 1", save(1), NPSS_DONE, "saved");
    EVENT("restart 1 0", restart(1, 0), NPSS_OLDER_TABLES, "older tables 17666 17660");
    EVENT("restart 0", restart(0, places[0]), NPSS_DONE, "restarted");
    EVENT("deliver 0 3", deliver(0, 3), NPSS_DONE, "kept"); /* what it sent itself and didn't save */
    EVENT("deliver 0 1", deliver(0, 1), NPSS_DONE, "kept");
    EVENT("deliver 0 2", deliver(0, 2), NPSS_FULL, "full");
    EVENT("accept 2 00E2", accept(2, WHOLE), NPSS_DONE, "kept 4");
    EVENT("ask 0 0061 0302 / 00E2", npss_node_same(&nodes[0], STRING(MARKED), STRING(WHOLE)), NPSS_DONE, "equal");
    EVENT("ask 2 0061 0302 / 00E2", npss_node_same(&nodes[2], STRING(MARKED), STRING(WHOLE)), NPSS_DONE, "equal");
    EVENT("forge 2 430000000361cc820000000361cc82", npss_node_take(&nodes[2], (const uint8_t *)FORGED, sizeof FORGED - 1), NPSS_KEY_DIFFERS, "key differs");
    EVENT("forget 2 0061 0302", npss_node_forget(&nodes[2], STRING(MARKED)), NPSS_DONE, "forgotten");
    EVENT("ask 2 0061 0302 / 00E2", npss_node_same(&nodes[2], STRING(MARKED), STRING(WHOLE)), NPSS_NOT_KEPT, "not kept");
}

/* The node's strings are these, and beside each stands its key under the last version. */
static void check_node(int n, const char *const *strings, uint64_t count) {
    CHECK("as many strings", npss_node_count(&nodes[n]).length == count);
    for (uint64_t i = 0; i < count; i++) {
        uint8_t both[64], key[64];
        const size_t length = strlen(strings[i]);
        npss_answer a = npss_node_entry(&nodes[n], i, both, sizeof both), last = npss_key(&chain[LAST], NPSS_NFC, STRING(strings[i]), key, sizeof key);
        CHECK("a string", a.status == NPSS_DONE && a.place == length && !memcmp(both, strings[i], length));
        CHECK("its key", last.status == NPSS_DONE && a.length == length + last.length && !memcmp(both + length, key, last.length));
    }
    printf("node %d version %zu entries %llu\n", n, places[n], (unsigned long long)count);
}

int main(int count, char **words) {
    if (count < 5) {
        printf("room %d\nnodes 0 1 0\n", ROOM);
        history(1);
        return 0;
    }
    for (int i = 0; i <= LAST; i++) CHECK("a version", open_files(&chain[i], words[2 * i + 1], words[2 * i + 2]).status == NPSS_DONE);
    for (int i = 0; i < LAST; i++) CHECK("a chain", npss_extends(&chain[i], &chain[i + 1]).status == NPSS_DONE);
    for (int n = 0; n < 3; n++) CHECK("a new node", npss_node_new(&nodes[n], &chain[places[n]], NPSS_NFC, ROOM).status == NPSS_DONE);
    history(0);
    check_node(0, (const char *[]){"fa", WHOLE, MARKED}, 3);
    check_node(1, (const char *[]){MARKED, "fa", LATER}, 3);
    check_node(2, (const char *[]){WHOLE}, 1);
    for (int n = 0; n < 3; n++) npss_node_close(&nodes[n]);
    for (int i = 0; i <= LAST; i++) npss_close(&chain[i]);
    return finish();
}
