/* threads DATA EXCLUSIONS CALLS: that many keys from five threads, over handles and nodes that share one table. */
#include "files.h"
#include <pthread.h>

#define THREADS 5
#define MARKED (const uint8_t *)"a\xcc\x82\xcc\xa3", 5
/* A string comes to a node, and goes, for each of so many keys. */
#define SELDOM 100

/* What a thread is handed. */
typedef struct handed {
    npss_handle handle;
    npss_node node;
} handed;

static unsigned long each;

/* Whether the answer tells the key, which is in the room. */
static int is_key(npss_answer a, const uint8_t *room) {
    return a.status == NPSS_DONE && a.length == 3 && !memcmp(room, "\xe1\xba\xad", 3);
}

static int comes_and_goes(npss_node *node) {
    uint8_t room[8];
    return npss_node_accept(node, MARKED).status == NPSS_DONE &&
           is_key(npss_node_key(node, MARKED, room, sizeof room), room) &&
           npss_node_forget(node, MARKED).status == NPSS_DONE;
}

static void *work(void *of) {
    handed *own = of;
    uint8_t room[8];
    unsigned long wrong = 0;
    for (unsigned long i = 0; i < each; i++) {
        wrong += !is_key(npss_key(&own->handle, NPSS_NFC, MARKED, room, sizeof room), room);
        if (i % SELDOM == 0) wrong += !comes_and_goes(&own->node);
    }
    npss_close(&own->handle);
    npss_node_close(&own->node);
    return (void *)wrong;
}

int main(int argc, char **argv) {
    if (argc != 4) return 2;
    each = strtoul(argv[3], NULL, 10) / THREADS;
    handed all[THREADS] = {{{0, NULL}, {0, NULL}}};
    pthread_t threads[THREADS];
    npss_handle *first = &all[0].handle;
    CHECK("open", open_files(first, argv[1], argv[2]).status == NPSS_DONE);
    for (int i = 1; i < THREADS; i++) CHECK("share", npss_share(first, &all[i].handle).status == NPSS_DONE);
    for (int i = 0; i < THREADS; i++)
        CHECK("node", npss_node_new(&all[i].node, first, NPSS_NFC, 1).status == NPSS_DONE);
    for (int i = 0; i < THREADS; i++) CHECK("start", !pthread_create(&threads[i], NULL, work, &all[i]));
    for (int i = 0; i < THREADS; i++) {
        void *wrong;
        CHECK("end", !pthread_join(threads[i], &wrong));
        CHECK("keys of a thread", wrong == NULL);
    }
    return finish();
}
