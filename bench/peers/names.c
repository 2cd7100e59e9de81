// names FILE PASSES FORM [WORDS..]: makes the form, `nfc` or `nfd`, of each line of the file by a peer, in each of its ways.
// Prints a line 'version V', and for each way 'NAME NANOSECONDS SUM': the least of the passes for one name, and the FNV-1a of
// all forms with their line ends.
#include "names.h"
#include <stdint.h>
#include <stdio.h>
#include <stdlib.h>
#include <string.h>
#include <time.h>

enum { MOST_BYTES = 1 << 26, MOST_NAMES = 1 << 21, ROOM = 4096 };
static char text[MOST_BYTES];
static size_t begins[MOST_NAMES + 1];

static double now(void) {
    struct timespec t;
    clock_gettime(CLOCK_MONOTONIC, &t);
    return t.tv_sec * 1e9 + t.tv_nsec;
}

static uint64_t summed(uint64_t sum, const char *bytes, size_t length) {
    for (size_t i = 0; i < length; i++) sum = (sum ^ (uint8_t)bytes[i]) * 0x100000001b3;
    return sum;
}

int main(int count, char **words) {
    FILE *file = count < 4 ? NULL : fopen(words[1], "rb");
    if (!file) return 2;
    const size_t length = fread(text, 1, sizeof text, file);
    size_t names = 0;
    for (char *at = text; at < text + length && names < MOST_NAMES; at = strchr(at, '\n') + 1) begins[names++] = at - text;
    begins[names] = length;
    const char *version = ready(words[3], count - 4, words + 4);
    if (!version) return 2;
    printf("version %s\n", version);
    static char room[ROOM];
    for (size_t way = 0; way < 2 && ways[way].name; way++) {
        double least = 1e18;
        uint64_t sum = 0xcbf29ce484222325;
        for (int pass = 0; pass <= atoi(words[2]); pass++) {
            const double begun = now();
            for (size_t i = 0; i < names; i++) {
                const long made = ways[way].make(text + begins[i], begins[i + 1] - begins[i] - 1, room);
                if (made < 0) return 1;
                // The first pass is for the sum alone.
                if (pass == 0) sum = summed(summed(sum, room, made), "\n", 1);
            }
            const double took = (now() - begun) / names;
            if (pass && took < least) least = took;
        }
        printf("%s %.1f %016llx\n", ways[way].name, least, (unsigned long long)sum);
    }
    return 0;
}
