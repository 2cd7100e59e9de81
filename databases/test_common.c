/* test_common WORD..: prints what common.c tells: a line for each number of a fault, past the last that there is, and for each word
 * the form that it names and whether it is a label. tests/hosts/databases.py compares that with the pages. */
#include "common.h"

#include <stdio.h>
#include <string.h>

#define LABEL_SIZE 32

static void fault(const char *what, npss_answer answer) {
    char room[FAULT_SIZE];
    put_fault(room, answer);
    printf("%s %u\t%s\n", what, (unsigned)answer.fault, room);
}

int main(int count, char **words) {
    static const uint32_t more[] = {64, 1u << 31, UINT32_MAX};
    bytes files[FILE_COUNT] = {{(const uint8_t *)"ab", 2}, {(const uint8_t *)"c", 1}, {(const uint8_t *)"d", 1}};
    uint8_t room[11];
    for (uint32_t i = 0; i < 16 + sizeof more / sizeof *more; i++) {
        uint32_t number = i < 16 ? i : more[i - 16];
        printf("break %u\t%s\n", (unsigned)number, break_kind((npss_answer){.status = NPSS_DIFFERENT, .fault = number}).text);
        fault("data", (npss_answer){.status = NPSS_DATA, .fault = number, .place = UINT64_MAX});
        fault("exclusions", (npss_answer){.status = NPSS_EXCLUSIONS, .fault = number, .place = 7});
        fault("tables", (npss_answer){.status = NPSS_TABLES, .fault = number, .code = 0x10FFFF});
        fault("folding", (npss_answer){.status = NPSS_FOLDING, .fault = number, .place = 7});
        fault("foldings", (npss_answer){.status = NPSS_FOLDINGS, .fault = number, .code = 0x41});
    }
    for (uint32_t number = 1; number <= FILE_COUNT; number++) fault("large", (npss_answer){.status = NPSS_TOO_LARGE, .fault = number});
    fault("status", (npss_answer){.status = UINT32_MAX});
    for (int i = 1; i < count; i++) printf("word %s\t%d %d\n", words[i], form_named(words[i], strlen(words[i])), is_label(words[i], LABEL_SIZE));
    if (digested_size(files) != sizeof room) return 1;
    put_digested(room, files);
    printf("digested\t");
    for (size_t i = 0; i < sizeof room; i++) printf("%02x", room[i]);
    printf("\n");
    return 0;
}
