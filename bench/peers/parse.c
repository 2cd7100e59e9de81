// parse rows|tables DATA EXCL: reads UnicodeData.txt into rows, as plainly and quickly as C can. With
// `tables` it reads CompositionExclusions.txt too and builds what normalization asks for: the row of
// each code point, full decompositions of both kinds, and sorted pairs of primary composites. It
// trusts the files, where npss judges every line and the version: a floor, no like for like.
#include <stdint.h>
#include <stdio.h>
#include <stdlib.h>
#include <string.h>

enum { CODES = 0x110000, ROWS = 1 << 16, PARTS = 1 << 18 };

struct row {
    uint32_t first, last, mapping; // where the mapping begins among the parts
    uint8_t class, length, compatibility;
    char category[2];
};
struct pair {
    uint64_t parts;
    uint32_t composite;
};

static struct row rows[ROWS];
static uint32_t row_count, parts[PARTS], part_count = 0;
static uint16_t row_of[CODES]; // 1 more than the row's index, 0 for unassigned
static uint32_t full_start[2][ROWS], full_end[2][ROWS], expanded[PARTS], expanded_count = 0;
static uint8_t excluded[CODES];
static struct pair pairs[ROWS];
static size_t pair_count = 0;

static char *whole_file(const char *name) {
    FILE *file = fopen(name, "rb");
    if (!file || fseek(file, 0, SEEK_END) != 0)
        exit(1);
    long length = ftell(file);
    rewind(file);
    char *text = calloc(length + 1, 1);
    if (!text || fread(text, 1, length, file) != (size_t)length)
        exit(1);
    fclose(file);
    return text;
}

static uint32_t code(char **at) { return strtoul(*at, at, 16); }

static void read_mapping(struct row *row, char *at) {
    row->mapping = part_count;
    if (*at == '<') {
        row->compatibility = 1;
        at = strchr(at, '>') + 2;
    }
    while (*at != ';') {
        parts[part_count++] = code(&at);
        row->length++;
        at += *at == ' ';
    }
}

static void read_rows(char *at) {
    uint32_t opened = CODES;
    while (*at) {
        struct row *row = &rows[row_count];
        row->last = code(&at);
        char *name = at + 1, *end = strchr(name, ';');
        char *line_end = strchr(end, '\n');
        if (end - name > 8 && memcmp(end - 8, ", First>", 8) == 0) {
            opened = row->last;
        } else {
            row->first = opened == CODES ? row->last : opened;
            opened = CODES;
            memcpy(row->category, end + 1, 2);
            row->class = atoi(end + 4);
            at = strchr(strchr(end + 4, ';') + 1, ';') + 1;
            read_mapping(row, at);
            row_count++;
        }
        at = line_end + 1;
    }
}

static void expand(uint32_t point, int kind) {
    const struct row *row = row_of[point] ? &rows[row_of[point] - 1] : NULL;
    if (!row || !row->length || (row->compatibility && !kind))
        expanded[expanded_count++] = point;
    else
        for (int part = 0; part < row->length; part++)
            expand(parts[row->mapping + part], kind);
}

static int by_parts(const void *one, const void *other) {
    uint64_t a = ((const struct pair *)one)->parts, b = ((const struct pair *)other)->parts;
    return (a > b) - (a < b);
}

static void read_exclusions(char *at) {
    while (*at) {
        char *end = strchr(at, '\n');
        if (*at != '#' && *at != '\n')
            excluded[code(&at)] = 1;
        at = end + 1;
    }
}

static uint8_t class_of(uint32_t point) { return row_of[point] ? rows[row_of[point] - 1].class : 0; }

static void build_tables(void) {
    for (uint32_t index = 0; index < row_count; index++)
        for (uint32_t point = rows[index].first; point <= rows[index].last; point++)
            row_of[point] = index + 1;
    for (uint32_t index = 0; index < row_count; index++) {
        const struct row *row = &rows[index];
        if (!row->length)
            continue;
        for (int kind = 0; kind < 2; kind++) {
            full_start[kind][index] = expanded_count;
            expand(row->first, kind);
            full_end[kind][index] = expanded_count;
        }
        const uint32_t *part = &parts[row->mapping];
        if (!row->compatibility && row->length == 2 && !excluded[row->first] && !row->class && !class_of(part[0]))
            pairs[pair_count++] = (struct pair){(uint64_t)part[0] << 32 | part[1], row->first};
    }
    qsort(pairs, pair_count, sizeof *pairs, by_parts);
}

int main(int argc, char **argv) {
    if (argc != 4)
        return 2;
    read_rows(whole_file(argv[2]));
    if (strcmp(argv[1], "tables") == 0) {
        read_exclusions(whole_file(argv[3]));
        build_tables();
    }
    // What was read is told, so that it can be compared and none of it is left out by the compiler.
    printf("%u rows, %u parts, %u of full decompositions, %zu pairs\n", row_count, part_count, expanded_count,
           pair_count);
    return 0;
}
