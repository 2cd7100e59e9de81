/* What the C tests share: whole files, and the count. */
#ifndef FILES_H
#define FILES_H
#include <npss.h>
#include <stdio.h>
#include <stdlib.h>
#include <string.h>

typedef struct file {
    uint8_t *bytes;
    size_t length;
} file;

static file read_file(const char *name) {
    file f = {NULL, 0};
    FILE *stream = fopen(name, "rb");
    if (!stream || fseek(stream, 0, SEEK_END)) {
        perror(name);
        exit(9);
    }
    f.length = (size_t)ftell(stream);
    rewind(stream);
    f.bytes = malloc(f.length + 1);
    if (!f.bytes || fread(f.bytes, 1, f.length, stream) != f.length) {
        perror(name);
        exit(9);
    }
    fclose(stream);
    return f;
}

static inline npss_answer open_files(npss_handle *handle, const char *data_name, const char *exclusions_name) {
    file data = read_file(data_name), exclusions = read_file(exclusions_name);
    npss_answer a = npss_open(handle, data.bytes, data.length, exclusions.bytes, exclusions.length);
    free(data.bytes);
    free(exclusions.bytes);
    return a;
}

static unsigned long passed, failed;

#define CHECK(name, holds)                                                                                             \
    do {                                                                                                               \
        if (holds) {                                                                                                   \
            passed++;                                                                                                  \
        } else {                                                                                                       \
            failed++;                                                                                                  \
            printf("FAILED %s (line %d)\n", (name), __LINE__);                                                         \
        }                                                                                                              \
    } while (0)

static inline int finish(void) {
    printf("%lu passed, %lu failed\n", passed, failed);
    return failed != 0;
}
#endif
