/* costs DATA EXCLUSIONS NAME COUNT: so many NFC keys of the text of that name. tests/library/doors.py counts the instructions. */
#include "files.h"

static const struct { const char *name, *text; int times; } texts[] = {
    {"short", "alice.smith9", 1},
    {"long", "the quick brown fox jumps over a lazy dog ", 25},
    {"changed", "Zoe\xcc\x88 nai\xcc\x88ve", 1},
    {"looked-up", "Zo\xc3\xab na\xc3\xafvet\xc3\xa9 \xe3\x90\x81\xe3\x91\x82", 1},
};

int main(int argc, char **argv) {
    static uint8_t text[4096], room[8192];
    if (argc != 5) return 2;
    npss_handle handle = {0};
    CHECK("open", open_files(&handle, argv[1], argv[2]).status == NPSS_DONE);
    for (size_t i = 0; i < sizeof texts / sizeof *texts; i++) {
        if (strcmp(texts[i].name, argv[3])) continue;
        size_t length = 0;
        for (int time = 0; time < texts[i].times; time++) {
            memcpy(text + length, texts[i].text, strlen(texts[i].text));
            length += strlen(texts[i].text);
        }
        for (long left = strtol(argv[4], NULL, 10); left > 0; left--)
            CHECK(argv[3], npss_key(&handle, NPSS_NFC, text, length, room, sizeof room).status == NPSS_DONE);
    }
    npss_close(&handle);
    return finish();
}
