/* keys DATA EXCLUSIONS FORM: the key of each line of the input, a line each; a line '!STATUS' where there is none. */
#include "files.h"

int main(int argc, char **argv) {
    static uint8_t line[65536], room[1048576];
    npss_handle handle = {0};
    if (argc != 4 || open_files(&handle, argv[1], argv[2]).status != NPSS_DONE) return 2;
    size_t length = 0;
    for (int c; (c = getchar()) != EOF;) {
        if (c != '\n') {
            if (length < sizeof line) line[length++] = (uint8_t)c;
            continue;
        }
        npss_answer a = npss_key(&handle, (uint8_t)argv[3][0], line, length, room, sizeof room);
        if (a.status == NPSS_DONE) {
            fwrite(room, 1, a.length, stdout);
        } else {
            printf("!%u", a.status);
        }
        putchar('\n');
        length = 0;
    }
    npss_close(&handle);
    return 0;
}
