/* names: prints the name of each number, past the last that has one, in a line behind the number. tests/library/doors.py compares
 * that with the pages. */
#include <npss.h>
#include <stdio.h>
#include <string.h>

#define COUNT(array) (sizeof(array) / sizeof *(array))

/* Whether behind the name there are NULs to the end, at least one. */
static int ends(npss_name name) {
    static const char nuls[sizeof name.text];
    const char *end = memchr(name.text, '\0', sizeof name.text);
    return end && !memcmp(end, nuls, (size_t)(name.text + sizeof name.text - end));
}

static void tell(const char *what, uint32_t number, npss_name name) {
    printf("%s %lu\t%s\n", what, (unsigned long)number, ends(name) ? name.text : "no end");
}

int main(void) {
    static const uint32_t more[] = {64, 255, 256 + NPSS_DATA, 1u << 31, UINT32_MAX};
    char what[32];
    for (uint32_t i = 0; i < 40 + COUNT(more); i++) {
        uint32_t number = i < 40 ? i : more[i - 40];
        tell("status", number, npss_status_name(number));
        tell("break", number, npss_break_name(number));
        for (uint32_t j = 0; j < 40 + COUNT(more); j++) {
            snprintf(what, sizeof what, "fault %lu", (unsigned long)(j < 40 ? j : more[j - 40]));
            tell(what, number, npss_fault_name(j < 40 ? j : more[j - 40], number));
        }
    }
    for (int i = 0; i < 256; i++) tell("form", (uint32_t)i, npss_form_name((uint8_t)i));
    return 0;
}
