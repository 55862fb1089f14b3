/* Tests the text of an error with each size of buffer, and the name of each status. Each line of standard input has the
 * number and the name of a status. `vectors.c` prints the texts of all errors in the test vectors. */
#include "capn.h"
#include <stdio.h>
#include <stdlib.h>
#include <string.h>

static int failed;

static void broken(const char *what, const char *text) {
    failed++;
    fprintf(stderr, "texts: %s: %s\n", what, text);
}

/* Tests the text of an error in buffers of each size. The text is cut if the buffer is too small, but always ends with
 * a zero byte. No byte after the buffer is written. The returned length is always the length of the whole text. */
static void is(capn_status status, const capn_report *report, const char *wanted) {
    const size_t length = strlen(wanted);
    if (capn_refusal_text(status, report, NULL, 0) != length) broken("another length without room", wanted);
    for (size_t room = 1; room <= length + 2; room++) {
        char *out = malloc(room); /* exactly `room` bytes, so that a sanitizer detects a write past the end */
        memset(out, 'x', room);
        if (capn_refusal_text(status, report, out, room) != length) broken("another length", wanted);
        const size_t written = length < room ? length : room - 1;
        if (strlen(out) != written || memcmp(out, wanted, written)) broken("another text", out);
        for (size_t i = written + 1; i < room; i++)
            if (out[i] != 'x') broken("written past the zero", out);
        free(out);
    }
}

int main(void) {
    const capn_report none = {0, 0, 0, 0, 0, 0};
    const capn_report walk = {0, 0, 0, 1, 3, 623915};
    const capn_report most = {0, UINT64_MAX, UINT32_MAX, UINT32_MAX, UINT32_MAX, UINT32_MAX};
    is(CAPN_RANGE, &walk, "Range at 3:623915, paid 0, visits 1");
    is(CAPN_TAG_OVERRUN, &most, "TagOverrun at 4294967295:4294967295, paid 4294967295, visits 4294967295");
    is(CAPN_TOO_MANY_SEGMENTS, &most, "frame: TooManySegments(18446744073709551615)");
    is(CAPN_NOT_WHOLE, &none, "bare: NotWhole(0)");
    is(CAPN_TRAILING, &none, "trailing bytes at 0");
    is(CAPN_FRAME_EMPTY, &none, "frame: Empty");
    is(CAPN_MEMORY, &none, "out of memory");
    is(CAPN_MEMORY, NULL, "out of memory");
    is(CAPN_BAD_PAD, NULL, "a landing pad is not valid");
    int number, names = 0;
    char name[64];
    for (; scanf("%d %63s", &number, name) == 2; names++) {
        if (strcmp(capn_status_name((capn_status)number), name)) broken("another name", name);
        if (number < 8) is((capn_status)number, &none, capn_status_text((capn_status)number));
    }
    for (capn_status other = 6; other < 300; other++)
        if (!strcmp(capn_status_text(other), "unknown status")) {
            if (strcmp(capn_status_name(other), "Unknown")) broken("a name of no status", capn_status_name(other));
            is(other, &none, "unknown status");
        }
    printf("c: the texts of refusals in each room, and %d names\n", names);
    return failed != 0;
}
