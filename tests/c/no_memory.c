/* Makes the calls that need no memory, while every allocation fails. The inputs are the messages of the test vectors
 * that have no segment table, or at most 64 segments. No call may allocate. Each call has to return the same as when
 * allocations succeed. The buffer is empty, has 1 byte or 1 entry, or is large. */
#include "capn.h"
#include "refusing.h"
#include <stdio.h>
#include <string.h>

enum { LINE = 1 << 22, ROOM = 1 << 20 };
static char line[LINE];
static uint8_t bytes[LINE / 2];
static _Alignas(8) uint8_t ample[ROOM], none[ROOM];
static long made, failed;

typedef struct input {
    uint32_t form;
    size_t size;
    capn_limits limits;
} input;

typedef capn_status call(const input *in, uint8_t *out, size_t room, capn_report *report);

static capn_status canonical(const input *in, uint8_t *out, size_t room, capn_report *report) {
    return capn_canonical(in->form, bytes, in->size, &in->limits, out, room, report);
}
static capn_status checked(const input *in, uint8_t *out, size_t room, capn_report *report) {
    (void)out, (void)room;
    return capn_check(in->form, bytes, in->size, &in->limits, report);
}
static capn_status compared(const input *in, uint8_t *out, size_t room, capn_report *report) {
    (void)out, (void)room;
    return capn_same(in->form, bytes, in->size, bytes, in->size, &in->limits, NULL, report);
}
static capn_status judged(const input *in, uint8_t *out, size_t room, capn_report *report) {
    (void)out, (void)room;
    return capn_is_canonical(bytes, in->size, &in->limits, report);
}
static capn_status indexed(const input *in, uint8_t *out, size_t room, capn_report *report) {
    capn_entry *entries = (capn_entry *)(void *)out;
    return capn_index(in->form, bytes, in->size, &in->limits, entries, room / sizeof(capn_entry), report);
}
static capn_status counted(const input *in, uint8_t *out, size_t room, capn_report *report) {
    (void)out, (void)room;
    return capn_index(in->form, bytes, in->size, &in->limits, NULL, 0, report);
}

static capn_status surveyed(const input *in, uint8_t *out, size_t room, capn_report *report) {
    (void)room;
    return capn_survey(in->form, bytes, in->size, &in->limits, (capn_figures *)(void *)out, report);
}

/* Makes a call twice: once normally, and once while every allocation fails. Compares the two results. */
static void twice(const char *name, call *make, const input *in, size_t room) {
    capn_report with, without;
    memset(ample, 0xAA, room < 4096 ? 4096 : room);
    memset(none, 0xAA, room < 4096 ? 4096 : room);
    left = -1;
    capn_status status = make(in, room ? ample : NULL, room, &with);
    asked = 0;
    left = 0;
    capn_status again = make(in, room ? none : NULL, room, &without);
    left = -1;
    made++;
    if (asked || status != again || memcmp(&with, &without, sizeof with) || memcmp(ample, none, room)) {
        failed++;
        printf("no memory: %s: asked %ld times, status %d and %d: %.80s\n", name, asked, status, again, line);
    }
}

static void each(const input *in) {
    twice("canonical", canonical, in, ROOM);
    twice("canonical, no room", canonical, in, 0);
    twice("canonical, 1 byte", canonical, in, 1);
    twice("check", checked, in, 0);
    twice("same", compared, in, 0);
    twice("index", indexed, in, ROOM);
    twice("index, room of one entry", indexed, in, sizeof(capn_entry));
    twice("index, no room", counted, in, 0);
    twice("survey", surveyed, in, sizeof(capn_figures));
    if (in->form == CAPN_BARE) twice("is_canonical", judged, in, 0);
}

/* Returns whether a message has no segment table, or at most 64 segments. */
static int is_few(const input *in) {
    if (in->form == CAPN_BARE || in->size < 4) return 1;
    return bytes[0] < 64 && !bytes[1] && !bytes[2] && !bytes[3];
}

int main(void) {
    long cases = 0;
    while (fgets(line, LINE, stdin)) {
        char what[16], form[16];
        input in = {0, 0, CAPN_USUAL_LIMITS};
        int at = 0;
        const char *from = line;
        if (!strncmp(from, "plain ", 6)) in.limits.tariff = CAPN_PLAIN, from += 6;
        if (sscanf(from, "%15s %15s %u %u %u %n", what, form, &in.limits.message_words, &in.limits.budget,
                   &in.limits.depth, &at) < 5) continue;
        if (strcmp(what, "canonicalise") && strcmp(what, "survey")) continue;
        if (strcmp(form, "bare") && strcmp(form, "stream")) continue;
        in.form = form[0] == 'b' ? CAPN_BARE : CAPN_STREAM;
        for (const char *digit = from + at; digit[0] > ' ' && digit[0] != '-' && digit[1] > ' '; digit += 2) {
            unsigned byte;
            sscanf(digit, "%2x", &byte);
            bytes[in.size++] = (uint8_t)byte;
        }
        if (!is_few(&in)) continue;
        cases++;
        each(&in);
    }
    printf("no memory: %ld cases, %ld calls, %ld failed\n", cases, made, failed);
    return failed || cases < 100;
}
