/* Measures the stack that each call needs. The program fills the stack of a thread with a pattern, makes a call, and
 * measures how much of the pattern is left. It fails if a call needs more stack than its bound. The messages are chains
 * of objects as deep as the limit allows. They have one segment, two segments, or more segments than a call reads
 * without an allocation. */

/* The arguments are bounds in bytes: stack BASE OTHERS SHOW INDEX SAME ANNOTATE. Each call may use BASE bytes of stack,
 * and more for each level of depth: SHOW bytes for capn_show, INDEX for capn_index, SAME for capn_same, ANNOTATE for
 * capn_annotate, and OTHERS for every other call. */
#include "usual.h"
#include <pthread.h>
#include <stdio.h>
#include <stdlib.h>
#include <string.h>

enum { ROOM = 1 << 20 };
enum { MOST_SEGMENTS = 66, CALLS = 32, KINDS = 5 };
/* A call may use `base` bytes of stack, and `levels` bytes more for each level of depth. capn_show, capn_index,
 * capn_same and capn_annotate have their own numbers in `levels`. The first number is for all other calls. */
static const char *const names[KINDS] = {"", "capn_show ", "capn_index ", "capn_same ", "capn_annotate "};
static size_t base, levels[KINDS];
static uint8_t in[8 * 4096], framed[8 * 4096 + 1024], text[ROOM], scratch[ROOM];
static _Alignas(8) uint8_t out[ROOM];
static capn_segment all[MOST_SEGMENTS];
static size_t size, framed_size, packed_size;
static uint32_t depth, segments;
static int call;

static void put(size_t at, uint32_t low, uint32_t high) {
    for (int i = 0; i < 4; i++) {
        in[8 * at + i] = (uint8_t)(low >> 8 * i);
        in[8 * at + 4 + i] = (uint8_t)(high >> 8 * i);
    }
}

/* Finds the path to an error. The error is at an object that is one level too deep, or that exceeds the traversal
 * limit. */
static capn_status led(uint32_t form, const uint8_t *bytes, size_t count) {
    const uint32_t most = depth > 1 ? depth - 1 : 1;
    const capn_limits limits = limits_of(1u << 28, depth > 1 ? 1u << 28 : 0, most, CAPN_PLAIN);
    capn_report report;
    uint32_t *way = (uint32_t *)(void *)out;
    const capn_status status = capn_refusal_way(form, bytes, count, &limits, way, ROOM / 4, &report);
    return status == CAPN_TOO_DEEP || status == CAPN_OVER_BUDGET ? CAPN_OK : status;
}

/* Compares a message with itself. */
static capn_status same(uint32_t form, const uint8_t *bytes, size_t count) {
    const capn_limits limits = limits_of(1u << 28, 1u << 28, depth, CAPN_STRICT);
    capn_report report;
    uint32_t which;
    return capn_same(form, bytes, count, bytes, count, &limits, &which, &report);
}

static void *run(void *status) {
    const capn_limits limits = limits_of(1u << 28, 1u << 28, depth, CAPN_STRICT);
    capn_figures figures;
    capn_departed departed;
    capn_report report;
    uint8_t digest[32];
    uint32_t *told = status;
    switch (call) {
    case 0: *told = capn_canonical(CAPN_BARE, in, size, &limits, out, ROOM, &report); break;
    case 1: *told = capn_canonical(CAPN_PACKED, text, packed_size, &limits, out, ROOM, &report); break;
    case 2: *told = capn_hash(CAPN_PACKED, text, packed_size, &limits, digest, &report); break;
    case 3: *told = capn_check(CAPN_PACKED, text, packed_size, &limits, &report); break;
    case 4: *told = capn_is_canonical(in, size, &limits, &report); break;
    case 5: *told = capn_pack(in, size, out, ROOM, &report); break;
    case 6: *told = capn_first(framed, framed_size, &limits, &report); break;
    case 7: *told = capn_unpack_some(text, packed_size, out, ROOM, &report); break;
    case 8: *told = capn_survey(CAPN_STREAM, framed, framed_size, &limits, &figures, &report); break;
    case 9: *told = capn_index(CAPN_STREAM, framed, framed_size, &limits, (capn_entry *)out, ROOM / 24, &report); break;
    case 10: *told = capn_canonical_segments(all, segments, &limits, out, ROOM, &report); break;
    case 11: *told = capn_hash_segments(all, segments, &limits, digest, &report); break;
    case 12: *told = capn_survey_segments(all, segments, &limits, &figures, &report); break;
    case 13: *told = capn_check_segments(all, segments, &limits, &report); break;
    case 14: *told = capn_show(CAPN_PACKED, text, packed_size, &limits, 0, (char *)out, ROOM, &report); break;
    case 15: *told = capn_show(CAPN_BARE, in, size, &limits, 1, (char *)out, ROOM, &report); break;
    case 16: *told = capn_show(CAPN_BARE, in, size, &limits, 2, (char *)out, ROOM, &report); break;
    case 17: *told = capn_show(CAPN_BARE, in, size, &limits, 3, (char *)out, ROOM, &report); break;
    case 18: *told = capn_canonical(CAPN_STREAM, framed, framed_size, &limits, out, ROOM, &report); break;
    case 19: *told = capn_hash(CAPN_STREAM, framed, framed_size, &limits, digest, &report); break;
    case 20: *told = capn_check(CAPN_STREAM, framed, framed_size, &limits, &report); break;
    case 21: *told = led(CAPN_STREAM, framed, framed_size); break;
    case 22: *told = led(CAPN_PACKED, text, packed_size); break;
    case 23: *told = capn_departure(CAPN_BARE, in, size, &limits, &departed, (uint32_t *)out, ROOM / 4, &report); break;
    case 24: *told = capn_departure(CAPN_PACKED, text, packed_size, &limits, &departed, NULL, 0, &report); break;
    case 25: *told = same(CAPN_BARE, in, size); break;
    case 26: *told = same(CAPN_STREAM, framed, framed_size); break;
    case 27: *told = same(CAPN_PACKED, text, packed_size); break;
    case 28:
        *told = capn_canonical_with_scratch(CAPN_PACKED, text, packed_size, &limits, scratch, ROOM / 8, out, ROOM,
                                            &report);
        break;
    case 29:
        *told = capn_annotate(CAPN_STREAM, framed, framed_size, &limits, (capn_line *)out, ROOM / 48, &report);
        break;
    case 30:
        *told = capn_annotate(CAPN_PACKED, text, packed_size, &limits, (capn_line *)out, ROOM / 48, &report);
        break;
    default: *told = capn_unpack(text, packed_size, 1u << 20, out, ROOM, &report); break;
    }
    return NULL;
}

/* Writes a number of 4 bytes into the segment table of the message. */
static void put_entry(size_t at, uint32_t number) {
    for (int i = 0; i < 4; i++) framed[4 * at + i] = (uint8_t)(number >> 8 * i);
}

/* Splits the message into segments, and writes the segments with a segment table. Each segment after the first has one
 * word. */
static void cut(void) {
    const size_t table = 8 * (segments / 2 + 1);
    memset(framed, 0, sizeof framed);
    put_entry(0, segments - 1);
    for (uint32_t i = 0; i < segments; i++) {
        all[i] = (capn_segment){in, i == 0 ? size / 8 : 1};
        put_entry(i + 1, i == 0 ? (uint32_t)(size / 8) : 1);
    }
    memcpy(framed + table, in, size);
    framed_size = table + size + 8 * (segments - 1);
}

int main(int count, char **words) {
    if (count != 2 + KINDS) return 5;
    base = strtoul(words[1], NULL, 10);
    for (int of = 0; of < KINDS; of++) levels[of] = strtoul(words[2 + of], NULL, 10);
    static const uint32_t depths[] = {1, 64, 65, 256};
    size_t most[KINDS][4] = {{0}};
    for (int d = 0; d < 4; d++)
        for (int kind = 0; kind < 24; kind++) {
            static const uint32_t counts[] = {1, 2, MOST_SEGMENTS};
            depth = depths[d];
            segments = counts[kind / 8];
            /* Each message is a chain of objects with one or two pointers. There are four shapes of objects: a struct,
             * a list of pointers, a list of structs with one pointer each, and a struct behind a far pointer. The first
             * pointer of an object refers to the next object. The second pointer refers to an empty struct. */
            int is_wide = kind % 8 > 3, shape = kind % 4;
            uint32_t many = is_wide ? 2 : 1, down = 0;
            size_t at = 0;
            put(at++, 0, shape == 0 || shape == 3 ? many << 16 : 0x10000);
            for (uint32_t i = 1; i < depth; i++) {
                if (shape == 0) put(at++, is_wide ? 4 : 0, many << 16);
                else if (shape == 3) { put(at, (uint32_t)(at + many) << 3 | 2, 0); at++; }
                else put(at++, down + 1, many << 3 | (shape == 1 ? 6 : 7));
                if (is_wide && (shape == 0 || shape == 3 || i > 1)) put(at++, 0xfffffffc, 0);
                if (shape == 2) put(at++, many << 2, 0x10000);
                if (shape == 3) put(at++, 0, many << 16);
                if (is_wide) down = 4;
            }
            for (uint32_t i = 0; i < many; i++) put(at++, 0, 0);
            size = 8 * at;
            cut();
            capn_report report;
            if (capn_pack(framed, framed_size, text, ROOM, &report) != CAPN_OK) return 1;
            packed_size = report.length;
            for (call = 0; call < CALLS; call++) {
                char *stack = aligned_alloc(4096, ROOM);
                if (!stack) return 2;
                memset(stack, 0x5a, ROOM);
                pthread_attr_t attributes;
                pthread_attr_init(&attributes);
                pthread_attr_setstack(&attributes, stack, ROOM);
                pthread_t thread;
                uint32_t status = 99;
                if (pthread_create(&thread, &attributes, run, &status)) return 3;
                pthread_join(thread, NULL);
                size_t used = ROOM;
                for (size_t i = 0; i < ROOM && stack[i] == 0x5a; i++) used--;
                if (status != CAPN_OK && status != CAPN_NOT_CANONICAL) {
                    printf("stack: call %d at depth %u, kind %d: status %u\n", call, depth, kind, status);
                    return 4;
                }
                const int of = call >= 14 && call <= 17 ? 1 : call == 9 ? 2 : call >= 25 && call <= 27 ? 3
                    : call == 29 || call == 30 ? 4 : 0;
                if (used > most[of][d]) most[of][d] = used;
                free(stack);
            }
        }
    int failed = 0;
    for (int of = 0; of < KINDS; of++)
        for (int d = 0; d < 4; d++) {
            const size_t stated = base + levels[of] * depths[d];
            printf("stack: %sat most %zu bytes at depth %u, of %zu that are stated\n", names[of], most[of][d],
                   depths[d], stated);
            failed |= most[of][d] > stated;
        }
    return failed;
}
