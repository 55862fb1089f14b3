/* Tests simultaneous calls. Several threads start together. Each thread makes every call of capn.h on the same input,
 * with its own buffers. The results of each thread must be the same as if it ran alone. */
#include "usual.h"
#include <pthread.h>
#include <stdio.h>
#include <string.h>

#ifndef THREADS
#define THREADS 4
#define ROUNDS 100
#endif
enum { DEPTH = 200, WORDS = 2 * DEPTH, ROOM = 16 * WORDS, CALLS = 19 };
static capn_limits limits;
/* The message is a chain of structs in two segments. Each struct has two pointers, and its first pointer refers to the
 * next struct. `packed` is the same message, packed. */
static uint8_t stream[16 + 8 * WORDS], packed[10 * (WORDS + 2)];
static size_t packed_size;

/* What the calls of one thread returned and wrote: the statuses, the reports and the output bytes. */
typedef struct answers {
    capn_status status[CALLS];
    capn_report report[CALLS];
    uint8_t canonical[ROOM], digest[2][32], text[sizeof packed], words[sizeof stream], some[ROOM];
    uint8_t lent[ROOM], scratch[sizeof stream];
    capn_figures figures;
    capn_entry entries[WORDS + 1];
    capn_line lines[WORDS];
    capn_departed departed;
    uint32_t way[2][WORDS], which[2];
} answers;
static answers alone, each[THREADS];
static pthread_barrier_t start;
static int differ[THREADS];

static void make(answers *a) {
    const uint8_t *bare = stream + 16;
    capn_report *r = a->report;
    memset(a, 0, sizeof *a);
    a->status[0] = capn_canonical(CAPN_STREAM, stream, sizeof stream, &limits, a->canonical, ROOM, &r[0]);
    a->status[1] = capn_canonical(CAPN_PACKED, packed, packed_size, &limits, NULL, 0, &r[1]);
    a->status[2] = capn_is_canonical(a->canonical, r[0].length, &limits, &r[2]);
    a->status[3] = capn_hash(CAPN_BARE, bare, sizeof stream - 16, &limits, a->digest[0], &r[3]);
    a->status[4] = capn_hash(CAPN_PACKED, packed, packed_size, &limits, a->digest[1], &r[4]);
    a->status[5] = capn_check(CAPN_STREAM, stream, sizeof stream, &limits, &r[5]);
    a->status[6] = capn_check(CAPN_STREAM, stream, sizeof stream - 8, &limits, &r[6]);
    a->status[7] = capn_pack(stream, sizeof stream, a->text, sizeof a->text, &r[7]);
    a->status[8] = capn_unpack(packed, packed_size, WORDS + 2, a->words, sizeof a->words, &r[8]);
    a->status[9] = capn_first(stream, sizeof stream, &limits, &r[9]);
    a->status[10] = capn_unpack_some(packed, packed_size - 1, a->some, sizeof a->some, &r[10]);
    a->status[11] = capn_survey(CAPN_STREAM, stream, sizeof stream, &limits, &a->figures, &r[11]);
    a->status[12] = capn_index(CAPN_STREAM, stream, sizeof stream, &limits, a->entries, WORDS + 1, &r[12]);
    a->status[13] = capn_refusal_way(CAPN_BARE, bare, sizeof stream - 24, &limits, a->way[0], WORDS, &r[13]);
    uint32_t *way = a->way[1];
    a->status[14] = capn_departure(CAPN_BARE, bare, sizeof stream - 16, &limits, &a->departed, way, WORDS, &r[14]);
    a->status[15] = capn_same(CAPN_PACKED, packed, packed_size, packed, packed_size, &limits, &a->which[0], &r[15]);
    a->status[16] = capn_same(CAPN_BARE, bare, sizeof stream - 16, bare, 8, &limits, &a->which[1], &r[16]);
    a->status[17] = capn_canonical_with_scratch(CAPN_PACKED, packed, packed_size, &limits, a->scratch, WORDS + 2,
                                                a->lent, ROOM, &r[17]);
    a->status[18] = capn_annotate(CAPN_PACKED, packed, packed_size, &limits, a->lines, WORDS, &r[18]);
}

static void *run(void *number) {
    int own = *(int *)number;
    pthread_barrier_wait(&start);
    for (int i = 0; i < ROUNDS; i++) {
        make(&each[own]);
        if (memcmp(&each[own], &alone, sizeof alone)) differ[own]++;
    }
    return NULL;
}

int main(void) {
    pthread_t threads[THREADS];
    int numbers[THREADS], failed = 0;
    limits = limits_of(1u << 20, 1u << 20, 256, CAPN_STRICT);
    stream[0] = 1;
    stream[4] = WORDS & 255;
    stream[5] = WORDS >> 8;
    for (size_t i = 0; i < DEPTH; i++) {
        uint8_t *slot = stream + 16 + (i ? 8 * (2 * i - 1) : 0);
        /* The first pointer of a struct has the offset 1, because the second pointer lies between the first pointer and
         * the next struct. */
        slot[0] = i ? 4 : 0;
        slot[i + 1 < DEPTH ? 6 : 4] = i + 1 < DEPTH ? 2 : 1;
    }
    stream[sizeof stream - 8] = 7;
    capn_report report;
    if (capn_pack(stream, sizeof stream, packed, sizeof packed, &report) != CAPN_OK) return 1;
    packed_size = report.length;
    make(&alone);
    const capn_status wanted[CALLS] = {[1] = CAPN_NO_ROOM, [6] = CAPN_FRAME_CUT, [10] = CAPN_PACKED_CUT,
                                        [13] = CAPN_RANGE, [16] = CAPN_RANGE};
    if (memcmp(alone.status, wanted, sizeof wanted) || alone.report[5].visits <= DEPTH) {
        printf("threads: another answer\n");
        return 1;
    }
    if (pthread_barrier_init(&start, NULL, THREADS)) return 2;
    for (int i = 0; i < THREADS; i++) {
        numbers[i] = i;
        if (pthread_create(&threads[i], NULL, run, &numbers[i])) return 2;
    }
    for (int i = 0; i < THREADS; i++) {
        pthread_join(threads[i], NULL);
        failed += differ[i];
    }
    printf("threads: %d times every call in each of %d threads, %d differ\n", ROUNDS, THREADS, failed);
    return failed != 0;
}
