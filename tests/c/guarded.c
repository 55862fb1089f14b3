/* Makes random calls of each function of capn.h, with valid and hostile inputs, and with buffers of many sizes. The
 * memory that is passed to a call lies before or after a page that can't be accessed. The input is read-only. */

/* The argument is the number of calls. Each line of standard input ends with bytes in hexadecimal. These bytes are some
 * of the inputs. The seed is fixed, so each run makes the same calls. The program prints a hash of everything that the
 * calls returned and wrote. Two builds of the library must give the same hash. */
#define TEST "guarded"
#include "wanted.h"
#include <signal.h>
#include <unistd.h>

enum { ROOM = ALL_PAGES, LONGEST = PAGE * 8, FILL = 0x5a, LINE = 1 << 20, STORED = 4096, CALLS = 15 };

static unsigned long calls, inputs;
static const char *doing = "nothing";

static void touched(int number) {
    (void)number;
    const char *parts[] = {"guarded: touched what it may not: ", doing, "\n"};
    for (int i = 0; i < 3; i++)
        if (write(1, parts[i], strlen(parts[i])) < 0) break;
    _exit(1);
}

static void need(int holds, const char *what) {
    want(what, !!holds, 1);
    if (!failed) return;
    printf("guarded: %s, call %lu, input %lu\n", doing, calls, inputs);
    exit(1);
}

static uint64_t seed = 0x9e3779b97f4a7c15;

static uint64_t draw(void) {
    seed ^= seed << 13;
    seed ^= seed >> 7;
    seed ^= seed << 17;
    return seed;
}
static uint32_t any(uint32_t below) { return (uint32_t)(draw() >> 32) % below; }

/* Returns the first or the last `size` bytes of a block of pages. The pages around the block can't be accessed. For a
 * size of 0, sometimes returns null. */
static uint8_t *part(uint8_t *start, size_t size) {
    if (!size && !any(3)) return NULL;
    return any(3) ? at_end(start, size) : start;
}

/* ---- messages */

enum { SEGMENTS = 4, CAPACITY = 80 };
static uint64_t words[SEGMENTS][CAPACITY];
static uint32_t used[SEGMENTS], segments;

static uint32_t take(uint32_t s, uint32_t count) {
    const uint32_t start = used[s];
    used[s] += count;
    return start;
}

static void slot(uint32_t s, uint32_t w, uint32_t depth);

static void slots(uint32_t s, uint32_t w, uint32_t count, uint32_t depth) {
    for (uint32_t i = 0; i < count; i++) slot(s, w + i, depth);
}

static void numbers(uint32_t s, uint32_t w, uint32_t count) {
    for (uint32_t i = 0; i < count; i++) words[s][w + i] = any(3) ? draw() >> any(64) : 0;
}

/* Writes word w of segment s. The word is null, a capability, or a pointer to a new object at the end of a segment. The
 * pointer is a near pointer, or a far pointer with a landing pad of one word or two words. */
static void slot(uint32_t s, uint32_t w, uint32_t depth) {
    const uint32_t choice = any(8), a = any(4), b = depth ? any(4) : 0, rows = any(4), width = any(8);
    if (!choice) return;
    if (choice == 1 && !any(4)) {
        words[s][w] = 3 | (uint64_t)any(9) << 32;
        return;
    }
    static const uint32_t bits[8] = {0, 1, 8, 16, 32, 64, 64, 0};
    const uint32_t list = choice > 4, count = width == 7 ? rows * (a + b) : any(12);
    const uint32_t size = !list ? a + b : width == 7 ? 1 + count : (count * bits[width] + 63) / 64;
    const uint32_t t = any(3) ? s : any(segments), u = any(segments), two = t != s && !any(3);
    if (used[t] + size + 1 > CAPACITY || used[u] + 2 > CAPACITY || (t == u && used[t] + size + 3 > CAPACITY)) return;
    const uint32_t pad = t == s ? w : two ? take(u, 2) : take(t, 1), start = take(t, size);
    const uint64_t described =
        list ? 1 | (uint64_t)width << 32 | (uint64_t)count << 35 : (uint64_t)a << 32 | (uint64_t)b << 48;
    if (two) {
        words[s][w] = 6 | (uint64_t)pad << 3 | (uint64_t)u << 32;
        words[u][pad] = 2 | (uint64_t)start << 3 | (uint64_t)t << 32;
        words[u][pad + 1] = described;
    } else {
        words[t][pad] = described | (uint64_t)((start - pad - 1) & 0x3fffffff) << 2;
        if (t != s) words[s][w] = 2 | (uint64_t)pad << 3 | (uint64_t)t << 32;
    }
    if (!list) {
        numbers(t, start, a);
        slots(t, start + a, b, depth - !!depth);
    } else if (width == 7) {
        words[t][start] = (uint64_t)rows << 2 | (uint64_t)a << 32 | (uint64_t)b << 48;
        for (uint32_t i = 0; i < rows; i++) {
            numbers(t, start + 1 + i * (a + b), a);
            slots(t, start + 1 + i * (a + b) + a, b, depth - !!depth);
        }
    } else if (width == 6) {
        if (depth) slots(t, start, count, depth - 1);
    } else {
        numbers(t, start, size);
    }
}

static void put(uint8_t *out, uint64_t number, uint32_t bytes) {
    for (uint32_t i = 0; i < bytes; i++) out[i] = (uint8_t)(number >> 8 * i);
}

/* Writes a message, with or without a segment table. */
static size_t message(uint8_t *out, int bare) {
    segments = bare ? 1 : 1 + any(SEGMENTS);
    memset(words, 0, sizeof words);
    memset(used, 0, sizeof used);
    take(0, 1);
    while (!words[0][0]) slot(0, 0, 1 + any(5));
    size_t size = bare ? 0 : 8 * (segments / 2 + 1);
    if (!bare) {
        memset(out, 0, size);
        put(out, segments - 1, 4);
        for (uint32_t s = 0; s < segments; s++) put(out + 4 + 4 * s, used[s], 4);
    }
    for (uint32_t s = 0; s < segments; s++)
        for (uint32_t w = 0; w < used[s]; w++, size += 8) put(out + size, words[s][w], 8);
    return size;
}

/* Changes one to four bytes of an input. Sometimes cuts off the end of the input, or appends bytes. */
static size_t change(uint8_t *bytes, size_t size) {
    const uint8_t special[6] = {0, 1, 2, 7, 0x80, 0xff};
    for (uint32_t times = 1 + any(4); times && size; times--) {
        uint8_t *byte = bytes + any((uint32_t)size);
        *byte = any(2) ? special[any(6)] : (uint8_t)(*byte ^ 1u << any(8));
    }
    if (!any(4) && size) return any((uint32_t)size);
    for (uint32_t more = any(4) ? 0 : 1 + any(16); more && size < LONGEST; more--) bytes[size++] = (uint8_t)any(256);
    return size;
}

static uint8_t *stored[STORED];
static size_t stored_size[STORED], stored_count;

static void store(char *line) {
    char *digits = strrchr(line, ' ');
    const size_t size = digits ? strcspn(++digits, "\n") / 2 : 0;
    if (!digits || !size || size > LONGEST / 2 || stored_count == STORED) return;
    uint8_t *bytes = stored[stored_count] = malloc(size);
    if (!bytes) exit(2);
    for (size_t i = 0; i < size; i++) {
        unsigned byte = 0;
        sscanf(digits + 2 * i, "%2x", &byte);
        bytes[i] = (uint8_t)byte;
    }
    stored_size[stored_count++] = size;
}

/* ---- calls */

static uint8_t *of_input, *of_limits, *of_out, *of_report, *of_other;

/* These variables have the memory for the output of the current call, and a hash. The hash is FNV-1a over everything
 * that all calls returned and wrote. */
static struct { const uint8_t *bytes; size_t size; } written[4];
static uint32_t written_count;
static uint64_t sum = 0xcbf29ce484222325;

static void add(const uint8_t *bytes, size_t size) {
    for (size_t i = 0; i < size; i++) sum = (sum ^ bytes[i]) * 0x100000001b3;
}

static void add_answer(capn_status answered) {
    uint8_t bytes[4];
    put(bytes, answered, 4);
    add(bytes, 4);
    for (uint32_t i = 0; i < written_count; i++) add(written[i].bytes, written[i].size);
}

/* Takes a piece of memory for the output of a call, and fills it with a pattern. After the call, the bytes that the
 * call didn't write must still have the pattern. */
static uint8_t *filled(uint8_t *start, size_t size) {
    uint8_t *out = part(start, size);
    if (size) memset(out, FILL, size);
    written[written_count].bytes = out;
    written[written_count++].size = size;
    return out;
}

static void kept(const uint8_t *out, size_t from, size_t size) {
    for (size_t i = from; i < size; i++) need(out[i] == FILL, "the rest of the buffer is as it was");
}

/* Chooses limits for a call: the default limits, low limits, or random numbers. */
static void choose(capn_limits *l) {
    *l = usual;
    const uint32_t choice = any(8);
    if (choice < 2) l->budget = any(200);
    if (choice == 2) l->message_words = 1 + any(200);
    if (choice == 3) l->depth = 1 + any(6);
    if (choice == 4) l->depth = 1 + any(256);
    if (choice & 1) l->tariff = any(2);
    if (choice == 6) {
        uint32_t *const all = (uint32_t *)l; /* each limit is a number of 32 bits */
        all[any(sizeof *l / sizeof *all)] = any(2) ? (uint32_t)draw() : any(4);
    }
}

/* Chooses the size of a buffer in bytes. The size is 0, small, close to the size `enough`, or large. */
static size_t room_for(size_t enough) {
    switch (any(6)) {
    case 0: return 0;
    case 1: return any(40);
    case 2: return enough;
    case 3: return enough ? enough - 1 : 1;
    case 4: return any((uint32_t)enough + 2);
    default: return enough + any(64);
    }
}

/* The status of the current call. */
static capn_status status;

/* Makes one call on the input. Returns the buffer size that the call reports as enough. */
static size_t call(uint32_t which, const uint8_t *bytes, size_t size, size_t enough) {
    written_count = 0;
    capn_report *r = (capn_report *)filled(of_report, sizeof *r);
    capn_limits *limits = (capn_limits *)part(of_limits, sizeof *limits);
    choose(limits);
    const uint32_t form = any(20) ? any(3) : any(2) ? 3 : (uint32_t)draw();
    size_t room = room_for(enough);
    if (room > ROOM) room = ROOM;
    uint8_t *out;
    calls++;
    switch (which) {
    case 0:
        doing = "capn_canonical";
        out = filled(of_out, room);
        status = capn_canonical(form, bytes, size, limits, out, room, r);
        kept(out, status ? 0 : r->length, room);
        break;
    case 1:
        doing = "capn_is_canonical";
        status = capn_is_canonical(bytes, size, limits, r);
        return 0;
    case 2:
        doing = "capn_hash";
        out = filled(of_out, 32);
        status = capn_hash(form, bytes, size, limits, out, r);
        kept(out, status ? 0 : 32, 32);
        return 0;
    case 3:
        doing = "capn_check";
        status = capn_check(form, bytes, size, limits, r);
        return 0;
    case 4:
        doing = "capn_pack";
        out = filled(of_out, room);
        status = capn_pack(bytes, size, out, room, r);
        kept(out, status ? 0 : r->length, room);
        break;
    case 5:
        doing = "capn_unpack";
        out = filled(of_out, room);
        status = capn_unpack(bytes, size, any(4) ? 8192 : any(3) ? any(200) : (uint32_t)draw() >> 8, out, room, r);
        kept(out, status ? 0 : r->length, room);
        break;
    case 6:
        doing = "capn_first";
        status = capn_first(bytes, size, limits, r);
        need(status ? status < CAPN_FRAME_EMPTY || status == CAPN_TOO_MANY_SEGMENTS || status == CAPN_TOO_MANY_WORDS
                          || r->length > size
                    : r->length <= size, "the length of a frame");
        return 0;
    case 7:
        doing = "capn_unpack_some";
        out = filled(of_out, room);
        status = capn_unpack_some(bytes, size, out, room, r);
        need(status == CAPN_MEMORY || (r->length <= room && r->at <= size), "what was taken and written");
        kept(out, status == CAPN_MEMORY ? 0 : r->length, room);
        return r->length + 8;
    case 8: {
        doing = "capn_survey";
        out = filled(of_other, sizeof(capn_figures));
        status = capn_survey(form, bytes, size, limits, (capn_figures *)out, r);
        kept(out, status ? 0 : sizeof(capn_figures), sizeof(capn_figures));
        return 0;
    }
    case 9: {
        doing = "capn_refusal_way";
        const size_t most = room / 4;
        out = filled(of_out, 4 * most);
        status = capn_refusal_way(form, bytes, size, limits, (uint32_t *)(void *)out, most, r);
        need(status < CAPN_NO_ROOT ? !r->length : r->length <= 8 * (uint64_t)limits->depth, "the length of a way");
        kept(out, r->length <= 4 * most ? r->length : 0, 4 * most);
        return r->length;
    }
    case 10: {
        doing = "capn_departure";
        const size_t most = room / 4;
        capn_departed *told = (capn_departed *)(void *)filled(of_other, sizeof *told);
        out = filled(of_out, 4 * most);
        status = capn_departure(form, bytes, size, limits, told, (uint32_t *)(void *)out, most, r);
        need(!r->length || !status, "the length of a way");
        kept((uint8_t *)told, status ? 0 : sizeof *told, sizeof *told);
        kept(out, r->length <= 4 * most ? r->length : 0, 4 * most);
        return r->length;
    }
    case 11: {
        doing = "capn_same";
        uint32_t *told = any(4) ? (uint32_t *)(void *)filled(of_other, sizeof *told) : NULL;
        /* The second message is the whole first message, a prefix of it, or a suffix of it. */
        const uint32_t of = size ? any(3) : 0, at = of ? any((uint32_t)size + 1) : 0;
        const uint8_t *second = of == 1 ? bytes + at : bytes;
        const size_t most = of == 1 ? size - at : of ? at : size;
        status = capn_same(form, bytes, size, second, most, limits, told, r);
        need(!told || *told < 2, "which of two");
        need(!told || !*told || status >= CAPN_MEMORY, "which is refused");
        return 0;
    }
    case 12: {
        doing = "capn_canonical_with_scratch";
        const size_t lent = any(3) ? any(ROOM / 8) : any(3);
        uint8_t *scratch = part(of_other, 8 * lent); /* the call may leave any bytes in its scratch memory */
        out = filled(of_out, room);
        status = capn_canonical_with_scratch(form, bytes, size, limits, scratch, lent, out, room, r);
        need(status != CAPN_MEMORY, "no memory is asked for");
        need(status != CAPN_NO_SCRATCH || r->at > lent, "the words that are needed");
        need(status != CAPN_NO_ROOM || r->length > room, "no room");
        kept(out, status ? 0 : r->length, room);
        return status == CAPN_OK || status == CAPN_NO_ROOM ? r->length : 0;
    }
    case 13: {
        doing = "capn_annotate";
        const size_t most = room / 48;
        out = filled(of_out, 48 * most);
        status = capn_annotate(form, bytes, size, limits, (capn_line *)(void *)out, most, r);
        need(status != CAPN_OK || (r->length % 48 == 0 && r->length <= 48 * most), "the number of lines");
        need(status != CAPN_NO_ROOM || r->length > 48 * most, "there is no room for the lines");
        kept(out, status ? 0 : r->length, 48 * most);
        return status == CAPN_OK || status == CAPN_NO_ROOM ? r->length : 0;
    }
    default: {
        doing = "capn_index";
        const size_t entries = room / 24;
        out = filled(of_out, 24 * entries);
        status = capn_index(form, bytes, size, limits, (capn_entry *)out, entries, r);
        if (!status) need(r->length == 24 * (uint64_t)r->visits && r->visits <= entries, "the number of entries");
        if (status == CAPN_NO_ROOM) need(r->visits > entries, "there is no room for the entries");
        kept(out, status ? 0 : r->length, 24 * entries);
    }
    }
    need(status != CAPN_NO_ROOM || r->length > room || !room || which > 8, "no room");
    return status == CAPN_OK || status == CAPN_NO_ROOM ? r->length : 0;
}

/* Makes the next input: a message, a packed message, bytes from standard input, a changed copy of one of these, or
 * random bytes. */
static size_t next(uint8_t *bytes) {
    static uint8_t text[LONGEST];
    const uint32_t choice = any(8);
    size_t size;
    if (!choice) {
        size = any(4) ? any(64) : any(3000);
        for (size_t i = 0; i < size; i++) bytes[i] = (uint8_t)(any(2) ? any(256) : any(3));
        return size;
    }
    if (choice == 1 && stored_count) {
        const size_t i = any((uint32_t)stored_count);
        memcpy(bytes, stored[i], size = stored_size[i]);
    } else {
        size = message(bytes, choice == 2);
    }
    if (choice > 5) {
        capn_report r;
        size -= size % 8;
        need(capn_pack(bytes, size, text, sizeof text, &r) == CAPN_OK, "packed");
        memcpy(bytes, text, size = r.length);
        calls++;
    }
    return any(2) ? size : change(bytes, size);
}

int main(int count, char **arguments) {
    static char line[LINE];
    static uint8_t bytes[LONGEST + 64];
    const unsigned long wanted = count > 1 ? strtoul(arguments[1], NULL, 10) : 10000;
    signal(SIGSEGV, touched);
    signal(SIGBUS, touched);
    while (fgets(line, LINE, stdin)) store(line);
    of_input = between_pages();
    of_limits = between_pages();
    of_out = between_pages();
    of_report = between_pages();
    of_other = between_pages();
    while (calls < wanted) {
        const size_t size = next(bytes);
        size_t enough[CALLS];
        need(!mprotect(of_input, ROOM, PROT_READ | PROT_WRITE), "pages");
        uint8_t *in = part(of_input, size);
        if (size) memcpy(in, bytes, size);
        need(!mprotect(of_input, ROOM, PROT_READ), "pages");
        for (int i = 0; i < CALLS; i++) enough[i] = size;
        for (uint32_t i = 0; i < 4 * CALLS; i++) {
            enough[i % CALLS] = call(i % CALLS, in, size, enough[i % CALLS]);
            add_answer(status);
        }
        doing = "capn_status_text";
        need(strlen(capn_status_text((uint32_t)draw() >> any(32))) && strlen(capn_version()), "a text");
        need(!size || !memcmp(in, bytes, size), "the input is as it was");
        calls += 2;
        inputs++;
    }
    printf("guarded: %lu calls on %lu inputs touch no page beside what they were given, sum %016llx\n", calls, inputs,
           (unsigned long long)sum);
    return 0;
}
