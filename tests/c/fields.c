/* Tests the calls of capn_fields.h. The arguments say what the program does:
 *   - `fields` tests hand-written index entries
 *   - `fields old` and `fields new` read the messages of a stream as the older or the newer type of fields.capnp, and
 *     print them in the format of fields.c++
 *   - `fields any` reads each pointer in the messages of a stream as every kind of object, and counts how often this
 *     succeeds
 *   - `fields lines` reads the messages of generated.py as every kind of object, and prints a line for each pointer */

/* These are the lines that `fields lines` prints. For a rejected message, the line is `rejected: ` and the text of the
 * error. For an accepted message, there is a line for each pointer, in preorder. The line begins with a word for the
 * pointer's kind. The object of the pointer is then read in eleven ways: as a struct; as a text; as data; as a list of
 * elements without size; as a list of numbers of 1, 8, 16, 32 and 64 bits; as a list of pointers; and as a list of
 * structs. For each way, the line has a hash in hexadecimal, or `-` if the object can't be read in this way. */

/* `fields lines` prints a hash for each way to read an object. The hash is FNV-1a over 64-bit numbers. These are the
 * numbers:
 *   - for a struct, the numbers of a struct (see the next comment)
 *   - for a text and for data, the length and the bytes; a null pointer has the default text `none`
 *   - for a list of elements without size, the length
 *   - for a list of numbers, the length, and the first thousand numbers
 *   - for a list of pointers, the length, and a number for the kind of each of the first twenty pointers
 *   - for a list of structs, the length, and the numbers of the first twenty structs */

/* The command `fields lines` prints these numbers for a struct, in this order:
 *   - the fields of 1 bit at the bit offsets 0, 5, 10 and so on, below 256
 *   - for each width of 8, 16, 32 and 64 bits, an unsigned field at each bit offset below 256 that is a multiple of the
 *     width
 *   - for each of these widths, a signed field at each of the same offsets
 *   - the number of pointers of the struct, and a number for the kind of each of its first four pointers
 * The fields of each width are numbered from 0. The default of field number i is i + 1, or -(i + 1) for a signed field,
 * truncated to the width. */
#include "capn_fields.h"
#include <inttypes.h>
#include <stdio.h>
#include <stdlib.h>

static int failed = 0;
static const uint8_t *bytes;

static void want(const char *what, int64_t got, int64_t wanted) {
    if (got == wanted) return;
    failed++;
    printf("fields: %s: %" PRId64 ", and not %" PRId64 "\n", what, got, wanted);
}

static void show_bytes(const void *data, size_t length) {
    for (size_t i = 0; i < length; i++) printf("%02x", ((const uint8_t *)data)[i]);
    printf(";");
}
static void show_text(const capn_entry *entry, const char *fallback) {
    const char *text;
    size_t length;
    want("a text", capn_text(bytes, entry, &text, &length), 1);
    show_bytes(text ? text : fallback, text ? length : strlen(fallback));
}
static void show_int(int64_t number) { printf("%" PRId64 ";", number); }

/* Prints the fields of a struct. Its type is Point of fields.capnp. If `more` is set, the type is Placed, which has
 * more fields. */
static void show_point(const capn_record *point, int more) {
    show_int(capn_field_int(point, 0, 32, 0));
    show_int(capn_field_int(point, 32, 32, -1));
    show_text(capn_slot(point, 0), "");
    if (!more) return;
    show_int(capn_field_int(point, 64, 32, 77));
    show_text(capn_slot(point, 1), "");
}

static void show_message(const capn_entry *entries, int is_new) {
    capn_record root, one;
    capn_items items;
    const uint8_t *data;
    size_t length;
    double ratio;
    float single;
    want("a struct", capn_struct(bytes, &entries[0], &root), 1);
    show_int((int64_t)capn_field(&root, 0, 1, 1));
    show_int(capn_field_int(&root, 8, 8, -5));
    printf("%" PRIu64 ";", capn_field(&root, 64, 64, 7));
    show_int((int64_t)capn_field(&root, 16, 16, 1));
    ratio = capn_field_double(&root, 128, 1.5);
    uint64_t whole;
    uint32_t half;
    memcpy(&whole, &ratio, sizeof whole);
    printf("%016" PRIx64 ";", whole);
    single = capn_field_float(&root, 32, -2.5f);
    memcpy(&half, &single, sizeof half);
    printf("%08" PRIx32 ";", half);
    show_text(capn_slot(&root, 0), "none");
    want("a data", capn_data(bytes, capn_slot(&root, 1), &data, &length), 1);
    show_bytes(data, length);

    printf("[");
    if (is_new) {
        want("numbers as structs", capn_list(bytes, capn_slot(&root, 2), CAPN_KIND_ROWS, &items), 1);
        while (capn_next(&items, &one)) {
            show_int((int64_t)capn_field(&one, 0, 16, 0));
            show_int((int64_t)capn_field(&one, 16, 16, 3));
            show_text(capn_slot(&one, 0), "");
        }
    } else {
        want("numbers", capn_list(bytes, capn_slot(&root, 2), CAPN_KIND_U16, &items), 1);
        for (uint32_t i = 0; i < items.count; i++) show_int((int64_t)capn_number(&items, i));
    }
    printf("][");
    want("texts", capn_list(bytes, capn_slot(&root, 3), is_new ? CAPN_KIND_ROWS : CAPN_KIND_POINTERS, &items), 1);
    while (capn_next(&items, &one)) {
        show_text(capn_slot(&one, 0), "");
        if (is_new) show_int((int64_t)capn_field(&one, 0, 32, 8));
    }
    printf("][");
    want("points", capn_list(bytes, capn_slot(&root, 4), CAPN_KIND_ROWS, &items), 1);
    while (capn_next(&items, &one)) show_point(&one, is_new);
    printf("][");
    want("bits", capn_list(bytes, capn_slot(&root, 5), CAPN_KIND_BITS, &items), 1);
    for (uint32_t i = 0; i < items.count; i++) show_int((int64_t)capn_number(&items, i));
    printf("][");
    want("large", capn_list(bytes, capn_slot(&root, 6), is_new ? CAPN_KIND_ROWS : CAPN_KIND_U64, &items), 1);
    for (uint32_t i = 0; !is_new && i < items.count; i++) show_int((int64_t)capn_number(&items, i));
    while (is_new && capn_next(&items, &one)) {
        show_int(capn_field_int(&one, 0, 64, 0));
        single = capn_field_float(&one, 64, 0.5f);
        memcpy(&half, &single, sizeof half);
        printf("%08" PRIx32 ";", half);
    }
    printf("]");
    want("voids", capn_list(bytes, capn_slot(&root, 7), CAPN_KIND_VOID, &items), 1);
    show_int(items.count);
    want("inner", capn_struct(bytes, capn_slot(&root, 8), &one), 1);
    show_point(&one, is_new);
    show_int((int64_t)capn_field(&root, 1, 1, 0));

    const uint32_t which = (uint32_t)capn_field(&root, 224, 16, 0);
    printf("%" PRIu32 ":", which);
    if (which == 0) show_int((int64_t)capn_field(&root, 192, 32, 100));
    else if (which == 1) show_text(capn_slot(&root, 9), "");
    else if (which == 3 && is_new) {
        ratio = capn_field_double(&root, 320, 0.25);
        memcpy(&whole, &ratio, sizeof whole);
        printf("%016" PRIx64 ";", whole);
    } else printf(";");
    if (is_new) {
        show_int((int64_t)capn_field(&root, 240, 16, 12345));
        show_int((int64_t)capn_field(&root, 2, 1, 1));
        show_text(capn_slot(&root, 10), "no note");
        show_int(capn_field_int(&root, 256, 64, -9));
    }
    printf("\n");
}

/* Reads fields and pointers of a struct. Some of them lie inside the struct, and some lie beyond its end. */
static uint64_t read_record(const capn_record *record) {
    static const uint32_t widths[] = {1, 8, 16, 32, 64};
    uint64_t sum = 0;
    for (uint32_t at = 0; at < record->bits + 130; at++)
        for (int i = 0; i < 5; i++) sum += capn_field(record, at, widths[i], at);
    for (uint32_t k = 0; k < record->slots + 2; k++) {
        const capn_entry *slot = capn_slot(record, k);
        want("a slot", slot != NULL, k < record->slots);
        sum += slot ? slot->span : 0;
    }
    return sum;
}

/* The results are stored here, so that the compiler can't leave out the code that reads. */
static volatile uint64_t kept;

/* Reads the object of an index entry as a struct, as a text, as data, and as each kind of list. Returns how many of
 * these ways succeed. */
static int read_any(const capn_entry *entry) {
    capn_record record;
    capn_items items;
    const char *text;
    const uint8_t *data;
    size_t length;
    uint64_t total = 0;
    int read = capn_struct(bytes, entry, &record);
    total += read_record(&record);
    if (capn_text(bytes, entry, &text, &length) && ++read && text) total += strlen(text) + (uint64_t)text[length];
    if (capn_data(bytes, entry, &data, &length) && ++read)
        for (size_t i = 0; i < length; i++) total += data[i];
    for (uint32_t kind = CAPN_KIND_VOID; kind <= CAPN_KIND_ROWS; kind++) {
        if (!capn_list(bytes, entry, kind, &items)) continue;
        read++;
        for (uint32_t i = 0; i < items.count && i < 1000; i++)
            if (kind < CAPN_KIND_POINTERS) total += capn_number(&items, i);
        for (int i = 0; i < 1000 && capn_next(&items, &record); i++) total += read_record(&record);
    }
    kept = total;
    return read;
}

/* ---- lines */

static uint64_t sum;
static void begin(void) { sum = UINT64_C(0xcbf29ce484222325); }
static void add(uint64_t number) { sum = (sum ^ number) * UINT64_C(0x100000001b3); }
static void end(int is_read) {
    if (is_read) printf(" %016" PRIx64, sum);
    else printf(" -");
}

static void add_kind(const capn_entry *entry) { add(entry ? entry->kind : CAPN_KIND_NULL); }

static void add_record(const capn_record *record) {
    static const uint32_t widths[] = {8, 16, 32, 64};
    for (uint32_t i = 0; i < 256; i += 5) add(capn_field(record, i, 1, i + 1));
    for (int w = 0; w < 4; w++)
        for (uint32_t i = 0; i < 256 / widths[w]; i++)
            add(capn_field(record, i * widths[w], widths[w], i + 1));
    for (int w = 0; w < 4; w++)
        for (uint32_t i = 0; i < 256 / widths[w]; i++)
            add((uint64_t)capn_field_int(record, i * widths[w], widths[w], -(int64_t)i - 1));
    add(record->slots);
    for (uint32_t k = 0; k < 4; k++) add_kind(capn_slot(record, k));
}

static void add_bytes(const void *data, size_t length) {
    add(length);
    for (size_t i = 0; i < length; i++) add(((const uint8_t *)data)[i]);
}

static void show_line(const capn_entry *entry) {
    static const char *const kinds[] = {"null", "struct", "void", "bits", "bytes", "u16", "u32", "u64", "pointers",
                                        "rows", "capability"};
    static const uint32_t numbers[] = {CAPN_KIND_BITS, CAPN_KIND_BYTES, CAPN_KIND_U16, CAPN_KIND_U32, CAPN_KIND_U64};
    capn_record record;
    capn_items items;
    const char *text;
    const uint8_t *data;
    size_t length;
    printf("%s", kinds[entry->kind]);
    begin();
    int is_read = capn_struct(bytes, entry, &record);
    add_record(&record);
    end(is_read);
    begin();
    is_read = capn_text(bytes, entry, &text, &length);
    if (text) add_bytes(text, length);
    else add_bytes("none", 4);
    end(is_read);
    begin();
    is_read = capn_data(bytes, entry, &data, &length);
    add_bytes(data, length);
    end(is_read);
    begin();
    is_read = capn_list(bytes, entry, CAPN_KIND_VOID, &items);
    add(items.count);
    end(is_read);
    for (int i = 0; i < 5; i++) {
        begin();
        is_read = capn_list(bytes, entry, numbers[i], &items);
        add(items.count);
        for (uint32_t k = 0; k < items.count && k < 1000; k++) add(capn_number(&items, k));
        end(is_read);
    }
    begin();
    is_read = capn_list(bytes, entry, CAPN_KIND_POINTERS, &items);
    add(items.count);
    for (int k = 0; k < 20 && capn_next(&items, &record); k++) add_kind(capn_slot(&record, 0));
    end(is_read);
    begin();
    is_read = capn_list(bytes, entry, CAPN_KIND_ROWS, &items);
    add(items.count);
    for (int k = 0; k < 20 && capn_next(&items, &record); k++) add_record(&record);
    end(is_read);
    printf("\n");
}

/* ---- streams */

/* Returns the index entries of a message, and sets `*count` to the number of entries. Returns NULL if the message is
 * rejected. */
static capn_entry *entries_of(const uint8_t *message, size_t size, uint32_t *count, capn_status *status,
                              capn_report *report) {
    const capn_limits limits = CAPN_USUAL_LIMITS;
    *status = capn_index(CAPN_STREAM, message, size, &limits, NULL, 0, report);
    if (*status != CAPN_NO_ROOM) return NULL;
    *count = report->visits;
    capn_entry *entries = malloc(*count * sizeof *entries);
    *status = capn_index(CAPN_STREAM, message, size, &limits, entries, *count, report);
    want("the second index", *status, CAPN_OK);
    return entries;
}

static uint8_t *all_of_input(size_t *have) {
    size_t room = 1 << 16, got;
    uint8_t *all = malloc(room);
    *have = 0;
    while ((got = fread(all + *have, 1, room - *have, stdin)) > 0)
        if ((*have += got) == room) all = realloc(all, room *= 2);
    return all;
}

/* Copies the bytes to memory of exactly their length, so that a sanitizer detects a read past the end. */
static uint8_t *alone(const uint8_t *from, size_t size) {
    uint8_t *message = malloc(size);
    if (size) memcpy(message, from, size);
    return message;
}

/* Prints a line for each pointer of the messages that generated.py wrote. In the input, the length of each message
 * comes before the message. */
static int show_lines(void) {
    size_t have;
    uint8_t *all = all_of_input(&have);
    for (size_t from = 0; from + 4 <= have;) {
        const uint8_t *at = all + from;
        const size_t size = at[0] | at[1] << 8 | at[2] << 16 | (size_t)at[3] << 24;
        uint32_t count;
        capn_status status;
        capn_report report;
        char text[128];
        uint8_t *message = alone(at + 4, size);
        from += 4 + size;
        bytes = message;
        capn_entry *entries = entries_of(message, size, &count, &status, &report);
        if (!entries) {
            want("the room of a text", capn_refusal_text(status, &report, text, sizeof text) < sizeof text, 1);
            printf("rejected: %s\n", text);
        } else
            for (uint32_t i = 0; i < count; i++) show_line(&entries[i]);
        free(entries);
        free(message);
    }
    free(all);
    return failed != 0;
}

/* Reads each message of a stream. Depending on the command, prints the fields of the message, or the number of ways in
 * which its pointers can be read. */
static int show_stream(const char *as) {
    const int is_any = !strcmp(as, "any");
    const capn_limits limits = CAPN_USUAL_LIMITS;
    uint64_t messages = 0, pointers = 0, read = 0;
    size_t have;
    uint8_t *all = all_of_input(&have);
    for (size_t from = 0; from < have;) {
        uint32_t count;
        capn_status status;
        capn_report report;
        if (capn_first(all + from, have - from, &limits, &report) != CAPN_OK) return 1;
        const size_t size = report.length;
        uint8_t *message = alone(all + from, size);
        from += size;
        bytes = message;
        capn_entry *entries = entries_of(message, size, &count, &status, &report);
        if (entries) {
            if (!is_any) show_message(entries, !strcmp(as, "new"));
            for (uint32_t i = 0; is_any && i < count; i++) read += (uint64_t)read_any(&entries[i]);
            messages++;
            pointers += count;
        } else if (!is_any) return 1;
        free(entries);
        free(message);
    }
    free(all);
    if (is_any)
        printf("%" PRIu64 " messages, %" PRIu64 " pointers, %" PRIu64 "\n", messages, pointers, read);
    return failed != 0;
}

/* Reads the field `x @0 :UInt64 = 7` from a struct of `words` words. The first word of the struct is `stored`. */
static uint64_t of_words(uint16_t words, uint64_t stored) {
    const capn_entry entry = {0, 0, 1, words, 0, CAPN_KIND_STRUCT};
    capn_record record;
    uint8_t data[8];
    for (int i = 0; i < 8; i++) data[i] = (uint8_t)(stored >> 8 * i);
    want("a struct", capn_struct(data, &entry, &record), 1);
    return capn_field(&record, 0, 64, 7);
}

/* Writes a message of one segment, and returns the message's length. The given words follow the segment table. */
static size_t message(uint8_t *to, const uint64_t *words, size_t count) {
    memset(to, 0, 8);
    to[4] = (uint8_t)count;
    for (size_t i = 0; i < 8 * count; i++) to[8 + i] = (uint8_t)(words[i / 8] >> 8 * (i % 8));
    return 8 + 8 * count;
}

/* Tests a message whose root has one pointer, which refers to a list of two structs. Each struct has a zero word, or a
 * null pointer, or neither. The test reads the list as numbers and as pointers, like a program with an older schema. */
static void two_of_zeros(const uint64_t *words, size_t count) {
    uint8_t data[64];
    capn_entry all[8];
    capn_record root, row;
    capn_items items;
    const char *text;
    size_t length;
    const size_t size = message(data, words, count);
    want("a list of zeros", capn_index(CAPN_STREAM, data, size, NULL, all, 8, NULL), CAPN_OK);
    want("its root", capn_struct(data, &all[0], &root), 1);
    for (uint32_t kind = CAPN_KIND_BYTES; kind <= CAPN_KIND_U64; kind++) {
        want("structs as numbers", capn_list(data, capn_slot(&root, 0), kind, &items), 1);
        want("their count", items.count, 2);
        for (uint32_t i = 0; i < items.count; i++) want("a zero", (int64_t)capn_number(&items, i), 0);
    }
    want("structs as pointers", capn_list(data, capn_slot(&root, 0), CAPN_KIND_POINTERS, &items), 1);
    int rows = 0;
    for (; capn_next(&items, &row); rows++) {
        want("a null", capn_is_absent(capn_slot(&row, 0)), 1);
        want("no text", capn_text(data, capn_slot(&row, 0), &text, &length) && !text, 1);
    }
    want("two nulls", rows, 2);
    want("structs as bits", capn_list(data, capn_slot(&root, 0), CAPN_KIND_BITS, &items), 0);
}

/* Messages with equal values must give equal numbers and pointers. A number beyond the end of a struct is zero, and a
 * pointer beyond the end is null. */
static void by_another_schema(void) {
    static const uint64_t a_word[] = {1ull << 48, 0x1700000001, 0x100000008, 0, 0};
    static const uint64_t a_pointer[] = {1ull << 48, 0x1700000001, 0x1000000000008, 0, 0};
    static const uint64_t nothing[] = {1ull << 48, 0x700000001, 8};
    uint8_t one[64], other[64];
    const size_t size = message(other, nothing, 3);
    two_of_zeros(a_word, 5);
    two_of_zeros(a_pointer, 5);
    two_of_zeros(nothing, 3);
    want("the same", capn_same(CAPN_STREAM, one, message(one, a_word, 5), other, size, NULL, NULL, NULL), CAPN_OK);
    want("the same", capn_same(CAPN_STREAM, one, message(one, a_pointer, 5), other, size, NULL, NULL, NULL), CAPN_OK);

    /* If a list of bytes is read as a list of structs, each struct has only one byte. So a field that is wider than a
     * byte has its default value. */
    static const uint64_t bytes_of_older[] = {1ull << 48, 1 | (2 | 1 << 3) * (1ull << 32), 5};
    capn_entry all[2];
    capn_record root, row;
    capn_items items;
    want("bytes", capn_index(CAPN_STREAM, one, message(one, bytes_of_older, 3), NULL, all, 2, NULL), CAPN_OK);
    want("a root", capn_struct(one, &all[0], &root), 1);
    want("bytes as structs", capn_list(one, capn_slot(&root, 0), CAPN_KIND_ROWS, &items), 1);
    want("a struct", capn_next(&items, &row), 1);
    want("a byte", (int64_t)capn_field(&row, 0, 8, 7), 5 ^ 7);
    want("a wider field", (int64_t)capn_field(&row, 0, 16, 7), 7);
    want("a later field", (int64_t)capn_field(&row, 8, 8, 7), 7);
    want("no more", capn_next(&items, &row), 0);
}

static void by_hand(void) {
    want("what is stored for 5", (int64_t)of_words(1, 5 ^ 7), 5);
    want("what is stored for 7", (int64_t)of_words(1, 0), 7);
    want("no word", (int64_t)of_words(0, 0), 7);

    /* Reads a field of each width at each bit offset of two words. Compares the field with the bits of the words at
     * this offset. */
    uint8_t data[16];
    for (int i = 0; i < 16; i++) data[i] = (uint8_t)(37 * i + 11 * i * i + 201);
    capn_record record = {data, NULL, 128, 0};
    for (uint32_t at = 0; at < 140; at++)
        for (uint32_t bits = 1; bits <= 64; bits++) {
            uint64_t wanted = 0;
            if (at + bits <= 128)
                for (uint32_t i = 0; i < bits; i++) wanted |= (uint64_t)(data[(at + i) / 8] >> (at + i) % 8 & 1) << i;
            want("bits", (int64_t)capn_field(&record, at, bits, 0), (int64_t)wanted);
            const uint64_t mask = bits < 64 ? (UINT64_C(1) << bits) - 1 : ~UINT64_C(0);
            const uint64_t fallback = 0x123456789abcdef5;
            want("XOR", (int64_t)capn_field(&record, at, bits, fallback), (int64_t)((wanted ^ fallback) & mask));
            const int64_t sign = bits < 64 && wanted >> (bits - 1) ? (int64_t)(wanted | ~mask) : (int64_t)wanted;
            want("a sign", capn_field_int(&record, at, bits, 0), sign);
        }
    want("far beyond", (int64_t)capn_field(&record, UINT32_MAX, 64, 9), 9);

    /* Tests how many index entries the calls report for a message. An array of fewer entries must not be enough. */
    static const uint8_t nested[] = {0, 0, 0, 0, 4, 0, 0, 0, 0, 0, 0, 0, 0, 0, 2, 0, 4, 0, 0, 0, 0, 0, 1, 0,
                                     0, 0, 0, 0, 0, 0, 0, 0, 0, 0, 0, 0, 0, 0, 0, 0};
    const capn_limits usual = CAPN_USUAL_LIMITS;
    capn_entry all[4];
    capn_report report;
    size_t count = 9;
    want("counted", capn_count_entries(CAPN_STREAM, nested, sizeof nested, &usual, &count, &report), CAPN_OK);
    want("entries", (int64_t)count, 4);
    want("bytes", (int64_t)report.length, (int64_t)(count * sizeof *all));
    want("no report", capn_count_entries(CAPN_STREAM, nested, sizeof nested, NULL, &count, NULL), CAPN_OK);
    want("indexed", capn_index(CAPN_STREAM, nested, sizeof nested, &usual, all, count, &report), CAPN_OK);
    want("too few", capn_index(CAPN_STREAM, nested, sizeof nested, &usual, all, count - 1, &report), CAPN_NO_ROOM);
    want("a cut one", capn_count_entries(CAPN_STREAM, nested, 20, &usual, &count, &report), CAPN_FRAME_CUT);
    want("no entries", (int64_t)count, 0);
    want("a packed one", capn_count_entries(CAPN_PACKED, nested, 20, &usual, &count, NULL), CAPN_BAD_FORM);

    /* A list of bytes is a text only if its last byte is zero. */
    static const uint8_t abc[] = {'a', 'b', 'c', 0, 'd'};
    const char *text;
    size_t length;
    capn_entry entry = {0, 4, 1, 0, 0, CAPN_KIND_BYTES};
    want("abc", capn_text(abc, &entry, &text, &length), 1);
    want("its length", (int64_t)length, 3);
    entry.count = 5;
    want("no zero", capn_text(abc, &entry, &text, &length), 0);
    want("no text", text == NULL && length == 0, 1);
    entry.count = 0;
    want("no bytes", capn_text(abc, &entry, &text, &length), 0);
    want("no entry", capn_text(abc, NULL, &text, &length) && !text, 1);
    entry.kind = CAPN_KIND_U16;
    want("other numbers", capn_text(abc, &entry, &text, &length), 0);

    /* Reads a list of each kind as a list of every kind. The lists have two elements. */
    /* Character j of string i is `1` if a list of kind j can be read as a list of kind i. The kinds are in the order
     * void, bits, bytes, u16, u32, u64, pointers, rows (structs). */
    static const char *const taken[] = {
        "1......1", ".1......", "..1....1", "...1...1", "....1..1", ".....1.1", "......11", "1.111111"};
    /* the value of an element whose bits are all 1, for each kind from void to u64 */
    static const int64_t full[] = {0, 1, 0xff, 0xffff, 0xffffffff, -1};
    uint8_t ones[128];
    memset(ones, 0xff, sizeof ones);
    for (uint32_t wanted = CAPN_KIND_VOID; wanted <= CAPN_KIND_ROWS; wanted++)
        for (uint32_t found = CAPN_KIND_NULL; found <= CAPN_KIND_CAPABILITY; found++)
            for (uint16_t words = 0; words < 3; words++)
                for (uint16_t slots = 0; slots < 3; slots++) {
                    capn_entry few[8];
                    capn_items items;
                    for (int i = 0; i < 8; i++) few[i] = (capn_entry){0, 0, 1, 0, 0, CAPN_KIND_NULL};
                    few[0] = (capn_entry){0, 2, 1, 0, 0, found};
                    if (found == CAPN_KIND_ROWS) few[0].words = words, few[0].slots = slots;
                    int is = found == CAPN_KIND_NULL;
                    if (found >= CAPN_KIND_VOID && found <= CAPN_KIND_ROWS)
                        is = taken[wanted - CAPN_KIND_VOID][found - CAPN_KIND_VOID] == '1';
                    want("a list", capn_list(ones, few, wanted, &items), is);
                    want("its elements", items.count, is && found ? 2 : 0);
                    if (items.count && wanted < CAPN_KIND_POINTERS) {
                        const int is_stored = found != CAPN_KIND_ROWS || words;
                        want("a number", (int64_t)capn_number(&items, 1),
                             is_stored ? full[wanted - CAPN_KIND_VOID] : 0);
                    }
                    capn_record row;
                    int rows = 0;
                    for (; capn_next(&items, &row); rows++) {
                        want("a slot", capn_slot(&row, row.slots) == NULL, 1);
                        want("a pointer", capn_is_absent(capn_slot(&row, 0)), 1);
                    }
                    want("its rows", rows, is && found && found != CAPN_KIND_BITS ? 2 : 0);
                }
}

int main(int count, char **words) {
    if (count == 2) return strcmp(words[1], "lines") ? show_stream(words[1]) : show_lines();
    by_hand();
    by_another_schema();
    printf("fields: %d failed\n", failed);
    return failed != 0;
}
