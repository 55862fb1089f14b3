/* Reads fields, texts and lists of a message by a schema, through an index.
 *
 * `capn_index` is proved. The functions of this header are tested, not proved. They read the objects that the entries
 * of an index describe, in the `bytes` that were passed to `capn_index`. Neither the bytes nor the entries may change
 * meanwhile. The functions allocate nothing and follow no pointer.
 *
 * A record is a struct: one that a pointer refers to, an element of a list of structs, or an element of a list of
 * numbers or pointers, which another version of the schema takes for a struct. `capnp compile -ocapnp` prints where a
 * field lies in it: `bits[64, 96)` is `capn_field(&record, 64, 32, fallback)`, and `ptr[1]` is `capn_slot(&record, 1)`.
 *
 * A null entry stands for a pointer that its struct is too short to have. It is read as a null pointer is.
 * `capn_struct`, `capn_list`, `capn_text` and `capn_data` return 1 if the pointer is null or refers to an object of the
 * kind that they read, and 0 if it refers to another kind. With a null pointer, and when they return 0, the result is
 * empty: it has no words, no pointers, no elements, no bytes. */
#ifndef CAPN_FIELDS_H
#define CAPN_FIELDS_H

#include "capn.h"
#include <string.h>

#ifdef __cplusplus
#define CAPN_CAST(type, value) static_cast<type>(value)
extern "C" {
#else
#define CAPN_CAST(type, value) ((type)(value))
#endif

/* A struct. */
typedef struct capn_record {
    const uint8_t *data;     /* its data section */
    const capn_entry *first; /* the entry of its first pointer */
    uint32_t bits;           /* the length of the data section */
    uint32_t slots;          /* the number of pointers */
} capn_record;

/* A list, and the position of `capn_next` in it. */
typedef struct capn_items {
    const uint8_t *data;     /* the data section of the next element; for bits the byte of the first one */
    const capn_entry *first; /* the entry of the first pointer of the next element */
    uint32_t count;          /* the number of elements that are left */
    uint32_t step;           /* bytes from an element to the next one; 0 for bits */
    uint32_t bits;           /* the length of the data section of an element */
    uint32_t slots;          /* the number of pointers of an element */
    uint32_t width;          /* for a list that is read as numbers: the bits of a number */
} capn_items;

/* Counts the entries in the index of a message, as `most_entries` of capn_index counts them. It returns CAPN_OK, or the
 * error of capn_index, with a count of 0. The index needs `*count * sizeof(capn_entry)` bytes. */
static inline capn_status capn_count_entries(uint32_t form, const uint8_t *bytes, size_t size,
                                             const capn_limits *limits, size_t *count, capn_report *report) {
    capn_report own;
    capn_status status;
    if (!report) report = &own;
    status = capn_index(form, bytes, size, limits, NULL, 0, report);
    *count = status == CAPN_NO_ROOM ? report->visits : 0;
    return status == CAPN_NO_ROOM ? CAPN_CAST(capn_status, CAPN_OK) : status;
}

/* Whether a pointer is null, or its struct is too short to have it. The field then has the default. */
static inline int capn_is_absent(const capn_entry *entry) {
    return !entry || entry->kind == CAPN_KIND_NULL;
}

/* The struct that a pointer refers to. */
static inline int capn_struct(const uint8_t *bytes, const capn_entry *entry, capn_record *record) {
    memset(record, 0, sizeof *record);
    if (capn_is_absent(entry)) return 1;
    if (entry->kind != CAPN_KIND_STRUCT) return 0;
    record->bits = 64u * entry->words;
    record->slots = entry->slots;
    if (record->bits) record->data = bytes + entry->offset;
    if (record->slots) record->first = entry + 1;
    return 1;
}

/* The data field of `bits` bits, 1 to 64, at the bit `at` of a record. A field is stored XOR its default. A record that
 * is too short for it has the default. For a float, `fallback` and the result are its bits: see `capn_field_double`. */
static inline uint64_t capn_field(const capn_record *record, uint32_t at, uint32_t bits, uint64_t fallback) {
    const uint64_t mask = bits < 64 ? (UINT64_C(1) << bits) - 1 : ~UINT64_C(0);
    uint64_t value = 0;
    if (bits <= record->bits && at <= record->bits - bits) {
        const uint8_t *from = record->data + at / 8;
        const uint32_t shift = at % 8;
        uint32_t i;
        for (i = 0; 8 * i < bits; i++) value |= CAPN_CAST(uint64_t, from[i]) << 8 * i;
        if (shift) { /* in a schema only fields of one bit begin within a byte */
            value >>= shift;
            if (8 * i < bits + shift) value |= CAPN_CAST(uint64_t, from[i]) << (8 * i - shift);
        }
    }
    return (value ^ fallback) & mask;
}

/* Reads a signed number as capn_field reads an unsigned one. */
static inline int64_t capn_field_int(const capn_record *record, uint32_t at, uint32_t bits, int64_t fallback) {
    const uint64_t value = capn_field(record, at, bits, CAPN_CAST(uint64_t, fallback));
    const uint64_t sign = UINT64_C(1) << (bits - 1);
    return value & sign ? -CAPN_CAST(int64_t, ~value & (sign - 1)) - 1 : CAPN_CAST(int64_t, value);
}

/* A Float64, whose field has 64 bits. */
static inline double capn_field_double(const capn_record *record, uint32_t at, double fallback) {
    uint64_t bits;
    double value;
    memcpy(&bits, &fallback, sizeof bits);
    bits = capn_field(record, at, 64, bits);
    memcpy(&value, &bits, sizeof value);
    return value;
}

/* A Float32, whose field has 32 bits. */
static inline float capn_field_float(const capn_record *record, uint32_t at, float fallback) {
    uint32_t bits;
    float value;
    memcpy(&bits, &fallback, sizeof bits);
    bits = CAPN_CAST(uint32_t, capn_field(record, at, 32, bits));
    memcpy(&value, &bits, sizeof value);
    return value;
}

/* The entry of pointer `k` of a record, or null if the record has no such pointer. It passes over the entries of the
 * pointers before it. */
static inline const capn_entry *capn_slot(const capn_record *record, uint32_t k) {
    const capn_entry *entry = record->first;
    if (k >= record->slots) return NULL;
    while (k--) entry += entry->span;
    return entry;
}

/* The bytes of a Data. For a null pointer `data` is null. */
static inline int capn_data(const uint8_t *bytes, const capn_entry *entry, const uint8_t **data, size_t *length) {
    *data = NULL;
    *length = 0;
    if (capn_is_absent(entry)) return 1;
    if (entry->kind != CAPN_KIND_BYTES) return 0;
    *data = bytes + entry->offset;
    *length = entry->count;
    return 1;
}

/* A Text. A zero byte follows its `length` bytes, which may contain zero bytes too, and may not be UTF-8. Bytes whose
 * last one is not zero are not a Text. For a null pointer `text` is null: the schema has the default. */
static inline int capn_text(const uint8_t *bytes, const capn_entry *entry, const char **text, size_t *length) {
    const void *from;
    *text = NULL;
    *length = 0;
    if (capn_is_absent(entry)) return 1;
    if (entry->kind != CAPN_KIND_BYTES || entry->count == 0 || bytes[entry->offset + entry->count - 1]) return 0;
    from = bytes + entry->offset;
    *text = CAPN_CAST(const char *, from);
    *length = entry->count - 1;
    return 1;
}

/* The list that a pointer refers to. `kind` is what the schema has: CAPN_KIND_VOID to CAPN_KIND_ROWS.
 *   - Structs are taken for numbers or pointers: a newer writer replaced each element by a struct, and the element is
 *     the first field of it. A struct that is too short for that field has zero or a null pointer there.
 *   - Numbers and pointers are taken for structs: an older writer had only the first field.
 *   - Bits are only taken for bits.
 *   - Numbers of another width are not taken. */
static inline int capn_list(const uint8_t *bytes, const capn_entry *entry, uint32_t kind, capn_items *items) {
    static const uint8_t widths[] = {0, 1, 8, 16, 32, 64, 0}; /* from CAPN_KIND_VOID on */
    memset(items, 0, sizeof *items);
    if (capn_is_absent(entry)) return 1;
    if (entry->kind < CAPN_KIND_VOID || entry->kind > CAPN_KIND_ROWS) return 0;
    if (entry->kind != kind && (kind == CAPN_KIND_BITS || entry->kind == CAPN_KIND_BITS)) return 0;
    if (entry->kind != kind && entry->kind != CAPN_KIND_ROWS && kind != CAPN_KIND_ROWS) return 0;
    if (kind >= CAPN_KIND_VOID && kind < CAPN_KIND_ROWS) items->width = widths[kind - CAPN_KIND_VOID];
    if (entry->kind == CAPN_KIND_ROWS) {
        items->bits = 64u * entry->words;
        items->slots = entry->slots;
        items->step = 8u * entry->words + 8u * entry->slots;
        items->data = bytes + entry->offset + 8;
    } else {
        items->bits = widths[entry->kind - CAPN_KIND_VOID];
        items->slots = entry->kind == CAPN_KIND_POINTERS;
        items->step = items->slots ? 8 : items->bits / 8;
        items->data = bytes + entry->offset;
    }
    items->count = entry->count;
    if (items->count && items->slots) items->first = entry + 1;
    return 1;
}

/* Number `i` of a list of numbers, which must be less than its `count`. For a list of structs it is the first field of
 * struct `i`, with the default 0. */
static inline uint64_t capn_number(const capn_items *items, uint32_t i) {
    capn_record record;
    if (items->bits == 1) return items->data[i / 8] >> i % 8 & 1u;
    record.data = items->data + CAPN_CAST(size_t, items->step) * i;
    record.first = NULL;
    record.bits = items->bits;
    record.slots = 0;
    return capn_field(&record, 0, items->width, 0);
}

/* Moves on to the next element of a list, as a record, and returns 1, or returns 0 at the end. The element of a list of
 * pointers is pointer 0 of the record. It returns 0 for a list of bits: see `capn_number`. */
static inline int capn_next(capn_items *items, capn_record *record) {
    uint32_t k;
    memset(record, 0, sizeof *record);
    if (!items->count || items->bits == 1) return 0;
    record->data = items->data;
    record->first = items->first;
    record->bits = items->bits;
    record->slots = items->slots;
    items->data += items->step;
    items->count--;
    if (items->count)
        for (k = 0; k < items->slots; k++) items->first += items->first->span;
    return 1;
}

#ifdef __cplusplus
}
#endif
#undef CAPN_CAST

#endif
