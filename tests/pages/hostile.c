/* Calls the functions of the examples in docs/C.md. Each code block of that page is compiled alone, and linked with
 * this program. Each message has its own block of memory, so that a sanitizer detects a read past the end of the
 * message. */

/* The commands of this program:
 *   - `hostile CALL [DEPTH] < MESSAGE` calls one function on standard input, with the nesting limit DEPTH
 *   - `hostile sign KEY < MESSAGE` writes a signature, if the program was compiled with -DSIGNS
 *   - `hostile verify KEY SIGNATURE < MESSAGE` verifies a signature, if the program was compiled with -DSIGNS
 *   - `hostile all ROUNDS FILE..` calls all functions on each file and on changed copies of it, and compares some
 *     results */
#include <capn.h>
#include <capn_fields.h>
#include <stdio.h>
#include <stdlib.h>
#include <string.h>

uint8_t *canonical_of(const uint8_t *, size_t, const capn_limits *, size_t *, capn_status *);
capn_status canonical_into(const uint8_t *, size_t, const capn_limits *, uint8_t *, size_t, size_t *);
int is_canonical(const uint8_t *, size_t, const capn_limits *);
void compare(const uint8_t *, size_t, const uint8_t *, size_t, const capn_limits *);
int is_within_limits(const uint8_t *, size_t);
size_t print_digests(const uint8_t *, size_t, const capn_limits *);
int print_person(const uint8_t *, size_t, const capn_limits *);
int print_lists(const uint8_t *, const capn_record *);
void print_error(const uint8_t *, size_t, const capn_limits *);
capn_status print_first_difference(const uint8_t *, size_t, const capn_limits *);
capn_status print_hidden(const uint8_t *, size_t, const capn_limits *);

static const char *doing;

static void fail(const char *why) {
    fflush(stdout);
    fprintf(stderr, "hostile: %s: %s\n", doing, why);
    exit(9);
}

static uint64_t seed = 88172645463325252u;
static uint32_t draw(void) {
    seed ^= seed << 13;
    seed ^= seed >> 7;
    seed ^= seed << 17;
    return (uint32_t)(seed >> 11);
}

/* Calls `print_lists` of docs/C.md on the root of a message. */
static int lists_of(const uint8_t *bytes, size_t size, const capn_limits *limits) {
    size_t count;
    if (capn_count_entries(CAPN_STREAM, bytes, size, limits, &count, NULL) != CAPN_OK) return 0;
    capn_entry *entries = malloc(count * sizeof *entries);
    capn_record root;
    if (!entries || capn_index(CAPN_STREAM, bytes, size, limits, entries, count, NULL) != CAPN_OK) fail("no index");
    const int is_read = capn_struct(bytes, &entries[0], &root) && print_lists(bytes, &root);
    free(entries);
    return is_read;
}

/* Calls all functions on one message, and fails if their results don't agree. */
static void call_all(const uint8_t *given, size_t size, const capn_limits *limits) {
    uint8_t *bytes = malloc(size ? size : 1);
    memcpy(bytes, given, size);
    size_t length = 0, needed = 0;
    capn_status status;
    uint8_t small[16];
    uint8_t *canonical = canonical_of(bytes, size, limits, &length, &status);
    const capn_status into = canonical_into(bytes, size, limits, small, sizeof small, &needed);
    if (!canonical != (status != CAPN_OK)) fail("a status without its bytes");
    if (into != (status == CAPN_OK && length > sizeof small ? CAPN_NO_ROOM : status)) fail("another status");
    if (canonical && needed != length) fail("another length");
    if (into == CAPN_OK && memcmp(small, canonical, length)) fail("other bytes");
    free(canonical);
    const int is = is_canonical(bytes, size, limits);
    if (status == CAPN_OK && is < 0) fail("no figures");
    compare(bytes, size, bytes, size, limits);
    is_within_limits(bytes, size);
    const size_t invalid = print_digests(bytes, size, limits);
    if (status == CAPN_OK && invalid) fail("no digest");
    print_person(bytes, size, limits);
    print_error(bytes, size, limits);
    const capn_status told = print_first_difference(bytes, size, limits);
    if (status == CAPN_OK && told != CAPN_OK) fail("no difference is told");
    const capn_status hidden = print_hidden(bytes, size, limits);
    if (hidden != told) fail("another status of what is hidden");
    lists_of(bytes, size, limits);
    free(bytes);
}

static void call_on_file(const char *name, int rounds) {
    static uint8_t bytes[1 << 16];
    capn_limits usual = CAPN_USUAL_LIMITS, deep = {1000, 20000, 256, CAPN_STRICT}, small = {1000, 1000, 5, CAPN_PLAIN};
    FILE *file = fopen(name, "rb");
    if (!file) fail("it can't be opened");
    const size_t size = fread(bytes, 1, sizeof bytes, file);
    fclose(file);
    call_all(bytes, size, &usual);
    call_all(bytes, size, NULL);
    usual.depth = 256;
    call_all(bytes, size, &usual);
    for (int round = 0; round < rounds; round++) {
        uint8_t copy[1 << 12];
        size_t length = size < sizeof copy ? size : sizeof copy;
        memcpy(copy, bytes, length);
        for (uint32_t changes = 1 + draw() % 4; changes && length; changes--)
            copy[draw() % length] = (uint8_t)(draw() % 3 ? draw() % 64 : draw());
        if (draw() % 8 == 0 && length) length -= draw() % length;
        call_all(copy, length, round % 2 ? &small : &deep);
    }
}

#ifdef SIGNS
#include <openssl/pem.h>
enum { signature_size = 64 };
typedef enum { accepted, bad_message, bad_signature, failed } outcome;
outcome sign(const uint8_t *, size_t, const capn_limits *, EVP_PKEY *, uint8_t *);
outcome verify(const uint8_t *, size_t, const capn_limits *, EVP_PKEY *, const uint8_t *, size_t);

static int with_key(int count, char **words, const uint8_t *bytes, size_t size) {
    uint8_t signature[signature_size + 1];
    FILE *file = fopen(words[2], "r");
    if (!file) fail("no key");
    EVP_PKEY *key = count == 3 ? PEM_read_PrivateKey(file, NULL, NULL, NULL) : PEM_read_PUBKEY(file, NULL, NULL, NULL);
    fclose(file);
    if (!key) fail("no key");
    outcome what;
    if (count == 3) {
        what = sign(bytes, size, NULL, key, signature);
        if (what == accepted) fwrite(signature, 1, signature_size, stdout);
    } else {
        if (!(file = fopen(words[3], "rb"))) fail("no signature");
        const size_t length = fread(signature, 1, sizeof signature, file);
        fclose(file);
        what = verify(bytes, size, NULL, key, signature, length);
    }
    EVP_PKEY_free(key);
    return (int)what;
}
#endif

int main(int count, char **words) {
    if (count < 2) return 2;
    doing = words[1];
    if (!strcmp(doing, "all")) {
        for (int i = 3; i < count; i++) {
            doing = words[i];
            call_on_file(doing, atoi(words[2]));
        }
        return 0;
    }
    static uint8_t read[1 << 22];
    const size_t size = fread(read, 1, sizeof read, stdin);
    uint8_t *bytes = malloc(size ? size : 1);
    memcpy(bytes, read, size);
    int status = 0;
#ifdef SIGNS
    if (!strcmp(doing, "sign") || !strcmp(doing, "verify")) {
        status = with_key(count, words, bytes, size);
        free(bytes);
        return status;
    }
#endif
    capn_limits limits = CAPN_USUAL_LIMITS;
    if (count > 2) limits.depth = (uint32_t)atoi(words[2]);
    size_t length;
    capn_status told = CAPN_OK;
    if (!strcmp(doing, "canonical_of")) {
        uint8_t *out = canonical_of(bytes, size, &limits, &length, &told);
        if (out) fwrite(out, 1, length, stdout);
        free(out);
        status = told != CAPN_OK;
    } else if (!strcmp(doing, "canonical_into")) {
        uint8_t out[16];
        told = canonical_into(bytes, size, &limits, out, sizeof out, &length);
        printf("%s %zu\n", capn_status_name(told), length);
    } else if (!strcmp(doing, "is_canonical")) printf("%d\n", is_canonical(bytes, size, &limits));
    else if (!strcmp(doing, "compare")) { /* compares the first message of a stream with the others */
        capn_report report;
        if (capn_first(bytes, size, &limits, &report) != CAPN_OK) fail("no first message");
        compare(bytes, report.length, bytes + report.length, size - report.length, &limits);
    } else if (!strcmp(doing, "is_within_limits")) status = !is_within_limits(bytes, size);
    else if (!strcmp(doing, "print_digests")) status = (int)print_digests(bytes, size, &limits);
    else if (!strcmp(doing, "print_person")) status = !print_person(bytes, size, &limits);
    else if (!strcmp(doing, "print_lists")) status = !lists_of(bytes, size, &limits);
    else if (!strcmp(doing, "print_error")) print_error(bytes, size, &limits);
    else if (!strcmp(doing, "print_first_difference"))
        status = print_first_difference(bytes, size, &limits) != CAPN_OK;
    else if (!strcmp(doing, "print_hidden")) status = print_hidden(bytes, size, &limits) != CAPN_OK;
    else fail("no such call");
    free(bytes);
    return status;
}
