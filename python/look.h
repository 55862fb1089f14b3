/* Looks at the bytes of a stream. One call finds where the complete messages at the start of the bytes end. The calls
 * here are loops over the library's calls, and keep nothing. */
#include "capn.h"

#include <errno.h>
#include <fcntl.h>
#include <stddef.h>
#include <string.h>
#include <unistd.h>

enum { CAPN_LOOK_MOST = 128 };

typedef struct {
    uint32_t count;               /* the number of messages */
    size_t end, take;             /* the ends of the last message, as below, or 0 */
    size_t ends[CAPN_LOOK_MOST];  /* the end of each message in the unpacked bytes */
    size_t takes[CAPN_LOOK_MOST]; /* the end of each message in the packed bytes of a packed stream */
} capn_look;

/* Looks at a stream. Returns the status and the report of the last call, which is about the message after the complete
 * ones. Fewer than 4 bytes are left alone. */
static capn_status capn_look_at(const uint8_t *bytes, size_t size, const capn_limits *limits, capn_look *look,
                                capn_report *report) {
    capn_status status = CAPN_OK;
    look->count = 0;
    look->end = look->take = 0;
    while (look->count < CAPN_LOOK_MOST && size - look->end >= 4) {
        status = capn_first(bytes + look->end, size - look->end, limits, report);
        if (status != CAPN_OK) break;
        look->end += report->length;
        look->take = look->end;
        look->ends[look->count++] = look->end;
    }
    return status;
}

/* Looks at a packed stream, and unpacks at most `most` messages into the room. Stops before a message that doesn't end
 * where a group of packed bytes ends. Returns CAPN_OK, or the status of a call that refused, or why there is no further
 * message: CAPN_PACKED_CUT if the text ends before the message does, or CAPN_PACKED_TOO_LONG if the message ends within
 * a group or doesn't fit into the room. The `length` of the report is then the least number of bytes of the message. */
static capn_status capn_look_at_packed(const uint8_t *text, size_t size, const capn_limits *limits, uint8_t *out,
                                       size_t room, uint32_t most, capn_look *look, capn_report *report) {
    look->count = 0;
    look->end = look->take = 0;
    while (look->count < most && look->count < CAPN_LOOK_MOST) {
        size_t from = look->take, got = 0, need = 8;
        capn_status status = CAPN_FRAME_CUT;
        for (; status == CAPN_FRAME_CUT && look->end + need <= room; need = report->length) {
            status = capn_unpack_some(text + from, size - from, out + look->end + got, need - got, report);
            if (status != CAPN_OK && status != CAPN_PACKED_CUT && status != CAPN_PACKED_TOO_LONG) return status;
            from += report->at;
            got += report->length;
            if (got < need) {
                report->length = need;
                return status == CAPN_OK ? CAPN_PACKED_CUT : status;
            }
            status = capn_first(out + look->end, need, limits, report);
        }
        if (status != CAPN_OK) return status == CAPN_FRAME_CUT ? CAPN_PACKED_TOO_LONG : status;
        look->end += report->length;
        look->take = from;
        look->ends[look->count] = look->end;
        look->takes[look->count++] = from;
    }
    return CAPN_OK;
}

/* The first message of a packed text: the buffer into which it is unpacked, and what was found out about it. */
typedef struct {
    capn_limits limits;
    uint8_t *out;
    size_t room, length, take; /* `length` and `take`: the unpacked and the packed bytes of the message */
    size_t got;                /* of a truncated message, the number of bytes unpacked from `take` packed bytes */
    capn_status status;
    capn_report report;
    uint8_t table[8]; /* the last segment table of one segment */
    size_t size;      /* the number of bytes of the message with this table */
} capn_packed_one;

/* Goes on to look at one message. Returns the number of its packed bytes, or 0. If the message is cut, the next call
 * gets a text that begins with the present one, and unpacks nothing twice. */
static size_t capn_look_on(const uint8_t *text, size_t size, capn_packed_one *one) {
    capn_report *const report = &one->report;
    for (;;) {
        one->status = capn_unpack_some(text + one->take, size - one->take, one->out + one->got,
                                       one->length - one->got, report);
        if (one->status != CAPN_OK && one->status != CAPN_PACKED_CUT && one->status != CAPN_PACKED_TOO_LONG) return 0;
        one->take += report->at;
        one->got += report->length;
        if (one->got < one->length) {
            if (one->status == CAPN_OK) one->status = CAPN_PACKED_CUT;
            return 0;
        }
        /* The segment table of one segment says how long the frame is. It is often the table of the message before. */
        if (one->size > 8 && memcmp(one->out, one->table, 8) == 0) {
            if (one->got == one->size) break;
            one->length = one->size;
            continue;
        }
        one->status = capn_first(one->out, one->got, &one->limits, report);
        if (one->status == CAPN_OK) break;
        if (one->status != CAPN_FRAME_CUT) return 0;
        one->length = report->length;
        if (one->length > one->room) {
            one->status = CAPN_PACKED_TOO_LONG;
            return 0;
        }
        if (one->got == 8 && memcmp(one->out, "\0\0\0\0", 4) == 0) {
            memcpy(one->table, one->out, 8);
            one->size = one->length;
        }
    }
    one->status = CAPN_OK;
    return one->take;
}

/* Looks at a text at whose start the message begins. */
static size_t capn_look_at_one(const uint8_t *text, size_t size, capn_packed_one *one) {
    one->got = one->take = 0;
    one->length = 8;
    return capn_look_on(text, size, one);
}

/* A file of the system, such as a pipe: the limits, and the bytes that were read. */
typedef struct {
    capn_limits limits;
    size_t have;  /* the number of bytes of a message that has begun */
    size_t whole; /* or the length of a complete message; the caller hands the message out, and sets this to 0 */
    uint8_t out[65536];
} capn_raw;

/* Reads the next message of a file, by two reads of the system if the message has one segment. If the message isn't
 * complete then, some of its bytes haven't come yet, or it has to be read in another way. The next call goes on with
 * the bytes that are there. */
static void capn_read_one(int file, capn_raw *raw) {
    size_t have = raw->have, need = 8;
    capn_report report;
    for (;;) {
        if (have >= need) {
            const capn_status status = capn_first(raw->out, have, &raw->limits, &report);
            if (status == CAPN_OK) {
                raw->have = 0;
                raw->whole = have;
                return;
            }
            need = report.length;
            if (status != CAPN_FRAME_CUT || need > sizeof raw->out) break;
        }
        const ssize_t more = read(file, raw->out + have, need - have);
        if (more <= 0) break;
        have += (size_t)more;
        if (have < need) break;
    }
    raw->have = have;
}

/* A pipe of packed messages. `second` is another pipe, through which the calls look into it. `most` is the number of
 * bytes that they look at. `came` has the bytes that were read and that differ from those that were seen, and `have` is
 * the number of these bytes. `whole` is the length of the message that was read. The caller hands the message out, and
 * sets `whole` to 0. */
typedef struct {
    capn_packed_one one;
    int second[2];
    size_t most, have, whole;
    uint8_t seen[32768], came[32768];
} capn_pipe;

static void capn_pipe_begin(capn_pipe *pipe, const capn_limits *limits, uint8_t *out, size_t room) {
    memset(pipe, 0, offsetof(capn_pipe, seen));
    pipe->one.limits = *limits;
    pipe->one.out = out;
    pipe->one.room = room;
    pipe->second[0] = pipe->second[1] = -1;
    pipe->most = 512;
}

static void capn_pipe_end(capn_pipe *pipe) {
    if (pipe->second[0] < 0) return;
    close(pipe->second[0]);
    close(pipe->second[1]);
    pipe->second[0] = pipe->second[1] = -1;
}

/* Copies at most `most` bytes of a pipe into `seen`. The bytes stay in the pipe: they are also put into the second
 * pipe, and read from there. Returns their number, or 0 if there are none or if the system can't do this. */
static size_t capn_look_into(int file, capn_pipe *pipe, size_t most, unsigned how) {
    size_t have = 0;
    if (pipe->second[0] < 0 && pipe2(pipe->second, O_CLOEXEC) != 0) return 0;
    const ssize_t seen = tee(file, pipe->second[1], most, how);
    while (seen > 0 && have < (size_t)seen) {
        const ssize_t more = read(pipe->second[0], pipe->seen + have, (size_t)seen - have);
        if (more > 0) have += (size_t)more;
        else if (more == 0 || errno != EINTR) {
            capn_pipe_end(pipe);
            return 0;
        }
    }
    return have;
}

/* Copies the bytes of a pipe that are there now, without waiting. */
static size_t capn_peek(int file, capn_pipe *pipe) {
    return capn_look_into(file, pipe, sizeof pipe->seen, SPLICE_F_NONBLOCK);
}

/* Reads the next message of a pipe by three calls of the system, if all of the message is there, and it ends where a
 * group of packed bytes ends. Waits if the pipe has no bytes. If the message isn't complete then, it has to be read in
 * another way, and only the bytes in `came` were read of it. */
static void capn_read_packed(int file, capn_pipe *pipe) {
    size_t seen, taken;
    for (unsigned how = 0;; how = SPLICE_F_NONBLOCK) {
        seen = capn_look_into(file, pipe, pipe->most, how);
        if (!seen) return;
        taken = capn_look_at_one(pipe->seen, seen, &pipe->one);
        if (taken) break;
        if (pipe->one.status != CAPN_PACKED_CUT || seen < pipe->most || seen == sizeof pipe->seen) return;
        pipe->most = pipe->most < sizeof pipe->seen / 4 ? 4 * pipe->most : sizeof pipe->seen;
    }
    const ssize_t came = read(file, pipe->came, taken);
    if (came == (ssize_t)taken && memcmp(pipe->came, pipe->seen, taken) == 0) {
        /* The next message may be a little longer. */
        pipe->most = taken + taken / 8 < 512 ? 512 : taken + taken / 8;
        if (pipe->most > sizeof pipe->seen) pipe->most = sizeof pipe->seen;
        pipe->whole = pipe->one.length;
        return;
    }
    pipe->have = came > 0 ? (size_t)came : 0;
}
