/* The library from C++17 and later, header-only.
 *
 * A thin layer over capn.h. It is tested; it isn't proved as the library is. The rules of capn.h hold here too. Above
 * all, no other thread, process or device may change the bytes while a call runs, nor while an index of them is used:
 * copy such bytes first.
 *
 * Most calls come twice:
 *   - `check` and its like return a value or throw: `refusal` if the message is rejected, `std::bad_alloc` if an
 *     allocation failed, and `std::invalid_argument` if a form, a limit or a style is out of range.
 *   - `try_check` and its like throw nothing, and return an `expected`: the value, or the `error`.
 * After an error, whatever the call was to change is unchanged. Without exceptions (-fno-exceptions) only the second
 * kind is there: a message that is rejected must not be able to end the process. */
#ifndef CAPN_HPP
#define CAPN_HPP

#include "capn.h"
#include "capn_fields.h"

#include <algorithm>
#include <array>
#include <cstddef>
#include <cstdint>
#include <cstring>
#include <iterator>
#include <memory>
#include <new>
#include <optional>
#include <stdexcept>
#include <string>
#include <string_view>
#include <tuple>
#include <type_traits>
#include <utility>
#include <variant>
#include <vector>
#if defined(__has_include)
#if __has_include(<span>) && __cplusplus >= 202002L
#include <ranges>
#include <span>
#endif
#endif

/* Whether the calls that throw are there. */
#if defined(__cpp_exceptions) || defined(__EXCEPTIONS) || defined(_CPPUNWIND)
#define CAPN_EXCEPTIONS 1
#else
#define CAPN_EXCEPTIONS 0
#endif

/* Code that seldom runs is kept apart from code that often does. */
#if defined(__GNUC__)
#define CAPN_COLD __attribute__((cold, noinline))
#else
#define CAPN_COLD
#endif

/* Marks a parameter, or the object of a call, that the result refers to: clang warns if that is a temporary. */
#if defined(__has_cpp_attribute)
#if __has_cpp_attribute(clang::lifetimebound)
#define CAPN_LIFETIMEBOUND [[clang::lifetimebound]]
#endif
#endif
#ifndef CAPN_LIFETIMEBOUND
#define CAPN_LIFETIMEBOUND
#endif

namespace capn {

/* The form in which the bytes of a message are encoded. */
enum class form : std::uint32_t {
    stream = CAPN_STREAM, /* a segment table, then the segments */
    packed = CAPN_PACKED, /* the same, packed */
    bare = CAPN_BARE      /* a single segment without a table */
};

/* The rule by which the cost of reading is counted. */
enum class tariff : std::uint32_t { strict = CAPN_STRICT, plain = CAPN_PLAIN };

/* The limits of what a call accepts: the default limits, unless others are set. */
struct limits : capn_limits {
    limits() noexcept : capn_limits CAPN_USUAL_LIMITS {}
    /* The words of a message, the traversal limit in words, the nesting limit, and the counting rule. */
    limits(std::uint32_t most_words, std::uint32_t most_paid, std::uint32_t most_depth,
           capn::tariff counting = capn::tariff::strict) noexcept
        : limits() {
        message_words = most_words;
        budget = most_paid;
        depth = most_depth;
        tariff = static_cast<std::uint32_t>(counting);
    }
};

namespace detail {

template <class T>
inline constexpr bool is_byte = std::is_same_v<T, char> || std::is_same_v<T, signed char>
                                || std::is_same_v<T, unsigned char> || std::is_same_v<T, std::byte>;

template <class C>
using element_of = std::remove_cv_t<std::remove_pointer_t<decltype(std::data(std::declval<const C &>()))>>;

/* Arrays of char are left out: those of a literal have a zero at their end. */
template <class C, class = void> inline constexpr bool holds_bytes = false;
template <class C>
inline constexpr bool holds_bytes<C, std::void_t<element_of<C>, decltype(std::size(std::declval<const C &>()))>> =
    is_byte<element_of<C>> && !(std::is_array_v<C> && std::is_same_v<element_of<C>, char>);

/* Whether a container is a view, so that its elements don't go when it goes. Without the ranges of C++20, a view is an
 * address and a size that can be copied as they lie, and no array. */
#ifdef __cpp_lib_span
template <class C> inline constexpr bool is_view = std::ranges::borrowed_range<C>;
#else
template <class C, class = void> inline constexpr bool has_fixed_size = false;
template <class C> inline constexpr bool has_fixed_size<C, std::void_t<decltype(std::tuple_size<C>::value)>> = true;
template <class C>
inline constexpr bool is_view = std::is_class_v<C> && std::is_trivially_copyable_v<C> && !has_fixed_size<C>
                                && sizeof(C) <= 2 * sizeof(void *);
#endif

template <class C, class Of, class = void> inline constexpr bool holds = false;
template <class C, class Of>
inline constexpr bool holds<C, Of, std::void_t<element_of<C>, decltype(std::size(std::declval<const C &>()))>> =
    std::is_same_v<element_of<C>, Of>;

} // namespace detail

/* A view of bytes, which it doesn't own. Any vector, array, string or span of bytes converts to it. The size counts
 * bytes: for a container of other elements, such as words, call `as_bytes`. */
class bytes {
public:
    constexpr bytes() noexcept = default;
    bytes(const void *data, std::size_t size) noexcept : data_(static_cast<const std::byte *>(data)), size_(size) {}
    template <class C, std::enable_if_t<detail::holds_bytes<C> && !detail::is_view<C>, int> = 0>
    bytes(const C &container CAPN_LIFETIMEBOUND) noexcept : bytes(std::data(container), std::size(container)) {}
    template <class C, std::enable_if_t<detail::holds_bytes<C> && detail::is_view<C>, int> = 0>
    bytes(const C &view) noexcept : bytes(std::data(view), std::size(view)) {}

    constexpr const std::byte *data() const noexcept { return data_; }
    constexpr std::size_t size() const noexcept { return size_; }
    constexpr bool empty() const noexcept { return size_ == 0; }
    constexpr const std::byte *begin() const noexcept { return data_; }
    constexpr const std::byte *end() const noexcept { return data_ + size_; }
    constexpr std::byte operator[](std::size_t at) const noexcept { return data_[at]; }
    const std::uint8_t *u8() const noexcept { return reinterpret_cast<const std::uint8_t *>(data_); }
    std::string_view chars() const noexcept { return {reinterpret_cast<const char *>(data_), size_}; }
#ifdef __cpp_lib_span
    constexpr operator std::span<const std::byte>() const noexcept { return {data_, size_}; }
#endif

private:
    const std::byte *data_ = nullptr;
    std::size_t size_ = 0;
};

} // namespace capn
#ifdef __cpp_lib_span
template <> inline constexpr bool std::ranges::enable_borrowed_range<capn::bytes> = true;
template <> inline constexpr bool std::ranges::enable_view<capn::bytes> = true;
#endif
namespace capn {

/* The bytes of a container of anything that can be copied as bytes, such as a vector of words. */
template <class C, std::enable_if_t<!detail::is_view<C>, int> = 0>
bytes as_bytes(const C &container CAPN_LIFETIMEBOUND) noexcept {
    static_assert(std::is_trivially_copyable_v<detail::element_of<C>>, "elements that can be copied as bytes");
    return {std::data(container), std::size(container) * sizeof(detail::element_of<C>)};
}
template <class C, std::enable_if_t<detail::is_view<C>, int> = 0> bytes as_bytes(const C &view) noexcept {
    static_assert(std::is_trivially_copyable_v<detail::element_of<C>>, "elements that can be copied as bytes");
    return {std::data(view), std::size(view) * sizeof(detail::element_of<C>)};
}

/* The statuses that a reader adds to those of capn.h: the function that it reads by failed, or broke its rule. */
inline constexpr capn_status read_failed = 0x10000, read_overrun = 0x10001;

/* Why a call has no value. */
class error {
public:
    explicit error(capn_status status, const capn_report &report = {}) noexcept : status_(status), report_(report) {}

    /* One of capn.h, such as CAPN_TOO_DEEP, or `read_failed` or `read_overrun`. */
    capn_status status() const noexcept { return status_; }
    /* Its offset, count or index is in `at`; an error of a pointer has its place in `segment` and `word`, and the cost
     * up to there in `paid`. */
    const capn_report &report() const noexcept { return report_; }
    /* Whether the message is at fault: not the limits, the memory, or the function of a reader. */
    bool is_refusal() const noexcept { return status_ >= CAPN_NOT_WHOLE && status_ < 128; }
    /* The name of the status, such as "TooDeep". */
    const char *name() const noexcept {
        if (status_ == read_failed) return "ReadFailed";
        return status_ == read_overrun ? "ReadOverrun" : capn_status_name(status_);
    }
    /* Which of the two messages of `same` is rejected: 0, the first, or 1. Of another call it is 0. */
    std::uint32_t which() const noexcept { return which_; }
    /* Of a stream: the number of the message, from 1 on, and where it begins, in bytes. Of another call the number is
     * 0. */
    std::uint64_t number() const noexcept { return number_; }
    std::uint64_t offset() const noexcept { return offset_; }
    /* The meaning of the status in a few words, such as "an object lies outside of its segment". */
    const char *meaning() const noexcept {
        if (status_ == read_failed) return "the function of a reader failed";
        if (status_ == read_overrun) return "the function of a reader returned more bytes than it was asked for";
        return capn_status_text(status_);
    }
    /* If the message is at fault, the text that the command `capn` prints after `capn: `, such as
     * "Range at 0:0, paid 0, visits 1"; in a stream, "message 2 at 16: " comes before it. Otherwise the meaning. */
    std::string text() const {
        if (status_ == read_failed || status_ == read_overrun) return meaning();
        char room[160];
        const std::size_t length = capn_refusal_text(status_, &report_, room, sizeof room);
        std::string out(room, std::min(length, sizeof room - 1));
        if (is_of_words_ && out.compare(0, 6, "bare: ") == 0) out.erase(0, 6);
        if (number_ == 0 || !is_refusal()) return out;
        return "message " + std::to_string(number_) + " at " + std::to_string(offset_) + ": " + out;
    }

    /* Each of these calls returns a copy of the error that says more about the message: its number and offset in a
     * stream, or which of two messages it is, or that it is the words that `pack` takes. In the last case, the text
     * doesn't begin with the form "bare: ". */
    error in_stream(std::uint64_t number, std::uint64_t offset) const noexcept {
        error out = *this;
        out.number_ = number;
        out.offset_ = offset;
        return out;
    }
    error of_message(std::uint32_t which) const noexcept {
        error out = *this;
        out.which_ = which;
        return out;
    }
    error of_words() const noexcept {
        error out = *this;
        out.is_of_words_ = true;
        return out;
    }

private:
    capn_status status_;
    capn_report report_;
    std::uint64_t number_ = 0, offset_ = 0;
    std::uint32_t which_ = 0;
    bool is_of_words_ = false;
};

/* A message is rejected. `what()` is the text of the error, as `error::text` has it. */
class refusal : public std::runtime_error {
public:
    explicit refusal(const error &why) : std::runtime_error(why.text()), error_(why) {}
    refusal(capn_status status, const capn_report &report, const std::string &where = {})
        : refusal(status, report, where, text(status, report)) {}
    /* `what()` is `where` and then `text`, instead of the text of the error. */
    refusal(capn_status status, const capn_report &report, const std::string &where, const std::string &text)
        : std::runtime_error(where + text), error_(status, report) {}
    /* Of one of two messages. */
    refusal(capn_status status, const capn_report &report, std::uint32_t which)
        : refusal(capn::error(status, report).of_message(which)) {}

    /* As `error` has them. */
    capn_status status() const noexcept { return error_.status(); }
    const capn_report &report() const noexcept { return error_.report(); }
    const char *name() const noexcept { return error_.name(); }
    const char *meaning() const noexcept { return error_.meaning(); }
    std::uint32_t which() const noexcept { return error_.which(); }
    std::uint64_t number() const noexcept { return error_.number(); }
    std::uint64_t offset() const noexcept { return error_.offset(); }
    const capn::error &error() const noexcept { return error_; }

    /* The text of the error that a status and its report describe. */
    static std::string text(capn_status status, const capn_report &report) {
        return capn::error(status, report).text();
    }

private:
    capn::error error_;
};

/* The function of a reader is at fault, and no message: it failed, or it returned more bytes than it was asked for. */
class read_error : public std::runtime_error {
public:
    explicit read_error(const error &why) : std::runtime_error(why.text()), status_(why.status()) {}
    /* `read_failed` or `read_overrun`. */
    capn_status status() const noexcept { return status_; }

private:
    capn_status status_;
};

/* A pointer refers to something else than the schema says. */
class mismatch : public std::runtime_error {
public:
    explicit mismatch(const char *wanted) : std::runtime_error(std::string("there is no ") + wanted) {}
};

namespace detail {

#if CAPN_EXCEPTIONS
[[noreturn]] CAPN_COLD inline void raise(const error &why) {
    if (why.status() == CAPN_MEMORY) throw std::bad_alloc();
    if (why.is_refusal()) throw refusal(why);
    if (why.status() == read_failed || why.status() == read_overrun) throw read_error(why);
    throw std::invalid_argument(why.text());
}
#endif

} // namespace detail

enum class kind : std::uint32_t;

/* A value, or the error in its place; a small part of what std::expected of C++23 is. The value of a temporary is
 * returned by value, so that a range-based `for` over it is right. */
template <class T, class E = error> class [[nodiscard]] expected {
    static_assert(!std::is_same_v<T, E>, "a value isn't of the type of the error");

public:
    using value_type = T;
    using error_type = E;
    expected(T value) noexcept(std::is_nothrow_move_constructible_v<T>)
        : held_(std::in_place_index<0>, std::move(value)) {}
    expected(E why) noexcept(std::is_nothrow_move_constructible_v<E>)
        : held_(std::in_place_index<1>, std::move(why)) {}

    bool has_value() const noexcept { return held_.index() == 0; }
    explicit operator bool() const noexcept { return has_value(); }

    /* The value, which has to be there. */
    T &operator*() & noexcept { return *std::get_if<0>(&held_); }
    const T &operator*() const & noexcept { return *std::get_if<0>(&held_); }
    T operator*() && noexcept { return std::move(*std::get_if<0>(&held_)); }
    T *operator->() & noexcept { return std::get_if<0>(&held_); }
    const T *operator->() const & noexcept { return std::get_if<0>(&held_); }
    T *operator->() && = delete;
    const T *operator->() const && = delete;
    template <class U> T value_or(U &&otherwise) const & {
        return has_value() ? **this : static_cast<T>(std::forward<U>(otherwise));
    }
    template <class U> T value_or(U &&otherwise) && {
        return has_value() ? *std::move(*this) : static_cast<T>(std::forward<U>(otherwise));
    }

    /* The error, which has to be there. */
    const E &error() const & noexcept { return *std::get_if<1>(&held_); }
    E error() && noexcept { return std::move(*std::get_if<1>(&held_)); }

#if CAPN_EXCEPTIONS
    /* The value; or it throws what the call without `try_` throws. */
    T &value() & { return test(), **this; }
    const T &value() const & { return test(), **this; }
    T value() && { return test(), *std::move(*this); }

private:
    void test() const {
        if (has_value()) return;
        if constexpr (std::is_same_v<E, capn::error>) detail::raise(error());
        else if constexpr (std::is_same_v<E, kind>) throw mismatch("object of this kind");
        else throw std::bad_variant_access();
    }
#endif

private:
    std::variant<T, E> held_;
};

namespace detail {

/* Returns the result of `call`. If an allocation fails, this is an error, too. */
template <class Call> auto guarded(Call call) noexcept -> decltype(call()) {
#if CAPN_EXCEPTIONS
    try {
        return call();
    } catch (const std::bad_alloc &) {
        return error(CAPN_MEMORY);
    }
#else
    return call();
#endif
}

/* An allocator that leaves new bytes as they are, since a call is about to write them. */
template <class T> struct unfilled : std::allocator<T> {
    template <class U> struct rebind {
        using other = unfilled<U>;
    };
    template <class U> void construct(U *at) noexcept { ::new (static_cast<void *>(at)) U; }
    template <class U, class... Of> void construct(U *at, Of &&...of) {
        ::new (static_cast<void *>(at)) U(std::forward<Of>(of)...);
    }
};
using room = std::vector<std::byte, unfilled<std::byte>>;

} // namespace detail

/* The bytes that a call returns. */
using buffer = std::vector<std::byte>;

namespace detail {

inline std::uint32_t number(form written) noexcept { return static_cast<std::uint32_t>(written); }

/* A result of a length that the call reports: with a first capacity, and if that is too little with one that is
 * enough. A vector and a string clear their bytes before the call writes them, which costs a pass over them. A capacity
 * far above the length is given back. */
template <class Out, class Call> expected<Out> made(std::size_t capacity, Call call) noexcept {
    return guarded([&]() -> expected<Out> {
        Out out;
        capn_report report;
        for (;;) {
            out.resize(capacity);
            const capn_status status = call(reinterpret_cast<std::uint8_t *>(out.data()), out.size(), &report);
            if (status == CAPN_OK) break;
            if (status != CAPN_NO_ROOM) return error(status, report);
            out = Out();
            capacity = static_cast<std::size_t>(report.length);
        }
        out.resize(static_cast<std::size_t>(report.length));
        if (out.capacity() - out.size() > out.size() / 4 + 64) out.shrink_to_fit();
        return out;
    });
}

/* Whether a message of so many bytes may be accepted: a longer one has more words than the limit, so the call that
 * rejects it needs no buffer. A packed word has at most 10 bytes. */
inline bool may_fit(std::size_t size, form written, const limits &most) noexcept {
    return written == form::bare || size / (written == form::packed ? 10 : 8) <= std::size_t{most.message_words} + 2049;
}

/* The first capacity for the canonical bytes of a message of so many bytes: they are mostly no longer than it is, and
 * never longer than the traversal limit allows. */
inline std::size_t first_room(std::size_t size, const limits &most) noexcept {
    return std::min(size, 8 * (std::size_t{most.budget} + 1));
}

} // namespace detail

using digest_bytes = std::array<std::byte, 32>;

/* The cost of reading a message, in words, and how many pointers a reader follows. */
struct checked {
    std::uint32_t paid;
    std::uint32_t visits;
};

/* The style in which the dump of a message is written. */
enum class style : std::uint32_t {
    lines = CAPN_STYLE_LINES,        /* lines, with lists of bytes in hexadecimal */
    text = CAPN_STYLE_TEXT,          /* the same, but with lists of bytes that are texts in quotes */
    json = CAPN_STYLE_JSON,          /* one line of JSON */
    json_text = CAPN_STYLE_JSON_TEXT /* the same, but with each UTF-8 Text as a string */
};

/* A path: the numbers that lead from the root to a pointer, as `capn show --at` takes them. */
using way = std::vector<std::uint32_t>;

/* The text of a path, as `capn explain` writes it: its numbers with dots, or `root`. */
inline std::string way_text(const way &numbers) {
    std::string out;
    for (const std::uint32_t number : numbers) out += (out.empty() ? "" : ".") + std::to_string(number);
    return out.empty() ? "root" : out;
}

/* Why a message isn't its canonical bytes, and what a word is part of. */
enum class reason : std::uint32_t {
    segments = CAPN_DEPARTS_SEGMENTS,     /* it has more than one segment: `count` */
    capability = CAPN_DEPARTS_CAPABILITY, /* its value has a capability, of index `count`; its pointer is at `to` */
    word = CAPN_DEPARTS_WORD,             /* a word of it differs from that of the canonical bytes */
    after = CAPN_DEPARTS_AFTER            /* the canonical bytes end before a word of it */
};
enum class owner : std::uint32_t {
    none = CAPN_OWNER_NONE,          /* for reasons other than `word` */
    pointer = CAPN_OWNER_POINTER,    /* it is the pointer at `to`, */
    tag = CAPN_OWNER_TAG,            /* the tag of the list of structs that this pointer refers to, */
    last_word = CAPN_OWNER_LAST_WORD /* or the last word of the list that this pointer refers to */
};

/* The first difference of a valid message from its canonical form. A field that the reason doesn't need is 0 or
 * empty. */
struct departed {
    reason why;
    std::uint32_t count;          /* of segments; the index of a capability */
    std::uint64_t byte;           /* where the word begins in the message; of a packed one, in the unpacked bytes */
    std::uint64_t word;           /* what the word is in the message, */
    std::uint64_t canonical_word; /* and what it is in the canonical bytes */
    capn::owner owner;            /* what it is part of in the canonical bytes */
    way to;                       /* the path to that pointer */
};

/* The result of `canonical_into`, as capn.h has it. It is true if the canonical bytes were written. */
struct [[nodiscard]] filled {
    capn_status status; /* CAPN_OK, CAPN_NO_ROOM, CAPN_NO_SCRATCH, or why there are no canonical bytes */
    capn_report report;
    explicit operator bool() const noexcept { return status == CAPN_OK; }
    /* The number of bytes that were written, or, at CAPN_NO_ROOM, that are needed. */
    std::size_t length() const noexcept { return static_cast<std::size_t>(report.length); }
    /* The number of words of scratch that are needed, at CAPN_NO_SCRATCH; else 0. */
    std::size_t scratch() const noexcept {
        return status == CAPN_NO_SCRATCH ? static_cast<std::size_t>(report.at) : 0;
    }
};

/* Writes the canonical bytes of one message to the start of `out`, with `words` words of 8 bytes of scratch. It
 * allocates nothing and throws nothing. A single segment without a table, and a stream of at most 64 segments, need no
 * scratch; capn.h says how much others need. Unless it returns CAPN_OK, `out` stays unchanged. */
inline filled canonical_into(bytes message, void *scratch, std::size_t words, void *out, std::size_t room,
                             form written = form::stream, const limits &most = {}) noexcept {
    filled told;
    told.status = capn_canonical_with_scratch(detail::number(written), message.u8(), message.size(), &most, scratch,
                                              words, static_cast<std::uint8_t *>(out), room, &told.report);
    return told;
}

/* The canonical bytes of one message. */
inline expected<buffer> try_canonical(bytes message, form written = form::stream, const limits &most = {}) noexcept {
    /* Of a packed one the library says what is enough. */
    const bool is_known = written != form::packed && detail::may_fit(message.size(), written, most);
    const std::size_t capacity = is_known ? detail::first_room(message.size(), most) : 0;
    return detail::made<buffer>(capacity, [&](std::uint8_t *out, std::size_t room, capn_report *report) {
        return capn_canonical(detail::number(written), message.u8(), message.size(), &most, out, room, report);
    });
}

/* The SHA-256 of the canonical bytes of one message. */
inline expected<digest_bytes> try_digest(bytes message, form written = form::stream,
                                         const limits &most = {}) noexcept {
    digest_bytes out;
    capn_report report;
    auto *const to = reinterpret_cast<std::uint8_t *>(out.data());
    const capn_status status = capn_hash(detail::number(written), message.u8(), message.size(), &most, to, &report);
    if (status != CAPN_OK) return error(status, report);
    return out;
}

/* Compares the values of two messages of the same form, without writing their canonical bytes. The error is that of
 * the first one, or else of the second: `which()` says of which. */
inline expected<bool> try_same(bytes first, bytes second, form written = form::stream,
                               const limits &most = {}) noexcept {
    capn_report report;
    std::uint32_t which;
    const capn_status status = capn_same(detail::number(written), first.u8(), first.size(), second.u8(), second.size(),
                                         &most, &which, &report);
    if (status != CAPN_OK && status != CAPN_DIFFERENT) return error(status, report).of_message(which);
    return status == CAPN_OK;
}

/* Whether one message is valid and within the limits, and what reading it costs. */
inline expected<checked> try_check(bytes message, form written = form::stream, const limits &most = {}) noexcept {
    capn_report report;
    const capn_status status = capn_check(detail::number(written), message.u8(), message.size(), &most, &report);
    if (status != CAPN_OK) return error(status, report);
    return checked{report.paid, report.visits};
}

/* The statistics of one message. */
inline expected<capn_figures> try_survey(bytes message, form written = form::stream,
                                         const limits &most = {}) noexcept {
    capn_figures figures;
    capn_report report;
    const capn_status status =
        capn_survey(detail::number(written), message.u8(), message.size(), &most, &figures, &report);
    if (status != CAPN_OK) return error(status, report);
    return figures;
}

namespace detail {

/* Whether a message of these statistics is canonical. A capability is an error: there is no canonical form. */
inline expected<bool> is_canonical_by(const expected<capn_figures> &figures) noexcept {
    if (!figures) return figures.error();
    if (figures->has_capability) {
        capn_report report{};
        report.at = figures->capability;
        return error(CAPN_CAPABILITY, report);
    }
    return figures->canonical == 1;
}

} // namespace detail

/* Whether words, a single segment without a table, are the canonical bytes of their value. */
inline expected<bool> try_is_canonical_words(bytes words, const limits &most = {}) noexcept {
    capn_report report;
    const capn_status status = capn_is_canonical(words.u8(), words.size(), &most, &report);
    if (status != CAPN_OK && status != CAPN_NOT_CANONICAL) return error(status, report);
    return status == CAPN_OK;
}

/* Whether one message has one segment, and that is the canonical bytes of its value; of a packed message, whether that
 * is so once it is unpacked. */
inline expected<bool> try_is_canonical_message(bytes message, form written = form::stream,
                                               const limits &most = {}) noexcept {
    if (written == form::bare) return try_is_canonical_words(message, most);
    return detail::is_canonical_by(try_survey(message, written, most));
}

/* The dump of one message: what `capn show` writes in a style. */
inline expected<std::string> try_show(bytes message, form written = form::stream, const limits &most = {},
                                      style as = style::lines) noexcept {
    const std::size_t most_at_first = 64 * (std::size_t{most.budget} + 1);
    const std::size_t likely = std::min((written == form::packed ? 16 : 4) * message.size(), most_at_first) + 256;
    const std::size_t capacity = detail::may_fit(message.size(), written, most) ? likely : 0;
    return detail::made<std::string>(capacity, [&](std::uint8_t *at, std::size_t room, capn_report *report) {
        return capn_show(detail::number(written), message.u8(), message.size(), &most, static_cast<std::uint32_t>(as),
                         reinterpret_cast<char *>(at), room, report);
    });
}

/* The path to the pointer at which the check of one message stopped; nothing if no pointer is at fault. It checks the
 * message again, so call it once another call returned an error. */
inline expected<std::optional<way>> try_refusal_way(bytes message, form written = form::stream,
                                                    const limits &most = {}) noexcept {
    return detail::guarded([&]() -> expected<std::optional<way>> {
        way numbers(2 * std::min<std::size_t>(most.depth, 256));
        capn_report report;
        const capn_status status = capn_refusal_way(detail::number(written), message.u8(), message.size(), &most,
                                                    numbers.data(), numbers.size(), &report);
        if (status == CAPN_MEMORY || (status != CAPN_OK && status < CAPN_NOT_WHOLE)) return error(status, report);
        if (status < CAPN_NO_ROOT || status > CAPN_OVER_BUDGET) return std::optional<way>();
        numbers.resize(static_cast<std::size_t>(report.length / 4));
        return std::optional<way>(std::move(numbers));
    });
}

/* The first difference of one message from its canonical form, as `capn explain` says it; nothing if it is
 * canonical. */
inline expected<std::optional<departed>> try_departure(bytes message, form written = form::stream,
                                                       const limits &most = {}) noexcept {
    return detail::guarded([&]() -> expected<std::optional<departed>> {
        way numbers(2 * std::min<std::size_t>(most.depth, 256));
        capn_departed found;
        capn_report report;
        const capn_status status = capn_departure(detail::number(written), message.u8(), message.size(), &most, &found,
                                                  numbers.data(), numbers.size(), &report);
        if (status != CAPN_OK) return error(status, report);
        if (found.kind == CAPN_DEPARTS_NOT) return std::optional<departed>();
        numbers.resize(found.numbers);
        const bool is_of_word = found.kind == CAPN_DEPARTS_WORD || found.kind == CAPN_DEPARTS_AFTER;
        const std::uint64_t table = written == form::bare ? 0 : 8;
        return std::optional<departed>({static_cast<reason>(found.kind), found.count,
                                        is_of_word ? table + 8ull * found.word : 0, found.is, found.canonical,
                                        static_cast<capn::owner>(found.owner), std::move(numbers)});
    });
}

/* The kind of the words of a line. */
enum class line_kind : std::uint32_t {
    pointer = CAPN_LINE_POINTER,    /* a pointer that isn't null, */
    null = CAPN_LINE_NULL,          /* null pointers, */
    pad = CAPN_LINE_PAD,            /* a word of a landing pad, */
    tag = CAPN_LINE_TAG,            /* the tag of a list of structs, */
    data = CAPN_LINE_DATA,          /* data words of a struct, or of the elements of a list of structs, */
    list = CAPN_LINE_LIST,          /* elements of a list of bits, bytes or numbers, and the padding after them, */
    slack = CAPN_LINE_SLACK,        /* words of a list of structs after its elements, */
    unreached = CAPN_LINE_UNREACHED /* or words of no object or landing pad */
};

/* The place of a word in a message: its segment, and its number in that segment. */
struct place {
    std::uint32_t segment;
    std::uint32_t word;
    friend constexpr bool operator==(place one, place other) noexcept {
        return one.segment == other.segment && one.word == other.word;
    }
    friend constexpr bool operator!=(place one, place other) noexcept { return !(one == other); }
};

/* A line of a message: words one after another in one segment that are alike. */
struct line {
    std::uint64_t offset;      /* the byte of the first word in the message; of a packed one, in the unpacked bytes */
    place first;               /* the place of the first word */
    std::uint32_t words;       /* how many there are, 1 or more */
    std::uint32_t times;       /* how often objects and landing pads cover each of them; 0 for `unreached` */
    std::optional<place> slot; /* the pointer to the object or landing pad that has them; nothing for the root pointer
                                  and for `unreached` */
    std::uint32_t cut;         /* how many of them canonical bytes leave out */
    std::uint32_t not_zero;    /* how many of them aren't zero */
    line_kind kind;
    bool overlap; /* different objects or landing pads overlap in them */
    bool padding; /* the line has the last word of a list, whose padding isn't zero */
};

namespace detail {

inline line line_of(const capn_line &from) noexcept {
    const auto kind = static_cast<line_kind>(from.kind);
    const place first{from.segment, from.word};
    std::optional<place> slot;
    if (kind != line_kind::unreached && first != place{0, 0}) slot = place{from.slot_segment, from.slot_word};
    return {from.offset, first, from.words, from.times, slot, from.cut, from.not_zero, kind,
            (from.flags & CAPN_LINE_OVERLAP) != 0, (from.flags & CAPN_LINE_PADDING) != 0};
}

} // namespace detail

/* The lines of one message, as `capn annotate` has them: each word of each segment is in exactly one. */
inline expected<std::vector<line>> try_annotate(bytes message, form written = form::stream,
                                                const limits &most = {}) noexcept {
    return detail::guarded([&]() -> expected<std::vector<line>> {
        /* Mostly enough for a small message. Of a larger one the first call says how many lines there are. */
        std::vector<capn_line, detail::unfilled<capn_line>> lines(256);
        capn_report report;
        for (;;) {
            const capn_status status = capn_annotate(detail::number(written), message.u8(), message.size(), &most,
                                                     lines.data(), lines.size(), &report);
            if (status == CAPN_OK) break;
            if (status != CAPN_NO_ROOM) return error(status, report);
            lines.resize(static_cast<std::size_t>(report.length / sizeof(capn_line)));
        }
        lines.resize(static_cast<std::size_t>(report.length / sizeof(capn_line)));
        std::vector<line> out;
        out.reserve(lines.size());
        for (const capn_line &one : lines) out.push_back(detail::line_of(one));
        return out;
    });
}

/* Whole words, packed. */
inline expected<buffer> try_pack(bytes words) noexcept {
    expected<buffer> out =
        detail::made<buffer>(words.size() / 2 + 16, [&](std::uint8_t *to, std::size_t room, capn_report *report) {
            return capn_pack(words.u8(), words.size(), to, room, report);
        });
    if (!out && out.error().is_refusal()) return out.error().of_words();
    return out;
}

/* The words of packed bytes, at most `most_words`. */
inline expected<buffer> try_unpack(bytes packed, std::uint32_t most_words = 8388608 + 2049) noexcept {
    const std::size_t capacity = std::min(4 * packed.size(), 8 * std::size_t{most_words});
    return detail::made<buffer>(capacity, [&](std::uint8_t *to, std::size_t room, capn_report *report) {
        return capn_unpack(packed.u8(), packed.size(), most_words, to, room, report);
    });
}

/* A view of a message in segments, each of `count` words at any address: no table, and no copy. A vector, array or span
 * of `capn_segment` converts to it. */
class segments {
public:
    segments(const capn_segment *first, std::size_t count) noexcept : first_(first), count_(count) {}
    template <class C, std::enable_if_t<detail::holds<C, capn_segment> && !detail::is_view<C>, int> = 0>
    segments(const C &all CAPN_LIFETIMEBOUND) noexcept : segments(std::data(all), std::size(all)) {}
    template <class C, std::enable_if_t<detail::holds<C, capn_segment> && detail::is_view<C>, int> = 0>
    segments(const C &view) noexcept : segments(std::data(view), std::size(view)) {}
    const capn_segment *data() const noexcept { return first_; }
    std::size_t size() const noexcept { return count_; }
    /* The number of bytes of the segments. The count stops once it is more than a message can have. */
    std::size_t bytes_in_all() const noexcept {
        constexpr std::size_t most = 1u << 28;
        std::size_t words = 0;
        for (std::size_t i = 0; i < count_ && words <= most; i++) words += std::min(first_[i].count, most + 1);
        return 8 * words;
    }

private:
    const capn_segment *first_;
    std::size_t count_;
};

inline expected<buffer> try_canonical(segments message, const limits &most = {}) noexcept {
    const std::size_t capacity = detail::first_room(message.bytes_in_all(), most);
    return detail::made<buffer>(capacity, [&](std::uint8_t *out, std::size_t room, capn_report *report) {
        return capn_canonical_segments(message.data(), message.size(), &most, out, room, report);
    });
}
inline expected<digest_bytes> try_digest(segments message, const limits &most = {}) noexcept {
    digest_bytes out;
    capn_report report;
    const capn_status status = capn_hash_segments(message.data(), message.size(), &most,
                                                  reinterpret_cast<std::uint8_t *>(out.data()), &report);
    if (status != CAPN_OK) return error(status, report);
    return out;
}
inline expected<checked> try_check(segments message, const limits &most = {}) noexcept {
    capn_report report;
    const capn_status status = capn_check_segments(message.data(), message.size(), &most, &report);
    if (status != CAPN_OK) return error(status, report);
    return checked{report.paid, report.visits};
}
inline expected<capn_figures> try_survey(segments message, const limits &most = {}) noexcept {
    capn_figures figures;
    capn_report report;
    const capn_status status = capn_survey_segments(message.data(), message.size(), &most, &figures, &report);
    if (status != CAPN_OK) return error(status, report);
    return figures;
}
inline expected<bool> try_is_canonical_message(segments message, const limits &most = {}) noexcept {
    return detail::is_canonical_by(try_survey(message, most));
}
/* It writes the canonical bytes of both, and compares these. */
inline expected<bool> try_same(segments first, segments second, const limits &most = {}) noexcept {
    const expected<buffer> one = try_canonical(first, most);
    if (!one) return one.error();
    const expected<buffer> other = try_canonical(second, most);
    if (!other) return other.error().of_message(1);
    return *one == *other;
}

namespace detail {

/* The segments as a stream, with a table: those of a message that was checked. */
inline expected<buffer> joined(segments message, const limits &most) noexcept {
    const expected<checked> known = try_check(message, most);
    if (!known) return known.error();
    return guarded([&]() -> expected<buffer> {
        const std::size_t count = message.size(), table = 8 * (count / 2 + 1);
        buffer out;
        out.reserve(table + message.bytes_in_all());
        const auto add = [&](std::size_t number) {
            for (int shift = 0; shift < 32; shift += 8) out.push_back(static_cast<std::byte>(number >> shift & 255));
        };
        add(count - 1);
        for (std::size_t i = 0; i < count; i++) add(message.data()[i].count);
        out.resize(table);
        for (std::size_t i = 0; i < count; i++) {
            const capn_segment &one = message.data()[i];
            if (one.count == 0) continue;
            const auto *const from = static_cast<const std::byte *>(one.words);
            out.insert(out.end(), from, from + 8 * one.count);
        }
        return out;
    });
}

} // namespace detail

/* It copies the segments first. */
inline expected<std::string> try_show(segments message, const limits &most = {}, style as = style::lines) noexcept {
    const expected<buffer> whole = detail::joined(message, most);
    if (!whole) return whole.error();
    return try_show(*whole, form::stream, most, as);
}
/* It copies the segments first. Offsets count from the start of the stream of these segments. */
inline expected<std::vector<line>> try_annotate(segments message, const limits &most = {}) noexcept {
    const expected<buffer> whole = detail::joined(message, most);
    if (!whole) return whole.error();
    return try_annotate(*whole, form::stream, most);
}

#if CAPN_EXCEPTIONS
/* Each of these is the call above that has `try_` before its name: it returns the value, or throws the error. */
inline buffer canonical(bytes message, form written = form::stream, const limits &most = {}) {
    return try_canonical(message, written, most).value();
}
inline buffer canonical(segments message, const limits &most = {}) { return try_canonical(message, most).value(); }
inline digest_bytes digest(bytes message, form written = form::stream, const limits &most = {}) {
    return try_digest(message, written, most).value();
}
inline digest_bytes digest(segments message, const limits &most = {}) { return try_digest(message, most).value(); }
inline bool same(bytes first, bytes second, form written = form::stream, const limits &most = {}) {
    return try_same(first, second, written, most).value();
}
inline bool same(segments first, segments second, const limits &most = {}) {
    return try_same(first, second, most).value();
}
inline checked check(bytes message, form written = form::stream, const limits &most = {}) {
    return try_check(message, written, most).value();
}
inline checked check(segments message, const limits &most = {}) { return try_check(message, most).value(); }
inline capn_figures survey(bytes message, form written = form::stream, const limits &most = {}) {
    return try_survey(message, written, most).value();
}
inline capn_figures survey(segments message, const limits &most = {}) { return try_survey(message, most).value(); }
inline bool is_canonical_message(bytes message, form written = form::stream, const limits &most = {}) {
    return try_is_canonical_message(message, written, most).value();
}
inline bool is_canonical_message(segments message, const limits &most = {}) {
    return try_is_canonical_message(message, most).value();
}
inline bool is_canonical_words(bytes words, const limits &most = {}) {
    return try_is_canonical_words(words, most).value();
}
inline std::string show(bytes message, form written = form::stream, const limits &most = {},
                        style as = style::lines) {
    return try_show(message, written, most, as).value();
}
inline std::string show(segments message, const limits &most = {}, style as = style::lines) {
    return try_show(message, most, as).value();
}
inline std::optional<way> refusal_way(bytes message, form written = form::stream, const limits &most = {}) {
    return try_refusal_way(message, written, most).value();
}
inline std::optional<departed> departure(bytes message, form written = form::stream, const limits &most = {}) {
    return try_departure(message, written, most).value();
}
inline std::vector<line> annotate(bytes message, form written = form::stream, const limits &most = {}) {
    return try_annotate(message, written, most).value();
}
inline std::vector<line> annotate(segments message, const limits &most = {}) {
    return try_annotate(message, most).value();
}
inline buffer pack(bytes words) { return try_pack(words).value(); }
inline buffer unpack(bytes packed, std::uint32_t most_words = 8388608 + 2049) {
    return try_unpack(packed, most_words).value();
}

/* An older name. With a form it is `is_canonical_message`. (A template, so that `{}` stands for limits.) */
template <class Form, std::enable_if_t<std::is_same_v<Form, form>, int> = 0>
bool is_canonical(bytes message, Form written, const limits &most = {}) {
    return is_canonical_message(message, written, most);
}
/* Without a form it is `is_canonical_words`: nearly any message of one segment passes there with its segment table,
 * canonical or not. */
[[deprecated("call is_canonical_message, or is_canonical_words for a single segment without its table")]]
inline bool is_canonical(bytes words, const limits &most = {}) {
    return is_canonical_words(words, most);
}
#endif

/* A message of a stream, with its number, from 1 on, and where it begins in the stream, in bytes. */
class stream_message : public bytes {
public:
    stream_message() noexcept = default;
    stream_message(bytes message, std::uint64_t number, std::uint64_t offset) noexcept
        : bytes(message), number_(number), offset_(offset) {}
    std::uint64_t number() const noexcept { return number_; }
    std::uint64_t offset() const noexcept { return offset_; }

private:
    std::uint64_t number_ = 0, offset_ = 0;
};

namespace detail {

/* The result of `->` of an iterator whose elements are made as they are read. */
template <class T> struct arrow {
    T held;
    const T *operator->() const noexcept { return &held; }
};

} // namespace detail

/* Calls `each` with every message of a stream, in order, as a `stream_message`; also with its offset, if it takes two.
 * It returns how many there are, or the error of a segment table: the stream ends there. An `each` that doesn't throw
 * goes on after a message that it rejects. */
template <class Each> expected<std::size_t> try_for_each(bytes stream, const limits &most, Each &&each) {
    std::size_t from = 0, number = 0;
    while (from < stream.size()) {
        capn_report report;
        const capn_status status = capn_first(stream.u8() + from, stream.size() - from, &most, &report);
        number++;
        if (status != CAPN_OK) return error(status, report).in_stream(number, from);
        const bytes message(stream.data() + from, static_cast<std::size_t>(report.length));
        if constexpr (std::is_invocable_v<Each, bytes, std::size_t>) each(message, from);
        else each(stream_message(message, number, from));
        from += message.size();
    }
    return number;
}
template <class Each> expected<std::size_t> try_for_each(bytes stream, Each &&each) {
    return try_for_each(stream, limits(), std::forward<Each>(each));
}
#if CAPN_EXCEPTIONS
/* Does what `try_for_each` does, but throws the error. */
template <class Each> std::size_t for_each(bytes stream, const limits &most, Each &&each) {
    return try_for_each(stream, most, std::forward<Each>(each)).value();
}
template <class Each> std::size_t for_each(bytes stream, Each &&each) {
    return for_each(stream, limits(), std::forward<Each>(each));
}
#endif

namespace detail {

template <class A> inline constexpr bool is_size = std::is_unsigned_v<A> && !std::is_same_v<A, bool>;
template <class A, class = void> inline constexpr bool is_maybe_size = false;
template <class A>
inline constexpr bool is_maybe_size<A, std::void_t<decltype(std::declval<const A &>().has_value())>> =
    is_size<std::decay_t<decltype(*std::declval<const A &>())>>;

template <class Read> using answer_of = std::decay_t<std::invoke_result_t<Read &, std::byte *, std::size_t>>;

template <class Read> constexpr bool returns_size() {
    static_assert(is_size<answer_of<Read>> || is_maybe_size<answer_of<Read>>,
                  "the function of a reader returns a std::size_t, or an optional or expected one; no signed type, "
                  "since the -1 of read(2) is no number of bytes: test for an error first");
    return true;
}

/* Reads at most the given number of bytes, and returns how many bytes came. */
template <class Read> expected<std::size_t> read_some(Read &read, std::byte *to, std::size_t most) {
    using answer = answer_of<Read>;
    std::size_t came;
    if constexpr (is_size<answer>) came = static_cast<std::size_t>(read(to, most));
    else {
        const answer got = read(to, most);
        if (!got.has_value()) {
            if constexpr (std::is_same_v<answer, expected<std::size_t>>) return got.error();
            else return error(read_failed);
        }
        came = static_cast<std::size_t>(*got);
    }
    if (came > most) return error(read_overrun);
    return came;
}

} // namespace detail

/* The messages of a stream that arrives in chunks. `Read` is a function `std::size_t(std::byte *to, std::size_t most)`:
 * it writes at least a byte, at most `most`, and returns how many; at the end of the stream it returns 0. If reading
 * fails, it throws; or it returns a `std::optional` or an `expected` of a size, without a value then. In both cases
 * nothing is lost: `next` may be called again.
 *
 * It is never asked for a byte that follows the message: a message is returned as soon as it is there, and bytes after
 * it are left to whoever reads on.
 *
 * A message that is complete and that another call rejects doesn't end the stream: go on with the next one. An error of
 * a segment table does, since nobody knows where the next message begins: each further call returns it again.
 *
 * A reader belongs to one thread at a time. It can't be copied. */
template <class Read> class reader {
    static_assert(detail::returns_size<Read>());

public:
    explicit reader(Read read, const limits &most = {}) : read_(std::move(read)), most_(most) {}
    reader(const reader &) = delete;
    reader &operator=(const reader &) = delete;
    /* Don't read on by the reader that was moved from: bytes of its stream went with the other one. */
    reader(reader &&other) noexcept(std::is_nothrow_move_constructible_v<Read>)
        : read_(std::move(other.read_)), most_(other.most_), held_(std::exchange(other.held_, {})),
          have_(std::exchange(other.have_, 0)), number_(std::exchange(other.number_, 0)),
          offset_(std::exchange(other.offset_, 0)), last_(std::exchange(other.last_, 0)),
          whole_(std::exchange(other.whole_, false)) {}

    /* The next message, or nothing at the end. The bytes are those of the reader: they are valid until the next call,
     * and as long as the reader. Only what `Read` throws is thrown. */
    expected<std::optional<stream_message>> try_next() & {
        if (whole_) {
            last_ = offset_;
            offset_ += have_;
            have_ = 0;
            whole_ = false;
        }
        for (;;) {
            capn_report report;
            const capn_status status = capn_first(u8(), have_, &most_, &report);
            if (status == CAPN_OK) {
                number_++;
                whole_ = true;
                return std::optional(message());
            }
            if (status != CAPN_FRAME_EMPTY && status != CAPN_FRAME_CUT) return placed(error(status, report));
            const std::size_t need = static_cast<std::size_t>(report.length);
            /* A table may announce much and bring little: the buffer grows with what came. */
            const std::size_t room = std::min(need, std::max<std::size_t>(2 * have_, 65536));
            if (held_.size() < room) {
                const auto grown = detail::guarded([&]() -> expected<std::size_t> {
                    held_.resize(room);
                    return room;
                });
                if (!grown) return placed(grown.error());
            }
            const expected<std::size_t> came =
                detail::read_some(read_, held_.data() + have_, std::min(need, room) - have_);
            if (!came) return placed(came.error());
            if (*came == 0) {
                if (have_ == 0) return std::optional<stream_message>();
                report.length = 0;
                return placed(error(CAPN_FRAME_CUT, report));
            }
            have_ += *came;
        }
    }
    expected<std::optional<stream_message>> try_next() && = delete;
#if CAPN_EXCEPTIONS
    /* Does what `try_next` does, but throws the error. */
    std::optional<bytes> next() & {
        if (const auto found = try_next().value()) return *found;
        return std::nullopt;
    }
    std::optional<bytes> next() && = delete;

    /* The reader is a range of its messages, each a `stream_message`. It is read once. */
    class iterator {
    public:
        using iterator_concept = std::input_iterator_tag;
        using iterator_category = std::input_iterator_tag;
        using value_type = stream_message;
        using difference_type = std::ptrdiff_t;
        using pointer = detail::arrow<stream_message>;
        using reference = stream_message;
        iterator() noexcept = default;
        stream_message operator*() const noexcept { return of_->message(); }
        pointer operator->() const noexcept { return {**this}; }
        iterator &operator++() {
            if (!of_->next()) of_ = nullptr;
            return *this;
        }
        void operator++(int) { ++*this; }
        friend bool operator==(const iterator &a, const iterator &b) noexcept { return a.of_ == b.of_; }
        friend bool operator!=(const iterator &a, const iterator &b) noexcept { return a.of_ != b.of_; }

    private:
        friend reader;
        explicit iterator(reader *of) noexcept : of_(of) {}
        reader *of_ = nullptr;
    };
    iterator begin() & { return ++iterator(this); }
    iterator end() & noexcept { return {}; }
    iterator begin() && = delete;
    iterator end() && = delete;
#endif

    /* The number of messages that were returned, the offset of the last message, and the offset of the next message.
     * Offsets are in bytes of the stream. */
    std::uint64_t number() const noexcept { return number_; }
    std::uint64_t message_offset() const noexcept { return whole_ ? offset_ : last_; }
    std::uint64_t offset() const noexcept { return whole_ ? offset_ + have_ : offset_; }

private:
    const std::uint8_t *u8() const noexcept { return reinterpret_cast<const std::uint8_t *>(held_.data()); }
    stream_message message() const noexcept { return {bytes(held_.data(), have_), number_, offset_}; }
    error placed(const error &why) const noexcept { return why.in_stream(number_ + 1, offset_); }

    Read read_;
    limits most_;
    detail::room held_;
    std::size_t have_ = 0;
    std::uint64_t number_ = 0, offset_ = 0, last_ = 0;
    bool whole_ = false;
};

namespace detail {

/* The first call returns the least number of bytes of a group of packed bytes that begins so. The second call returns
 * the number of words of a complete group. */
inline std::size_t group_size(const std::byte *from, std::size_t have) noexcept {
    if (have == 0) return 1;
    unsigned tag = std::to_integer<unsigned>(from[0]);
    if (tag == 0) return 2;
    if (tag == 255) return have < 10 ? 10 : 10 + 8 * std::to_integer<std::size_t>(from[9]);
    std::size_t size = 1;
    for (; tag; tag &= tag - 1) size++;
    return size;
}
inline std::size_t group_words(const std::byte *group) noexcept {
    const unsigned tag = std::to_integer<unsigned>(group[0]);
    return tag == 0 ? 1 + std::to_integer<std::size_t>(group[1])
                    : tag == 255 ? 1 + std::to_integer<std::size_t>(group[9]) : 1;
}

/* A function for a reader, over one that reads packed bytes. It reads no group after the one that has the last word
 * that it is asked for. */
template <class Read> class unpacking {
    static_assert(returns_size<Read>());

public:
    explicit unpacking(Read read) : read_(std::move(read)) {}
    unpacking(unpacking &&other) noexcept(std::is_nothrow_move_constructible_v<Read>)
        : read_(std::move(other.read_)), packed_(std::exchange(other.packed_, {})),
          left_(std::exchange(other.left_, {})), at_(std::exchange(other.at_, 0)),
          have_(std::exchange(other.have_, 0)), begun_(std::exchange(other.begun_, 0)),
          words_(std::exchange(other.words_, 0)), taken_(std::exchange(other.taken_, 0)) {}

    expected<std::size_t> operator()(std::byte *to, std::size_t most) {
        if (at_ == left_.size()) {
            const expected<std::size_t> words = gather((most + 7) / 8);
            if (!words) return words.error();
            if (*words == 0) return std::size_t{0};
            capn_report report;
            const auto unpacked = guarded([&]() -> expected<std::size_t> {
                left_.clear();
                at_ = 0;
                room out(8 * *words);
                const capn_status status =
                    capn_unpack_some(reinterpret_cast<const std::uint8_t *>(packed_.data()), have_,
                                     reinterpret_cast<std::uint8_t *>(out.data()), out.size(), &report);
                if (status != CAPN_OK) return error(status, report);
                left_ = std::move(out);
                return left_.size();
            });
            if (!unpacked) return unpacked.error();
            taken_ += have_;
            have_ = begun_ = words_ = 0;
        }
        const std::size_t count = std::min(most, left_.size() - at_);
        std::memcpy(to, left_.data() + at_, count);
        at_ += count;
        return count;
    }

private:
    /* Reads groups until they have so many words; a few thousand at most at once. A group has at most 256 words, and
     * 2,050 bytes. */
    expected<std::size_t> gather(std::size_t words) {
        words = std::min<std::size_t>(words, 4096);
        while (words_ < words) {
            const std::size_t need = begun_ + group_size(packed_.data() + begun_, have_ - begun_);
            if (have_ == need) {
                words_ += group_words(packed_.data() + begun_);
                begun_ = have_;
                continue;
            }
            const auto grown = guarded([&]() -> expected<std::size_t> {
                if (packed_.size() < need) packed_.resize(need);
                return need;
            });
            if (!grown) return grown.error();
            const expected<std::size_t> came = read_some(read_, packed_.data() + have_, need - have_);
            if (!came) return came.error();
            if (*came == 0 && have_ == begun_) break;
            if (*came == 0) {
                capn_report report{};
                report.at = taken_ + begun_;
                return error(CAPN_PACKED_CUT, report);
            }
            have_ += *came;
        }
        return words_;
    }

    Read read_;
    room packed_; /* complete groups, and the one that has begun */
    room left_;   /* words that were not asked for, from `at_` on */
    std::size_t at_ = 0, have_ = 0, begun_ = 0, words_ = 0;
    std::uint64_t taken_ = 0;
};

} // namespace detail

/* The messages of a packed stream that arrives in chunks. It is a `reader` in all but that `Read` reads packed bytes,
 * and that no byte is asked for after the group in which the message ends. Offsets are those of the unpacked bytes. A
 * group begins with one byte that says how long it is, so `Read` is often asked for one byte: let it have a buffer. */
template <class Read> class packed_reader : public reader<detail::unpacking<Read>> {
public:
    explicit packed_reader(Read read, const limits &most = {})
        : reader<detail::unpacking<Read>>(detail::unpacking<Read>(std::move(read)), most) {}
};

/* The kind of the object that a pointer refers to. */
enum class kind : std::uint32_t {
    null = CAPN_KIND_NULL,
    structure = CAPN_KIND_STRUCT,
    voids = CAPN_KIND_VOID,
    bits = CAPN_KIND_BITS,
    bytes = CAPN_KIND_BYTES,
    u16 = CAPN_KIND_U16,
    u32 = CAPN_KIND_U32,
    u64 = CAPN_KIND_U64,
    pointers = CAPN_KIND_POINTERS,
    rows = CAPN_KIND_ROWS,
    capability = CAPN_KIND_CAPABILITY
};

namespace detail {

template <class T> inline constexpr std::uint32_t width = std::is_same_v<T, bool> ? 1 : 8 * sizeof(T);

template <class T> struct is_field : std::bool_constant<std::is_arithmetic_v<T> || std::is_enum_v<T>> {};

/* The bits of a number, and the number of such bits. */
template <class T> std::uint64_t to_bits(T number) noexcept {
    if constexpr (std::is_same_v<T, bool>) return number ? 1 : 0;
    else {
        std::uint64_t bits = 0;
        if constexpr (std::is_floating_point_v<T>) {
            std::conditional_t<sizeof(T) == 4, std::uint32_t, std::uint64_t> same;
            static_assert(sizeof same == sizeof number, "Float32 and Float64 alone");
            std::memcpy(&same, &number, sizeof same);
            bits = same;
        } else bits = static_cast<std::uint64_t>(number);
        return bits;
    }
}
template <class T> T of_bits(std::uint64_t bits) noexcept {
    if constexpr (std::is_floating_point_v<T>) {
        const auto same = static_cast<std::conditional_t<sizeof(T) == 4, std::uint32_t, std::uint64_t>>(bits);
        T number;
        std::memcpy(&number, &same, sizeof number);
        return number;
    } else if constexpr (std::is_same_v<T, bool>) return bits != 0;
    else return static_cast<T>(bits);
}

/* Strings that own their bytes, which a view of them outlives if they are a temporary. */
template <class S>
inline constexpr bool owns_text = std::is_class_v<S> && !std::is_trivially_copyable_v<S>
                                  && std::is_convertible_v<const S &, std::string_view>;

} // namespace detail

class record;
class rows;
template <class T> class numbers;

/* The object that a pointer refers to, in the message of an index. It is valid as long as the index and the bytes. */
class value {
public:
    value() noexcept : message_(nullptr), entry_(nullptr) {}
    value(const std::uint8_t *message, const capn_entry *entry) noexcept : message_(message), entry_(entry) {}

    capn::kind kind() const noexcept { return entry_ ? static_cast<capn::kind>(entry_->kind) : capn::kind::null; }
    bool is_null() const noexcept { return kind() == capn::kind::null; }
    /* Its entry; null for a pointer that a struct doesn't have. */
    const capn_entry *entry() const noexcept { return entry_; }

    /* Each call returns the object as the schema has it, or the kind of the object if that is another one. A null
     * pointer gives `fallback`, a struct in which each field has its default, and a list without elements. */
    expected<record, capn::kind> try_struct() const noexcept;
    expected<std::string_view, capn::kind> try_text(std::string_view fallback CAPN_LIFETIMEBOUND = {}) const noexcept;
    template <class S, std::enable_if_t<!std::is_lvalue_reference_v<S> && detail::owns_text<std::remove_cv_t<S>>,
                                        int> = 0>
    expected<std::string_view, capn::kind> try_text(S &&fallback) const = delete;
    expected<bytes, capn::kind> try_data() const noexcept;
    template <class T> expected<numbers<T>, capn::kind> try_list() const noexcept;
    expected<rows, capn::kind> try_structs() const noexcept;
    expected<rows, capn::kind> try_pointers() const noexcept;
    expected<std::uint32_t, capn::kind> try_capability() const noexcept {
        if (kind() != capn::kind::capability) return kind();
        return entry_->count;
    }
#if CAPN_EXCEPTIONS
    /* These calls do what the calls with `try_` do, but throw `mismatch` if the object has another kind. */
    record as_struct() const;
    std::string_view text(std::string_view fallback CAPN_LIFETIMEBOUND = {}) const {
        return expect(try_text(fallback), "text");
    }
    template <class S, std::enable_if_t<!std::is_lvalue_reference_v<S> && detail::owns_text<std::remove_cv_t<S>>,
                                        int> = 0>
    std::string_view text(S &&fallback) const = delete;
    bytes data() const { return expect(try_data(), "data"); }
    template <class T> numbers<T> list() const;
    rows structs() const;
    rows pointers() const;
    std::uint32_t capability() const { return expect(try_capability(), "capability"); }
#endif

private:
#if CAPN_EXCEPTIONS
    template <class T> static T expect(const expected<T, capn::kind> &found, const char *wanted) {
        if (!found) throw mismatch(wanted);
        return *found;
    }
#endif

    const std::uint8_t *message_;
    const capn_entry *entry_;
};

/* A struct, wherever it lies. */
class record {
public:
    record() noexcept : message_(nullptr), of_{} {}
    record(const std::uint8_t *message, const capn_record &of) noexcept : message_(message), of_(of) {}

    /* The data field at a bit, with its default: `bits[64, 96)` of `capnp compile -ocapnp` is `get<std::uint32_t>(64)`.
     * T is bool, an integer, a float or an enum of 16 bits, as wide as the field. */
    template <class T> T get(std::uint32_t bit, T fallback = T()) const noexcept {
        static_assert(detail::is_field<T>::value && sizeof(T) <= 8, "a number, a bool or an enum");
        return detail::of_bits<T>(capn_field(&of_, bit, detail::width<T>, detail::to_bits(fallback)));
    }
    /* The pointer k; null if the struct doesn't have it. */
    value slot(std::uint32_t k) const noexcept { return {message_, capn_slot(&of_, k)}; }
    std::uint32_t slots() const noexcept { return of_.slots; }
    std::uint32_t data_bits() const noexcept { return of_.bits; }

private:
    const std::uint8_t *message_;
    capn_record of_;
};

/* The elements of a list of structs or of pointers, each as a record, from the first to the last one: a forward range
 * that knows its size. */
class rows {
public:
    class iterator {
    public:
        using iterator_concept = std::forward_iterator_tag;
        using iterator_category = std::input_iterator_tag;
        using value_type = record;
        using difference_type = std::ptrdiff_t;
        using pointer = detail::arrow<record>;
        using reference = record;
        iterator() noexcept : message_(nullptr), left_{} {}
        iterator(const std::uint8_t *message, const capn_items &left) noexcept : message_(message), left_(left) {}
        record operator*() const noexcept {
            capn_items left = left_;
            capn_record at;
            capn_next(&left, &at);
            return {message_, at};
        }
        pointer operator->() const noexcept { return {**this}; }
        iterator &operator++() noexcept {
            capn_record at;
            capn_next(&left_, &at);
            return *this;
        }
        iterator operator++(int) noexcept {
            const iterator old = *this;
            ++*this;
            return old;
        }
        friend bool operator==(const iterator &a, const iterator &b) noexcept { return a.left_.count == b.left_.count; }
        friend bool operator!=(const iterator &a, const iterator &b) noexcept { return !(a == b); }

    private:
        const std::uint8_t *message_;
        capn_items left_;
    };
    rows() noexcept : message_(nullptr), items_{} {}
    rows(const std::uint8_t *message, const capn_items &items) noexcept : message_(message), items_(items) {}
    std::uint32_t size() const noexcept { return items_.count; }
    bool empty() const noexcept { return size() == 0; }
    iterator begin() const noexcept { return {message_, items_}; }
    iterator end() const noexcept {
        capn_items none = items_;
        none.count = 0;
        return {message_, none};
    }

private:
    const std::uint8_t *message_;
    capn_items items_;
};

/* A list of numbers: a random access range. */
template <class T> class numbers {
public:
    numbers() noexcept : items_{} {}
    explicit numbers(const capn_items &items) noexcept : items_(items) {}
    std::uint32_t size() const noexcept { return items_.count; }
    bool empty() const noexcept { return size() == 0; }
    /* The number i, which has to be less than `size()`. The sender chooses the size, and nothing is checked here. */
    T operator[](std::uint32_t i) const noexcept { return detail::of_bits<T>(capn_number(&items_, i)); }
    /* The number i; nothing, or a `mismatch`, if the list has no more than i. */
    std::optional<T> try_at(std::uint32_t i) const noexcept {
        return i < size() ? std::optional<T>((*this)[i]) : std::nullopt;
    }
#if CAPN_EXCEPTIONS
    T at(std::uint32_t i) const {
        if (i >= size()) throw mismatch("such element");
        return (*this)[i];
    }
#endif

    class iterator {
    public:
        using iterator_concept = std::random_access_iterator_tag;
        using iterator_category = std::input_iterator_tag;
        using value_type = T;
        using difference_type = std::ptrdiff_t;
        using pointer = const T *;
        using reference = T;
        iterator() noexcept : items_{} {}
        iterator(const capn_items &items, difference_type at) noexcept : items_(items), at_(at) {}
        T operator*() const noexcept {
            return detail::of_bits<T>(capn_number(&items_, static_cast<std::uint32_t>(at_)));
        }
        T operator[](difference_type n) const noexcept { return *(*this + n); }
        iterator &operator++() noexcept { return *this += 1; }
        iterator &operator--() noexcept { return *this -= 1; }
        iterator operator++(int) noexcept { return std::exchange(*this, *this + 1); }
        iterator operator--(int) noexcept { return std::exchange(*this, *this - 1); }
        iterator &operator+=(difference_type n) noexcept {
            at_ += n;
            return *this;
        }
        iterator &operator-=(difference_type n) noexcept { return *this += -n; }
        friend iterator operator+(iterator a, difference_type n) noexcept { return a += n; }
        friend iterator operator+(difference_type n, iterator a) noexcept { return a += n; }
        friend iterator operator-(iterator a, difference_type n) noexcept { return a -= n; }
        friend difference_type operator-(const iterator &a, const iterator &b) noexcept { return a.at_ - b.at_; }
        friend bool operator==(const iterator &a, const iterator &b) noexcept { return a.at_ == b.at_; }
        friend bool operator!=(const iterator &a, const iterator &b) noexcept { return a.at_ != b.at_; }
        friend bool operator<(const iterator &a, const iterator &b) noexcept { return a.at_ < b.at_; }
        friend bool operator>(const iterator &a, const iterator &b) noexcept { return a.at_ > b.at_; }
        friend bool operator<=(const iterator &a, const iterator &b) noexcept { return a.at_ <= b.at_; }
        friend bool operator>=(const iterator &a, const iterator &b) noexcept { return a.at_ >= b.at_; }

    private:
        capn_items items_;
        difference_type at_ = 0;
    };
    iterator begin() const noexcept { return {items_, 0}; }
    iterator end() const noexcept { return {items_, static_cast<std::ptrdiff_t>(size())}; }

private:
    capn_items items_;
};

inline expected<record, capn::kind> value::try_struct() const noexcept {
    capn_record of;
    if (!capn_struct(message_, entry_, &of)) return kind();
    return record(message_, of);
}
inline expected<std::string_view, capn::kind> value::try_text(std::string_view fallback) const noexcept {
    const char *text;
    std::size_t length;
    if (!capn_text(message_, entry_, &text, &length)) return kind();
    return text ? std::string_view(text, length) : fallback;
}
inline expected<bytes, capn::kind> value::try_data() const noexcept {
    const std::uint8_t *data;
    std::size_t length;
    if (!capn_data(message_, entry_, &data, &length)) return kind();
    return bytes(data, length);
}
template <class T> expected<numbers<T>, capn::kind> value::try_list() const noexcept {
    static_assert(detail::is_field<T>::value && sizeof(T) <= 8, "a number, a bool or an enum");
    constexpr std::uint32_t width = detail::width<T>;
    constexpr std::uint32_t of = width == 1    ? CAPN_KIND_BITS
                                 : width == 8  ? CAPN_KIND_BYTES
                                 : width == 16 ? CAPN_KIND_U16
                                 : width == 32 ? CAPN_KIND_U32
                                               : CAPN_KIND_U64;
    capn_items items;
    if (!capn_list(message_, entry_, of, &items)) return kind();
    return numbers<T>(items);
}
inline expected<rows, capn::kind> value::try_structs() const noexcept {
    capn_items items;
    if (!capn_list(message_, entry_, CAPN_KIND_ROWS, &items)) return kind();
    return rows(message_, items);
}
inline expected<rows, capn::kind> value::try_pointers() const noexcept {
    capn_items items;
    if (!capn_list(message_, entry_, CAPN_KIND_POINTERS, &items)) return kind();
    return rows(message_, items);
}
#if CAPN_EXCEPTIONS
inline record value::as_struct() const { return expect(try_struct(), "struct"); }
template <class T> numbers<T> value::list() const { return expect(try_list<T>(), "list of these numbers"); }
inline rows value::structs() const { return expect(try_structs(), "list of structs"); }
inline rows value::pointers() const { return expect(try_pointers(), "list of pointers"); }
#endif

namespace detail {

template <class C>
inline constexpr bool owns_bytes = holds_bytes<C> && !std::is_base_of_v<bytes, C> && !is_view<C>;

} // namespace detail

/* The index of one message, by which it is read in place: an entry of 24 bytes for each pointer, in preorder. The bytes
 * stay where they are. Neither they nor the index may go while a value of it is used, so keep both in variables: to
 * read by a temporary index, or to make one of a temporary container, doesn't compile. */
class index {
public:
    index(const index &) = delete;
    index &operator=(const index &) = delete;
    /* An index that was moved from is empty: it has no entry, and its root is null. */
    index(index &&other) noexcept
        : message_(std::exchange(other.message_, {})), entries_(std::move(other.entries_)),
          size_(std::exchange(other.size_, 0)), own_(std::exchange(other.own_, {})) {}
    index &operator=(index &&other) noexcept {
        if (this == &other) return *this;
        message_ = std::exchange(other.message_, {});
        entries_ = std::move(other.entries_);
        size_ = std::exchange(other.size_, 0);
        own_ = std::exchange(other.own_, {});
        return *this;
    }

    /* Checks a message, a stream or a single segment without a table, and makes its index. Unpack a packed one
     * first. */
    static expected<index> try_of(bytes message, form written = form::stream, const limits &most = {}) noexcept {
        constexpr std::size_t at_hand = 64;
        capn_entry few[at_hand];
        capn_report report;
        const std::uint32_t number = detail::number(written);
        capn_status status = capn_index(number, message.u8(), message.size(), &most, few, at_hand, &report);
        if (status != CAPN_OK && status != CAPN_NO_ROOM) return error(status, report);
        index made(message);
        made.size_ = report.visits;
        made.entries_.reset(new (std::nothrow) capn_entry[report.visits]);
        if (!made.entries_) return error(CAPN_MEMORY);
        if (status == CAPN_OK) std::copy_n(few, report.visits, made.entries_.get());
        else status = capn_index(number, message.u8(), message.size(), &most, made.entries_.get(), made.size_, &report);
        if (status != CAPN_OK) return error(status, report);
        return made;
    }
    /* Makes an index of a message in segments. The words of the segments are copied, and the index has the copy. */
    static expected<index> try_of(segments message, const limits &most = {}) noexcept {
        expected<buffer> whole = detail::joined(message, most);
        if (!whole) return whole.error();
        expected<index> made = try_of(bytes(*whole), form::stream, most);
        if (made) made->own_ = *std::move(whole);
        return made;
    }
    template <class C, std::enable_if_t<!std::is_lvalue_reference_v<C> && detail::owns_bytes<std::remove_cv_t<C>>,
                                        int> = 0>
    static expected<index> try_of(C &&message, form written = form::stream, const limits &most = {}) = delete;
#if CAPN_EXCEPTIONS
    /* These calls do what `try_of` does, but throw the error. */
    static index of(bytes message, form written = form::stream, const limits &most = {}) {
        return try_of(message, written, most).value();
    }
    static index of(segments message, const limits &most = {}) { return try_of(message, most).value(); }
    template <class C, std::enable_if_t<!std::is_lvalue_reference_v<C> && detail::owns_bytes<std::remove_cv_t<C>>,
                                        int> = 0>
    static index of(C &&message, form written = form::stream, const limits &most = {}) = delete;
#endif

    value root() const & noexcept CAPN_LIFETIMEBOUND { return {message_.u8(), entries_.get()}; }
    value root() const && = delete;
    /* Its entries. */
    const capn_entry *data() const & noexcept CAPN_LIFETIMEBOUND { return entries_.get(); }
    const capn_entry *data() const && = delete;
    std::size_t size() const noexcept { return size_; }
    /* The bytes that it was made of; of segments, the copy. */
    bytes message() const noexcept CAPN_LIFETIMEBOUND { return message_; }

private:
    explicit index(bytes message) noexcept : message_(message) {}
    bytes message_;
    std::unique_ptr<capn_entry[]> entries_;
    std::size_t size_ = 0;
    buffer own_;
};

} // namespace capn

#ifdef __cpp_lib_span
/* Views, whose iterators may outlive them. */
template <> inline constexpr bool std::ranges::enable_borrowed_range<capn::rows> = true;
template <> inline constexpr bool std::ranges::enable_view<capn::rows> = true;
template <class T> inline constexpr bool std::ranges::enable_borrowed_range<capn::numbers<T>> = true;
template <class T> inline constexpr bool std::ranges::enable_view<capn::numbers<T>> = true;
#endif

#endif
