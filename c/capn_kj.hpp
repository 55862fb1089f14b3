/* The library over messages of capnp and kj.
 *
 * The calls of capn.hpp that take segments take a MessageReader, a MessageBuilder and an array of segments here: the
 * message is not copied, but for `show`, and for an index, which is made of a `kj_segments` in a variable. */
#ifndef CAPN_KJ_HPP
#define CAPN_KJ_HPP

#include "capn.hpp"

#include <capnp/message.h>

namespace capn {

/* The segments of a message where they lie, not copied. It converts to `segments`, which refers to it: a temporary one
 * doesn't. It is valid as long as the message stays unchanged: a builder that is written to may go on to another
 * segment. */
class kj_segments {
public:
    kj_segments(kj::ArrayPtr<const kj::ArrayPtr<const capnp::word>> message) {
        all_.reserve(message.size());
        for (const auto &segment : message) add(segment);
    }
    /* The segments that `messageToFlatArray` would write. A builder without a root has no segment, and is rejected. */
    kj_segments(capnp::MessageBuilder &message) : kj_segments(message.getSegmentsForOutput()) {}
    /* The limits of a reader don't matter here: it only says where its segments are. A null segment means that it has
     * no more. So where an array has a null segment between others, pass the array itself, or its reader by its
     * type. */
    kj_segments(capnp::MessageReader &message) {
        for (unsigned id = 0;; id++) {
            const kj::ArrayPtr<const capnp::word> segment = message.getSegment(id);
            if (segment == nullptr && segment.begin() == nullptr) break;
            add(segment);
        }
    }
    /* A segment of the array behind this reader may be null, and others may follow it: this asks for each number that
     * a message can have. Passing the array itself is faster. */
    kj_segments(capnp::SegmentArrayMessageReader &message) {
        constexpr unsigned most = 4096;
        unsigned count = 0;
        for (unsigned id = 0; id <= most; id++)
            if (message.getSegment(id) != nullptr) count = id + 1;
        for (unsigned id = 0; id < count; id++) add(message.getSegment(id));
    }
    operator segments() const & noexcept CAPN_LIFETIMEBOUND { return {all_.data(), all_.size()}; }
    operator segments() const && = delete;

private:
    void add(kj::ArrayPtr<const capnp::word> segment) { all_.push_back({segment.begin(), segment.size()}); }

    std::vector<capn_segment> all_;
};

/* Bytes of kj, as those of any container. */
inline bytes bytes_of(kj::ArrayPtr<const kj::byte> data) noexcept { return {data.begin(), data.size()}; }

inline expected<buffer> try_canonical(const kj_segments &message, const limits &most = {}) noexcept {
    return try_canonical(segments(message), most);
}
inline expected<digest_bytes> try_digest(const kj_segments &message, const limits &most = {}) noexcept {
    return try_digest(segments(message), most);
}
inline expected<checked> try_check(const kj_segments &message, const limits &most = {}) noexcept {
    return try_check(segments(message), most);
}
inline expected<capn_figures> try_survey(const kj_segments &message, const limits &most = {}) noexcept {
    return try_survey(segments(message), most);
}
inline expected<bool> try_is_canonical_message(const kj_segments &message, const limits &most = {}) noexcept {
    return try_is_canonical_message(segments(message), most);
}
inline expected<bool> try_same(const kj_segments &first, const kj_segments &second,
                               const limits &most = {}) noexcept {
    return try_same(segments(first), segments(second), most);
}
inline expected<std::string> try_show(const kj_segments &message, const limits &most = {},
                                      style as = style::lines) noexcept {
    return try_show(segments(message), most, as);
}
inline expected<std::vector<line>> try_annotate(const kj_segments &message, const limits &most = {}) noexcept {
    return try_annotate(segments(message), most);
}
#if CAPN_EXCEPTIONS
inline buffer canonical(const kj_segments &message, const limits &most = {}) {
    return try_canonical(message, most).value();
}
inline digest_bytes digest(const kj_segments &message, const limits &most = {}) {
    return try_digest(message, most).value();
}
inline checked check(const kj_segments &message, const limits &most = {}) { return try_check(message, most).value(); }
inline capn_figures survey(const kj_segments &message, const limits &most = {}) {
    return try_survey(message, most).value();
}
inline bool is_canonical_message(const kj_segments &message, const limits &most = {}) {
    return try_is_canonical_message(message, most).value();
}
inline bool same(const kj_segments &first, const kj_segments &second, const limits &most = {}) {
    return try_same(first, second, most).value();
}
inline std::string show(const kj_segments &message, const limits &most = {}, style as = style::lines) {
    return try_show(message, most, as).value();
}
inline std::vector<line> annotate(const kj_segments &message, const limits &most = {}) {
    return try_annotate(message, most).value();
}
#endif

} // namespace capn

#endif
