// Package capn checks, canonicalizes, hashes, packs and reads Cap'n Proto messages. It needs no schema.
//
// By cgo, the package calls the library for C, which is formally verified. The package is for Linux on amd64. On other
// systems, and without cgo, each call returns ErrUnsupported. The package itself is tested, not proved.
//
// Each call that takes a message takes the message's bytes, its Form, and the Limits. Limits that are nil or zero stand
// for the default limits. For a message that is invalid or over a limit, a call returns an *Error. errors.Is compares
// the error with a Kind such as ErrTooDeep.
//
// The bytes of a message must not change while a call runs: the library relies on this, and a change can make the
// library read outside of the bytes. Any goroutines may make calls at the same time, even on the same bytes. A Reader
// is for one goroutine at a time.
package capn

import (
	"errors"
	"unsafe"
)

// Form is the way in which the bytes of a message are written.
type Form uint32

const (
	Stream Form = iota // a segment table, then the segments
	Packed             // such bytes, packed
	Bare               // the words of one segment, without a table
)

// Tariff is the rule by which the cost of reading a message is counted, in words.
type Tariff uint32

const (
	Strict Tariff = iota // an object costs its size and a word more
	Plain                // an object costs its size, as the traversal limit of the C++ implementation counts
)

// Style is the way in which Show writes a message.
type Style uint32

const (
	Lines    Style = iota // lines, with the digits of each list of bytes: as `capn show` writes it
	Text                  // the same, but a list of bytes that is a text stands in quotes: as `capn show --text`
	JSON                  // one line of JSON: as `capn show --json`
	JSONText              // the same, but a text in UTF-8 with its zero is a text: as `capn show --json --text`
)

// Limits are what a call accepts: the size of a message, the cost of reading it, and the depth of its objects, of which
// the root has depth 1. A zero Limits, like a nil *Limits, stands for the default limits. In any other Limits, each
// field is taken as it is, even if it is zero. To change one limit, begin with UsualLimits.
type Limits struct {
	// c/limits.txt: fields in go

	MessageWords uint32 // words of a message with a segment table: 1 to 2^28
	Budget       uint32 // the traversal limit, in words: 0 to 2^28
	Depth        uint32 // the nesting limit, in levels of objects: 1 to 256
	Tariff       Tariff
	// c/limits.txt ends
}

// c/limits.txt: usual in go

// UsualLimits are 64 MiB of message, 64 MiB of reading, a depth of 64, and the strict tariff.
func UsualLimits() Limits {
	return Limits{MessageWords: 8388608, Budget: 8388608, Depth: 64}
}

// c/limits.txt ends

// Checked is the cost of reading a valid message.
type Checked struct {
	Paid   uint32 // the cost in words
	Visits uint32 // the pointers that were followed, each as often as it was met: the root's is one, null ones count
}

// Figures are statistics of a valid message.
type Figures struct {
	Words         uint32 // of its segments
	Segments      uint32 // 1 to 4,096
	Paid          uint32 // the cost of reading it, in words
	Visits        uint32 // the pointers that were followed, as in Checked
	Depth         uint32 // the least limit on depth under which it is accepted, 0 for a null root
	HasCapability bool   // whether its value has a capability
	Capability    uint32 // the index of the first one in preorder, else 0
	Canonical     bool   // whether it has one segment, which is the canonical bytes of its value
}

// Version returns the version of the library that runs, such as "1.1.0-dev".
func Version() string { return callVersion() }

// Check returns the cost of reading one message, or an error if the message is invalid or over a limit.
func Check(message []byte, form Form, limits *Limits) (Checked, error) {
	status, r := callCheck(form, message, limitsOf(limits))
	if status != ok {
		return Checked{}, failure(status, r)
	}
	return Checked{r.paid, r.visits}, nil
}

// Survey returns statistics of one message.
func Survey(message []byte, form Form, limits *Limits) (Figures, error) {
	figures, status, r := callSurvey(form, message, limitsOf(limits))
	if status != ok {
		return Figures{}, failure(status, r)
	}
	return figures, nil
}

// Canonical returns the canonical bytes of one message. Two messages have the same canonical bytes if and only if they
// have the same value, whichever encoder wrote them. There are at most 8 * (Budget + 1) canonical bytes. A message with
// a capability has no canonical bytes: the error is ErrCapability.
func Canonical(message []byte, form Form, limits *Limits) ([]byte, error) {
	return AppendCanonical(nil, message, form, limits)
}

// AppendCanonical appends the canonical bytes of one message to dst, which it grows as append does. If there is an
// error, AppendCanonical returns dst unchanged. The message may overlap dst, as in AppendCanonical(m[:0], m, ..). The
// message stays unchanged: if the result would overwrite it, AppendCanonical returns a new slice.
func AppendCanonical(dst, message []byte, form Form, limits *Limits) ([]byte, error) {
	l := limitsOf(limits)
	into := dst
	if overlap(message, dst[len(dst):cap(dst)]) {
		into = dst[:len(dst):len(dst)]
	}
	// The buffer is as long as the words of the message, which is enough in most cases.
	room, err := roomFor(message, form, l, 8, cap(into)-len(into))
	if err != nil {
		return dst, err
	}
	out, err := filled(into, room, func(out []byte) (uint32, report) { return callCanonical(form, message, l, out) })
	if err != nil {
		return dst, err
	}
	return out, nil
}

// overlap says whether two slices have a byte in common.
func overlap(one, other []byte) bool {
	if len(one) == 0 || len(other) == 0 {
		return false
	}
	from, to := uintptr(unsafe.Pointer(&one[0])), uintptr(unsafe.Pointer(&other[0]))
	return from < to+uintptr(len(other)) && to < from+uintptr(len(one))
}

// Digest returns the SHA-256 of the canonical bytes of one message. The digest doesn't depend on the type of the value.
// So don't sign the digest alone: sign a statement that also names the protocol and the type.
func Digest(message []byte, form Form, limits *Limits) ([32]byte, error) {
	digest, status, r := callHash(form, message, limitsOf(limits))
	if status != ok {
		return [32]byte{}, failure(status, r)
	}
	return digest, nil
}

// Same reports whether two messages of the same form have the same value: whether their canonical bytes are equal. Same
// doesn't write these bytes. If the first message is rejected, Same returns its error, as Canonical does. Otherwise it
// returns the error of the second message, if there is one. The field Which of the *Error says which message is
// rejected.
func Same(first, second []byte, form Form, limits *Limits) (bool, error) {
	which, status, r := callSame(form, first, second, limitsOf(limits))
	switch status {
	case ok:
		return true, nil
	case different:
		return false, nil
	}
	err := failure(status, r)
	if e, refused := err.(*Error); refused {
		e.Which = int(which)
	}
	return false, err
}

// IsCanonicalMessage reports whether one message is canonical: whether it has one segment, and the segment is the
// canonical bytes of the message's value. For a message with its segment table, the form is Stream. The call returns an
// error if the message is invalid or over a limit, or has a capability and so no canonical bytes.
func IsCanonicalMessage(message []byte, form Form, limits *Limits) (bool, error) {
	if form == Bare {
		return IsCanonicalWords(message, limits)
	}
	figures, err := Survey(message, form, limits)
	if err == nil && figures.HasCapability {
		err = &Error{Kind: ErrCapability, At: uint64(figures.Capability)}
	}
	return err == nil && figures.Canonical, err
}

// IsCanonicalWords reports whether the words of a single segment, without a segment table, are the canonical bytes of
// their value. The call returns an error if the words have no canonical bytes. Don't pass a message with its segment
// table: nearly every message of one segment passes, canonical or not. Call IsCanonicalMessage for such a message.
func IsCanonicalWords(words []byte, limits *Limits) (bool, error) {
	status, r := callIsCanonical(words, limitsOf(limits))
	if status != ok && status != notCanonical {
		return false, failure(status, r)
	}
	return status == ok, nil
}

// IsCanonicalIn is IsCanonicalMessage.
//
// Deprecated: Use IsCanonicalMessage, which is the same.
func IsCanonicalIn(message []byte, form Form, limits *Limits) (bool, error) {
	return IsCanonicalMessage(message, form, limits)
}

// IsCanonical is IsCanonicalWords.
//
// Deprecated: Use IsCanonicalMessage for a message with its segment table, which this call reads as words: nearly every
// message of one segment passes. Use IsCanonicalWords for the words of a segment without a table.
func IsCanonical(bytes []byte, limits *Limits) (bool, error) { return IsCanonicalWords(bytes, limits) }

// Show returns the text that the program capn show prints for one message, in a style. The text may be far longer than
// the message, so set limits.
func Show(message []byte, form Form, limits *Limits, style Style) (string, error) {
	l := limitsOf(limits)
	room := 0
	if style <= JSONText { // else the call says which argument is wrong first
		var err error
		if room, err = roomFor(message, form, l, 32, 0); err != nil {
			return "", err
		}
		room += 256
	}
	text, err := filled(nil, room, func(out []byte) (uint32, report) { return callShow(form, message, l, style, out) })
	return string(text), err
}

// Pack packs words, and returns the packed bytes. The number of bytes in words must be a multiple of 8.
func Pack(words []byte) ([]byte, error) {
	packed, err := filled(nil, len(words)/8*10, func(out []byte) (uint32, report) { return callPack(words, out) })
	var refused *Error
	if errors.As(err, &refused) {
		refused.ofWords = true
	}
	return packed, err
}

// Unpack returns the words of packed bytes, at most maxWords of them.
func Unpack(packed []byte, maxWords uint32) ([]byte, error) {
	room := int(8 * packedWords(packed, uint64(maxWords)))
	return filled(nil, room, func(out []byte) (uint32, report) { return callUnpack(packed, maxWords, out) })
}

// The calls below take a message in segments. Each segment has whole words, and the first one begins with the root. If
// the segments are within MessageWords, a call copies them behind their segment table, and returns what the call above
// returns for the copy.

// CheckSegments is Check of a message that is held in segments.
func CheckSegments(segments [][]byte, limits *Limits) (Checked, error) {
	message, err := framedWithin(segments, limitsOf(limits))
	if err != nil {
		return Checked{}, err
	}
	return Check(message, Stream, limits)
}

// SurveySegments is Survey of a message that is held in segments.
func SurveySegments(segments [][]byte, limits *Limits) (Figures, error) {
	message, err := framedWithin(segments, limitsOf(limits))
	if err != nil {
		return Figures{}, err
	}
	return Survey(message, Stream, limits)
}

// CanonicalSegments is Canonical of a message that is held in segments.
func CanonicalSegments(segments [][]byte, limits *Limits) ([]byte, error) {
	message, err := framedWithin(segments, limitsOf(limits))
	if err != nil {
		return nil, err
	}
	return Canonical(message, Stream, limits)
}

// DigestSegments is Digest of a message that is held in segments.
func DigestSegments(segments [][]byte, limits *Limits) ([32]byte, error) {
	message, err := framedWithin(segments, limitsOf(limits))
	if err != nil {
		return [32]byte{}, err
	}
	return Digest(message, Stream, limits)
}

const (
	ok           = 0
	noRoom       = 1
	notCanonical = 5
	different    = 7
	// The words of the longest segment table, and the most segments that it may announce.
	tableWords   = 2049
	mostSegments = 4096
	// The most words of a bare message.
	bareWords = 1<<28 + 1
	// From this number of bytes on, a message is checked before a buffer is made for the result.
	largeRoom = 1 << 20
)

// report has the numbers that a call reports with its status.
type report struct {
	length, at                  uint64
	paid, visits, segment, word uint32
}

func limitsOf(limits *Limits) Limits {
	if limits == nil || *limits == (Limits{}) {
		return UsualLimits()
	}
	return *limits
}

// roomFor returns the length of a buffer for a result that has perWord bytes for each word of a message. It is no
// longer than the words of the message and the limits allow. A large buffer that is longer than the one that is there
// is also no longer than the cost of the message allows. For this, the message is checked, so a message that is invalid
// or over a limit is an error before a buffer is made.
func roomFor(message []byte, form Form, l Limits, perWord uint64, there int) (int, error) {
	words, longest := uint64(len(message)/8), uint64(l.MessageWords)+tableWords
	switch form {
	case Packed:
		words = packedWords(message, longest)
	case Bare:
		longest = bareWords
	}
	if words > longest {
		words = 0 // the call rejects it
	}
	if words > uint64(l.Budget)+1 {
		words = uint64(l.Budget) + 1
	}
	if perWord*words > largeRoom && perWord*words > uint64(there) {
		status, r := callCheck(form, message, l)
		if status != ok {
			return 0, failure(status, r)
		}
		if words > uint64(r.paid)+1 {
			words = uint64(r.paid) + 1
		}
	}
	return int(perWord * words), nil
}

// filled appends the result of a call to dst. The buffer has room for some bytes at first and, if the result doesn't
// fit, for as many bytes as the call reports. A buffer grows as append grows it, so many results in one buffer take
// linear time. A result that is much shorter than the buffer that was made for it doesn't keep this buffer.
func filled(dst []byte, room int, call func([]byte) (uint32, report)) ([]byte, error) {
	begin, grown, hasGrown := len(dst), dst, false
	// The second length is enough. A third length is needed only if the message changes during the calls.
	for tries := 0; tries < 3; tries++ {
		if cap(grown)-begin < room {
			grown, hasGrown = append(dst, make([]byte, room)...)[:begin], true
		}
		status, r := call(grown[begin:cap(grown)])
		if status == noRoom {
			room = int(r.length)
			continue
		}
		if status != ok {
			return dst, failure(status, r)
		}
		answer := grown[:begin+int(r.length)]
		if hasGrown && cap(answer) > 2*len(answer)+512 {
			answer = append(make([]byte, 0, len(answer)), answer...)
		}
		return answer, nil
	}
	return dst, failure(noRoom, report{})
}

// framedWithin returns the segments behind their segment table. It tests the limits before it copies anything.
func framedWithin(segments [][]byte, l Limits) ([]byte, error) {
	// For no bytes, the library tests only the limits.
	if status, r := callFirst(nil, l); Kind(status) != ErrFrameEmpty {
		return nil, failure(status, r)
	}
	if len(segments) <= mostSegments {
		words := uint64(0)
		for _, segment := range segments {
			if len(segment)%8 != 0 {
				return nil, &Error{Kind: ErrNotWhole, At: uint64(len(segment))}
			}
			words += uint64(len(segment) / 8)
		}
		if words > uint64(l.MessageWords) {
			return nil, &Error{Kind: ErrTooManyWords, At: words}
		}
	}
	return framed(segments)
}

// framed returns the segments behind their segment table.
func framed(segments [][]byte) ([]byte, error) {
	if len(segments) == 0 {
		return nil, &Error{Kind: ErrFrameEmpty}
	}
	if len(segments) > mostSegments {
		return nil, &Error{Kind: ErrTooManySegments, At: uint64(len(segments))}
	}
	begin := 8 * (len(segments)/2 + 1)
	size := begin
	for _, segment := range segments {
		size += len(segment)
	}
	message := make([]byte, begin, size)
	put32(message, uint32(len(segments)-1))
	for i, segment := range segments {
		put32(message[4+4*i:], uint32(len(segment)/8))
		message = append(message, segment...)
	}
	return message, nil
}

func put32(to []byte, number uint32) {
	to[0], to[1], to[2], to[3] = byte(number), byte(number>>8), byte(number>>16), byte(number>>24)
}
