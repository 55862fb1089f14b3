package capn

import (
	"errors"
	"fmt"
	"io"
)

// ErrMemory is returned if the library could not allocate memory.
var ErrMemory = errors.New("capn: out of memory")

// ErrUnsupported is returned by each call if the package was built without cgo, or not for Linux on amd64.
var ErrUnsupported = errors.New("capn: the library is for linux and amd64, and needs cgo")

// ErrForm is returned if the form isn't one of the three forms.
var ErrForm = errors.New("capn: the form is none of the three")

// ErrLimits is returned if a limit is out of its range, or if the tariff isn't one of the two tariffs.
var ErrLimits = errors.New("capn: a limit is out of its range")

// ErrStyle is returned if the style isn't one of the four styles.
var ErrStyle = errors.New("capn: the style is none of the four")

// ErrConcurrent is returned by Next of a Reader if another call of Next runs, in another goroutine or in the Read that
// Next called. The call that returns ErrConcurrent has changed nothing, and has read no byte of the stream.
var ErrConcurrent = errors.New("capn: two calls of Next at once")

// ErrBadReadCount is in the *ReadError that Next returns if the io.Reader returned an impossible count: a number below
// 0, or more bytes than there was room for. This error ends the stream, since nobody knows which bytes were read.
var ErrBadReadCount = errors.New("capn: Read returned an impossible count")

// StatusError is a fault of the package or its caller, and not of a message: the library returned a status that the
// call doesn't have. Either the bytes were changed while the call ran, or the library is newer than the package.
type StatusError struct {
	Status uint32
}

func (e *StatusError) Error() string {
	return fmt.Sprintf("capn: the library returned the status %d, which the call doesn't have", e.Status)
}

// ReadError is an error of the io.Reader below a Reader, such as a timeout, with the place in the stream. errors.Is and
// errors.As find the error of the io.Reader.
type ReadError struct {
	Message int64 // which message was being read, from 1 on
	Offset  int64 // where it begins
	Err     error
}

func (e *ReadError) Error() string {
	return fmt.Sprintf("capn: message %d at %d: %v", e.Message, e.Offset, e.Err)
}

// Unwrap returns the error of the io.Reader.
func (e *ReadError) Unwrap() error { return e.Err }

// Timeout reports whether the error is a timeout.
func (e *ReadError) Timeout() bool {
	var below interface{ Timeout() bool }
	return errors.As(e.Err, &below) && below.Timeout()
}

// Kind is the kind of an error of a message. A Kind is itself an error, with which errors.Is compares other errors.
type Kind uint32

const (
	// c/statuses.txt: kinds in go

	// ErrNotWhole: the bytes are not whole words; At: how many bytes there are.
	ErrNotWhole Kind = 16
	// ErrBareTooLong: more words than a bare message may have; At: how many words there are.
	ErrBareTooLong Kind = 17
	// ErrPackedCut: the packed bytes are truncated; At: the offset of the group's tag.
	ErrPackedCut Kind = 32
	// ErrPackedTooLong: the packed bytes have more words than fit; At: the offset of the group's tag.
	ErrPackedTooLong Kind = 33
	// ErrFrameEmpty: there are no bytes.
	ErrFrameEmpty Kind = 48
	// ErrTooManySegments: more segments are announced than a message may have; At: how many are announced.
	ErrTooManySegments Kind = 49
	// ErrTooManyWords: more words are announced than the limit; At: how many are announced.
	ErrTooManyWords Kind = 50
	// ErrFrameCut: the message is truncated.
	ErrFrameCut Kind = 51
	// ErrTrailing: bytes follow the message; At: the offset of the first byte after the message; of a packed text,
	// in the unpacked bytes.
	ErrTrailing Kind = 52
	// ErrNoRoot: the first segment has no word for the root.
	ErrNoRoot Kind = 64
	// ErrRootKind: the root is a capability.
	ErrRootKind Kind = 65
	// ErrReserved: a pointer of a reserved kind.
	ErrReserved Kind = 66
	// ErrNoSegment: a far pointer refers to a segment that doesn't exist.
	ErrNoSegment Kind = 67
	// ErrPadRange: a landing pad lies outside of its segment.
	ErrPadRange Kind = 68
	// ErrBadPad: a landing pad is not valid.
	ErrBadPad Kind = 69
	// ErrRange: an object lies outside of its segment.
	ErrRange Kind = 70
	// ErrBadTag: the tag word of a list of structs is not valid.
	ErrBadTag Kind = 71
	// ErrTagOverrun: the structs of a list need more words than the list has.
	ErrTagOverrun Kind = 72
	// ErrTooDeep: an object lies deeper than the limit.
	ErrTooDeep Kind = 73
	// ErrOverBudget: reading costs more than the budget.
	ErrOverBudget Kind = 74
	// ErrCapability: the value has a capability; At: the index of the first in preorder.
	ErrCapability Kind = 80
	// c/statuses.txt ends
)

var names = map[Kind]string{
	// c/statuses.txt: names in go
	ErrNotWhole: "NotWhole", ErrBareTooLong: "BareTooLong", ErrPackedCut: "PackedCut",
	ErrPackedTooLong: "PackedTooLong", ErrFrameEmpty: "FrameEmpty", ErrTooManySegments: "TooManySegments",
	ErrTooManyWords: "TooManyWords", ErrFrameCut: "FrameCut", ErrTrailing: "Trailing", ErrNoRoot: "NoRoot",
	ErrRootKind: "RootKind", ErrReserved: "Reserved", ErrNoSegment: "NoSegment", ErrPadRange: "PadRange",
	ErrBadPad: "BadPad", ErrRange: "Range", ErrBadTag: "BadTag", ErrTagOverrun: "TagOverrun", ErrTooDeep: "TooDeep",
	ErrOverBudget: "OverBudget", ErrCapability: "Capability",
	// c/statuses.txt ends
}

// String returns the name of a kind, such as "Range".
func (k Kind) String() string {
	if name, found := names[k]; found {
		return name
	}
	return fmt.Sprintf("Kind(%d)", uint32(k))
}

func (k Kind) Error() string { return "capn: " + k.String() }

// Meaning returns the meaning of a kind in a few words, such as "an object lies outside of its segment". The text is
// empty if the package was built without the library.
func (k Kind) Meaning() string { return callStatusText(uint32(k)) }

func (k Kind) isOfWalk() bool { return k >= ErrNoRoot && k <= ErrOverBudget }

// Error says why a message is rejected: the message is invalid, or over a limit.
type Error struct {
	Kind          Kind
	At            uint64 // the offset, count or index of a kind that has one, else 0
	Segment, Word uint32 // where the pointer is that the error is about, if it is about one
	Paid, Visits  uint32 // and what reading had cost until then, and how many pointers it had followed
	Message       int64  // of a message of a stream: which one it is, from 1 on, else 0
	Offset        int64  // and where it begins in the stream
	Which         int    // of Same: which of its messages it is, 0 or 1, else 0
	ofWords       bool
}

// Text returns the text of the error as the program capn prints it, without the part before the colon.
func (e *Error) Text() string {
	switch {
	case e.Kind.isOfWalk():
		return fmt.Sprintf("%s at %d:%d, paid %d, visits %d", e.Kind.String(), e.Segment, e.Word, e.Paid, e.Visits)
	case e.Kind == ErrNotWhole && e.ofWords:
		return fmt.Sprintf("NotWhole(%d)", e.At)
	}
	switch e.Kind {
	case ErrNotWhole:
		return fmt.Sprintf("bare: NotWhole(%d)", e.At)
	case ErrBareTooLong:
		return fmt.Sprintf("bare: TooLong(%d)", e.At)
	case ErrPackedCut:
		return fmt.Sprintf("packed: Cut at %d", e.At)
	case ErrPackedTooLong:
		return fmt.Sprintf("packed: TooLong at %d", e.At)
	case ErrFrameEmpty:
		return "frame: Empty"
	case ErrFrameCut:
		return "frame: Cut"
	case ErrTooManySegments, ErrTooManyWords:
		return fmt.Sprintf("frame: %s(%d)", e.Kind.String(), e.At)
	case ErrTrailing:
		return fmt.Sprintf("trailing bytes at %d", e.At)
	case ErrCapability:
		return fmt.Sprintf("capability %d", e.At)
	}
	return fmt.Sprintf("status %d", uint32(e.Kind))
}

func (e *Error) Error() string {
	if e.Message != 0 {
		return fmt.Sprintf("capn: message %d at %d: %s", e.Message, e.Offset, e.Text())
	}
	return "capn: " + e.Text()
}

// Unwrap returns the kind. So errors.Is(err, capn.ErrTooDeep) says whether the error is of this kind.
func (e *Error) Unwrap() error { return e.Kind }

// Is returns true for io.ErrUnexpectedEOF if the message is truncated.
func (e *Error) Is(target error) bool {
	return target == io.ErrUnexpectedEOF && (e.Kind == ErrFrameCut || e.Kind == ErrPackedCut)
}

// failure returns the error for a status other than ok.
func failure(status uint32, r report) error {
	switch status {
	case unsupported:
		return ErrUnsupported
	case 2:
		return ErrForm
	case 3:
		return ErrLimits
	case 4:
		return ErrLimits
	case 6:
		return ErrStyle
	case 8:
		return ErrMemory
	}
	if _, isNamed := names[Kind(status)]; !isNamed {
		return &StatusError{status}
	}
	e := &Error{Kind: Kind(status), At: r.at}
	if e.Kind.isOfWalk() {
		e.Segment, e.Word, e.Paid, e.Visits = r.segment, r.word, r.paid, r.visits
	}
	return e
}

// unsupported is the status that each call returns if the package was built without the library. The library has no
// such status.
const unsupported = 1 << 31
