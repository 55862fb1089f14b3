package capn

import (
	"encoding/hex"
	"fmt"
	"strconv"
	"strings"
)

// Way is the path from the root of a message to a pointer. In a struct a number selects a pointer, and in a list of
// pointers an element. In a list of structs, a number selects an element, and the next number selects a pointer of this
// element. The path of the root has no numbers. A nil Way is no path at all.
type Way []uint32

// String returns the path as `capn show --at` takes it, such as "0.2", or "root".
func (w Way) String() string {
	switch {
	case w == nil:
		return "none"
	case len(w) == 0:
		return "root"
	}
	numbers := make([]string, len(w))
	for i, number := range w {
		numbers[i] = strconv.FormatUint(uint64(number), 10)
	}
	return strings.Join(numbers, ".")
}

// RefusalWay returns the error that Check returns, and the path to the pointer that the error is about, which Segment
// and Word of the *Error give by their numbers. The path is nil if the message is valid, or the error is about no
// pointer. It checks an invalid message twice, so call it where the path is of use, after Check or in place of it.
func RefusalWay(message []byte, form Form, limits *Limits) (Way, error) {
	l := limitsOf(limits)
	way := roomForWay(l)
	status, r := callRefusalWay(form, message, l, way)
	if status == ok {
		return nil, nil
	}
	if !Kind(status).isOfWalk() {
		return nil, failure(status, r)
	}
	return Way(way[:r.length/4]), failure(status, r)
}

// roomForWay has room for every path within the limits.
func roomForWay(l Limits) []uint32 {
	depth := l.Depth
	if depth > maxDepth {
		depth = maxDepth
	}
	return make([]uint32, 2*depth)
}

// maxDepth is the greatest nesting limit.
const maxDepth = 256

// DepartureKind says why a message isn't canonical.
type DepartureKind uint32

const (
	DepartsNot        DepartureKind = iota // it is canonical: it has one segment, and that is its canonical bytes
	DepartsSegments                        // it has several segments
	DepartsCapability                      // its value has a capability
	DepartsWord                            // a word is not that of the canonical bytes
	DepartsAfter                           // words come after the canonical bytes
)

// Owner is the part of the canonical bytes that a word belongs to. A path leads to the pointer that is meant.
type Owner uint32

const (
	OwnerNone     Owner = iota
	OwnerPointer        // the pointer itself
	OwnerTag            // the tag of the list of structs that the pointer refers to
	OwnerLastWord       // the last word of the list of bits, bytes or numbers that the pointer refers to
)

// String returns the word that `capn explain` prints for an owner.
func (o Owner) String() string {
	switch o {
	case OwnerNone:
		return "none"
	case OwnerPointer:
		return "pointer"
	case OwnerTag:
		return "tag"
	case OwnerLastWord:
		return "last word"
	}
	return fmt.Sprintf("Owner(%d)", uint32(o))
}

// Departure is the first difference of a valid message from its canonical form. A field that a kind doesn't have is
// zero.
type Departure struct {
	Kind          DepartureKind
	Segments      uint32 // of DepartsSegments: how many there are
	Capability    uint32 // of DepartsCapability: the index of the first one in preorder
	Way           Way    // the path to that capability; of DepartsWord to the pointer that Owner is about
	Byte          uint64 // where the first word that differs begins in the message, of a packed one in unpacked bytes
	Word          uint64 // what the word is there,
	CanonicalWord uint64 // of DepartsWord what it is in the canonical bytes,
	Owner         Owner  // and what it is part of there
}

// FindDeparture returns the first difference of a valid message from its canonical form. Of a canonical message its
// Kind is DepartsNot. It reads the message several times, and allocates memory for its canonical bytes:
// IsCanonicalMessage is faster if it is enough to know whether there is a difference.
func FindDeparture(message []byte, form Form, limits *Limits) (Departure, error) {
	l := limitsOf(limits)
	way := roomForWay(l)
	d, status, r := callDeparture(form, message, l, way)
	if status != ok {
		return Departure{}, failure(status, r)
	}
	found := Departure{Kind: DepartureKind(d.kind)}
	switch found.Kind {
	case DepartsSegments:
		found.Segments = d.count
	case DepartsCapability:
		found.Capability, found.Way = d.count, way[:d.numbers]
	case DepartsWord:
		found.CanonicalWord, found.Owner, found.Way = d.canonical, Owner(d.owner), way[:d.numbers]
		fallthrough
	case DepartsAfter:
		found.Word, found.Byte = d.is, 8*uint64(d.word)
		if form != Bare {
			found.Byte += 8 // of the table
		}
	}
	return found, nil
}

// departed is a Departure as the library writes it.
type departed struct {
	is, canonical                     uint64
	kind, owner, word, count, numbers uint32
}

// String returns the text that `capn explain` prints after "canonical: ", for a message at the start of its input.
func (d Departure) String() string {
	ofPointer := d.Owner == OwnerPointer
	switch d.Kind {
	case DepartsNot:
		return "yes"
	case DepartsSegments:
		return fmt.Sprintf("no: %d segments", d.Segments)
	case DepartsCapability:
		return fmt.Sprintf("no: capability %d at %v", d.Capability, d.Way)
	case DepartsAfter:
		return fmt.Sprintf("no: at byte %d: %s, canonical nothing, after the value", d.Byte, written(d.Word, false))
	}
	preposition := "of"
	if ofPointer {
		preposition = "at"
	}
	return fmt.Sprintf("no: at byte %d: %s, canonical %s, the %v %s %v", d.Byte, written(d.Word, ofPointer),
		written(d.CanonicalWord, ofPointer), d.Owner, preposition, d.Way)
}

// written returns the bytes of a word as text, in their order. For a pointer, it also describes the pointer.
func written(word uint64, isPointer bool) string {
	var digits [8]byte
	for i := range digits {
		digits[i] = byte(word >> (8 * i))
	}
	if isPointer {
		return hex.EncodeToString(digits[:]) + " (" + pointerText(word) + ")"
	}
	return hex.EncodeToString(digits[:])
}

// pointerText returns a text that describes a word as a pointer.
func pointerText(word uint64) string {
	low, high := uint32(word), uint32(word>>32)
	offset := int32(low) >> 2
	switch {
	case word == 0:
		return "null"
	case low&3 == 0:
		return fmt.Sprintf("struct of %d words and %d slots, offset %d", high&0xFFFF, high>>16, offset)
	case low&3 == 1 && high&7 == 7:
		return fmt.Sprintf("list of structs in %d words, offset %d", high>>3, offset)
	case low&3 == 1:
		names := [...]string{"voids", "bits", "bytes", "u16", "u32", "u64", "pointers"}
		return fmt.Sprintf("list of %d %s, offset %d", high>>3, names[high&7], offset)
	case low&7 == 2:
		return fmt.Sprintf("far to segment %d word %d", high, low>>3)
	case low&7 == 6:
		return fmt.Sprintf("double far to segment %d word %d", high, low>>3)
	case low>>2 == 0:
		return fmt.Sprintf("capability %d", high)
	}
	return "reserved"
}
