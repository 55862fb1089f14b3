package capn

import "fmt"

// line is a line of a message, as the library lays it out.
type line struct {
	offset                                                                        uint64
	segment, word, words, times, slotSegment, slotWord, cut, notZero, kind, flags uint32
}

const (
	lineBytes   = 48
	lineOverlap = 1
	linePadding = 2
)

// LineKind is the kind of the words of a Line.
type LineKind uint32

const (
	LinePointer   LineKind = iota // a pointer that is not null
	LineNull                      // null pointers
	LinePad                       // a word of a landing pad, which a far pointer refers to
	LineTag                       // the tag word of a list of structs
	LineData                      // data words of a struct, or of the elements of a list of structs
	LineList                      // elements of a list of bits, bytes or numbers, and the padding after them
	LineSlack                     // words of a list of structs after its elements
	LineUnreached                 // words of no object or landing pad
)

var lineKindNames = [...]string{"pointer", "null", "pad", "tag", "data", "list", "slack", "unreached"}

// String returns the word that `capn annotate` prints for a kind.
func (k LineKind) String() string {
	if int(k) < len(lineKindNames) {
		return lineKindNames[k]
	}
	return fmt.Sprintf("LineKind(%d)", uint32(k))
}

// Line is a line of a message: words one after another in one segment that are alike.
type Line struct {
	Offset      uint64 // where the first word begins in the message; of a packed one, in the unpacked bytes
	Segment     uint32 // the segment of the words
	Word        uint32 // the number of the first word in that segment
	Words       uint32 // how many words there are, 1 or more
	Times       uint32 // how often objects and landing pads cover each of them; 0 for LineUnreached
	HasSlot     bool   // whether they belong to an object or a landing pad: not the root pointer, nor LineUnreached
	SlotSegment uint32 // the pointer to that object or landing pad: its segment, else 0
	SlotWord    uint32 // and its word in that segment, else 0
	Cut         uint32 // how many of the words canonical bytes leave out
	NotZero     uint32 // how many of the words are not zero
	Kind        LineKind
	Overlap     bool // whether different objects or landing pads overlap in the words
	Padding     bool // whether the line has the last word of a list, whose padding is not zero
}

// Annotate returns the lines of one message, as capn annotate has them: each word of each segment is in exactly one, in
// the order of the words. The segment table has no line. A message with a capability has lines, too.
func Annotate(message []byte, form Form, limits *Limits) ([]Line, error) {
	l := limitsOf(limits)
	// There is room for the lines of most small messages. For a larger message, the first call says how many lines there
	// are.
	lines := make([]line, 256)
	status, r := callAnnotate(form, message, l, lines)
	if status == noRoom {
		lines = make([]line, r.length/lineBytes)
		status, r = callAnnotate(form, message, l, lines)
	}
	if status != ok {
		return nil, failure(status, r)
	}
	found := make([]Line, r.length/lineBytes)
	for i := range found {
		found[i] = lineOf(&lines[i])
	}
	return found, nil
}

func lineOf(from *line) Line {
	kind := LineKind(from.kind)
	isRoot := from.segment == 0 && from.word == 0
	return Line{
		Offset: from.offset, Segment: from.segment, Word: from.word, Words: from.words, Times: from.times,
		HasSlot: kind != LineUnreached && !isRoot, SlotSegment: from.slotSegment, SlotWord: from.slotWord,
		Cut: from.cut, NotZero: from.notZero, Kind: kind,
		Overlap: from.flags&lineOverlap != 0, Padding: from.flags&linePadding != 0,
	}
}
