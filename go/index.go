package capn

import (
	"encoding/binary"
	"fmt"
	"math"
	"unicode/utf8"
)

// entry is the object that a pointer refers to, as the library lays it out.
type entry struct {
	offset       uint64
	count, span  uint32
	words, slots uint16
	kind         uint32
}

// ValueKind is the kind of the object that a pointer refers to.
type ValueKind uint32

const (
	Null       ValueKind = iota
	Struct               // data words, then pointers
	Voids                // a list of elements without size
	Bits                 // a list of bits
	Bytes                // a list of bytes: a Data or a Text
	U16s                 // a list of numbers of 2 bytes
	U32s                 // a list of numbers of 4 bytes
	U64s                 // a list of numbers of 8 bytes
	Pointers             // a list of pointers
	Rows                 // a list of structs
	Capability           // the index of a capability
)

var kindNames = [...]string{
	"null", "struct", "void", "bits", "bytes", "u16", "u32", "u64", "pointers", "rows", "capability",
}

// String returns the word that `capn show` prints for a kind.
func (k ValueKind) String() string {
	if int(k) < len(kindNames) {
		return kindNames[k]
	}
	return fmt.Sprintf("ValueKind(%d)", uint32(k))
}

// Index is a valid message within limits, with a list of its pointers. Its values are read in place, without following
// a pointer again. The bytes of the message must not change as long as the index or one of its values is used. Several
// goroutines may read one index at once.
type Index struct {
	bytes   []byte
	entries []entry
	checked Checked
}

// NewIndex returns the index of one message. Packed bytes are unpacked first. An index takes 24 bytes for each pointer
// that is followed, and there are at most Budget + 1 such pointers.
func NewIndex(message []byte, form Form, limits *Limits) (*Index, error) {
	l := limitsOf(limits)
	if form == Packed {
		// Wrong limits are an error before the bytes are unpacked. For no bytes, the library tests only the limits.
		if status, r := callFirst(nil, l); Kind(status) != ErrFrameEmpty {
			return nil, failure(status, r)
		}
		words, err := Unpack(message, l.MessageWords+tableWords)
		if err != nil {
			return nil, err
		}
		message, form = words, Stream
	}
	// In most messages there are fewer pointers than words.
	entries := make([]entry, firstEntries(len(message)))
	status, r := callIndex(form, message, l, entries)
	if status == noRoom {
		entries = make([]entry, r.visits)
		status, r = callIndex(form, message, l, entries)
	}
	if status != ok {
		return nil, failure(status, r)
	}
	found := entries[:r.visits]
	if len(entries) > 2*len(found) {
		found = append(make([]entry, 0, len(found)), found...)
	}
	return &Index{message, found, Checked{r.paid, r.visits}}, nil
}

// firstEntries returns the number of entries that are made at first for a message of the given number of bytes.
func firstEntries(size int) int {
	if size < 8*64 {
		return size/8 + 1
	}
	return 64
}

// Checked returns the cost of reading the message.
func (x *Index) Checked() Checked { return x.checked }

// Root returns the object that the root pointer refers to.
func (x *Index) Root() Value { return x.value(0) }

// Value is the object that a pointer refers to, or an element of a list of structs, whose kind is Struct. The zero
// Value is null. The sender of the message chose its kind: to read it by a schema, use the methods whose names begin
// with As.
type Value struct {
	index        *Index
	kind         ValueKind
	count        uint32
	words, slots uint16
	part         uint8 // of an element of an older list of numbers: its bytes of data, if they are less than a word
	areAlone     bool  // whether its slots have nothing below them
	offset       uint64
	first        uint32 // the entry of its first slot
}

func (x *Index) value(at uint32) Value {
	e := &x.entries[at]
	below := e.count
	switch ValueKind(e.kind) {
	case Struct:
		below = uint32(e.slots)
	case Rows:
		below = e.count * uint32(e.slots)
	}
	return Value{x, ValueKind(e.kind), e.count, e.words, e.slots, 0, e.span == below+1, e.offset, at + 1}
}

// Kind returns the kind of the value.
func (v Value) Kind() ValueKind { return v.kind }

// Len returns the number of elements of a list, or 0 for any other value.
func (v Value) Len() int {
	if v.kind < Voids || v.kind > Rows {
		return 0
	}
	return int(v.count)
}

// DataWords returns the number of data words of a struct, or of each struct of a list of structs. It returns 0 for any
// other value.
func (v Value) DataWords() int { return int(v.words) }

// NumSlots returns the number of pointers of a struct, or of each struct of a list of structs. It returns 0 for any
// other value.
func (v Value) NumSlots() int { return int(v.slots) }

// CapabilityIndex returns the index of a capability, or 0 for any other value.
func (v Value) CapabilityIndex() uint32 {
	if v.kind != Capability {
		return 0
	}
	return v.count
}

// next returns the entry of the next pointer in the same object.
func (x *Index) next(at uint32) uint32 { return at + x.entries[at].span }

// Slot returns the object that pointer i of a struct refers to. If the struct has fewer pointers, it returns a null
// Value. The time that it takes grows with the number of pointers before i.
func (v Value) Slot(i int) Value {
	if v.kind != Struct || i < 0 || i >= int(v.slots) {
		return Value{}
	}
	return v.child(uint32(i))
}

func (v Value) child(i uint32) Value {
	at := v.first
	if v.areAlone {
		return v.index.value(at + i)
	}
	for ; i > 0; i-- {
		at = v.index.next(at)
	}
	return v.index.value(at)
}

// Pointers are the objects that the pointers of a list refer to: nil for a value of another kind. The slice has 40
// bytes for each; AsPointers needs none, and reads lists of older and newer schemas.
func (v Value) Pointers() []Value {
	if v.kind != Pointers {
		return nil
	}
	found, at := make([]Value, v.count), v.first
	for i := range found {
		found[i] = v.index.value(at)
		at = v.index.next(at)
	}
	return found
}

// Rows are the structs of a list of structs: nil for a value of another kind. The slice has 40 bytes for each, and a
// message of 24 bytes can have as many structs without fields as Budget allows. AsRows needs none, and reads lists of
// older and newer schemas.
func (v Value) Rows() []Value {
	if v.kind != Rows {
		return nil
	}
	found, at := make([]Value, v.count), v.first
	size := v.rowSize()
	for i := range found {
		// The rows come after the tag.
		offset := v.offset + 8 + uint64(i)*size
		found[i] = Value{v.index, Struct, 0, v.words, v.slots, 0, v.areAlone, offset, at}
		for k := uint16(0); k < v.slots; k++ {
			at = v.index.next(at)
		}
	}
	return found
}

// rowSize returns the number of bytes of each struct of a list of structs.
func (v Value) rowSize() uint64 { return 8 * (uint64(v.words) + uint64(v.slots)) }

// Bytes are the bytes of a list of bytes, in the message itself: nil of another value.
func (v Value) Bytes() []byte {
	if v.kind != Bytes {
		return nil
	}
	end := v.offset + uint64(v.count)
	return v.index.bytes[v.offset:end:end]
}

// Text is a list of bytes as a text, without the zero byte at its end: false if there is no such byte, or if the others
// are not UTF-8, or if the value is null or of another kind. AsText tells a null from what is wrong.
func (v Value) Text() (string, bool) {
	b := v.Bytes()
	if len(b) == 0 || b[len(b)-1] != 0 || !utf8.Valid(b) {
		return "", false
	}
	return string(b[:len(b)-1]), true
}

// At is element i of a list of numbers without sign or of bits, which are 0 and 1. It is 0 where there is none: in a
// list of other elements, in another value, and from Len on. AsNumbers tells these apart. It panics if i is negative.
func (v Value) At(i int) uint64 {
	if i < 0 {
		panic(fmt.Sprintf("capn: an element has a number from 0 on, not %d", i))
	}
	if i >= v.Len() {
		return 0
	}
	rest := v.index.bytes[v.offset:]
	switch v.kind {
	case Bits:
		return uint64(rest[i/8] >> (i % 8) & 1)
	case Bytes, U16s, U32s, U64s:
		size := 1 << (v.kind - Bytes)
		return number(rest[size*i:], 8*size)
	}
	return 0
}

// A data field is stored XOR its default, so the methods that read one take the default, and return it where the struct
// is too short for the field. The offset counts fields of that size from the start of the data, as slot.offset of a
// compiled schema does: bits[32, 64) of `capnp compile -ocapnp` is Uint32(1, ..). Each panics if the offset is less
// than 0.

// Uint64 is a field of 64 bits without sign.
func (v Value) Uint64(offset int, byDefault uint64) uint64 { return v.field(64, offset) ^ byDefault }

// Uint32 is a field of 32 bits without sign.
func (v Value) Uint32(offset int, byDefault uint32) uint32 {
	return uint32(v.field(32, offset)) ^ byDefault
}

// Uint16 is a field of 16 bits without sign, or an enumerant.
func (v Value) Uint16(offset int, byDefault uint16) uint16 {
	return uint16(v.field(16, offset)) ^ byDefault
}

// Uint8 is a field of 8 bits without sign.
func (v Value) Uint8(offset int, byDefault uint8) uint8 { return uint8(v.field(8, offset)) ^ byDefault }

// Int64 is a field of 64 bits with a sign.
func (v Value) Int64(offset int, byDefault int64) int64 {
	return int64(v.field(64, offset)) ^ byDefault
}

// Int32 is a field of 32 bits with a sign.
func (v Value) Int32(offset int, byDefault int32) int32 {
	return int32(v.field(32, offset)) ^ byDefault
}

// Int16 is a field of 16 bits with a sign.
func (v Value) Int16(offset int, byDefault int16) int16 {
	return int16(v.field(16, offset)) ^ byDefault
}

// Int8 is a field of 8 bits with a sign.
func (v Value) Int8(offset int, byDefault int8) int8 { return int8(v.field(8, offset)) ^ byDefault }

// Float64 is a field of 64 bits with a floating point.
func (v Value) Float64(offset int, byDefault float64) float64 {
	return math.Float64frombits(v.field(64, offset) ^ math.Float64bits(byDefault))
}

// Float32 is a field of 32 bits with a floating point.
func (v Value) Float32(offset int, byDefault float32) float32 {
	return math.Float32frombits(uint32(v.field(32, offset)) ^ math.Float32bits(byDefault))
}

// Bool is a bit.
func (v Value) Bool(offset int, byDefault bool) bool { return v.field(1, offset) != 0 != byDefault }

// field has the bits of a field as they are stored, 0 where there are none.
func (v Value) field(bits, offset int) uint64 {
	if offset < 0 {
		panic(fmt.Sprintf("capn: an offset is a number from 0 on, not %d", offset))
	}
	if v.part > 0 {
		return v.fieldOfPart(bits, offset)
	}
	perWord := 64 / bits
	word := offset / perWord
	if v.kind != Struct || word >= int(v.words) {
		return 0
	}
	stored := binary.LittleEndian.Uint64(v.index.bytes[v.offset+8*uint64(word):])
	if bits == 64 {
		return stored
	}
	return stored >> (offset % perWord * bits) & (1<<bits - 1)
}

// fieldOfPart is the same of an element of an older list of numbers.
func (v Value) fieldOfPart(bits, offset int) uint64 {
	has := 8 * int(v.part)
	if bits > has || offset > has/bits-1 {
		return 0
	}
	from := v.index.bytes[v.offset : v.offset+uint64(v.part)]
	if bits == 1 {
		return uint64(from[offset/8] >> (offset % 8) & 1)
	}
	return number(from[offset*bits/8:], bits)
}
