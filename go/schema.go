package capn

import (
	"encoding/binary"
	"fmt"
	"unicode/utf8"
)

// The methods whose names begin with As read a value by a schema. The sender chose the kind of each value, so they test
// it: they take null for an absent field, accept what a writer with an older or a newer schema put there, and return an
// *UnexpectedError for anything else. None of them allocates memory for the elements of a list.

// UnexpectedError says that a pointer refers to an object of another kind than the schema has there.
type UnexpectedError struct {
	Wanted string    // such as "text"
	Found  ValueKind // such as Rows
}

func (e *UnexpectedError) Error() string {
	return fmt.Sprintf("capn: %s expected, %s found", e.Wanted, e.Found)
}

func (v Value) unexpected(wanted string) error { return &UnexpectedError{wanted, v.kind} }

// AsStruct returns a struct. For null it is one in which each field has its default.
func (v Value) AsStruct() (Value, error) {
	if v.kind != Struct && v.kind != Null {
		return Value{}, v.unexpected("struct")
	}
	return v, nil
}

// AsText returns a text without the zero byte at its end, or byDefault for null. A list of bytes is a text if its last
// byte is zero and the others are UTF-8.
func (v Value) AsText(byDefault string) (string, error) {
	if v.kind == Null {
		return byDefault, nil
	}
	b := v.Bytes()
	switch {
	case len(b) == 0 || b[len(b)-1] != 0:
		return "", v.unexpected("text")
	case !utf8.Valid(b):
		return "", v.unexpected("text in UTF-8")
	}
	return string(b[:len(b)-1]), nil
}

// AsData returns the bytes of a data, in the message itself, or nil for null.
func (v Value) AsData() ([]byte, error) {
	if v.kind != Bytes && v.kind != Null {
		return nil, v.unexpected("data")
	}
	return v.Bytes(), nil
}

// AsNumbers returns a list of numbers of 1, 8, 16, 32 or 64 bits, which is empty for null. With another number of bits
// it panics. Where a newer schema made structs of the numbers, it is the first field of each, and zero of a struct
// without data words; a list of bits can't become such structs. A list of numbers of another size is an error, also of
// a greater one, which the reference implementation reads.
func (v Value) AsNumbers(bits int) (Numbers, error) {
	var kind ValueKind
	switch bits {
	case 1:
		kind = Bits
	case 8:
		kind = Bytes
	case 16:
		kind = U16s
	case 32:
		kind = U32s
	case 64:
		kind = U64s
	default:
		panic(fmt.Sprintf("capn: numbers have 1, 8, 16, 32 or 64 bits, not %d", bits))
	}
	switch {
	case v.kind == Null:
		return Numbers{}, nil
	case v.kind == kind:
		size := (uint64(bits)*uint64(v.count) + 7) / 8
		return Numbers{v.index.bytes[v.offset : v.offset+size], bits, bits, int(v.count)}, nil
	case v.kind == Rows && bits > 1 && v.words == 0:
		return Numbers{count: int(v.count)}, nil
	case v.kind == Rows && bits > 1:
		size, begin := v.rowSize(), v.offset+8
		return Numbers{v.index.bytes[begin : begin+size*uint64(v.count)], bits, int(8 * size), int(v.count)}, nil
	}
	return Numbers{}, v.unexpected(fmt.Sprintf("list of numbers of %d bits", bits))
}

// Numbers is a list of numbers that AsNumbers returned.
type Numbers struct {
	bytes []byte
	// The bits of a number, those from one to the next, and how many numbers there are. Of structs without data words
	// there are no bits: each number is zero.
	bits, step, count int
}

// Len returns the number of numbers.
func (n Numbers) Len() int { return n.count }

// At returns number i, without sign: convert it, as in int16(n.At(i)) or math.Float32frombits(uint32(n.At(i))). A bit
// is 0 or 1. It panics unless i is less than Len, as an index of a slice does.
func (n Numbers) At(i int) uint64 {
	if i < 0 || i >= n.count {
		panic(fmt.Sprintf("capn: number %d of %d", i, n.count))
	}
	switch n.bits {
	case 0:
		return 0
	case 1:
		return uint64(n.bytes[i/8] >> (i % 8) & 1)
	}
	return number(n.bytes[i*(n.step/8):], n.bits)
}

// number is the one of so many bits that some bytes begin with.
func number(from []byte, bits int) uint64 {
	switch bits {
	case 8:
		return uint64(from[0])
	case 16:
		return uint64(binary.LittleEndian.Uint16(from))
	case 32:
		return uint64(binary.LittleEndian.Uint32(from))
	}
	return binary.LittleEndian.Uint64(from)
}

// AsRows returns the structs of a list of structs, which is empty for null. Where an older schema has numbers or
// pointers, each is a struct of that one field. A list of bits is an error.
func (v Value) AsRows() (Items, error) {
	list := Items{index: v.index, count: int(v.count), next: v.first, offset: v.offset, kind: Struct}
	switch v.kind {
	case Null:
		return Items{}, nil
	case Rows:
		list.offset, list.step = v.offset+8, v.rowSize()
		list.words, list.slots, list.areAlone = v.words, v.slots, v.areAlone
	case Pointers:
		list.slots, list.areAlone = 1, v.areAlone
	case Voids:
	case Bytes, U16s, U32s:
		list.part = 1 << (v.kind - Bytes)
		list.step = uint64(list.part)
	case U64s:
		list.words, list.step = 1, 8
	default:
		return Items{}, v.unexpected("list of structs")
	}
	return list, nil
}

// AsPointers returns the objects that the pointers of a list refer to, and an empty list for null. Where a newer schema
// made structs of the pointers, it is the first pointer of each, and null of a struct without pointers.
func (v Value) AsPointers() (Items, error) {
	if v.kind != Null && v.kind != Pointers && v.kind != Rows {
		return Items{}, v.unexpected("list of pointers")
	}
	list, err := v.AsRows()
	list.kind = Pointers
	return list, err
}

// Items are the elements of a list that AsRows or AsPointers returned, read one after the other:
//
//	for rows.Next() {
//		row := rows.Item()
//	}
type Items struct {
	index        *Index
	count        int    // elements that are left
	next         uint32 // the entry of the first slot of the next one
	offset       uint64 // where the data of the next one begins
	step         uint64 // bytes from one to the next
	words, slots uint16
	part         uint8
	areAlone     bool
	kind         ValueKind // Struct, or Pointers: of each element what its first pointer leads to
	item         Value
}

// Len returns the number of elements that are left.
func (l *Items) Len() int { return l.count }

// Next goes on to the next element, and reports whether there is one.
func (l *Items) Next() bool {
	if l.count == 0 {
		l.item = Value{}
		return false
	}
	l.count--
	switch {
	case l.kind == Struct:
		l.item = Value{l.index, Struct, 0, l.words, l.slots, l.part, l.areAlone, l.offset, l.next}
	case l.slots == 0: // structs without pointers
		l.item = Value{}
	default:
		l.item = l.index.value(l.next)
	}
	l.offset += l.step
	if l.areAlone {
		l.next += uint32(l.slots)
		return true
	}
	for k := uint16(0); k < l.slots; k++ {
		l.next = l.index.next(l.next)
	}
	return true
}

// Item is the element that Next went on to, null before it and at the end.
func (l *Items) Item() Value { return l.item }
