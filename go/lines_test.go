//go:build cgo && linux && amd64

package capn

import (
	"encoding/hex"
	"errors"
	"reflect"
	"testing"
)

func bytesOfHex(t *testing.T, digits string) []byte {
	t.Helper()
	message, err := hex.DecodeString(digits)
	if err != nil {
		t.Fatal(err)
	}
	return message
}

// lineAt returns a line of one word that isn't zero. It is covered once, by the object of the pointer at a word of the
// same segment.
func lineAt(offset uint64, segment, word uint32, kind LineKind, slot uint32) Line {
	return Line{Offset: offset, Segment: segment, Word: word, Words: 1, Times: 1, HasSlot: true, SlotSegment: segment,
		SlotWord: slot, NotZero: 1, Kind: kind}
}

// changed returns a line that differs from another.
func changed(l Line, changes ...func(*Line)) Line {
	for _, change := range changes {
		change(&l)
	}
	return l
}

func TestAnnotate(t *testing.T) {
	root := func(offset uint64) Line {
		return Line{Offset: offset, Words: 1, Times: 1, NotZero: 1, Kind: LinePointer}
	}
	cut := func(l *Line) { l.Cut, l.NotZero = 1, 0 }
	ofFirst := func(l *Line) { l.SlotSegment = 0 }
	for _, one := range []struct {
		what   string
		digits string
		form   Form
		want   []Line
	}{
		{"a message with a text", "0000000004000000000000000100010005000000000000000100" +
			"00001a0000006162000000000000", Stream, []Line{
			root(8), lineAt(16, 0, 1, LineData, 0), lineAt(24, 0, 2, LinePointer, 0), lineAt(32, 0, 3, LineList, 2),
		}},
		{"a text that was set twice", "0000000000000100050000003200000041646100000000004772616365000000", Bare, []Line{
			root(0), lineAt(8, 0, 1, LinePointer, 0),
			{Offset: 16, Word: 2, Words: 1, NotZero: 1, Kind: LineUnreached}, lineAt(24, 0, 3, LineList, 1),
		}},
		{"a landing pad, a shared text, and what canonical bytes leave out",
			"1101010106110201500103000011091a11051a0000036869", Packed, []Line{
				root(16), changed(lineAt(24, 1, 0, LinePad, 0), ofFirst),
				changed(lineAt(32, 1, 1, LineData, 0), ofFirst, cut),
				changed(lineAt(40, 1, 2, LinePointer, 0), ofFirst), changed(lineAt(48, 1, 3, LinePointer, 0), ofFirst),
				changed(lineAt(56, 1, 4, LineNull, 0), ofFirst, cut),
				changed(lineAt(64, 1, 5, LineList, 2), func(l *Line) { l.Times = 2 }),
			}},
		{"an overlap and slack", "0000000000000200050000001f00000009000000140000000800000001000000" +
			"07000000000000000900000000000000ffffffffffffffff", Bare, []Line{
			root(0), lineAt(8, 0, 1, LinePointer, 0), lineAt(16, 0, 2, LinePointer, 0), lineAt(24, 0, 3, LineTag, 1),
			lineAt(32, 0, 4, LineData, 1),
			changed(lineAt(40, 0, 5, LineData, 1), func(l *Line) { l.Times, l.Overlap = 2, true }),
			lineAt(48, 0, 6, LineSlack, 1),
		}},
		// A list of 17 bytes. In its last word, a byte after the list isn't zero.
		{"several words and padding", "010000008a000000616161616161616100000000000000006100000000000009", Bare, []Line{
			root(0), changed(lineAt(8, 0, 1, LineList, 0), func(l *Line) { l.Words, l.NotZero, l.Padding = 3, 2, true }),
		}},
		{"a null root", "0000000000000000", Bare, []Line{{Words: 1, Times: 1, Kind: LineNull}}},
		{"a capability", "00000000000001000300000007000000", Bare, []Line{root(0), lineAt(8, 0, 1, LinePointer, 0)}},
	} {
		got, err := Annotate(bytesOfHex(t, one.digits), one.form, nil)
		if err != nil || !reflect.DeepEqual(got, one.want) {
			t.Errorf("%s: %+v, %v", one.what, got, err)
		}
	}
}

// A struct of many pointers, each to an empty struct: each word has a line.
func TestAnnotateManyLines(t *testing.T) {
	const count = 5000
	words := []uint64{count << 48}
	for i := 0; i < count; i++ {
		words = append(words, 0xfffffffc)
	}
	lines, err := Annotate(bare(words...), Bare, nil)
	if err != nil || len(lines) != count+1 {
		t.Fatal(len(lines), err)
	}
	for i, l := range lines {
		if l.Offset != uint64(8*i) || l.Kind != LinePointer || l.HasSlot != (i > 0) {
			t.Fatalf("%d: %+v", i, l)
		}
	}
}

func TestAnnotateRefuses(t *testing.T) {
	for _, one := range []struct {
		message []byte
		form    Form
		want    error
	}{
		{bare(1 << 32), Bare, ErrRange}, {make([]byte, 4), Stream, ErrFrameCut}, {[]byte{1}, Packed, ErrPackedCut},
		{make([]byte, 9), Bare, ErrNotWhole}, {nil, Stream, ErrFrameEmpty}, {bare(0), 3, ErrForm},
	} {
		if lines, err := Annotate(one.message, one.form, nil); lines != nil || !errors.Is(err, one.want) {
			t.Errorf("%x: %v, %v", one.message, lines, err)
		}
	}
	limits := UsualLimits()
	limits.Depth = maxDepth + 1
	if lines, err := Annotate(bare(0), Bare, &limits); lines != nil || err != ErrLimits {
		t.Error(lines, err)
	}
	if LineSlack.String() != "slack" || LineKind(9).String() != "LineKind(9)" {
		t.Error(LineSlack, LineKind(9))
	}
}
