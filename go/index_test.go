//go:build cgo && linux && amd64

package capn

import (
	"bytes"
	"math"
	"math/rand"
	"os/exec"
	"strings"
	"testing"
)

// same returns whether the value that is read equals the value that was laid out.
func same(t *testing.T, got Value, want *item) {
	t.Helper()
	switch want.kind {
	case 0:
		if got.Kind() != Null {
			t.Fatal(got.Kind())
		}
	case 's':
		sameStruct(t, got, want.words, want.below)
	case 'l':
		kind := [...]ValueKind{Voids, Bits, Bytes, U16s, U32s, U64s}[want.code]
		if got.Kind() != kind || got.Len() != want.count {
			t.Fatal(got.Kind(), got.Len())
		}
		width := [...]int{0, 1, 8, 16, 32, 64}[want.code]
		for i := 0; i < want.count && width > 0; i++ {
			word := want.words[i*width/64] >> (i * width % 64)
			if width < 64 {
				word &= 1<<width - 1
			}
			if got.At(i) != word {
				t.Fatal(i, got.At(i), word)
			}
		}
	case 'p':
		found := got.Pointers()
		if got.Kind() != Pointers || len(found) != len(want.below) || got.Len() != len(found) {
			t.Fatal(got.Kind(), len(found))
		}
		for i, one := range found {
			same(t, one, want.below[i])
		}
	case 'r':
		words, slots := int(want.code&0xFFFF), int(want.code>>16)
		rows := got.Rows()
		if got.Kind() != Rows || len(rows) != want.count || got.DataWords() != words || got.NumSlots() != slots {
			t.Fatal(got.Kind(), len(rows))
		}
		for i, row := range rows {
			sameStruct(t, row, want.words[i*words:(i+1)*words], want.below[i*slots:(i+1)*slots])
		}
	}
}

func sameStruct(t *testing.T, got Value, words []uint64, below []*item) {
	t.Helper()
	if got.Kind() != Struct || got.DataWords() != len(words) || got.NumSlots() != len(below) || got.Len() != 0 {
		t.Fatal(got.Kind(), got.DataWords(), got.NumSlots())
	}
	for i, word := range words {
		if got.Uint64(i, 0) != word || got.Uint64(i, 7) != word^7 {
			t.Fatal(i, word)
		}
	}
	for i, one := range below {
		same(t, got.Slot(i), one)
	}
	if got.Slot(len(below)).Kind() != Null || got.Slot(-1).Kind() != Null || got.Uint64(len(words), 9) != 9 {
		t.Fatal("behind the end")
	}
}

func TestIndex(t *testing.T) {
	source := rand.New(rand.NewSource(69))
	for i := 0; i < 5000; i++ {
		value := randomItem(source, 0)
		segments := bytesOf(segmentsOf(source, value, 1+source.Intn(4)))
		message, err := framed(segments)
		if err != nil {
			t.Fatal(err)
		}
		for form, data := range map[Form][]byte{Stream: message, Packed: packedOf(t, message), Bare: segments[0]} {
			if form == Bare && len(segments) > 1 {
				continue
			}
			index, err := NewIndex(data, form, nil)
			if err != nil {
				t.Fatalf("%x: %v", data, err)
			}
			same(t, index.Root(), value)
			if checked, _ := Check(data, form, nil); checked != index.Checked() {
				t.Fatal(checked)
			}
		}
	}
}

func TestOtherKinds(t *testing.T) {
	index, err := NewIndex([]byte("\x00\x00\x00\x00\x00\x00\x01\x00"+"\x03\x00\x00\x00\x07\x00\x00\x00"), Bare, nil)
	if err != nil {
		t.Fatal(err)
	}
	root := index.Root().Slot(0)
	if root.Kind() != Capability || root.CapabilityIndex() != 7 || root.Len() != 0 {
		t.Fatal(root.Kind())
	}
	if root.Kind().String() != "capability" || ValueKind(11).String() != "ValueKind(11)" {
		t.Fatal(root.Kind().String())
	}
	if (Value{}).Uint32(3, 5) != 5 || (Value{}).Bytes() != nil || (Value{}).Rows() != nil || (Value{}).Pointers() != nil {
		t.Fatal("of no value")
	}
	for _, call := range []func(){
		func() { root.At(-1) }, func() { root.Uint8(-1, 0) },
	} {
		func() {
			defer func() {
				if recover() == nil {
					t.Error("no panic")
				}
			}()
			call()
		}()
	}
	for _, one := range []struct {
		bytes, text string
		is          bool
	}{
		{"abc\x00", "abc", true}, {"\x00", "", true}, {"", "", false}, {"abc", "", false}, {"\xff\x00", "", false},
		{"a\x00b\x00", "a\x00b", true},
	} {
		list := &item{kind: 'l', code: 2, count: len(one.bytes), words: make([]uint64, (len(one.bytes)+7)/8)}
		for i := range one.bytes {
			list.words[i/8] |= uint64(one.bytes[i]) << (8 * (i % 8))
		}
		index, err := NewIndex(bytesOf(segmentsOf(rand.New(rand.NewSource(1)), list, 1))[0], Bare, nil)
		if err != nil {
			t.Fatal(err)
		}
		text, is := index.Root().Text()
		if text != one.text || is != one.is || !bytes.Equal(index.Root().Bytes(), []byte(one.bytes)) {
			t.Errorf("%q: %q %v", one.bytes, text, is)
		}
	}
}

// The reference implementation's program writes messages with a schema. Their fields are read with the same schema.
func TestFields(t *testing.T) {
	program, err := exec.LookPath("capnp")
	if err != nil {
		t.Skip("there is no program capnp")
	}
	for _, one := range []struct {
		kind, written, numbers string
		usual                  bool
	}{
		{"Old", "()", "", true},
		{"New", "()", "", true},
		{"Old", "", "[1, 2]", false},
		{"New", "", `[(number = 1), (number = 2, name = "x")]`, false},
	} {
		written := one.written
		if written == "" {
			written = `(u64 = 5, u32 = 3, u16 = 65535, u8 = 1, i64 = 9223372036854775807, i32 = -1, i16 = -32768, i8 = 127,
				f64 = -1e300, f32 = 0.25, yes = false, no = true, name = "Alice", colour = red, numbers = ` + one.numbers + ")"
		}
		ran := exec.Command(program, "encode", "../tests/python/fields.capnp", one.kind)
		ran.Stdin = strings.NewReader(written)
		message, err := ran.Output()
		if err != nil {
			t.Fatal(err)
		}
		index, err := NewIndex(message, Stream, nil)
		if err != nil {
			t.Fatal(err)
		}
		r := index.Root()
		name, is := r.Slot(0).Text()
		got := []any{
			r.Uint64(0, 7), r.Uint32(2, 4000000000), r.Uint16(6, 65535), r.Uint8(14, 200), r.Int64(2, -5),
			r.Int32(6, -2000000000), r.Int16(14, 1234), r.Int8(15, -128), r.Float64(4, 2.5), r.Float32(10, -0.5),
			r.Bool(240, true), r.Bool(241, false), name, is, r.Uint16(22, 2),
		}
		want := []any{
			uint64(7), uint32(4000000000), uint16(65535), uint8(200), int64(-5), int32(-2000000000), int16(1234), int8(-128),
			2.5, float32(-0.5), true, false, "", false, uint16(2),
		}
		if !one.usual {
			want = []any{
				uint64(5), uint32(3), uint16(65535), uint8(1), int64(math.MaxInt64), int32(-1), int16(-32768), int8(127),
				-1e300, float32(0.25), false, true, "Alice", true, uint16(0),
			}
		}
		for i := range want {
			if got[i] != want[i] {
				t.Errorf("%s: field %d is %v, not %v", one.kind, i, got[i], want[i])
			}
		}
		// A newer writer may have written a list of structs in place of the list of numbers. In this case, the numbers are
		// not read here.
		var numbers []uint64
		for i := 0; i < r.Slot(1).Len() && r.Slot(1).Kind() == U16s; i++ {
			numbers = append(numbers, r.Slot(1).At(i))
		}
		for _, row := range r.Slot(1).Rows() {
			numbers = append(numbers, uint64(row.Uint16(0, 0)))
		}
		if !one.usual && (len(numbers) != 2 || numbers[0] != 1 || numbers[1] != 2) {
			t.Errorf("%s: %v", one.kind, numbers)
		}
	}
}
