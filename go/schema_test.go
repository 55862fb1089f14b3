//go:build cgo && linux && amd64

package capn

import (
	"errors"
	"fmt"
	"runtime"
	"strings"
	"testing"
)

func rootOf(t *testing.T, words ...uint64) Value {
	t.Helper()
	index, err := NewIndex(bare(words...), Bare, nil)
	if err != nil {
		t.Fatal(err)
	}
	return index.Root()
}

// lists returns a list of two elements of each kind. The last three are lists of structs: without words, with a word,
// and with a pointer.
func lists(t *testing.T) []Value {
	var found []Value
	for code := uint64(0); code < 7; code++ {
		found = append(found, rootOf(t, 1|code<<32|2<<35, 0, 0))
	}
	return append(found, rootOf(t, 1|7<<32, 8),
		rootOf(t, 1|7<<32|2<<35, 8|1<<32, 0, 0), rootOf(t, 1|7<<32|2<<35, 8|1<<48, 0, 0))
}

// Reads each kind of list as each other kind. The tests of the other languages do the same.
func TestListsInPlaceOfOthers(t *testing.T) {
	all := lists(t)
	for _, one := range []struct {
		what, taken string
		count       func(Value) (int, error)
	}{
		{"bits", ".1........", func(v Value) (int, error) { return counted(v.AsNumbers(1)) }},
		{"bytes", "..1....111", func(v Value) (int, error) { return counted(v.AsNumbers(8)) }},
		{"u16", "...1...111", func(v Value) (int, error) { return counted(v.AsNumbers(16)) }},
		{"u32", "....1..111", func(v Value) (int, error) { return counted(v.AsNumbers(32)) }},
		{"u64", ".....1.111", func(v Value) (int, error) { return counted(v.AsNumbers(64)) }},
		{"pointers", "......1111", func(v Value) (int, error) { return read(v.AsPointers()) }},
		{"rows", "1.11111111", func(v Value) (int, error) { return read(v.AsRows()) }},
	} {
		var taken strings.Builder
		for _, value := range all {
			count, err := one.count(value)
			var unexpected *UnexpectedError
			switch {
			case err == nil && count == 2:
				taken.WriteByte('1')
			case errors.As(err, &unexpected) && unexpected.Found == value.Kind() && count == 0:
				taken.WriteByte('.')
			default:
				t.Errorf("%s of %v: %d, %v", one.what, value.Kind(), count, err)
			}
		}
		if taken.String() != one.taken {
			t.Errorf("%s: %s", one.what, taken.String())
		}
		if count, err := one.count(Value{}); err != nil || count != 0 {
			t.Errorf("%s of null: %d, %v", one.what, count, err)
		}
		for _, other := range []Value{rootOf(t, 1<<32, 0), rootOf(t, 1<<48, 3|7<<32).Slot(0)} {
			if count, err := one.count(other); err == nil {
				t.Errorf("%s of %v: %d", one.what, other.Kind(), count)
			}
		}
	}
}

func counted(numbers Numbers, err error) (int, error) {
	for i := 0; i < numbers.Len(); i++ {
		if number := numbers.At(i); number != 0 {
			return -1, err
		}
	}
	return numbers.Len(), err
}

// read reads each item with its fields and pointers, and returns the number of items.
func read(items Items, err error) (int, error) {
	all, count := items.Len(), 0
	for items.Next() {
		count++
		item := items.Item()
		if items.Len() != all-count || item.Uint64(0, 3) != 3 || item.Bool(0, true) != true || item.Uint32(7, 5) != 5 ||
			item.Slot(0).Kind() != Null {
			return -1, err
		}
	}
	if items.Next() || items.Item().Kind() != Null {
		return -1, err
	}
	return count, err
}

// In place of numbers and pointers, a newer schema may have structs. In place of structs, an older schema may have
// numbers and pointers.
func TestOlderAndNewer(t *testing.T) {
	// Two structs of a word and a pointer. The first has 0x01020304 and "a", and the second has 9 and null.
	text := []uint64{1 | 7<<32 | 4<<35, 8 | 1<<32 | 1<<48, 0x01020304, 8 | 1 | 2<<32 | 2<<35, 9, 0, 'a'}
	newer := rootOf(t, text...)
	for bits, want := range map[int]string{8: "4 9", 16: "772 9", 32: "16909060 9", 64: "16909060 9"} {
		numbers, err := newer.AsNumbers(bits)
		if err != nil || numbers.Len() != 2 || fmt.Sprint(numbers.At(0), numbers.At(1)) != want {
			t.Error(bits, numbers, err)
		}
	}
	texts, err := newer.AsPointers()
	var found []string
	for texts.Next() {
		name, err := texts.Item().AsText("nobody")
		found = append(found, fmt.Sprint(name, err))
	}
	if err != nil || strings.Join(found, " ") != "a<nil> nobody<nil>" {
		t.Error(found, err)
	}

	fields := func(v Value) string {
		var all []string
		rows, err := v.AsRows()
		for rows.Next() {
			row := rows.Item()
			all = append(all, fmt.Sprint(row.Uint8(0, 0), row.Uint8(1, 7), row.Uint16(0, 1), row.Uint32(0, 3),
				row.Uint64(0, 5), row.Bool(1, false), row.Bool(9, true), row.DataWords(), row.NumSlots()))
		}
		return fmt.Sprint(all, err)
	}
	for _, one := range []struct {
		value Value
		want  string
	}{
		{rootOf(t, 1|2<<32|2<<35, 0x0203), "[3 7 1 3 5 true true 0 0 2 7 1 3 5 true true 0 0] <nil>"},
		{rootOf(t, 1|3<<32|2<<35, 0x00020103), "[3 6 258 3 5 true true 0 0 2 7 3 3 5 true true 0 0] <nil>"},
		{rootOf(t, 1|4<<32|1<<35, 0x0103), "[3 6 258 256 5 true true 0 0] <nil>"},
		{rootOf(t, 1|5<<32|1<<35, 0x0103), "[3 6 258 256 262 true true 1 0] <nil>"},
		{rootOf(t, 1|0<<32|2<<35), "[0 7 1 3 5 false true 0 0 0 7 1 3 5 false true 0 0] <nil>"},
		{rootOf(t, 1|6<<32|1<<35, 0), "[0 7 1 3 5 false true 0 1] <nil>"},
		{rootOf(t, 1|1<<32|1<<35, 1), "[] capn: list of structs expected, bits found"},
	} {
		if got := fields(one.value); got != one.want {
			t.Errorf("%v: %s, not %s", one.value.Kind(), got, one.want)
		}
	}
	// The pointers of an older schema. The second one refers to a struct that has a pointer.
	older := rootOf(t, 1|6<<32|3<<35, 0, 4|1<<48, 8|1|2<<32|2<<35, 1|2<<32|2<<35, 'x', 'b')
	rows, err := older.AsRows()
	var kinds []ValueKind
	for rows.Next() {
		kinds = append(kinds, rows.Item().Slot(0).Kind())
	}
	if err != nil || fmt.Sprint(kinds) != "[null struct bytes]" {
		t.Error(kinds, err)
	}
}

// Equal values give equal results. A list of two structs of a zero word, or of a null pointer, has the same canonical
// bytes as a list of two structs without words. A reader with an older schema reads numbers or pointers there.
func TestStructsOfNoWords(t *testing.T) {
	word := stream(t, 1<<48, 1|7<<32|2<<35, 2<<2|1<<32, 0, 0)
	pointer := stream(t, 1<<48, 1|7<<32|2<<35, 2<<2|1<<48, 0, 0)
	nothing := stream(t, 1<<48, 1|7<<32, 2<<2)
	for _, message := range [][]byte{word, pointer, nothing} {
		if same, err := Same(message, nothing, Stream, nil); err != nil || !same {
			t.Fatal(same, err)
		}
		index, err := NewIndex(message, Stream, nil)
		if err != nil {
			t.Fatal(err)
		}
		list := index.Root().Slot(0)
		for _, bits := range []int{8, 16, 32, 64} {
			numbers, err := list.AsNumbers(bits)
			if err != nil || numbers.Len() != 2 || numbers.At(0) != 0 || numbers.At(1) != 0 {
				t.Errorf("%x as numbers of %d bits: %v, %v", message, bits, numbers, err)
			}
			func() {
				defer func() {
					if recover() == nil {
						t.Error("a third number")
					}
				}()
				numbers.At(2)
			}()
		}
		pointers, err := list.AsPointers()
		count := 0
		for ; pointers.Next(); count++ {
			text, err := pointers.Item().AsText("none")
			if pointers.Item().Kind() != Null || text != "none" || err != nil {
				t.Errorf("%x as pointers: %v, %v", message, pointers.Item().Kind(), err)
			}
		}
		if count != 2 || err != nil {
			t.Errorf("%x as pointers: %d, %v", message, count, err)
		}
		if _, err := list.AsNumbers(1); err == nil {
			t.Errorf("%x as bits", message)
		}
	}
}

func TestAsOthers(t *testing.T) {
	text, bytes := rootOf(t, 1|2<<32|4<<35, 0x636261), rootOf(t, 1|2<<32|3<<35, 0x636261)
	wrong := rootOf(t, 1|2<<32|2<<35, 0xff)
	number := rootOf(t, 1<<32|1<<48, 5, 0)
	ask := func(v Value) string {
		name, err := v.AsText("none")
		data, other := v.AsData()
		structure, third := v.AsStruct()
		return fmt.Sprintf("%q %v|%q %v|%d %v", name, err, data, other, structure.Uint64(0, 7), third)
	}
	for _, one := range []struct {
		value Value
		want  string
	}{
		{Value{}, `"none" <nil>|"" <nil>|7 <nil>`},
		{text, `"abc" <nil>|"abc\x00" <nil>|7 capn: struct expected, bytes found`},
		{bytes, `"" capn: text expected, bytes found|"abc" <nil>|7 capn: struct expected, bytes found`},
		{wrong, `"" capn: text in UTF-8 expected, bytes found|"\xff\x00" <nil>|7 capn: struct expected, bytes found`},
		{number, `"" capn: text expected, struct found|"" capn: data expected, struct found|2 <nil>`},
	} {
		if got := ask(one.value); got != one.want {
			t.Errorf("%v: %s, not %s", one.value.Kind(), got, one.want)
		}
	}
}

// At doesn't panic, whatever kind and length a message has there.
func TestAtOfAnyKind(t *testing.T) {
	values := append(lists(t), Value{}, rootOf(t, 1<<32, 5), rootOf(t, 1<<48, 3|7<<32).Slot(0))
	for _, value := range values {
		for i := 0; i < value.Len()+2; i++ {
			if number := value.At(i); number != 0 {
				t.Errorf("element %d of %v: %d", i, value.Kind(), number)
			}
		}
	}
	numbers, err := rootOf(t, 1|3<<32|2<<35, 0x00020001).AsNumbers(16)
	if err != nil || numbers.At(1) != 2 {
		t.Fatal(err)
	}
	for _, call := range []func(){
		func() { numbers.At(2) }, func() { numbers.At(-1) }, func() { values[2].At(-1) }, func() { values[2].AsNumbers(7) },
	} {
		func() {
			defer func() {
				if recover() == nil {
					t.Error("no panic")
				}
			}()
			call()
		}()
	}
}

// A list of structs without fields takes one word, however many structs it has. Reading it must not allocate memory for
// them.
func TestManyRows(t *testing.T) {
	const count = 8388000
	root := rootOf(t, 1|7<<32, count<<2)
	var before, after runtime.MemStats
	runtime.ReadMemStats(&before)
	rows, err := root.AsRows()
	seen := 0
	for rows.Next() {
		seen++
	}
	runtime.ReadMemStats(&after)
	if took := after.TotalAlloc - before.TotalAlloc; err != nil || seen != count || took > 1<<16 {
		t.Errorf("%d rows took %d bytes, %v", seen, took, err)
	}
}
