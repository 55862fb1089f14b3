//go:build cgo && linux && amd64

package capn

import (
	"bytes"
	"encoding/binary"
	"errors"
	"fmt"
	"io"
	"math"
	"os"
	"path/filepath"
	"strings"
	"testing"
	"unicode/utf8"
)

// These tests read the fields of tests/c/fields.capnp with its older or its newer type. They read messages of other
// schemas without a schema. CAPN_FIELDS names a folder with the messages that the reference implementation's generated
// code wrote, and with what this code read. CAPN_MIXED names a file with messages of generated.py. CAPN_LINES names
// the file into which the tests write the lines of these messages.

// reading reads fields, and stops at the first field that isn't as the schema says.
type reading struct {
	out strings.Builder
	err error
}

func (r *reading) write(format string, values ...any) { fmt.Fprintf(&r.out, format, values...) }

func (r *reading) text(of Value, slot int, byDefault string) string {
	text, err := of.Slot(slot).AsText(byDefault)
	r.check(err)
	return fmt.Sprintf("%x", text)
}

func (r *reading) check(err error) {
	if r.err == nil {
		r.err = err
	}
}

func (r *reading) rows(v Value) Items {
	items, err := v.AsRows()
	r.check(err)
	return items
}

func (r *reading) numbers(v Value, bits int) Numbers {
	numbers, err := v.AsNumbers(bits)
	r.check(err)
	return numbers
}

func (r *reading) point(of Value, isNew bool) {
	r.write("%d;%d;%s;", of.Int32(0, 0), of.Int32(1, -1), r.text(of, 0, ""))
	if isNew {
		r.write("%d;%s;", of.Int32(2, 77), r.text(of, 1, ""))
	}
}

func digit(is bool) int {
	if is {
		return 1
	}
	return 0
}

// shown returns a message as the generated code shows it.
func shown(message []byte, isNew bool) (string, error) {
	index, err := NewIndex(message, Stream, nil)
	if err != nil {
		return "", err
	}
	root, err := index.Root().AsStruct()
	r := &reading{err: err}
	blob, err := root.Slot(1).AsData()
	r.check(err)
	r.write("%d;%d;%d;%d;%016x;%08x;%s;%x;[", digit(root.Bool(0, true)), root.Int8(1, -5), root.Uint64(1, 7),
		root.Uint16(1, 1), math.Float64bits(root.Float64(2, 1.5)), math.Float32bits(root.Float32(1, -2.5)),
		r.text(root, 0, "none"), blob)
	if isNew {
		for rows := r.rows(root.Slot(2)); rows.Next(); {
			row := rows.Item()
			r.write("%d;%d;%s;", row.Uint16(0, 0), row.Uint16(1, 3), r.text(row, 0, ""))
		}
	} else {
		numbers := r.numbers(root.Slot(2), 16)
		for i := 0; i < numbers.Len(); i++ {
			r.write("%d;", numbers.At(i))
		}
	}
	r.write("][")
	if isNew {
		for rows := r.rows(root.Slot(3)); rows.Next(); {
			r.write("%s;%d;", r.text(rows.Item(), 0, ""), rows.Item().Uint32(0, 8))
		}
	} else {
		texts, err := root.Slot(3).AsPointers()
		r.check(err)
		for texts.Next() {
			text, err := texts.Item().AsText("")
			r.check(err)
			r.write("%x;", text)
		}
	}
	r.write("][")
	for rows := r.rows(root.Slot(4)); rows.Next(); {
		r.point(rows.Item(), isNew)
	}
	r.write("][")
	bits := r.numbers(root.Slot(5), 1)
	for i := 0; i < bits.Len(); i++ {
		r.write("%d;", bits.At(i))
	}
	r.write("][")
	if isNew {
		for rows := r.rows(root.Slot(6)); rows.Next(); {
			row := rows.Item()
			r.write("%d;%08x;", row.Int64(0, 0), math.Float32bits(row.Float32(2, 0.5)))
		}
	} else {
		large := r.numbers(root.Slot(6), 64)
		for i := 0; i < large.Len(); i++ {
			r.write("%d;", int64(large.At(i)))
		}
	}
	voids := r.rows(root.Slot(7))
	r.write("]%d;", voids.Len())
	inner, err := root.Slot(8).AsStruct()
	r.check(err)
	r.point(inner, isNew)
	which := root.Uint16(14, 0)
	r.write("%d;%d:", digit(root.Bool(1, false)), which)
	switch {
	case which == 0:
		r.write("%d", root.Uint32(6, 100))
	case which == 1:
		r.write("%s", r.text(root, 9, ""))
	case which == 3 && isNew:
		r.write("%016x", math.Float64bits(root.Float64(5, 0.25)))
	}
	r.write(";")
	if isNew {
		note, err := root.Slot(10).AsText("no note")
		r.check(err)
		r.write("%d;%d;%x;%d;", root.Uint16(15, 12345), digit(root.Bool(2, true)), note, root.Int64(4, -9))
	}
	return r.out.String(), r.err
}

// readStruct reads fields and pointers of a struct, inside the struct and beyond its end.
func readStruct(t *testing.T, of Value) {
	for i := 0; i < of.DataWords()+3; i++ {
		_ = of.Uint64(i, 1)
		for k := 0; k < 8; k++ {
			_ = of.Bool(64*i+9*k, true)
			_ = of.Uint8(8*i+k, 1)
			_ = of.Uint16(4*i+k/2, 1)
			_ = of.Uint32(2*i+k/4, 1)
		}
	}
	for k := of.NumSlots(); k < of.NumSlots()+2; k++ {
		if of.Slot(k).Kind() != Null {
			t.Fatalf("pointer %d of %d", k, of.NumSlots())
		}
	}
}

// readAny counts how many readings succeed for a pointer and the pointers below it, and how many pointers these are.
func readAny(t *testing.T, v Value, things, pointers *int) {
	*pointers++
	if of, err := v.AsStruct(); err == nil {
		readStruct(t, of)
		*things++
	}
	if data, err := v.AsData(); err == nil {
		*things++
		// The text need not be UTF-8.
		if v.Kind() == Null || len(data) > 0 && data[len(data)-1] == 0 {
			*things++
		}
	}
	// A list of elements without size can only be read as a list of structs.
	if v.Kind() == Null || v.Kind() == Voids || v.Kind() == Rows {
		*things++
	}
	for _, bits := range []int{1, 8, 16, 32, 64} {
		if numbers, err := v.AsNumbers(bits); err == nil {
			*things++
			for i := 0; i < numbers.Len() && i < 1000; i++ {
				_ = numbers.At(i)
			}
		}
	}
	for _, list := range []func() (Items, error){v.AsPointers, v.AsRows} {
		items, err := list()
		if err != nil {
			continue
		}
		*things++
		for i := 0; i < 1000 && items.Next(); i++ {
			readStruct(t, items.Item())
		}
	}
	eachBelow(v, func(below Value) { readAny(t, below, things, pointers) })
}

// eachBelow calls a function with the object of each pointer of an object, in order.
func eachBelow(v Value, call func(Value)) {
	switch v.Kind() {
	case Struct:
		for k := 0; k < v.NumSlots(); k++ {
			call(v.Slot(k))
		}
	case Pointers:
		for items, _ := v.AsPointers(); items.Next(); {
			call(items.Item())
		}
	case Rows:
		for items, _ := v.AsRows(); v.NumSlots() > 0 && items.Next(); {
			for k := 0; k < v.NumSlots(); k++ {
				call(items.Item().Slot(k))
			}
		}
	}
}

// A sum stands for all numbers of one reading in a line. It is FNV-1a over numbers of 64 bits instead of bytes.
type sum uint64

func sumOf(numbers ...uint64) *sum {
	fresh := sum(0xcbf29ce484222325)
	for _, number := range numbers {
		fresh.add(number)
	}
	return &fresh
}

func (s *sum) add(number uint64) { *s = (*s ^ sum(number)) * 0x100000001b3 }

func sumOfBytes(all []byte) *sum {
	s := sumOf(uint64(len(all)))
	for _, one := range all {
		s.add(uint64(one))
	}
	return s
}

// fields adds each fifth bit, and the fields of each width below the bit 256. Field i of a width has the default i + 1,
// or -(i + 1) if it is signed. Then it adds the number of pointers, and the kinds of the first four.
func (s *sum) fields(of Value) {
	for i := 0; i < 256; i += 5 {
		s.add(uint64(digit(of.Bool(i, (i+1)%2 != 0))))
	}
	for i := 0; i < 32; i++ {
		s.add(uint64(of.Uint8(i, uint8(i+1))))
	}
	for i := 0; i < 16; i++ {
		s.add(uint64(of.Uint16(i, uint16(i+1))))
	}
	for i := 0; i < 8; i++ {
		s.add(uint64(of.Uint32(i, uint32(i+1))))
	}
	for i := 0; i < 4; i++ {
		s.add(of.Uint64(i, uint64(i+1)))
	}
	for i := 0; i < 32; i++ {
		s.add(uint64(of.Int8(i, int8(-i-1))))
	}
	for i := 0; i < 16; i++ {
		s.add(uint64(of.Int16(i, int16(-i-1))))
	}
	for i := 0; i < 8; i++ {
		s.add(uint64(of.Int32(i, int32(-i-1))))
	}
	for i := 0; i < 4; i++ {
		s.add(uint64(of.Int64(i, int64(-i-1))))
	}
	s.add(uint64(of.NumSlots()))
	for k := 0; k < 4; k++ {
		s.add(uint64(of.Slot(k).Kind()))
	}
}

// writeLines writes a line for a pointer, and a line for each pointer below it, as tests/c/fields.c does.
func writeLines(out *bytes.Buffer, v Value) {
	fmt.Fprint(out, v.Kind())
	write := func(s *sum, err error) {
		if err != nil {
			out.WriteString(" -")
			return
		}
		fmt.Fprintf(out, " %016x", uint64(*s))
	}
	of, err := v.AsStruct()
	s := sumOf()
	s.fields(of)
	write(s, err)
	data, err := v.AsData()
	switch {
	case v.Kind() == Null:
		text, err := v.AsText("none")
		write(sumOfBytes([]byte(text)), err)
	case err == nil && len(data) > 0 && data[len(data)-1] == 0:
		// The text need not be UTF-8. AsText returns it if it is.
		text := data[:len(data)-1]
		if utf8.Valid(text) {
			valid, err := v.AsText("none")
			write(sumOfBytes([]byte(valid)), err)
		} else {
			write(sumOfBytes(text), nil)
		}
	default:
		_, err := v.AsText("none")
		write(sumOf(), err)
	}
	write(sumOfBytes(data), err)
	// A list of elements without size can only be read as a list of structs.
	if v.Kind() == Null || v.Kind() == Voids || v.Kind() == Rows {
		write(sumOf(uint64(v.Len())), nil)
	} else {
		out.WriteString(" -")
	}
	for _, bits := range []int{1, 8, 16, 32, 64} {
		numbers, err := v.AsNumbers(bits)
		s := sumOf(uint64(numbers.Len()))
		for i := 0; i < numbers.Len() && i < 1000; i++ {
			s.add(numbers.At(i))
		}
		write(s, err)
	}
	items, err := v.AsPointers()
	s = sumOf(uint64(items.Len()))
	for i := 0; i < 20 && items.Next(); i++ {
		s.add(uint64(items.Item().Kind()))
	}
	write(s, err)
	items, err = v.AsRows()
	s = sumOf(uint64(items.Len()))
	for i := 0; i < 20 && items.Next(); i++ {
		s.fields(items.Item())
	}
	write(s, err)
	out.WriteByte('\n')
	eachBelow(v, func(below Value) { writeLines(out, below) })
}

// Before each message of `generated.py mixed` stands its length.
func TestLinesOfMixed(t *testing.T) {
	mixed, to := os.Getenv("CAPN_MIXED"), os.Getenv("CAPN_LINES")
	if mixed == "" || to == "" {
		t.Skip("CAPN_MIXED and CAPN_LINES name no files")
	}
	left, err := os.ReadFile(mixed)
	if err != nil {
		t.Fatal(err)
	}
	var lines bytes.Buffer
	for len(left) > 0 {
		length := 4 + int(binary.LittleEndian.Uint32(left))
		message := append([]byte{}, left[4:length]...)
		left = left[length:]
		index, err := NewIndex(message, Stream, nil)
		var rejected *Error
		switch {
		case err == nil:
			writeLines(&lines, index.Root())
		case errors.As(err, &rejected):
			fmt.Fprintf(&lines, "rejected: %s\n", rejected.Text())
		default:
			t.Fatal(err)
		}
	}
	if err := os.WriteFile(to, lines.Bytes(), 0o666); err != nil {
		t.Fatal(err)
	}
}

func TestFieldsOfWritten(t *testing.T) {
	folder := os.Getenv("CAPN_FIELDS")
	if folder == "" {
		t.Skip("CAPN_FIELDS names no folder")
	}
	file := func(name string) []byte {
		data, err := os.ReadFile(filepath.Join(folder, name))
		if err != nil {
			t.Fatal(err)
		}
		return data
	}
	each := func(stream []byte, call func([]byte)) {
		for reader := NewReader(bytes.NewReader(stream), nil); ; {
			message, err := reader.Next()
			if err == io.EOF {
				return
			}
			if err != nil {
				t.Fatal(err)
			}
			call(message)
		}
	}
	for _, name := range []string{"old", "new"} {
		wanted, at := strings.Split(string(file(name)), "\n"), 0
		each(file("messages"), func(message []byte) {
			got, err := shown(message, name == "new")
			if err != nil || got != wanted[at] {
				t.Fatalf("message %d by the %s type: %s %v, not %s", at, name, got, err, wanted[at])
			}
			at++
		})
		if at < 1000 {
			t.Errorf("%d messages", at)
		}
	}
	messages, pointers, things := 0, 0, 0
	each(file("stream"), func(message []byte) {
		if index, err := NewIndex(message, Stream, nil); err == nil {
			messages++
			readAny(t, index.Root(), &things, &pointers)
		}
	})
	got := fmt.Sprintf("%d messages, %d pointers, %d\n", messages, pointers, things)
	if want := string(file("anything")); got != want {
		t.Errorf("read as anything: %s, not %s", got, want)
	}
}
