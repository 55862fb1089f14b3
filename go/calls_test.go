//go:build cgo && linux && amd64

package capn

import (
	"bytes"
	"crypto/sha256"
	"errors"
	"io"
	"math/rand"
	"os"
	"strconv"
	"strings"
	"sync"
	"testing"
)

func TestCalls(t *testing.T) {
	source := rand.New(rand.NewSource(68))
	for i := 0; i < 2000; i++ {
		segment := bytesOf(segmentsOf(source, randomItem(source, 0), 1))[0]
		message, err := framed([][]byte{segment})
		if err != nil {
			t.Fatal(err)
		}
		packed, err := Pack(message)
		if err != nil {
			t.Fatal(err)
		}
		if words, err := Unpack(packed, uint32(len(message)/8)); err != nil || !bytes.Equal(words, message) {
			t.Fatal(err)
		}
		canonical, err := Canonical(message, Stream, nil)
		if err != nil {
			t.Fatal(err)
		}
		if is, err := IsCanonicalWords(canonical, nil); err != nil || !is {
			t.Fatal(is, err)
		}
		is, err := IsCanonicalWords(segment, nil)
		if err != nil || is != bytes.Equal(segment, canonical) {
			t.Fatal(is, err)
		}
		figures, err := Survey(message, Stream, nil)
		if err != nil || figures.Canonical != is || int(figures.Words) != len(segment)/8 {
			t.Fatal(figures, err)
		}
		for form, data := range map[Form][]byte{Stream: message, Packed: packed, Bare: segment} {
			got, err := AppendCanonical([]byte("before"), data, form, nil)
			if err != nil || string(got[:6]) != "before" || !bytes.Equal(got[6:], canonical) {
				t.Fatal(got, err)
			}
			room := make([]byte, 3, 3+len(canonical)+i%2)
			if got, err = AppendCanonical(room, data, form, nil); err != nil || !bytes.Equal(got[3:], canonical) {
				t.Fatal(got, err)
			}
			if digest, err := Digest(data, form, nil); err != nil || digest != sha256.Sum256(canonical) {
				t.Fatal(digest, err)
			}
			if same, err := Survey(data, form, nil); err != nil || same.Paid != figures.Paid || same.Visits != figures.Visits {
				t.Fatal(same, err)
			}
			checked, err := Check(data, form, nil)
			if err != nil || checked != (Checked{figures.Paid, figures.Visits}) {
				t.Fatal(checked, err)
			}
		}
	}
}

// packedOf returns the packed bytes of a message.
func packedOf(t *testing.T, message []byte) []byte {
	t.Helper()
	text, err := Pack(message)
	if err != nil {
		t.Fatal(err)
	}
	return text
}

func TestSame(t *testing.T) {
	bare := func(words ...uint64) []byte { return bytesOf([][]uint64{words})[0] }
	stream := func(words ...uint64) []byte { return append(bare(uint64(len(words))<<32), bare(words...)...) }
	tight, other, capability := stream(1<<32, 5), stream(1<<32, 6), stream(1<<48, 3|7<<32)
	far := bare(1|1<<32, 2, 2|1<<32, 1<<32, 5)
	for _, equal := range [][]byte{small, tight, far} {
		if same, err := Same(small, equal, Stream, nil); err != nil || !same {
			t.Errorf("%x: %v, %v", equal, same, err)
		}
		if same, err := Same(equal, other, Stream, nil); err != nil || same {
			t.Errorf("%x: %v, %v", equal, same, err)
		}
	}
	if same, err := Same(packedOf(t, small), packedOf(t, far), Packed, nil); err != nil || !same {
		t.Error(same, err)
	}
	if same, err := Same(small[8:], tight[8:], Bare, nil); err != nil || !same {
		t.Error(same, err)
	}
	for _, it := range []struct {
		first, second []byte
		kind          Kind
		which         int
	}{
		{small[:20], capability, ErrFrameCut, 0},
		{small, small[:20], ErrFrameCut, 1},
		{capability, nil, ErrCapability, 0},
		{small, capability, ErrCapability, 1},
		{small, nil, ErrFrameEmpty, 1},
	} {
		var refused *Error
		same, err := Same(it.first, it.second, Stream, nil)
		if same || !errors.As(err, &refused) || refused.Kind != it.kind || refused.Which != it.which {
			t.Errorf("%x and %x: %v, %v", it.first, it.second, same, err)
		}
	}
	if same, err := Same(small, small, Stream, limitsWith(9, 9, 0, Strict)); same || err != ErrLimits {
		t.Error(same, err)
	}
	if same, err := Same(small, small, Form(3), nil); same || err != ErrForm {
		t.Error(same, err)
	}
}

// Two generated messages are the same if and only if their canonical bytes are equal.
func TestSameAsCanonicalBytes(t *testing.T) {
	source := rand.New(rand.NewSource(79))
	var messages, canonical [][]byte
	for i := 0; i < 60; i++ {
		item, copies := randomItem(source, 0), 1+i%3
		for j := 0; j < copies; j++ {
			message, err := framed(bytesOf(segmentsOf(source, item, 1+source.Intn(3))))
			if err != nil {
				t.Fatal(err)
			}
			bytes, err := Canonical(message, Stream, nil)
			if err != nil {
				t.Fatal(err)
			}
			messages, canonical = append(messages, message), append(canonical, bytes)
		}
	}
	for i, first := range messages {
		for j, second := range messages {
			same, err := Same(first, second, Stream, nil)
			if err != nil || same != bytes.Equal(canonical[i], canonical[j]) {
				t.Fatalf("%x and %x: %v, %v", first, second, same, err)
			}
		}
	}
}

// An object is written once for each pointer to it. So the canonical bytes can be longer than the message.
func TestLongAnswer(t *testing.T) {
	const count = 500
	words := []uint64{1 | 6<<32 | count<<35}
	for i := 0; i < count; i++ {
		words = append(words, 1|uint64(count-1-i)<<2|5<<32|8<<35)
	}
	segment := bytesOf([][]uint64{append(words, 1, 2, 3, 4, 5, 6, 7, 8)})[0]
	got, err := AppendCanonical(make([]byte, 5), segment, Bare, nil)
	if err != nil || len(got) != 5+8*(1+count+8*count) {
		t.Fatal(len(got), err)
	}
	dst := make([]byte, 5, 50)
	if got, err = AppendCanonical(dst, segment, Bare, limitsWith(9, 3000, 9, Strict)); !errors.Is(err, ErrOverBudget) {
		t.Fatal(err)
	}
	if &got[0] != &dst[0] || len(got) != 5 {
		t.Fatal("another slice was answered")
	}
}

// A message may lie in the place of the result. The message must stay unchanged, and the call must return another
// slice.
func TestOverlappingAnswer(t *testing.T) {
	source := rand.New(rand.NewSource(82))
	for i := 0; i < 500; i++ {
		message, err := framed(bytesOf(segmentsOf(source, randomItem(source, 0), 1+source.Intn(3))))
		if err != nil {
			t.Fatal(err)
		}
		want, err := Canonical(message, Stream, nil)
		if err != nil {
			t.Fatal(err)
		}
		// The message begins `before` bytes after the end of dst. With a negative number it reaches into dst.
		for _, before := range []int{0, 1, 8, 64, -3} {
			begin := 100 + before
			whole := make([]byte, begin+len(message), begin+len(message)+i)
			copy(whole[begin:], message)
			inside := whole[begin : begin+len(message)]
			dst := whole[:100]
			first := append([]byte{}, dst...)
			got, err := AppendCanonical(dst, inside, Stream, nil)
			if err != nil || !bytes.Equal(got[:100], first) || !bytes.Equal(got[100:], want) {
				t.Fatalf("%d bytes before: %x, %v", before, got, err)
			}
			if !bytes.Equal(inside, message) {
				t.Fatalf("%d bytes before: the message was changed", before)
			}
		}
		// First the call appends to dst[:0], so that it reuses a slice. Then a message is rejected, and dst must stay
		// unchanged.
		m := append([]byte{}, message...)
		got, err := AppendCanonical(m[:0], m, Stream, nil)
		if err != nil || !bytes.Equal(got, want) || !bytes.Equal(m, message) {
			t.Fatalf("%x, %v", got, err)
		}
		got, err = AppendCanonical(m[:2], m[:len(m)-1], Stream, nil)
		if err == nil || len(got) != 2 || &got[0] != &m[0] {
			t.Fatal(got, err)
		}
	}
	// If the buffer has room and shares no byte with the message, the buffer is used.
	room := make([]byte, 200)
	copy(room[100:], small)
	got, err := AppendCanonical(room[:4:100], room[100:132], Stream, nil)
	if err != nil || &got[0] != &room[0] {
		t.Fatal(got, err)
	}
}

func TestShow(t *testing.T) {
	list := bytesOf([][]uint64{{1 | 26<<32, 0x6968}})[0]
	letter := bytesOf([][]uint64{{1 | 26<<32, 0xa4c3}})[0]
	long := append(bytesOf([][]uint64{{1 | 2<<32 | 8000<<35}})[0], make([]byte, 8000)...)
	// A dump that is longer than the buffer that is tried first.
	bits := append(bytesOf([][]uint64{{1 | 1<<32 | 64000<<35}})[0], make([]byte, 8000)...)
	packed, err := Pack(small)
	if err != nil {
		t.Fatal(err)
	}
	const five = "struct 2 0\n  word 0000000000000005\n  word 0000000000000000\nend\n"
	for _, one := range []struct {
		message []byte
		form    Form
		style   Style
		text    string
	}{
		{small, Stream, Lines, five},
		{small[8:], Bare, Text, five},
		{packed, Packed, Lines, five},
		{list, Bare, Lines, "bytes 3\n  686900\nend\n"},
		{list, Bare, Text, "bytes 3 \"hi\\0\"\nend\n"},
		{list, Bare, JSON, "{\"bytes\":\"686900\"}\n"},
		{list, Bare, JSONText, "{\"text\":\"hi\"}\n"},
		{letter, Bare, JSONText, "{\"text\":\"ä\"}\n"},
		{letter, Bare, Text, "bytes 3 \"ä\\0\"\nend\n"},
		{long, Bare, JSONText, "{\"bytes\":\"" + strings.Repeat("00", 8000) + "\"}\n"},
		{bits, Bare, Lines, "bits 64000\n  " + strings.Repeat("0", 64000) + "\nend\n"},
		{long, Bare, JSON, "{\"bytes\":\"" + strings.Repeat("00", 8000) + "\"}\n"},
	} {
		if text, err := Show(one.message, one.form, nil, one.style); err != nil || text != one.text {
			t.Errorf("%q, %v, not %q", text, err, one.text)
		}
	}
	if _, err := Show(small, Stream, nil, Style(4)); err != ErrStyle {
		t.Error(err)
	}
	if text, err := Show(small, Stream, limitsWith(9, 2, 9, Strict), Lines); !errors.Is(err, ErrOverBudget) || text != "" {
		t.Error(text, err)
	}
}

func TestRefusals(t *testing.T) {
	outside, little := []byte("\x00\x00\x00\x00\x01\x00\x00\x00"), limitsWith(9, 2, 9, Strict)
	capability := []byte("\x00\x00\x00\x00\x00\x00\x01\x00" + "\x03\x00\x00\x00\x07\x00\x00\x00")
	for _, one := range []struct {
		err  error
		kind Kind
		text string
		cut  bool
	}{
		{second(Check(nil, Stream, nil)), ErrFrameEmpty, "frame: Empty", false},
		{second(Check(make([]byte, 7), Stream, nil)), ErrFrameCut, "frame: Cut", true},
		{second(Check(append(small[:32:32], 0), Stream, nil)), ErrTrailing, "trailing bytes at 32", false},
		{second(Check(make([]byte, 9), Bare, nil)), ErrNotWhole, "bare: NotWhole(9)", false},
		{second(Pack(make([]byte, 9))), ErrNotWhole, "NotWhole(9)", false},
		{second(Check([]byte{1}, Packed, nil)), ErrPackedCut, "packed: Cut at 0", true},
		{second(Unpack(make([]byte, 2), 0)), ErrPackedTooLong, "packed: TooLong at 0", false},
		{second(Survey([]byte{0x10, 1}, Packed, nil)), ErrFrameCut, "frame: Cut", true},
		{second(Canonical(capability, Bare, nil)), ErrCapability, "capability 7", false},
		{second(Digest(outside, Bare, nil)), ErrRange, "Range at 0:0, paid 0, visits 1", false},
		{second(Check(small, Stream, limitsWith(9, 9, 256, Tariff(1)))), 0, "", false},
		{second(Check(small, Stream, little)), ErrOverBudget, "OverBudget at 0:0, paid 0, visits 1", false},
		{second(NewIndex(small, Stream, little)), ErrOverBudget, "OverBudget at 0:0, paid 0, visits 1", false},
	} {
		if one.kind == 0 {
			if one.err != nil {
				t.Error(one.err)
			}
			continue
		}
		var refused *Error
		if !errors.As(one.err, &refused) || refused.Text() != one.text || one.err.Error() != "capn: "+one.text {
			t.Errorf("%v, not %s", one.err, one.text)
		}
		if !errors.Is(one.err, one.kind) || errors.Is(one.err, ErrTooDeep) || errors.Is(one.err, io.EOF) {
			t.Errorf("%v is not its kind", one.err)
		}
		if errors.Is(one.err, io.ErrUnexpectedEOF) != one.cut {
			t.Errorf("%v: whether it is cut", one.err)
		}
	}
	deep := bytesOf([][]uint64{{1 << 48, 1 << 48, 1 << 48, 0}})[0]
	if _, err := Check(deep, Bare, limitsWith(9, 9, 2, Strict)); !errors.Is(err, ErrTooDeep) {
		t.Error(err)
	}
	for _, limits := range []*Limits{
		limitsWith(0, 1, 1, 0), limitsWith(1, 1, 0, 0), limitsWith(1, 1, 257, 0), limitsWith(1<<29, 1, 1, 0),
		limitsWith(1, 1, 1, 2),
	} {
		if _, err := Check(small, Stream, limits); err != ErrLimits {
			t.Error(*limits, err)
		}
	}
	if _, err := Check(small, Form(3), nil); err != ErrForm {
		t.Error(err)
	}
}

// In each call, a zero Limits stands for the default limits. In another Limits, a field that is left out is 0.
func TestZeroLimits(t *testing.T) {
	// One message costs two words more than the default budget, and the other has more words than the default limit.
	costly := bare(1|7<<32, 8388607<<2)
	long := append(bare(8388609<<32), make([]byte, 8*8388609)...)
	for _, limits := range []*Limits{nil, {}} {
		if got, err := Check(small, Stream, limits); err != nil || got.Paid != 3 {
			t.Error(got, err)
		}
		if _, err := Check(costly, Bare, limits); !errors.Is(err, ErrOverBudget) {
			t.Error(err)
		}
		if _, err := Check(long, Stream, limits); !errors.Is(err, ErrTooManyWords) {
			t.Error(err)
		}
		if is, err := Same(small, small, Stream, limits); err != nil || !is {
			t.Error(is, err)
		}
		if got, err := NewReader(bytes.NewReader(small), limits).Next(); err != nil || !bytes.Equal(got, small) {
			t.Error(got, err)
		}
		if _, err := DigestSegments([][]byte{small[8:]}, limits); err != nil {
			t.Error(err)
		}
	}
	if _, err := Check(small, Stream, &Limits{MessageWords: 9, Depth: 9}); !errors.Is(err, ErrOverBudget) {
		t.Error(err)
	}
	if _, err := Check(small, Stream, &Limits{Tariff: Plain}); err != ErrLimits {
		t.Error(err)
	}
}

// A status that the call can't return isn't an error of the message.
func TestOtherStatuses(t *testing.T) {
	for status := uint32(1); status < 256; status++ {
		err := failure(status, report{})
		var refused *Error
		var other *StatusError
		isRefused, isOther := errors.As(err, &refused), errors.As(err, &other)
		if _, isNamed := names[Kind(status)]; isRefused != isNamed {
			t.Errorf("%d: %v", status, err)
		}
		switch status {
		case 2, 3, 4, 6, 8:
			if isOther {
				t.Errorf("%d: %v", status, err)
			}
		default:
			if isRefused == isOther || isOther && other.Status != status {
				t.Errorf("%d: %v", status, err)
			}
		}
	}
	// The message changes between two calls, so no buffer is large enough.
	asked := 0
	_, err := filled(nil, 1, func(out []byte) (uint32, report) {
		asked++
		return noRoom, report{length: uint64(len(out)) + 1}
	})
	if _, is := err.(*StatusError); !is || asked > 3 {
		t.Error(asked, err)
	}
}

func second[T any](_ T, err error) error { return err }

// limitsWith returns the default limits with these numbers.
func limitsWith(messageWords, budget, depth uint32, tariff Tariff) *Limits {
	limits := UsualLimits()
	limits.MessageWords, limits.Budget, limits.Depth, limits.Tariff = messageWords, budget, depth, tariff
	return &limits
}

// Each status of the header from 16 on is a kind with its name, and there is no other kind.
func TestHeader(t *testing.T) {
	header, err := os.ReadFile("../c/capn.h")
	if err != nil {
		t.Fatal(err)
	}
	for kind, name := range names {
		// The name as it is written in C, such as TOO_MANY_WORDS for TooManyWords.
		var inC strings.Builder
		for _, letter := range name {
			if letter < 'a' {
				inC.WriteByte('_')
			}
			inC.WriteString(strings.ToUpper(string(letter)))
		}
		line := "    CAPN" + inC.String() + " = "
		at := strings.Index(string(header), line)
		if at < 0 {
			t.Errorf("no status %s", name)
			continue
		}
		if number := strconv.Itoa(int(kind)); !strings.HasPrefix(string(header)[at+len(line):], number) {
			t.Errorf("%s is not %s", name, number)
		}
		if meaning := kind.Meaning(); meaning == "" || meaning == Kind(0xffff).Meaning() {
			t.Errorf("%s means %q", name, meaning)
		}
	}
	if meaning := ErrRange.Meaning(); meaning != "an object lies outside of its segment" {
		t.Error(meaning)
	}
}

func TestVersion(t *testing.T) {
	version, err := os.ReadFile("../VERSION")
	if err != nil || strings.TrimSpace(string(version)) != Version() {
		t.Error(Version(), err)
	}
}

func TestTogether(t *testing.T) {
	var group sync.WaitGroup
	for i := 0; i < 64; i++ {
		group.Add(1)
		go func(number byte) {
			defer group.Done()
			message := append([]byte{}, small...)
			message[16] = number
			want := sha256.Sum256(append([]byte{0, 0, 0, 0, 1, 0, 0, 0}, number, 0, 0, 0, 0, 0, 0, 0))
			for n := 0; n < 200; n++ {
				if digest, err := Digest(message, Stream, nil); err != nil || digest != want {
					t.Error(digest, err)
				}
				index, err := NewIndex(small, Stream, nil)
				if err != nil || index.Root().Uint64(0, 0) != 5 {
					t.Error(err)
				}
			}
		}(byte(i + 1))
	}
	group.Wait()
}

func BenchmarkCheck32(b *testing.B) {
	b.ReportAllocs()
	for i := 0; i < b.N; i++ {
		if _, err := Check(small, Stream, nil); err != nil {
			b.Fatal(err)
		}
	}
}

func BenchmarkDigest32(b *testing.B) {
	b.ReportAllocs()
	for i := 0; i < b.N; i++ {
		if _, err := Digest(small, Stream, nil); err != nil {
			b.Fatal(err)
		}
	}
}

func BenchmarkCanonical32(b *testing.B) {
	b.ReportAllocs()
	dst := make([]byte, 0, 64)
	for i := 0; i < b.N; i++ {
		if _, err := AppendCanonical(dst, small, Stream, nil); err != nil {
			b.Fatal(err)
		}
	}
}

func BenchmarkNext(b *testing.B) {
	b.ReportAllocs()
	stream := bytes.Repeat(small, 10000)
	reader := NewReader(bytes.NewReader(nil), nil)
	for i := 0; i < b.N; i++ {
		if i%10000 == 0 {
			reader = NewReader(bytes.NewReader(stream), nil)
		}
		if _, err := reader.Next(); err != nil {
			b.Fatal(err)
		}
	}
}
