//go:build cgo && linux && amd64

package capn

import (
	"bytes"
	"errors"
	"fmt"
	"os"
	"os/exec"
	"runtime"
	"strings"
	"syscall"
	"testing"
)

// taken returns how many bytes a function allocates in Go. Memory that the library allocates isn't counted.
func taken(call func()) uint64 {
	var before, after runtime.MemStats
	runtime.ReadMemStats(&before)
	call()
	runtime.ReadMemStats(&after)
	return after.TotalAlloc - before.TotalAlloc
}

// Many results are appended to one buffer. As with append, this allocates only a few times their final length.
func TestAppendMany(t *testing.T) {
	const count, words = 4000, 125
	message := append(bare((1+words)<<32, words<<32), bytes.Repeat([]byte{1}, 8*words)...)
	want, err := Canonical(message, Stream, nil)
	if err != nil {
		t.Fatal(err)
	}
	for form, data := range map[Form][]byte{Stream: message, Packed: packed(t, message), Bare: message[8:]} {
		var all []byte
		took := taken(func() {
			for i := 0; i < count; i++ {
				if all, err = AppendCanonical(all, data, form, nil); err != nil {
					t.Fatal(err)
				}
			}
		})
		if !bytes.Equal(all, bytes.Repeat(want, count)) {
			t.Error("other bytes")
		}
		if most := 12 * uint64(len(all)); took > most {
			t.Errorf("%d bytes took %d bytes, and not at most %d", len(all), took, most)
		}
	}
}

// A result that is much shorter than the buffer that was made for it doesn't keep this buffer.
func TestShortAnswers(t *testing.T) {
	// The messages have null roots, followed by words that no pointer refers to. A large message is checked before a
	// buffer is made. Some of these sizes are too small for that, and others are large enough.
	for _, size := range []int{1 << 12, 1 << 19, 1 << 23} {
		null := append(bare(uint64(size/8)<<32), make([]byte, size)...)
		for form, data := range map[Form][]byte{Stream: null, Packed: packed(t, null), Bare: null[8:]} {
			answer, err := Canonical(data, form, nil)
			if err != nil || len(answer) != 8 || cap(answer) > 1024 {
				t.Errorf("%d, %v: %d of %d bytes, %v", size, form, len(answer), cap(answer), err)
			}
			answer, err = AppendCanonical([]byte("before"), data, form, nil)
			if err != nil || len(answer) != 14 || cap(answer) > 1024 {
				t.Errorf("%d, %v: %d of %d bytes, %v", size, form, len(answer), cap(answer), err)
			}
		}
		answer, err := Pack(null)
		if err != nil || cap(answer) > 2*len(answer)+1024 {
			t.Errorf("%d: %d of %d bytes, %v", size, len(answer), cap(answer), err)
		}
		if answer, err = Unpack(answer, 1<<28); err != nil || !bytes.Equal(answer, null) || cap(answer) > 2*len(answer) {
			t.Errorf("%d: %d of %d bytes, %v", size, len(answer), cap(answer), err)
		}
	}
	for _, words := range [][]uint64{
		{0}, {1 << 32, 5}, {1 << 48, 0}, append([]uint64{1 << 32, 5}, make([]uint64, 5000)...),
	} {
		index, err := NewIndex(bare(words...), Bare, nil)
		if err != nil || cap(index.entries) > 2*len(index.entries) {
			t.Errorf("%d of %d entries, %v", len(index.entries), cap(index.entries), err)
		}
	}
}

// A call uses a buffer that is large enough, and makes no other buffer.
func TestRoomThatIsThere(t *testing.T) {
	const count = 1<<18 - 1
	message := append(bare((count+1)<<32, 1|5<<32|count<<35), bytes.Repeat([]byte{1}, 8*count)...)
	room := make([]byte, 0, len(message))
	var answer []byte
	var err error
	if took := taken(func() { answer, err = AppendCanonical(room, message, Stream, nil) }); err != nil || took > 1<<16 {
		t.Error(took, err)
	}
	if len(answer) != len(message)-8 || &answer[0] != &room[:1][0] {
		t.Error("another buffer")
	}
}

// The limits are tested before segments are copied.
func TestSegmentsBeforeTheyAreCopied(t *testing.T) {
	long := make([]byte, 1<<20)
	repeated := func(count int) [][]byte {
		segments := make([][]byte, count)
		for i := range segments {
			segments[i] = long
		}
		return segments
	}
	uneven := append(repeated(64), make([]byte, 9))
	for _, one := range []struct {
		segments [][]byte
		limits   *Limits
		kind     error
		at       uint64
	}{
		{repeated(4096), nil, ErrTooManyWords, 1 << 29},
		{repeated(65), nil, ErrTooManyWords, 65 << 17},
		{repeated(4097), nil, ErrTooManySegments, 4097},
		{repeated(3), limitsWith(9, 9, 9, Strict), ErrTooManyWords, 3 << 17},
		{uneven, nil, ErrNotWhole, 9},
		{repeated(4096), limitsWith(9, 9, 0, Strict), ErrLimits, 0},
		{nil, limitsWith(0, 9, 9, Strict), ErrLimits, 0},
		{nil, nil, ErrFrameEmpty, 0},
	} {
		for name, call := range map[string]func() error{
			"check":     func() error { return second(CheckSegments(one.segments, one.limits)) },
			"survey":    func() error { return second(SurveySegments(one.segments, one.limits)) },
			"canonical": func() error { return second(CanonicalSegments(one.segments, one.limits)) },
			"digest":    func() error { return second(DigestSegments(one.segments, one.limits)) },
		} {
			var err error
			if took := taken(func() { err = call() }); took > 1<<16 {
				t.Errorf("%s: %v took %d bytes", name, err, took)
			}
			var refused *Error
			if !errors.Is(err, one.kind) || errors.As(err, &refused) && refused.At != one.at {
				t.Errorf("%s: %v, not %v", name, err, one.kind)
			}
		}
	}
	if figures, err := SurveySegments(repeated(64), nil); err != nil || figures.Words != 1<<23 {
		t.Error(figures, err)
	}
}

// mapped returns a mapping of zeros with some bytes at its start. The zeros take no memory until they are read.
func mapped(t *testing.T, size int, start []byte) []byte {
	t.Helper()
	data, err := syscall.Mmap(-1, 0, size, syscall.PROT_READ|syscall.PROT_WRITE,
		syscall.MAP_PRIVATE|syscall.MAP_ANON|syscall.MAP_NORESERVE)
	if err != nil {
		t.Fatal(err)
	}
	t.Cleanup(func() { syscall.Munmap(data) })
	copy(data, start)
	return data
}

const narrow = "CAPN_NARROW"

// Makes calls on 5 GiB with 8 GiB of address space. Each call must reject the input as Check does, and must not
// allocate more memory than its limits allow. The race detector and cgocheck need more address space than that.
func TestLongInput(t *testing.T) {
	const size = 5 << 30
	if os.Getenv(narrow) == "" {
		if isRace {
			t.Skip("under the race detector")
		}
		ran := exec.Command("sh", "-c", `ulimit -v 8388608; exec "$0" -test.run '^TestLongInput$' -test.v`, os.Args[0])
		ran.Env = append(os.Environ(), narrow+"=yes")
		said, err := ran.CombinedOutput()
		if err != nil || !strings.Contains(string(said), "--- PASS: TestLongInput") {
			t.Errorf("%v: %s", err, last(string(said), 2000))
		}
		return
	}
	var limit syscall.Rlimit
	if err := syscall.Getrlimit(syscall.RLIMIT_AS, &limit); err != nil || limit.Cur > 8<<30 {
		t.Fatal(limit, err)
	}
	// A segment table announces one segment with all the words that follow. They are a little more than the greatest
	// limit.
	data := mapped(t, size, nil)
	calls := map[string]func(Form, *Limits) error{
		"canonical": func(form Form, l *Limits) error { return second(Canonical(data, form, l)) },
		"lines":     func(form Form, l *Limits) error { return second(Show(data, form, l, Lines)) },
		"json":      func(form Form, l *Limits) error { return second(Show(data, form, l, JSONText)) },
		"digest":    func(form Form, l *Limits) error { return second(Digest(data, form, l)) },
		"departure": func(form Form, l *Limits) error { return second(FindDeparture(data, form, l)) },
		"index":     func(form Form, l *Limits) error { return second(NewIndex(data, form, l)) },
	}
	for _, limits := range []*Limits{limitsWith(1<<10, 10, 9, Strict), nil, limitsWith(1<<28, 1<<28, 9, Strict)} {
		for _, form := range []Form{Stream, Packed, Bare} {
			if form == Packed && limits != nil && limits.MessageWords > 1<<20 {
				continue // unpacking takes 2 GiB in the library itself
			}
			_, want := Check(data, form, limits)
			if want == nil {
				t.Fatal("accepted")
			}
			for name, call := range calls {
				var err error
				took := taken(func() { err = call(form, limits) })
				if fmt.Sprint(err) != fmt.Sprint(want) || took > 1<<20 {
					t.Errorf("%s, %v, %v: %v, %d bytes, not %v", name, form, limits, err, took, want)
				}
			}
		}
	}
	for _, most := range []uint32{0, 10, 1 << 20} {
		var err error
		took := taken(func() { _, err = Unpack(data, most) })
		if !errors.Is(err, ErrPackedTooLong) || took > 1<<20 {
			t.Errorf("%d words: %v, %d bytes", most, err, took)
		}
	}
}

func last(text string, size int) string {
	if len(text) > size {
		return text[len(text)-size:]
	}
	return text
}

// An accepted large message gets a buffer as large as its cost, and a rejected one gets no buffer.
func TestBuffersOfLargeMessages(t *testing.T) {
	const words = 1 << 20
	// A list of numbers, followed by words that no pointer refers to.
	short := append(bare(words<<32, 1|5<<32|1000<<35), make([]byte, 8*(words-1))...)
	outside := append(bare(words<<32, 1|5<<32|words<<35), make([]byte, 8*(words-1))...)
	for form, messages := range map[Form][2][]byte{
		Stream: {short, outside}, Packed: {packed(t, short), packed(t, outside)}, Bare: {short[8:], outside[8:]},
	} {
		for name, call := range map[string]func([]byte) error{
			"canonical": func(m []byte) error { return second(Canonical(m, form, nil)) },
			"show":      func(m []byte) error { return second(Show(m, form, nil, Lines)) },
		} {
			var err error
			if took := taken(func() { err = call(messages[0]) }); err != nil || took > 1<<18 {
				t.Errorf("%s, %v: %d bytes, %v", name, form, took, err)
			}
			if took := taken(func() { err = call(messages[1]) }); !errors.Is(err, ErrRange) || took > 1<<16 {
				t.Errorf("%s, %v: %d bytes, %v", name, form, took, err)
			}
		}
	}
	if _, err := Show(outside, Stream, nil, Style(4)); err != ErrStyle {
		t.Error(err)
	}
}
