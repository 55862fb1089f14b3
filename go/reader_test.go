//go:build cgo && linux && amd64

package capn

import (
	"bytes"
	"encoding/binary"
	"errors"
	"fmt"
	"io"
	"math"
	"math/rand"
	"net"
	"os"
	"runtime"
	"strings"
	"sync"
	"sync/atomic"
	"testing"
	"testing/iotest"
	"time"
)

var small = []byte("\x00\x00\x00\x00\x03\x00\x00\x00" + "\x00\x00\x00\x00\x02\x00\x00\x00" +
	"\x05\x00\x00\x00\x00\x00\x00\x00" + "\x00\x00\x00\x00\x00\x00\x00\x00")

func TestMessages(t *testing.T) {
	source := rand.New(rand.NewSource(67))
	for i := 0; i < 300; i++ {
		var stream []byte
		var messages [][]byte
		for n := source.Intn(5); n > 0; n-- {
			message, err := framed(bytesOf(randomSegments(source)))
			if err != nil {
				t.Fatal(err)
			}
			messages = append(messages, message)
			stream = append(stream, message...)
		}
		for _, from := range []io.Reader{
			bytes.NewReader(stream), iotest.OneByteReader(bytes.NewReader(stream)),
			iotest.HalfReader(bytes.NewReader(stream)), iotest.DataErrReader(bytes.NewReader(stream)),
		} {
			reader := NewReader(from, nil)
			for n, message := range messages {
				got, err := reader.Next()
				if err != nil || !bytes.Equal(got, message) {
					t.Fatalf("message %d: %x %v", n, got, err)
				}
			}
			for n := 0; n < 2; n++ {
				if _, err := reader.Next(); err != io.EOF {
					t.Fatal(err)
				}
			}
			if reader.Number() != int64(len(messages)) || reader.Offset() != int64(len(stream)) {
				t.Fatal(reader.Number(), reader.Offset())
			}
		}
		for at := range stream {
			reader := NewReader(bytes.NewReader(stream[:at]), nil)
			end := 0
			for {
				got, err := reader.Next()
				if err == nil {
					end += len(got)
					continue
				}
				if end == at {
					if err != io.EOF {
						t.Fatal(err)
					}
					break
				}
				var refused *Error
				if !errors.Is(err, io.ErrUnexpectedEOF) || !errors.Is(err, ErrFrameCut) || !errors.As(err, &refused) {
					t.Fatalf("cut at %d: %v", at, err)
				}
				if refused.Offset != int64(end) || refused.Message != reader.Number()+1 {
					t.Fatalf("cut at %d: %v", at, err)
				}
				break
			}
		}
	}
}

// The offset is where the next message begins. After an error, it is where the rejected message begins.
func TestOffset(t *testing.T) {
	for _, isPacked := range []bool{false, true} {
		data := append(append(append([]byte{}, small...), small[:4]...), 1, 0, 0, 0, 0, 0, 0, 0, 0, 0, 0, 0)
		data = append(data, "\x00\x00\x00\x00\x09\x00\x00\x00"...)
		reader := NewReader(bytes.NewReader(data), nil)
		if isPacked {
			words, err := Pack(data)
			if err != nil {
				t.Fatal(err)
			}
			reader = NewPackedReader(bytes.NewReader(words), nil)
		}
		if reader.Offset() != 0 {
			t.Fatal(reader.Offset())
		}
		for i, want := range []int64{32, 48} {
			if _, err := reader.Next(); err != nil || reader.Offset() != want || reader.Number() != int64(i+1) {
				t.Fatal(reader.Number(), reader.Offset(), err)
			}
		}
		for i := 0; i < 2; i++ {
			var refused *Error
			_, err := reader.Next()
			if !errors.As(err, &refused) || refused.Offset != 48 || reader.Offset() != 48 || reader.Number() != 2 {
				t.Fatal(reader.Number(), reader.Offset(), err)
			}
		}
	}
}

// A message is returned as soon as it is complete, and no byte after it is read.
func TestConnection(t *testing.T) {
	near, far := net.Pipe()
	defer near.Close()
	go func() {
		near.Write(small)
		near.Write(small)
		near.Write([]byte("after"))
	}()
	reader := NewReader(far, nil)
	for i := 0; i < 2; i++ {
		if got, err := reader.Next(); err != nil || !bytes.Equal(got, small) {
			t.Fatal(got, err)
		}
	}
	after := make([]byte, 5)
	if _, err := io.ReadFull(far, after); err != nil || string(after) != "after" {
		t.Fatal(after, err)
	}
}

// After an error such as a timeout, which isn't the end of the stream, no byte is lost.
func TestTimeout(t *testing.T) {
	near, far := net.Pipe()
	defer near.Close()
	reader := NewReader(far, nil)
	for _, cut := range []int{0, 3, 8, 31} {
		go near.Write(small[:cut])
		far.SetReadDeadline(time.Now().Add(30 * time.Millisecond))
		_, err := reader.Next()
		var timeout net.Error
		if !errors.Is(err, os.ErrDeadlineExceeded) || !errors.As(err, &timeout) || !timeout.Timeout() {
			t.Fatal(err)
		}
		var place *ReadError
		if !errors.As(err, &place) || place.Message != reader.Number()+1 || place.Offset != reader.Offset() {
			t.Fatal(err)
		}
		text := fmt.Sprintf("capn: message %d at %d: %v", place.Message, place.Offset, place.Err)
		if err.Error() != text {
			t.Fatal(err)
		}
		far.SetReadDeadline(time.Time{})
		go near.Write(small[cut:])
		if got, err := reader.Next(); err != nil || !bytes.Equal(got, small) {
			t.Fatal(got, err)
		}
	}
}

func TestRefusedStream(t *testing.T) {
	stream := append(append([]byte{}, small...), "\xff\xff\xff\xff\xff\xff\xff\xff"...)
	reader := NewReader(bytes.NewReader(stream), nil)
	if _, err := reader.Next(); err != nil {
		t.Fatal(err)
	}
	for i := 0; i < 2; i++ {
		_, err := reader.Next()
		if !errors.Is(err, ErrTooManySegments) || errors.Is(err, io.ErrUnexpectedEOF) {
			t.Fatal(err)
		}
		if err.Error() != "capn: message 2 at 32: frame: TooManySegments(4294967296)" {
			t.Fatal(err)
		}
	}
	if _, err := NewReader(bytes.NewReader(small), limitsWith(2, 9, 9, Strict)).Next(); !errors.Is(err, ErrTooManyWords) {
		t.Fatal(err)
	}
	if _, err := NewReader(bytes.NewReader(small), &Limits{Depth: 1}).Next(); err != ErrLimits {
		t.Fatal(err)
	}
}

// A segment table announces 64 MiB, but only few bytes come. The memory of the reader may grow only with the bytes that
// come.
func TestAnnounced(t *testing.T) {
	head := append([]byte{0, 0, 0, 0}, 0, 0, 0x80, 0)
	reader := NewReader(io.MultiReader(bytes.NewReader(head), bytes.NewReader(make([]byte, 100000))), nil)
	if _, err := reader.Next(); !errors.Is(err, io.ErrUnexpectedEOF) {
		t.Fatal(err)
	}
	if len(reader.held) > 300000 {
		t.Fatal(len(reader.held))
	}
	long := append(append([]byte{}, head...), make([]byte, 8*8388608)...)
	if got, err := NewReader(bytes.NewReader(long), nil).Next(); err != nil || !bytes.Equal(got, long) {
		t.Fatal(len(got), err)
	}
}

type idle struct{}

func (idle) Read([]byte) (int, error) { return 0, nil }

func TestNoProgress(t *testing.T) {
	if _, err := NewReader(idle{}, nil).Next(); !errors.Is(err, io.ErrNoProgress) {
		t.Fatal(err)
	}
}

// each returns both kinds of readers over some messages.
func each(t *testing.T, messages ...[]byte) map[string]func() *Reader {
	t.Helper()
	whole := bytes.Join(messages, nil)
	text := packed(t, whole)
	return map[string]func() *Reader{
		"plain":  func() *Reader { return NewReader(bytes.NewReader(whole), nil) },
		"packed": func() *Reader { return NewPackedReader(bytes.NewReader(text), nil) },
	}
}

// After a message that a call rejects, the next message comes. Each error has the place of its message.
func TestKeepGoing(t *testing.T) {
	outside := stream(t, 1<<32)
	deep := stream(t, 1<<48, 1<<48, 1<<48, 0)
	limits := limitsWith(9, 9, 2, Strict)
	const want = "1 0 32 <nil>\n2 32 48 capn: message 2 at 32: Range at 0:0, paid 0, visits 1\n3 48 80 <nil>\n" +
		"4 80 120 capn: message 4 at 80: TooDeep at 0:2, paid 4, visits 3\n5 120 152 <nil>\n5 120 152 EOF\n"
	for name, reader := range each(t, small, outside, small, deep, small) {
		var got strings.Builder
		var digests [][32]byte
		for r := reader(); ; {
			message, err := r.Next()
			if err == nil {
				var digest [32]byte
				if digest, err = Digest(message, Stream, limits); err == nil {
					digests = append(digests, digest)
				}
				err = r.Locate(err)
			}
			fmt.Fprintln(&got, r.Number(), r.Start(), r.Offset(), err)
			if err == io.EOF {
				break
			}
		}
		if got.String() != want {
			t.Errorf("%s: %s, not %s", name, got.String(), want)
		}
		if len(digests) != 3 || digests[0] != digests[1] || digests[1] != digests[2] {
			t.Errorf("%s: %x", name, digests)
		}
	}
	// Locate returns an error of the same kind, and doesn't change the error that it gets.
	r := NewReader(bytes.NewReader(small), nil)
	if _, err := r.Next(); err != nil {
		t.Fatal(err)
	}
	one := &Error{Kind: ErrRange}
	if located := r.Locate(one); one.Message != 0 || located.(*Error).Message != 1 || !errors.Is(located, ErrRange) {
		t.Error(located)
	}
	if r.Locate(nil) != nil || r.Locate(io.EOF) != io.EOF {
		t.Error("another error")
	}
}

// An invalid segment table ends the stream, because nothing says where the next message begins.
func TestDamagedTable(t *testing.T) {
	for name, reader := range each(t, small, bare(1<<63), small) {
		r := reader()
		if _, err := r.Next(); err != nil {
			t.Fatal(name, err)
		}
		for i := 0; i < 3; i++ {
			message, err := r.Next()
			if message != nil || fmt.Sprint(err) != "capn: message 2 at 32: frame: TooManyWords(2147483648)" {
				t.Errorf("%s: %x, %v", name, message, err)
			}
		}
	}
}

// waiting is a reader that waits in Read until the test releases it.
type waiting struct {
	from          io.Reader
	isHere, letGo chan struct{}
}

func (w *waiting) Read(p []byte) (int, error) {
	w.isHere <- struct{}{}
	<-w.letGo
	return w.from.Read(p)
}

// A second Next while another one runs is an error, and takes nothing from the stream.
func TestConcurrent(t *testing.T) {
	from := &waiting{bytes.NewReader(bytes.Repeat(small, 2)), make(chan struct{}), make(chan struct{})}
	r := NewReader(from, nil)
	answers := make(chan error)
	go func() {
		for i := 0; i < 2; i++ {
			message, err := r.Next()
			if err == nil && !bytes.Equal(message, small) {
				err = fmt.Errorf("%x", message)
			}
			answers <- err
		}
	}()
	for ended := 0; ended < 2; {
		select {
		case <-from.isHere:
			if message, err := r.Next(); message != nil || err != ErrConcurrent {
				t.Fatal(message, err)
			}
			_, _, _ = r.Number(), r.Start(), r.Offset()
			from.letGo <- struct{}{}
		case err := <-answers:
			if ended++; err != nil {
				t.Fatal(err)
			}
		}
	}
}

// Many goroutines share a reader. Each message comes at most once, and no call sees another call's state.
func TestSharedReader(t *testing.T) {
	const count = 2000
	var messages [][]byte
	for i := uint64(0); i < count; i++ {
		messages = append(messages, append(bare((2+i%5)<<32, 1<<32, i), make([]byte, 8*(i%5))...))
	}
	for name, reader := range each(t, messages...) {
		r := reader()
		var seen [count]int32
		var refused int64
		var group sync.WaitGroup
		for i := 0; i < 8; i++ {
			group.Add(1)
			go func() {
				defer group.Done()
				for {
					message, err := r.Next()
					switch {
					case err == io.EOF:
						return
					case err == ErrConcurrent:
						atomic.AddInt64(&refused, 1)
						runtime.Gosched()
					case err != nil:
						t.Error(err)
						return
					default:
						number := binary.LittleEndian.Uint64(message[16:])
						if !bytes.Equal(message, messages[number]) {
							t.Errorf("%x", message)
						}
						atomic.AddInt32(&seen[number], 1)
					}
				}
			}()
		}
		group.Wait()
		for i, times := range seen {
			if times != 1 {
				t.Errorf("%s: message %d came %d times", name, i, times)
			}
		}
		if r.Number() != count {
			t.Error(name, r.Number())
		}
	}
}

// lying is a reader that once returns an impossible number of bytes.
type lying struct {
	from   io.Reader
	after  int // calls that tell the truth
	answer int
	err    error
}

func (l *lying) Read(p []byte) (int, error) {
	if l.after--; l.after == -1 {
		l.from.Read(p)
		return l.answer, l.err
	}
	return l.from.Read(p)
}

// An io.Reader may return a negative number, or more than the length of its buffer. This ends the stream, and no
// message comes that nobody sent.
func TestImpossibleCount(t *testing.T) {
	long := append(bare(1000<<32), make([]byte, 8000)...)
	for _, isPacked := range []bool{false, true} {
		data := append(append([]byte{}, long...), long...)
		if isPacked {
			data = packed(t, data)
		}
		for after := 0; after < 4; after++ {
			for _, answer := range []int{-1, -8, 9, 1 << 20, math.MaxInt, math.MinInt} {
				for _, err := range []error{nil, io.EOF, io.ErrUnexpectedEOF} {
					from := &lying{iotest.OneByteReader(bytes.NewReader(data)), after, answer, err}
					r := NewReader(from, nil)
					if isPacked {
						r = NewPackedReader(from, nil)
					}
					for i := 0; i < 2; i++ {
						var place *ReadError
						message, err := r.Next()
						if message != nil || !errors.Is(err, ErrBadReadCount) || !errors.As(err, &place) || place.Message != 1 {
							t.Fatalf("packed %v, %d after %d: %x, %v", isPacked, answer, after, message, err)
						}
					}
				}
			}
		}
	}
}

// The io.Reader may return an error that is itself a rejection, such as the rejection of a message of another stream.
// For this stream, it is an error of reading.
func TestErrorOfAnotherStream(t *testing.T) {
	other := &Error{Kind: ErrRange, Message: 7}
	r := NewReader(io.MultiReader(bytes.NewReader(small[:9]), iotest.ErrReader(other)), nil)
	for i := 0; i < 2; i++ {
		var place *ReadError
		_, err := r.Next()
		if !errors.As(err, &place) || place.Message != 1 || place.Err != error(other) || other.Message != 7 {
			t.Fatal(err)
		}
	}
}
