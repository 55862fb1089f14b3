//go:build cgo && linux && amd64

package capn

import (
	"bytes"
	"errors"
	"io"
	"math/rand"
	"net"
	"os"
	"testing"
	"testing/iotest"
	"time"
)

func packedMessages(t *testing.T, source *rand.Rand) (messages, texts [][]byte) {
	for n := source.Intn(5); n > 0; n-- {
		segments := randomSegments(source)
		switch source.Intn(10) {
		case 0:
			segments = append(segments, make([]uint64, 5000))
		case 1:
			segments = append(segments, randomWords(source, 9000))
		}
		message, err := framed(bytesOf(segments))
		if err != nil {
			t.Fatal(err)
		}
		text, err := Pack(message)
		if err != nil {
			t.Fatal(err)
		}
		messages, texts = append(messages, message), append(texts, text)
	}
	return messages, texts
}

func TestPackedMessages(t *testing.T) {
	source := rand.New(rand.NewSource(70))
	for i := 0; i < 60; i++ {
		messages, texts := packedMessages(t, source)
		stream := bytes.Join(texts, nil)
		// All messages are packed together, so groups cross from one message to the next.
		whole, err := Pack(bytes.Join(messages, nil))
		if err != nil {
			t.Fatal(err)
		}
		for n, from := range []io.Reader{
			bytes.NewReader(stream), iotest.OneByteReader(bytes.NewReader(stream)),
			iotest.HalfReader(bytes.NewReader(stream)), iotest.DataErrReader(bytes.NewReader(stream)),
			bytes.NewReader(whole),
		} {
			reader, stands := NewPackedReader(from, nil), len(stream)
			for i, message := range messages {
				got, err := reader.Next()
				if err != nil || !bytes.Equal(got, message) {
					t.Fatalf("message %d: %x %v", i, got, err)
				}
				// The reader took no byte after the message.
				stands -= len(texts[i])
				if n == 0 && from.(*bytes.Reader).Len() != stands {
					t.Fatalf("message %d: %d bytes are left, not %d", i, from.(*bytes.Reader).Len(), stands)
				}
			}
			for i := 0; i < 2; i++ {
				if _, err := reader.Next(); err != io.EOF {
					t.Fatal(err)
				}
			}
		}
		for tried := 0; tried < 50 && len(stream) > 0; tried++ {
			at := source.Intn(len(stream))
			reader, end, read := NewPackedReader(bytes.NewReader(stream[:at]), nil), 0, 0
			for read < len(texts) && end+len(texts[read]) <= at {
				if got, err := reader.Next(); err != nil || !bytes.Equal(got, messages[read]) {
					t.Fatalf("cut at %d: %v", at, err)
				}
				end += len(texts[read])
				read++
			}
			_, err := reader.Next()
			if end == at {
				if err != io.EOF {
					t.Fatalf("cut at %d: %v", at, err)
				}
				continue
			}
			var refused *Error
			if !errors.Is(err, io.ErrUnexpectedEOF) || !errors.As(err, &refused) || refused.Message != int64(read)+1 {
				t.Fatalf("cut at %d: %v", at, err)
			}
			if refused.Kind == ErrPackedCut && (refused.At < uint64(end) || refused.At >= uint64(at)) {
				t.Fatalf("cut at %d: %v", at, err)
			}
			// The library must find the packed bytes truncated at the same place.
			_, err = Unpack(stream[:at], 1<<24)
			var other *Error
			if errors.As(err, &other) != (refused.Kind == ErrPackedCut) || other != nil && other.At != refused.At {
				t.Fatalf("cut at %d: %v, %v", at, refused, err)
			}
			if _, again := reader.Next(); again != error(refused) {
				t.Fatal(again)
			}
		}
	}
}

func TestPackedTimeout(t *testing.T) {
	near, far := net.Pipe()
	defer near.Close()
	text, err := Pack(small)
	if err != nil {
		t.Fatal(err)
	}
	reader := NewPackedReader(far, nil)
	for cut := range text {
		go near.Write(text[:cut])
		far.SetReadDeadline(time.Now().Add(20 * time.Millisecond))
		if _, err := reader.Next(); !errors.Is(err, os.ErrDeadlineExceeded) {
			t.Fatal(err)
		}
		far.SetReadDeadline(time.Time{})
		go near.Write(text[cut:])
		if got, err := reader.Next(); err != nil || !bytes.Equal(got, small) {
			t.Fatal(got, err)
		}
	}
	if _, err := NewPackedReader(idle{}, nil).Next(); !errors.Is(err, io.ErrNoProgress) {
		t.Fatal(err)
	}
	wrong, err := Pack([]byte("\xff\xff\xff\xff\x00\x00\x00\x00"))
	if err != nil {
		t.Fatal(err)
	}
	if _, err := NewPackedReader(bytes.NewReader(wrong), nil).Next(); !errors.Is(err, ErrTooManySegments) {
		t.Fatal(err)
	}
}

func BenchmarkNextPacked(b *testing.B) {
	b.ReportAllocs()
	text, err := Pack(small)
	if err != nil {
		b.Fatal(err)
	}
	stream := bytes.Repeat(text, 10000)
	reader := NewPackedReader(bytes.NewReader(nil), nil)
	for i := 0; i < b.N; i++ {
		if i%10000 == 0 {
			reader = NewPackedReader(bytes.NewReader(stream), nil)
		}
		if _, err := reader.Next(); err != nil {
			b.Fatal(err)
		}
	}
}
