//go:build cgo && linux && amd64

package capn

import (
	"bytes"
	"crypto/sha256"
	"errors"
	"math/rand"
	"os/exec"
	"testing"
)

// Five thousand values are laid out in two to five segments. Their digests are computed from these segments. Their
// canonical bytes must equal those that the reference implementation's program writes.
func TestSegments(t *testing.T) {
	source := rand.New(rand.NewSource(66))
	var stream, canonical []byte
	for i := 0; i < 5000; i++ {
		// The root is a struct, because the program requires one.
		root := &item{kind: 's', words: randomWords(source, 1), below: []*item{randomItem(source, 1), randomItem(source, 1)}}
		segments := bytesOf(segmentsOf(source, root, 2+source.Intn(4)))
		found, err := CanonicalSegments(segments, nil)
		if err != nil {
			t.Fatalf("%x: %v", segments, err)
		}
		digest, err := DigestSegments(segments, nil)
		if err != nil || digest != sha256.Sum256(found) {
			t.Fatalf("%x: %x %v", segments, digest, err)
		}
		message, err := framed(segments)
		if err != nil {
			t.Fatal(err)
		}
		checked, err := CheckSegments(segments, nil)
		same, other := Check(message, Stream, nil)
		if checked != same || err != nil || other != nil {
			t.Fatalf("%x: %v %v", segments, checked, same)
		}
		figures, err := SurveySegments(segments, nil)
		if err != nil || int(figures.Segments) != len(segments) || figures.Paid != checked.Paid {
			t.Fatalf("%x: %v %v", segments, figures, err)
		}
		stream, canonical = append(stream, message...), append(canonical, found...)
	}
	program, err := exec.LookPath("capnp")
	if err != nil {
		t.Skip("there is no program capnp")
	}
	ran := exec.Command(program, "convert", "--quiet", "binary:canonical")
	ran.Stdin = bytes.NewReader(stream)
	var said bytes.Buffer
	ran.Stderr = &said
	wrote, err := ran.Output()
	if err != nil {
		t.Fatal(err, said.String())
	}
	if !bytes.Equal(wrote, canonical) {
		t.Errorf("capnp wrote %d other bytes, of %d", len(wrote), len(canonical))
	}
}

func TestRefusedSegments(t *testing.T) {
	for _, one := range []struct {
		segments [][]byte
		kind     Kind
	}{
		{nil, ErrFrameEmpty},
		{[][]byte{make([]byte, 9)}, ErrNotWhole},
		{make([][]byte, 4097), ErrTooManySegments},
		{[][]byte{{}}, ErrNoRoot},
		{[][]byte{{0, 0, 0, 0, 1, 0, 0, 0}}, ErrRange},
	} {
		if _, err := DigestSegments(one.segments, nil); !errors.Is(err, one.kind) {
			t.Errorf("%v: %v", one.kind, err)
		}
		if _, err := CanonicalSegments(one.segments, nil); !errors.Is(err, one.kind) {
			t.Errorf("%v: %v", one.kind, err)
		}
		if _, err := CheckSegments(one.segments, nil); !errors.Is(err, one.kind) {
			t.Errorf("%v: %v", one.kind, err)
		}
		if _, err := SurveySegments(one.segments, nil); !errors.Is(err, one.kind) {
			t.Errorf("%v: %v", one.kind, err)
		}
	}
	if _, err := DigestSegments(append(make([][]byte, 4095), make([]byte, 8)), nil); !errors.Is(err, ErrNoRoot) {
		t.Error(err)
	}
	long := [][]byte{make([]byte, 8), make([]byte, 16)}
	if _, err := DigestSegments(long, limitsWith(2, 8, 8, Strict)); !errors.Is(err, ErrTooManyWords) {
		t.Error(err)
	}
}
