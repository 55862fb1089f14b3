//go:build !(cgo && linux && amd64)

package capn

import (
	"bytes"
	"testing"
)

func TestUnsupported(t *testing.T) {
	message := make([]byte, 16)
	errs := []error{}
	_, err := Check(message, Stream, nil)
	errs = append(errs, err)
	_, err = Survey(message, Stream, nil)
	errs = append(errs, err)
	_, err = Canonical(message, Stream, nil)
	errs = append(errs, err)
	_, err = Digest(message, Stream, nil)
	errs = append(errs, err)
	_, err = Same(message, message, Stream, nil)
	errs = append(errs, err)
	_, err = IsCanonical(message, nil)
	errs = append(errs, err)
	_, err = IsCanonicalIn(message, Stream, nil)
	errs = append(errs, err)
	_, err = IsCanonicalMessage(message, Stream, nil)
	errs = append(errs, err)
	_, err = IsCanonicalWords(message, nil)
	errs = append(errs, err)
	// This message is so large that Canonical would check it before a buffer for the result is made.
	_, err = Canonical(make([]byte, 1<<21), Stream, nil)
	errs = append(errs, err)
	_, err = RefusalWay(message, Stream, nil)
	errs = append(errs, err)
	_, err = FindDeparture(message, Stream, nil)
	errs = append(errs, err)
	_, err = Show(message, Stream, nil, Lines)
	errs = append(errs, err)
	_, err = Pack(message)
	errs = append(errs, err)
	_, err = Unpack(message, 9)
	errs = append(errs, err)
	_, err = NewIndex(message, Stream, nil)
	errs = append(errs, err)
	_, err = DigestSegments([][]byte{message}, nil)
	errs = append(errs, err)
	packed := []byte{0x10, 1}
	_, err = NewIndex(packed, Packed, nil)
	errs = append(errs, err)
	_, err = NewReader(bytes.NewReader(message), nil).Next()
	errs = append(errs, err)
	for i, err := range errs {
		if err != ErrUnsupported {
			t.Errorf("call %d: %v", i, err)
		}
	}
	if Version() != "" || ErrRange.Meaning() != "" {
		t.Error(Version(), ErrRange.Meaning())
	}
}
