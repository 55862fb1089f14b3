package capn

import (
	"io"
	"math/bits"
)

// unpacker reads the words of packed bytes. It reads no group after the one that has the last word that is wanted, and
// goes on after an error of its reader.
type unpacker struct {
	from  io.Reader
	text  []byte // whole groups, and the one that has begun
	begun int    // where that one begins,
	need  int    // and where it ends at least
	words int    // the words of the whole groups
	left  []byte // words that were not wanted yet
	taken uint64 // packed bytes that were unpacked
}

// maxGathered is the greatest number of words that are gathered at once. A group has at most 256 words, and 2,050
// bytes.
const maxGathered = 4096

func (u *unpacker) Read(p []byte) (int, error) {
	if len(u.left) == 0 {
		if err := u.gather((len(p) + 7) / 8); err != nil {
			return 0, err
		}
		out := make([]byte, 8*u.words)
		status, told := callUnpackSome(u.text, out)
		if status != ok {
			return 0, failure(status, told)
		}
		u.taken += uint64(len(u.text))
		u.left, u.text, u.begun, u.need, u.words = out[:told.length], u.text[:0], 0, 0, 0
	}
	count := copy(p, u.left)
	u.left = u.left[count:]
	return count, nil
}

// gather reads groups until they have the given number of words.
func (u *unpacker) gather(words int) error {
	if words > maxGathered {
		words = maxGathered
	}
	for u.words < words {
		u.need = u.begun + groupSize(u.text[u.begun:])
		if len(u.text) == u.need {
			u.words += groupWords(u.text[u.begun:])
			u.begun = len(u.text)
			continue
		}
		for len(u.text) < u.need {
			have := len(u.text)
			u.text = append(u.text, make([]byte, u.need-have)...)
			count, err := readSome(u.from, u.text[have:])
			u.text = u.text[:have+count]
			switch {
			case err == io.EOF && len(u.text) > u.begun && len(u.text) < u.need:
				return &Error{Kind: ErrPackedCut, At: u.taken + uint64(u.begun)}
			case err == io.EOF && count == 0 && u.words > 0:
				return nil
			case err != nil && count == 0:
				return err
			}
		}
	}
	return nil
}

// readSome reads at least a byte, or returns an error.
func readSome(from io.Reader, p []byte) (int, error) {
	for idle := 0; idle < 100; idle++ {
		if count, err := readOnce(from, p); count > 0 || err != nil {
			return count, err
		}
	}
	return 0, &ReadError{Err: io.ErrNoProgress}
}

// readOnce is a call of Read. It can't have read less than nothing, nor more than it had room for; its error but for
// io.EOF is a *ReadError.
func readOnce(from io.Reader, p []byte) (int, error) {
	count, err := from.Read(p)
	if count < 0 || count > len(p) {
		return 0, &ReadError{Err: ErrBadReadCount}
	}
	if err != nil && err != io.EOF {
		err = &ReadError{Err: err}
	}
	return count, err
}

// packedWords returns the number of words that some packed bytes have. It returns 0 if the bytes are truncated or have
// more words than most.
func packedWords(packed []byte, most uint64) uint64 {
	words := uint64(0)
	for len(packed) > 0 {
		size := groupSize(packed)
		if size > len(packed) {
			return 0
		}
		if words += uint64(groupWords(packed)); words > most {
			return 0
		}
		packed = packed[size:]
	}
	return words
}

// groupSize returns the least number of bytes of a group that begins with the given bytes.
func groupSize(text []byte) int {
	switch {
	case len(text) == 0:
		return 1
	case text[0] == 0:
		return 2
	case text[0] != 255:
		return 1 + bits.OnesCount8(text[0])
	case len(text) < 10:
		return 10
	}
	return 10 + 8*int(text[9])
}

// groupWords returns the number of words of a complete group.
func groupWords(text []byte) int {
	switch text[0] {
	case 0:
		return 1 + int(text[1])
	case 255:
		return 1 + int(text[9])
	}
	return 1
}
