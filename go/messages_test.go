//go:build cgo && linux && amd64

package capn

import (
	"encoding/binary"
	"math/rand"
)

// Messages for the tests that compare what is read with what was laid out, or that read only segment tables. These
// tests need no other program. The messages on which each language makes the same calls come from
// tests/program/generated.py.

// item is a value: null, a struct, or a list of numbers, of pointers or of structs.
type item struct {
	kind  byte // 0, 's', 'l', 'p', 'r'
	words []uint64
	below []*item // of a struct or of pointers; of rows those of each row, one after the other
	code  uint64  // of a list: the size of its elements
	count int     // and how many there are
}

func randomWord(source *rand.Rand) uint64 {
	// About a third of the bytes of the last word are zero.
	fewer := source.Uint64() & source.Uint64() & source.Uint64()
	return [...]uint64{0, 0, 5, 1 << 63, source.Uint64(), fewer}[source.Intn(6)]
}

func randomWords(source *rand.Rand, count int) []uint64 {
	words := make([]uint64, count)
	for i := range words {
		words[i] = randomWord(source)
	}
	return words
}

func randomItem(source *rand.Rand, level int) *item {
	below := func(count int) []*item {
		items := make([]*item, count)
		for i := range items {
			items[i] = randomItem(source, level+1)
		}
		return items
	}
	most := 3
	if level > 4 {
		most = 0
	}
	switch kind := source.Intn(10); {
	case kind == 0:
		return &item{}
	case kind < 5:
		return &item{kind: 's', words: randomWords(source, source.Intn(4)), below: below(source.Intn(most + 1))}
	case kind < 7:
		code := uint64(source.Intn(6))
		count := source.Intn(40)
		bits := count * [...]int{0, 1, 8, 16, 32, 64}[code]
		words := randomWords(source, (bits+63)/64)
		if bits%64 != 0 {
			words[len(words)-1] &= 1<<(bits%64) - 1
		}
		return &item{kind: 'l', code: code, count: count, words: words}
	case kind < 8:
		return &item{kind: 'p', below: below(source.Intn(most + 1))}
	}
	count, words, slots := source.Intn(3), source.Intn(3), source.Intn(most/2+1)
	return &item{
		kind: 'r', count: count, words: randomWords(source, count*words), below: below(count * slots),
		code: uint64(words) | uint64(slots)<<16,
	}
}

// builder lays values out in segments.
type builder struct {
	source   *rand.Rand
	segments [][]uint64
}

// segmentsOf returns the segments of a value. With several segments, each object may be in any segment, behind a
// landing pad. Each segment begins with a word, because in a segment without words the reference implementation finds
// no object without words.
func segmentsOf(source *rand.Rand, root *item, segments int) [][]uint64 {
	b := &builder{source, make([][]uint64, segments)}
	for i := range b.segments {
		b.segments[i] = []uint64{0}
	}
	b.put(0, 0, root)
	return b.segments
}

func (b *builder) put(segment, at int, value *item) {
	if value.kind == 0 {
		return
	}
	in := b.source.Intn(len(b.segments))
	pointer, size := uint64(0), 0
	switch value.kind {
	case 's':
		pointer, size = uint64(len(value.words))<<32|uint64(len(value.below))<<48, len(value.words)+len(value.below)
	case 'l':
		pointer, size = 1|value.code<<32|uint64(value.count)<<35, len(value.words)
	case 'p':
		pointer, size = 1|6<<32|uint64(len(value.below))<<35, len(value.below)
	case 'r':
		size = len(value.words) + len(value.below)
		pointer = 1 | 7<<32 | uint64(size)<<35
		size++
	}
	start := len(b.segments[in])
	b.segments[in] = append(b.segments[in], make([]uint64, size)...)
	switch {
	case in == segment:
		if size == 0 && value.kind == 's' {
			// With the offset 0 this word would be a null pointer.
			start = at
		}
		b.segments[segment][at] = pointer | uint64(uint32(start-at-1)<<2)
	case b.source.Intn(3) > 0:
		// A landing pad in the segment of the object.
		pad := len(b.segments[in])
		b.segments[in] = append(b.segments[in], pointer|uint64(uint32(start-pad-1)<<2))
		b.segments[segment][at] = 2 | uint64(pad)<<3 | uint64(in)<<32
	default:
		// A landing pad of two words in some segment.
		to := b.source.Intn(len(b.segments))
		pad := len(b.segments[to])
		b.segments[to] = append(b.segments[to], 2|uint64(start)<<3|uint64(in)<<32, pointer)
		b.segments[segment][at] = 6 | uint64(pad)<<3 | uint64(to)<<32
	}
	switch value.kind {
	case 's', 'l':
		copy(b.segments[in][start:], value.words)
		for i, one := range value.below {
			b.put(in, start+len(value.words)+i, one)
		}
	case 'p':
		for i, one := range value.below {
			b.put(in, start+i, one)
		}
	case 'r':
		words, slots := int(value.code&0xFFFF), int(value.code>>16)
		b.segments[in][start] = uint64(value.count)<<2 | uint64(words)<<32 | uint64(slots)<<48
		for row := 0; row < value.count; row++ {
			begin := start + 1 + row*(words+slots)
			copy(b.segments[in][begin:], value.words[row*words:(row+1)*words])
			for i := 0; i < slots; i++ {
				b.put(in, begin+words+i, value.below[row*slots+i])
			}
		}
	}
}

func bytesOf(segments [][]uint64) [][]byte {
	found := make([][]byte, len(segments))
	for i, words := range segments {
		for _, word := range words {
			found[i] = binary.LittleEndian.AppendUint64(found[i], word)
		}
	}
	return found
}

// randomSegments returns segments of random words, which are mostly not a message.
func randomSegments(source *rand.Rand) [][]uint64 {
	segments := make([][]uint64, [...]int{1, 1, 2, 3}[source.Intn(4)])
	for i := range segments {
		segments[i] = randomWords(source, source.Intn(8))
	}
	return segments
}
