//go:build cgo && linux && amd64

package capn

import (
	"bytes"
	"encoding/binary"
	"encoding/hex"
	"errors"
	"fmt"
	"strconv"
	"strings"
	"testing"
)

func bare(words ...uint64) []byte { return bytesOf([][]uint64{words})[0] }

func stream(t *testing.T, words ...uint64) []byte {
	t.Helper()
	message, err := framed([][]byte{bare(words...)})
	if err != nil {
		t.Fatal(err)
	}
	return message
}

func packed(t *testing.T, words []byte) []byte {
	t.Helper()
	packed, err := Pack(words)
	if err != nil {
		t.Fatal(err)
	}
	return packed
}

func TestIsCanonicalMessage(t *testing.T) {
	// A struct of two words, 5 and 0, followed by a word that no pointer refers to, and the canonical bytes of this
	// message.
	loose, tight := stream(t, 2<<32, 5, 0, 9), stream(t, 1<<32, 5)
	// If a stream is read as bare words, its segment table is a pointer to a struct whose data is the segment.
	// IsCanonicalWords and the older IsCanonical read bare words.
	for _, call := range []func([]byte, *Limits) (bool, error){IsCanonicalWords, IsCanonical} {
		for _, one := range []struct {
			words []byte
			is    bool
		}{{loose, true}, {loose[8:], false}, {tight[8:], true}} {
			if is, err := call(one.words, nil); err != nil || is != one.is {
				t.Fatal(is, err)
			}
		}
	}
	two, err := framed([][]byte{{}, {}})
	if err != nil {
		t.Fatal(err)
	}
	two = append(two[:4:4], 2, 0, 0, 0, 0, 0, 0, 0, 0, 0, 0, 0)
	two = append(two, bare(1<<32, 5)...)
	for _, one := range []struct {
		message []byte
		form    Form
		is      bool
	}{
		{loose, Stream, false}, {packed(t, loose), Packed, false}, {loose[8:], Bare, false},
		{tight, Stream, true}, {packed(t, tight), Packed, true}, {tight[8:], Bare, true},
		{two, Stream, false}, {packed(t, two), Packed, false},
	} {
		if is, err := IsCanonicalMessage(one.message, one.form, nil); err != nil || is != one.is {
			t.Errorf("%x: %v, %v", one.message, is, err)
		}
		if is, err := IsCanonicalIn(one.message, one.form, nil); err != nil || is != one.is {
			t.Errorf("%x: %v, %v", one.message, is, err)
		}
	}
	capability := stream(t, 1<<48, 3|7<<32)
	for form, message := range map[Form][]byte{
		Stream: capability, Packed: packed(t, capability), Bare: capability[8:],
	} {
		var refused *Error
		is, err := IsCanonicalMessage(message, form, nil)
		if is || !errors.As(err, &refused) || *refused != (Error{Kind: ErrCapability, At: 7}) {
			t.Error(is, err)
		}
	}
	if is, err := IsCanonicalMessage(tight[:20], Stream, nil); is || !errors.Is(err, ErrFrameCut) {
		t.Error(is, err)
	}
	if is, err := IsCanonicalMessage(tight, Form(3), nil); is || err != ErrForm {
		t.Error(is, err)
	}
}

func TestRefusalWay(t *testing.T) {
	// A list of two structs with a pointer each. The second pointer leads past the end.
	outside := stream(t, 1|7<<32|2<<35, 8|1<<48, 0, 1|2<<32|99<<35)
	for form, message := range map[Form][]byte{
		Stream: outside, Packed: packed(t, outside), Bare: outside[8:],
	} {
		way, err := RefusalWay(message, form, nil)
		if !errors.Is(err, ErrRange) || fmt.Sprint(way, []uint32(way)) != "1.0 [1 0]" {
			t.Error(way, err)
		}
		if _, checked := Check(message, form, nil); checked.Error() != err.Error() {
			t.Error(checked, err)
		}
	}
	if way, err := RefusalWay(bare(1<<32), Bare, nil); !errors.Is(err, ErrRange) || way == nil || way.String() != "root" {
		t.Error(way, err)
	}
	// No traversal rejects these messages.
	if way, err := RefusalWay(small, Stream, nil); err != nil || way != nil || way.String() != "none" {
		t.Error(way, err)
	}
	if way, err := RefusalWay(small[:20], Stream, nil); !errors.Is(err, ErrFrameCut) || way != nil {
		t.Error(way, err)
	}
	for _, depth := range []uint32{0, 257, 1<<32 - 1} {
		if way, err := RefusalWay(small, Stream, limitsWith(9, 9, depth, Strict)); err != ErrLimits || way != nil {
			t.Error(way, err)
		}
		if _, err := FindDeparture(small, Stream, limitsWith(9, 9, depth, Strict)); err != ErrLimits {
			t.Error(err)
		}
	}
	// A path of the greatest length: two numbers for each level.
	var deep []uint64
	for i := 0; i < maxDepth; i++ {
		deep = append(deep, 1|7<<32|1<<35, 4|1<<48)
	}
	limits := limitsWith(1<<20, 1<<20, maxDepth, Strict)
	longest := strings.TrimSuffix(strings.Repeat("0.", 2*maxDepth), ".")
	way, err := RefusalWay(bare(append(deep, 7)...), Bare, limits)
	if !errors.Is(err, ErrReserved) || way.String() != longest {
		t.Error(way, err)
	}
	d, err := FindDeparture(bare(append(deep, 3|9<<32)...), Bare, limits)
	if err != nil || d.Kind != DepartsCapability || d.Capability != 9 || d.Way.String() != longest {
		t.Error(d, err)
	}
}

func TestFindDeparture(t *testing.T) {
	for _, one := range []struct {
		message []byte
		form    Form
		want    Departure
		text    string
	}{
		{bare(1<<32, 5), Bare, Departure{}, "yes"},
		{stream(t, 2<<32, 5, 0), Stream,
			Departure{Kind: DepartsWord, Way: Way{}, Byte: 8, Word: 2 << 32, CanonicalWord: 1 << 32, Owner: OwnerPointer},
			"no: at byte 8: 0000000002000000 (struct of 2 words and 0 slots, offset 0), " +
				"canonical 0000000001000000 (struct of 1 words and 0 slots, offset 0), the pointer at root"},
		{bare(0, 5), Bare, Departure{Kind: DepartsAfter, Byte: 8, Word: 5},
			"no: at byte 8: 0500000000000000, canonical nothing, after the value"},
		{bare(1|1<<32, 0, 0), Stream, Departure{Kind: DepartsSegments, Segments: 2}, "no: 2 segments"},
		{bare(1|2<<32|1<<35, 0x4141), Bare,
			Departure{Kind: DepartsWord, Way: Way{}, Byte: 8, Word: 0x4141, CanonicalWord: 0x41, Owner: OwnerLastWord},
			"no: at byte 8: 4141000000000000, canonical 4100000000000000, the last word of root"},
		{bare(2<<48, 0, 3|9<<32), Bare, Departure{Kind: DepartsCapability, Capability: 9, Way: Way{1}},
			"no: capability 9 at 1"},
	} {
		d, err := FindDeparture(one.message, one.form, nil)
		if err != nil || fmt.Sprintf("%#v", d) != fmt.Sprintf("%#v", one.want) || d.String() != one.text {
			t.Errorf("%#v, %v: %v", d, err, d)
		}
	}
	if _, err := FindDeparture(bare(1<<32), Bare, nil); !errors.Is(err, ErrRange) {
		t.Error(err)
	}
	if OwnerTag.String() != "tag" || OwnerNone.String() != "none" || Owner(9).String() != "Owner(9)" {
		t.Error(OwnerTag, OwnerNone, Owner(9))
	}
}

// said returns the lines of an explanation by their keys, which stand before the colons.
func said(text string) map[string]string {
	found := map[string]string{}
	for _, line := range strings.Split(text, "\n") {
		if at := strings.Index(line, ": "); at >= 0 {
			found[line[:at]] = line[at+2:]
		}
	}
	return found
}

// Compares the paths and the first differences with the stored explanations of the program.
func TestStoredWays(t *testing.T) {
	inputs, outputs := storedLines(t, "stdin"), storedLines(t, "stdout")
	ways, departures := 0, 0
	for i, line := range inputs {
		words := strings.Fields(line)
		if len(words) < 4 || words[0] != "archive" || words[2] != "explain" {
			continue
		}
		if strings.Contains(line, " --keep-going ") {
			continue // It explains several messages, each as without it.
		}
		form, limits := Stream, UsualLimits()
		for at := 3; at < len(words)-1; at += 2 {
			number, _ := strconv.ParseUint(words[at+1], 10, 32)
			switch words[at] {
			case "--form":
				form = forms[words[at+1]]
			case "--tariff":
				limits.Tariff = map[string]Tariff{"strict": Strict, "plain": Plain}[words[at+1]]
			case "--budget":
				limits.Budget = uint32(number)
			case "--depth":
				limits.Depth = uint32(number)
			case "--message-words":
				limits.MessageWords = uint32(number)
			}
		}
		data, _ := hex.DecodeString(strings.TrimPrefix(words[len(words)-1], "-"))
		var text []byte
		if parts := strings.Split(outputs[i], ", "); len(parts) > 1 {
			text, _ = hex.DecodeString(strings.TrimPrefix(parts[1], "-"))
		}
		wanted := said(string(text))
		if wanted["way"] == "" && wanted["canonical"] == "" {
			continue
		}
		// The message that the explanation is about, in its own form and packed.
		messages, offset := map[Form][]byte{form: data}, uint64(0)
		if form != Bare {
			reader := NewReader(bytes.NewReader(data), &limits)
			if form == Packed {
				reader = NewPackedReader(bytes.NewReader(data), &limits)
			}
			var message []byte
			for wanted["message"] != fmt.Sprintf("%d at %d", reader.Number(), offset) {
				var err error
				offset = uint64(reader.Offset())
				if message, err = reader.Next(); err != nil {
					t.Fatalf("%s: %v", line, err)
				}
			}
			messages = map[Form][]byte{Stream: message, Packed: packed(t, message)}
		}
		for form, message := range messages {
			if want := wanted["way"]; want != "" {
				ways++
				if way, err := RefusalWay(message, form, &limits); err == nil || way.String() != want {
					t.Errorf("%s: way %v, %v", line, way, err)
				}
				continue
			}
			departures++
			d, err := FindDeparture(message, form, &limits)
			if d.Kind == DepartsWord || d.Kind == DepartsAfter {
				d.Byte += offset
			}
			if err != nil || d.String() != wanted["canonical"] {
				t.Errorf("%s: %v, %v", line, d, err)
			}
			is, err := IsCanonicalIn(message, form, &limits)
			if errors.Is(err, ErrCapability) == (err == nil) || is != (d.Kind == DepartsNot) {
				t.Errorf("%s: %v, %v", line, is, err)
			}
		}
	}
	if ways < 40 || departures < 20 {
		t.Errorf("%d ways, %d departures", ways, departures)
	}
}

// The paths and the first differences of ten thousand generated messages must be those that C returns.
func TestGeneratedWays(t *testing.T) {
	kinds := map[string]int{}
	for _, line := range generatedCalls(t, "CAPN_WAYS") {
		call, want, _ := strings.Cut(line, "|")
		var form, digits string
		limits, survey := UsualLimits(), strings.TrimPrefix(call, "plain ")
		if survey != call {
			limits.Tariff = Plain
		}
		if _, err := fmt.Sscanf(survey, "survey %s %d %d %d %s", &form, &limits.MessageWords, &limits.Budget, &limits.Depth,
			&digits); err != nil {
			t.Fatal(call, err)
		}
		message := bytesOfHex(t, strings.TrimPrefix(digits, "-"))
		kind, got := wayOrDeparture(t, message, forms[form], &limits)
		if got != want {
			t.Fatalf("%s: %s, not %s", call, got, want)
		}
		kinds[kind]++
	}
	for _, kind := range []string{"way", "yes", "segments", "word", "after"} {
		if kinds[kind] < 20 {
			t.Errorf("%d of the kind %s", kinds[kind], kind)
		}
	}
}

// wayOrDeparture returns the kind of a message, and the line that tests/c/ways.c prints for it.
func wayOrDeparture(t *testing.T, message []byte, form Form, limits *Limits) (string, string) {
	way, err := RefusalWay(message, form, limits)
	switch {
	case errors.Is(err, ErrNoRoot):
		return "no root", "no root"
	case way != nil:
		return "way", "way " + way.String()
	case err != nil:
		return "?", "?"
	}
	d, err := FindDeparture(message, form, limits)
	if err != nil {
		t.Fatal(err)
	}
	word := func(word uint64) string { return hex.EncodeToString(binary.LittleEndian.AppendUint64(nil, word)) }
	switch d.Kind {
	case DepartsSegments:
		return "segments", fmt.Sprintf("%d segments", d.Segments)
	case DepartsCapability:
		return "capability", fmt.Sprintf("capability %d at %v", d.Capability, d.Way)
	case DepartsWord:
		preposition := map[bool]string{true: "at", false: "of"}[d.Owner == OwnerPointer]
		return "word", fmt.Sprintf("byte %d %s %s the %v %s %v", d.Byte, word(d.Word), word(d.CanonicalWord), d.Owner,
			preposition, d.Way)
	case DepartsAfter:
		return "after", fmt.Sprintf("byte %d %s nothing", d.Byte, word(d.Word))
	}
	return "yes", "yes"
}
