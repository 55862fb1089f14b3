//go:build cgo && linux && amd64

package capn

import (
	"bytes"
	"encoding/hex"
	"errors"
	"fmt"
	"io"
	"os"
	"regexp"
	"strconv"
	"strings"
	"testing"
)

// `calls`, `hashes` and `packedHashes` match the cases that a call can answer. Of the packed streams that are hashed,
// only those of one message are taken. `capabilities` matches the part of an answer that no call reports.
var (
	calls        = regexp.MustCompile(`^(plain )?(canonicalise|is_canonical|survey|pack|unpack) `)
	hashes       = regexp.MustCompile(`^run [0-9]+ hash --form (bare|stream) [^-]`)
	packedHashes = regexp.MustCompile(`^run [0-9]+ hash --form packed [^-][^|]*\|status 0, [0-9a-f]{130}$`)
	capabilities = regexp.MustCompile(`, (no capability|capability [0-9]+)$`)
)

func storedLines(t *testing.T, name string) []string {
	var found []string
	for _, crate := range []string{"conformance_calls", "conformance_runs"} {
		data, err := os.ReadFile("../crates/" + crate + "/" + name)
		if err != nil {
			t.Fatal(err)
		}
		// Every other line is the name of a case.
		for i, line := range strings.Split(strings.TrimSuffix(string(data), "\n"), "\n") {
			if i%2 == 1 {
				found = append(found, line)
			}
		}
	}
	return found
}

func digits(data []byte) string {
	if len(data) == 0 {
		return "-"
	}
	return hex.EncodeToString(data)
}

// text returns the text of an error in the form of the stored answers.
func text(err error, ofPacking bool) string {
	var refused *Error
	if !errors.As(err, &refused) {
		return err.Error()
	}
	if ofPacking {
		return strings.TrimPrefix(strings.TrimPrefix(refused.Text(), "packed: "), "bare: ")
	}
	return refused.Text()
}

var forms = map[string]Form{"stream": Stream, "packed": Packed, "bare": Bare}

// answer makes a call, and returns its result in the form of the stored answers.
func answer(line string) string {
	words := strings.Fields(line)
	limits := UsualLimits()
	if words[0] == "plain" {
		limits.Tariff, words = Plain, words[1:]
	}
	last := len(words) - 1
	data, _ := hex.DecodeString(strings.TrimPrefix(words[last], "-"))
	number := func(i int) uint32 {
		n, err := strconv.ParseUint(words[i], 10, 32)
		if err != nil {
			panic(err)
		}
		return uint32(n)
	}
	switch words[0] {
	case "pack":
		packed, err := Pack(data)
		if err != nil {
			return text(err, true)
		}
		return digits(packed)
	case "unpack":
		unpacked, err := Unpack(data, number(1))
		if err != nil {
			return text(err, true)
		}
		return digits(unpacked)
	case "run":
		return hashed(data, forms[words[4]])
	}
	limits.MessageWords, limits.Budget, limits.Depth = number(last-3), number(last-2), number(last-1)
	switch words[0] {
	case "is_canonical":
		canonical, err := IsCanonicalWords(data, &limits)
		if err != nil {
			return text(err, false)
		}
		return fmt.Sprint(canonical)
	case "survey":
		checked, err := Check(data, forms[words[1]], &limits)
		if err != nil {
			return text(err, false)
		}
		return fmt.Sprintf("paid %d, visits %d", checked.Paid, checked.Visits)
	}
	canonical, err := Canonical(data, forms[words[1]], &limits)
	if err != nil {
		return text(err, false)
	}
	checked, _ := Check(data, forms[words[1]], &limits)
	return fmt.Sprintf("paid %d, %s", checked.Paid, digits(canonical))
}

// hashed returns the status and the output of `capn hash`. The output has a line for each message, up to the first that
// is rejected.
func hashed(data []byte, form Form) string {
	var lines strings.Builder
	ended := func(err error) string {
		return fmt.Sprintf("status 1, %s, capn: %s", digits([]byte(lines.String())), text(err, false))
	}
	add := func(message []byte, form Form) error {
		digest, err := Digest(message, form, nil)
		if err == nil {
			fmt.Fprintf(&lines, "%x\n", digest)
		}
		return err
	}
	if form != Stream {
		if err := add(data, form); err != nil {
			return ended(err)
		}
		return "status 0, " + digits([]byte(lines.String()))
	}
	for messages := NewReader(bytes.NewReader(data), nil); ; {
		message, err := messages.Next()
		if err == io.EOF {
			return "status 0, " + digits([]byte(lines.String()))
		}
		if err == nil {
			err = add(message, Stream)
		}
		if err != nil {
			return ended(err)
		}
	}
}

func TestStored(t *testing.T) {
	inputs, outputs := storedLines(t, "stdin"), storedLines(t, "stdout")
	tried := 0
	for i, line := range inputs {
		if !calls.MatchString(line) && !hashes.MatchString(line) && !packedHashes.MatchString(line+"|"+outputs[i]) {
			continue
		}
		tried++
		wanted := capabilities.ReplaceAllString(outputs[i], "")
		if strings.HasPrefix(line, "canonicalise") || strings.HasPrefix(line, "plain canonicalise") {
			wanted = outputs[i]
		}
		if got := answer(line); got != wanted {
			t.Errorf("%s: %s, not %s", line, got, wanted)
		}
	}
	if tried < 583 {
		t.Errorf("%d cases", tried)
	}
}

// generatedCalls returns the lines of the file that a variable names. go/test writes this file. A line has a call on a
// message of tests/program/generated.py, a vertical bar, and the answer of a program in C.
func generatedCalls(t *testing.T, variable string) []string {
	name := os.Getenv(variable)
	if name == "" {
		t.Skip(variable + " names no answers of C")
	}
	data, err := os.ReadFile(name)
	if err != nil {
		t.Fatal(err)
	}
	return strings.Split(strings.TrimSuffix(string(data), "\n"), "\n")
}

// For ten thousand generated messages, many of them hostile, each call returns what the library returns in C.
func TestGenerated(t *testing.T) {
	lines, accepted := generatedCalls(t, "CAPN_GENERATED"), 0
	for _, line := range lines {
		call, want, _ := strings.Cut(line, "|")
		if got := answer(call); got != want {
			t.Fatalf("%s: %s, not %s", call, got, want)
		}
		if strings.HasPrefix(want, "paid") {
			accepted++
		}
	}
	if accepted < 5000 || accepted > 15000 {
		t.Errorf("%d of %d accepted", accepted, len(lines))
	}
}
