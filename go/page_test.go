//go:build cgo && linux && amd64

package capn

import (
	"bytes"
	"crypto/ed25519"
	"encoding/hex"
	"fmt"
	"math/rand"
	"os"
	"os/exec"
	"path/filepath"
	"strings"
	"testing"
)

// blocks returns the fenced blocks of a page in a language.
func blocks(t *testing.T, page, language string) []string {
	t.Helper()
	text, err := os.ReadFile(page)
	if err != nil {
		t.Fatal(err)
	}
	var found []string
	inside := ""
	for _, line := range strings.Split(string(text), "\n") {
		switch {
		case strings.HasPrefix(line, "```") && inside == "":
			inside = line
			if inside == "```"+language {
				found = append(found, "")
			}
		case line == "```":
			inside = ""
		case inside == "```"+language:
			found[len(found)-1] += line + "\n"
		}
	}
	return found
}

// The beginning of a program that reads a message from standard input.
const reads = `package main

import (
	"fmt"
	"io"
	"os"
)

func main() {
	message, _ := io.ReadAll(os.Stdin)
`

// The programs that call the functions of the page's blocks. A block without such a program is itself a program.
var callers = []string{
	"",
	`package main

import (
	"crypto/ed25519"
	"encoding/hex"
	"fmt"
	"io"
	"os"
)

func main() {
	key := ed25519.NewKeyFromSeed(make([]byte, 32))
	message, _ := io.ReadAll(os.Stdin)
	if os.Args[1] == "sign" {
		signature, err := sign(message, key)
		fmt.Println(hex.EncodeToString(signature), err)
		return
	}
	keys := map[uint32]ed25519.PublicKey{7: key.Public().(ed25519.PublicKey)}
	fmt.Printf("%v\n", receive(message, keys))
}
`,
	`package main

import (
	"encoding/hex"
	"fmt"
	"io"
	"os"
)

type marshaled []byte

func (m marshaled) Marshal() ([]byte, error) { return m, nil }

func main() {
	message, _ := io.ReadAll(os.Stdin)
	if len(os.Args) == 1 {
		digest, err := digestOf(marshaled(message))
		fmt.Printf("%x %v\n", digest, err)
		return
	}
	var digest [32]byte
	hex.Decode(digest[:], []byte(os.Args[1]))
	fmt.Println(hasDigest(message, digest, nil))
}
`,
	`package main

import (
	"io"
	"os"
)

func main() {
	message, _ := io.ReadAll(os.Stdin)
	if !isWithinLimits(message) {
		os.Exit(1)
	}
}
`,
	`package main

import (
	"fmt"
	"os"

	capn "example.org/capn/go"
)

func main() {
	if err := printDigests(os.Stdin, &capn.Limits{MessageWords: 1 << 17, Budget: 1 << 18, Depth: 32}); err != nil {
		fmt.Println(err)
		os.Exit(1)
	}
}
`,
	reads + `	if err := printPerson(message, nil); err != nil {
		fmt.Println(err)
		os.Exit(1)
	}
}
`,
	reads + `	fmt.Println(describe(message, nil))
}
`,
	reads + `	fmt.Println(hidden(message, nil))
}
`,
}

// The block of the page that signs and verifies needs this head: a package and imports.
const imports = `package main

import (
	"crypto/ed25519"
	"errors"
	"fmt"

	"example.org/capn/go"
)

`

// TestPage follows the page. It installs the library and the module as the page says, into a module of its own, and
// compiles and runs each block alone.
func TestPage(t *testing.T) {
	shells, parts := blocks(t, "../docs/GO.md", "sh"), blocks(t, "../docs/GO.md", "go")
	if len(shells) != 1 || len(parts) != len(callers) {
		t.Fatalf("%d and %d blocks", len(shells), len(parts))
	}
	library := os.Getenv("CAPN_INSTALLED")
	if library == "" {
		t.Skip("CAPN_INSTALLED names no folder into which the library is installed")
	}
	folder := t.TempDir()
	run := func(input []byte, words ...string) (string, int) {
		t.Helper()
		ran := exec.Command(words[0], words[1:]...)
		ran.Dir = folder
		var out bytes.Buffer
		ran.Stdin, ran.Stdout, ran.Stderr = bytes.NewReader(input), &out, &out
		err := ran.Run()
		if err != nil && ran.ProcessState == nil {
			t.Fatal(err)
		}
		return out.String(), ran.ProcessState.ExitCode()
	}
	must := func(words ...string) {
		t.Helper()
		if out, status := run(nil, words...); status != 0 {
			t.Fatalf("%v: %s", words, out)
		}
	}
	here, err := os.Getwd()
	if err != nil {
		t.Fatal(err)
	}
	// An archive like that of the release, with the library that the tests are linked with, and the module.
	must("sh", "-ec", `mkdir capn-0 program
		cp -r "$0/lib" "$0/include" capn-0
		mkdir capn-0/go && cp "$1"/*.go "$1"/go.mod capn-0/go && rm capn-0/go/*_test.go
		sed -i "s,^prefix=.*,prefix=$PWD/capn-0," capn-0/lib/pkgconfig/capn.pc
		tar czf capn-0.tar.gz capn-0 && rm -r capn-0`, library, here)
	for i, part := range parts {
		if !strings.HasPrefix(part, "package ") {
			part = imports + part
		}
		part = strings.Replace(part, "package example\n", "package main\n", 1)
		files := map[string]string{"page.go": part, "main.go": callers[i]}
		for name, text := range files {
			path := filepath.Join(folder, "program", fmt.Sprint("part", i), name)
			if err := os.MkdirAll(filepath.Dir(path), 0o777); err != nil {
				t.Fatal(err)
			}
			if text == "" {
				continue
			}
			if err := os.WriteFile(path, []byte(text), 0o666); err != nil {
				t.Fatal(err)
			}
		}
	}
	must("sh", "-ec", "(cd program; go mod init example.org/reader)\n"+shells[0]+
		"unformatted=$(gofmt -l .)\n[ -z \"$unformatted\" ]\ngo vet ./...\n"+
		"for part in part*; do CGO_CFLAGS= go build -o ../$part.run ./$part; done")
	t.Setenv("LD_LIBRARY_PATH", filepath.Join(folder, "capn-0/lib"))
	told := func(part int, input []byte, words ...string) string {
		t.Helper()
		out, status := run(input, append([]string{fmt.Sprintf("./part%d.run", part)}, words...)...)
		if status != 0 {
			out = fmt.Sprintf("%s(%d)\n", out, status)
		}
		return out
	}
	is := func(what, want, got string) {
		t.Helper()
		if got != want {
			t.Errorf("%s: %q, not %q", what, got, want)
		}
	}

	// A person of age 30 named "abc", with a friend and two scores, and messages that are wrong in different ways.
	person := stream(t, 1<<32|3<<48, 30^18, 8|1|2<<32|4<<35, 8|1|7<<32|1<<35,
		16|1|3<<32|2<<35, 0x636261, 4|1<<48, 1|2<<32|4<<35, 0x7a7978, 0x00050003)
	null, outside, other := stream(t, 0), stream(t, 1<<32), stream(t, 1<<32|1<<48, 0, 0xfffffffc)
	hostile := stream(t, 1<<48|0xfffffffc)
	both := func(all ...[]byte) []byte { return bytes.Join(all, nil) }
	digest, err := Digest(person, Stream, nil)
	if err != nil {
		t.Fatal(err)
	}
	canonical := framedCanonical(t, person)

	hex0 := hex.EncodeToString(digest[:])
	is("first", hex0+"\n", told(0, person))
	is("first", "rejected: capn: trailing bytes at 88\n(1)\n", told(0, both(person, null)))
	is("first, too long", "rejected: longer than 1 MiB\n(1)\n",
		told(0, append(bare(1<<20<<32), make([]byte, 1<<21)...)))

	is("digest", hex0+" <nil>\n", told(2, person))
	is("digest", strings.Repeat("0", 64)+" capn: frame: Cut\n", told(2, person[:39]))
	for _, one := range []struct {
		message []byte
		want    string
	}{
		{person, "true\n"}, {canonical, "true\n"}, {null, "false\n"}, {hostile, "false\n"},
		{both(person, person), "false\n"},
	} {
		is("has a digest", one.want, told(2, one.message, hex0))
	}

	is("limits", "reading it costs 14 words and follows 5 pointers\n", told(3, person))
	is("limits", "rejected: capn: TooDeep at 0:0, paid 64, visits 33\n(1)\n", told(3, hostile))

	place := fmt.Sprintf("message 1 at 0: %x\n", digest)
	is("stream", "", told(4, nil))
	is("stream", place, told(4, person))
	is("stream that goes on", place+"capn: message 2 at 88: Range at 0:0, paid 0, visits 1\n"+
		"capn: message 3 at 104: TooDeep at 0:0, paid 64, visits 33\n"+fmt.Sprintf("message 4 at 120: %x\n", digest),
		told(4, both(person, outside, hostile, person)))
	is("stream with a damaged table", place+"capn: message 2 at 88: frame: TooManySegments(4294967296)\n(1)\n",
		told(4, both(person, bytes.Repeat([]byte{255}, 8), person)))
	is("truncated stream", place+"capn: message 2 at 88: frame: Cut\n(1)\n", told(4, both(person, person[:39])))

	is("values", "30\nabc\nxyz\n3\n5\n", told(5, person))
	is("values of null", "18\nnobody\n", told(5, null))
	is("values of another type", "capn: text expected, struct found\n(1)\n", told(5, other))

	is("why", "rejected: capn: Range at 0:0, paid 0, visits 1, pointer root\n", told(6, outside))
	is("why", "rejected: capn: frame: Cut, pointer none\n", told(6, small[:20]))
	is("why", "canonical: yes\n", told(6, canonical))
	is("hidden", "[24] <nil>\n", told(7, stream(t, 1<<48, 5|50<<32, 0x616441, 0x6563617247)))
	is("hidden", "[] <nil>\n", told(7, person))
	is("hidden", "[] capn: frame: Cut\n", told(7, small[:20]))
	if got := told(6, small); !strings.HasPrefix(got, "canonical: no: at byte 8: 0000000002000000 (struct of ") {
		t.Error(got)
	}

	// The signed messages, and their envelopes.
	text := func(text string) *item {
		list := &item{kind: 'l', code: 2, count: len(text), words: make([]uint64, (len(text)+7)/8)}
		for i := 0; i < len(text); i++ {
			list.words[i/8] |= uint64(text[i]) << (8 * (i % 8))
		}
		return list
	}
	source := rand.New(rand.NewSource(96))
	laidOut := func(root *item) []byte {
		message, err := framed(bytesOf(segmentsOf(source, root, 1+source.Intn(3))))
		if err != nil {
			t.Fatal(err)
		}
		return message
	}
	lines := &item{kind: 'r', count: 2, code: 1 | 1<<16, words: []uint64{420, 1<<64 - 380},
		below: []*item{text("tea\x00"), text("a cake\x00")}}
	invoice := laidOut(&item{kind: 's', words: []uint64{2024117}, below: []*item{text("Ada\x00"), lines}})
	unended := laidOut(&item{kind: 's', words: []uint64{1}, below: []*item{text("Ada"), {}}})
	seven := &item{kind: 'l', code: 3, count: 1, words: []uint64{7}}
	numbers := laidOut(&item{kind: 's', words: []uint64{1}, below: []*item{seven, {}}})
	key := ed25519.NewKeyFromSeed(make([]byte, 32))
	signed := func(message []byte, name string) string {
		digest, err := Digest(message, Stream, nil)
		if err != nil {
			t.Fatal(err)
		}
		return string(ed25519.Sign(key, []byte(fmt.Sprintf("capn statement 1\nprotocol: example.org/billing\ntype: %s\n"+
			"canonical form: 1\nsha-256: %x\n", name, digest))))
	}
	envelope := func(form, key uint64, signature string, message []byte) []byte {
		return laidOut(&item{kind: 's', words: []uint64{form | key<<32},
			below: []*item{text(signature), text(string(message))}})
	}
	is("sign", hex.EncodeToString([]byte(signed(invoice, "Invoice")))+" <nil>\n", told(1, invoice, "sign"))
	is("sign", " capn: frame: Cut\n", told(1, invoice[:20], "sign"))
	good := signed(invoice, "Invoice")
	const accepted = "{accepted  2024117 Ada [{tea 420} {a cake -380}]}\n"
	const tooDeep = "{bad message capn: TooDeep at 0:0, paid 64, visits 33 0  []}\n"
	for _, one := range []struct {
		what   string
		upload []byte
		want   string
	}{
		{"good", envelope(1, 7, good, invoice), accepted},
		{"canonical", envelope(1, 7, good, framedCanonical(t, invoice)), accepted},
		{"another key", envelope(1, 8, good, invoice), "{bad signature unknown key 0  []}\n"},
		{"another type", envelope(1, 7, signed(invoice, "Offer"), invoice), "{bad signature wrong signature 0  []}\n"},
		{"short", envelope(1, 7, good[:63], invoice), "{bad signature wrong signature 0  []}\n"},
		{"no signature", envelope(1, 7, "", invoice), "{bad signature wrong signature 0  []}\n"},
		{"another message", envelope(1, 7, good, person), "{bad signature wrong signature 0  []}\n"},
		{"another form", envelope(2, 7, good, invoice), "{bad message another canonical form 0  []}\n"},
		{"two messages", envelope(1, 7, good, both(invoice, invoice)),
			fmt.Sprintf("{bad message capn: trailing bytes at %d 0  []}\n", len(invoice))},
		{"a hostile message", envelope(1, 7, good, hostile), tooDeep},
		{"a text without its zero", envelope(1, 7, signed(unended, "Invoice"), unended),
			"{bad message capn: text expected, bytes found 0  []}\n"},
		{"numbers in place of a text", envelope(1, 7, signed(numbers, "Invoice"), numbers),
			"{bad message capn: text expected, u16 found 0  []}\n"},
		{"a hostile envelope", hostile, tooDeep},
		{"no bytes", nil, "{bad message capn: frame: Empty 0  []}\n"},
		{"a long envelope", make([]byte, 1<<20+1), "{bad message too long 0  []}\n"},
	} {
		is(one.what, one.want, told(1, one.upload, "receive"))
	}
}

// framedCanonical returns a message that has the canonical bytes of another message as its only segment.
func framedCanonical(t *testing.T, message []byte) []byte {
	t.Helper()
	canonical, err := Canonical(message, Stream, nil)
	if err != nil {
		t.Fatal(err)
	}
	found, err := framed([][]byte{canonical})
	if err != nil {
		t.Fatal(err)
	}
	return found
}
