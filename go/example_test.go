//go:build cgo && linux && amd64

package capn_test

import (
	"bytes"
	"errors"
	"fmt"
	"io"

	capn "example.org/capn/go"
)

// Two encodings of the value (id = 5). The second has an additional zero word.
var (
	tight = []byte("\x00\x00\x00\x00\x02\x00\x00\x00" + "\x00\x00\x00\x00\x01\x00\x00\x00" +
		"\x05\x00\x00\x00\x00\x00\x00\x00")
	loose = []byte("\x00\x00\x00\x00\x03\x00\x00\x00" + "\x00\x00\x00\x00\x02\x00\x00\x00" +
		"\x05\x00\x00\x00\x00\x00\x00\x00" + "\x00\x00\x00\x00\x00\x00\x00\x00")
	// A struct that lies outside of the message.
	invalid = []byte("\x00\x00\x00\x00\x01\x00\x00\x00" + "\x00\x00\x00\x00\x01\x00\x00\x00")
)

func Example() {
	for _, message := range [][]byte{tight, loose, invalid} {
		digest, err := capn.Digest(message, capn.Stream, nil)
		if err != nil {
			fmt.Println(err, errors.Is(err, capn.ErrRange))
			continue
		}
		fmt.Printf("%x\n", digest[:8])
	}
	// Output:
	// 6a3efd90ef3aebf0
	// 6a3efd90ef3aebf0
	// capn: Range at 0:0, paid 0, visits 1 true
}

func ExampleCheck() {
	limits := capn.Limits{MessageWords: 1 << 17, Budget: 1 << 18, Depth: 32}
	checked, err := capn.Check(loose, capn.Stream, &limits)
	fmt.Println(checked.Paid, checked.Visits, err)
	// Output: 3 1 <nil>
}

func ExampleSame() {
	fmt.Println(capn.Same(tight, loose, capn.Stream, nil))
	// Output: true <nil>
}

// A rejected message doesn't end a stream.
func ExampleReader() {
	stream := bytes.NewReader(bytes.Join([][]byte{tight, invalid, loose}, nil))
	messages := capn.NewReader(stream, nil)
	for {
		message, err := messages.Next()
		if err == io.EOF {
			break
		}
		if err != nil {
			fmt.Println(err) // truncated or damaged, or an error of the io.Reader
			break
		}
		if _, err := capn.Check(message, capn.Stream, nil); err != nil {
			fmt.Println(messages.Locate(err))
			continue
		}
		fmt.Println("message", messages.Number(), "at", messages.Start())
	}
	// Output:
	// message 1 at 0
	// capn: message 2 at 24: Range at 0:0, paid 0, visits 1
	// message 3 at 40
}

// A message is read with a schema, here `id @0 :UInt64; name @1 :Text = "nobody"`.
func ExampleNewIndex() {
	index, err := capn.NewIndex(tight, capn.Stream, nil)
	if err != nil {
		fmt.Println(err)
		return
	}
	root, err := index.Root().AsStruct()
	if err != nil {
		fmt.Println(err)
		return
	}
	name, err := root.Slot(0).AsText("nobody")
	fmt.Println(root.Uint64(0, 0), name, err)
	// Output: 5 nobody <nil>
}

func ExampleFindDeparture() {
	fmt.Println(capn.FindDeparture(tight, capn.Stream, nil))
	departure, err := capn.FindDeparture(loose, capn.Stream, nil)
	fmt.Println(departure.Kind == capn.DepartsWord, departure.Byte, departure.Way, err)
	// Output:
	// yes <nil>
	// true 8 root <nil>
}
