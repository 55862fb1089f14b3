"""Reads each pointer of each message as every kind of object. The test programs in C, C++, Rust and Go do the same.

    anything.py any     reads a stream. Prints how many messages are accepted, how many pointers they have, and how
                        many readings succeed in total. A pointer is read as a struct, as a
                        text, as data, and as a list of each kind.
    anything.py lines   reads the messages of generated.py mixed. Prints a line for each of these pointers and for each
                        rejected message, as the head of tests/c/fields.c says.

The messages are the standard input."""
import sys

import capn

MOST_NUMBERS, MOST_ROWS, START, PRIME, MASK = 1000, 20, 0xCBF29CE484222325, 0x100000001B3, (1 << 64) - 1
KINDS = ["null", "struct", "void", "bits", "bytes", "u16", "u32", "u64", "pointers", "rows", "capability"]


def folded(numbers):
    """Returns a hash of a sequence of numbers, in hexadecimal."""
    total = START
    for number in numbers:
        total = (total ^ number & MASK) * PRIME & MASK
    return f"{total:016x}"


def of_struct(body):
    """Yields the values of the fields that this test reads from a struct."""
    for i in range(0, 256, 5):
        yield int(body.bool(i, (i + 1) % 2 != 0))
    for width in 8, 16, 32, 64:
        for i in range(256 // width):
            yield body.uint(width, i, i + 1)
    for width in 8, 16, 32, 64:
        for i in range(256 // width):
            yield body.int(width, i, -i - 1)
    yield len(body.slots)
    for slot in range(4):
        yield KINDS.index(body.slot(slot).kind)


def of_list(items, most, of_each):
    """Yields the number of elements of a list, and then the numbers that are read from its first elements."""
    yield len(items)
    for i in range(min(len(items), most)):
        yield from of_each(items[i])


def text_of(found):
    """Returns the bytes of a text, without its last zero byte. Like the C library, this function also returns bytes
    that aren't UTF-8."""
    if not isinstance(found, (capn.Null, capn.Bytes)):
        raise capn.Mismatch(f"there is no text, but {found!r}")
    try:
        return found.text(default="none").encode()
    except UnicodeDecodeError:
        return found[:-1]


def data_of(found):
    """Returns the bytes of an object that is read as data."""
    if found.kind not in ("null", "bytes"):
        raise capn.Mismatch(f"there is no data, but {found!r}")
    return b"" if found.kind == "null" else found[:]


def elements_of(found):
    """Reads an object as a `List(Void)`, and returns its elements. Raises a Mismatch unless the object is null, a list
    of voids, or a list of structs."""
    if found.kind not in ("null", "void", "rows"):
        raise capn.Mismatch(f"there are no such elements, but {found!r}")
    return found.rows()


def things(found):
    """Yields two functions for each kind of object: one reads a pointer as this kind, and the other turns the result
    into numbers."""
    yield found.struct, of_struct
    for bytes_of in text_of, data_of:
        yield lambda: bytes_of(found), lambda data: (len(data), *data)
    yield lambda: elements_of(found), lambda items: (len(items),)
    for width in 1, 8, 16, 32, 64:
        yield lambda: found.numbers(width), lambda items: of_list(items, MOST_NUMBERS, lambda number: (int(number),))
    yield found.pointers, lambda items: of_list(items, MOST_ROWS, lambda one: (KINDS.index(one.kind),))
    yield found.rows, lambda items: of_list(items, MOST_ROWS, of_struct)


def parts(found, shown):
    """Reads the object of a pointer as each kind of object. For each kind, calls `shown` with the numbers that were
    read, such as lengths and elements. Yields the result of `shown`, or `-` if the object can't be read as this
    kind."""
    for call, numbers in things(found):
        try:
            answer = call()
        except capn.Mismatch:
            yield "-"
        else:
            yield shown(numbers(answer))


def pointers(found):
    """Yields the object of each pointer, in preorder."""
    left = [found]
    while left:
        found = left.pop()
        yield found
        below = []
        if found.kind == "struct":
            below = [*found.slots]
        elif found.kind == "pointers":
            below = [*found]
        elif found.kind == "rows" and len(found) and len(found[0].slots):
            below = [slot for row in found for slot in row.slots]
        left += below[::-1]


def any_of(stream):
    """Reads each pointer in the messages of a stream as each kind of object. Returns three numbers as a text: the
    number of messages, the number of pointers, and the number of reads that succeeded."""
    messages = slots = read = 0
    for frame in capn.messages(stream, read_ahead=True):
        try:
            root = capn.read(frame).root
        except capn.Refusal:
            continue
        messages += 1
        for found in pointers(root):
            slots += 1
            read += sum(part != "-" for part in parts(found, str))
    return f"{messages} messages, {slots} pointers, {read}"


def lines(stream):
    """Yields the output lines for all messages of a stream. In the stream, the length of each message comes before the
    message."""
    while length := stream.read(4):
        try:
            root = capn.read(stream.read(int.from_bytes(length, "little"))).root
        except capn.Refusal as refusal:
            yield f"rejected: {refusal}"
            continue
        for found in pointers(root):
            yield f"{found.kind} {' '.join(parts(found, folded))}"


if __name__ == "__main__":
    if sys.argv[1:] == ["any"]:
        print(any_of(sys.stdin.buffer))
    elif sys.argv[1:] == ["lines"]:
        for line in lines(sys.stdin.buffer):
            print(line)
    else:
        sys.exit("usage: anything.py any | lines")
