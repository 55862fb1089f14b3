"""Random values, and functions that encode a value as a message in different layouts."""
from tried import some

# A value is None, or a tuple whose first item is its kind: ("struct", words, slots); ("list", code, count, bytes) for a
# list of numbers; ("pointers", values); or ("rows", word_count, slot_count, [(words, slots)]) for a list of structs. A
# slot is a pointer. Each struct of a list of structs has `word_count` words and `slot_count` pointers.
NUMBERS = some.sampled_from([0, 0, 1, 1 << 63]) | some.integers(0, (1 << 64) - 1)
BITS = {0: 0, 1: 1, 2: 8, 3: 16, 4: 32, 5: 64}


def structs(values):
    return some.builds(lambda words, slots: ("struct", words, slots), some.lists(NUMBERS, max_size=3),
                       some.lists(values, max_size=3))


@some.composite
def lists(draw):
    code, count = draw(some.sampled_from(sorted(BITS))), draw(some.integers(0, 40))
    bits = BITS[code] * count
    number = draw(some.integers(0, (1 << bits) - 1)) if bits else 0
    return "list", code, count, number.to_bytes((bits + 63) // 64 * 8, "little")


@some.composite
def rows(draw, values):
    words, slots = draw(some.integers(0, 2)), draw(some.integers(0, 2))
    row = some.tuples(some.lists(NUMBERS, min_size=words, max_size=words),
                      some.lists(values, min_size=slots, max_size=slots))
    return "rows", words, slots, draw(some.lists(row, max_size=3))


def values():
    """Returns a strategy of Hypothesis for the values that a pointer may refer to."""
    pointers = some.builds(lambda values: ("pointers", values), some.lists(some.deferred(values), max_size=3))
    return some.recursive(some.none() | lists(), lambda below: structs(below) | rows(below) | pointers, max_leaves=12)


def short(words, least=0):
    """Returns a list of words without the zeros at its end, or a list of pointers without the nulls at its end."""
    end = len(words)
    while end > least and not words[end - 1]:
        end -= 1
    return words[:end]


def trimmed(value):
    """Returns a value that is equal to the given value, but lacks the zero words and null pointers that canonical bytes
    leave out."""
    if value is None or value[0] == "list":
        return value
    if value[0] == "pointers":
        return "pointers", [trimmed(one) for one in value[1]]
    if value[0] == "struct":
        return "struct", short(value[1]), short([trimmed(one) for one in value[2]])
    cut = [(words, [trimmed(one) for one in slots]) for words, slots in value[3]]
    words = max((len(short(words)) for words, _ in cut), default=0)
    slots = max((len(short(slots)) for _, slots in cut), default=0)
    return "rows", words, slots, [(row[:words], below[:slots]) for row, below in cut]


def bare(value, backwards=False):
    """Encodes a value, and returns the words of the segment. The objects are in preorder. If `backwards` is true, the
    pointers of each object are followed from the last to the first."""
    segment = [0]

    def put(at, value):
        """Writes a pointer into a word of the segment, and appends the pointer's object to the segment."""
        if value is None:
            return
        start, inner = len(segment), []
        if value[0] == "struct":
            _, words, slots = value
            kind, sizes = 0, len(words) | len(slots) << 16
            start = start if sizes else at
            inner = [(start + len(words) + n, slot) for n, slot in enumerate(slots)]
            segment.extend(words + [0] * len(slots))
        elif value[0] == "list":
            _, code, count, content = value
            kind, sizes = 1, code | count << 3
            segment.extend(int.from_bytes(content[n:n + 8], "little") for n in range(0, len(content), 8))
        elif value[0] == "pointers":
            kind, sizes = 1, 6 | len(value[1]) << 3
            inner = [(start + n, slot) for n, slot in enumerate(value[1])]
            segment.extend([0] * len(value[1]))
        else:
            _, words, slots, many = value
            kind, sizes = 1, 7 | (words + slots) * len(many) << 3
            segment.append(len(many) << 2 | (words | slots << 16) << 32)
            for row, below in many:
                inner += [(len(segment) + words + n, slot) for n, slot in enumerate(below)]
                segment.extend(row + [0] * slots)
        segment[at] = (start - at - 1) % (1 << 30) << 2 | kind | sizes << 32
        for place, slot in reversed(inner) if backwards else inner:
            put(place, slot)

    put(0, value)
    return b"".join(word.to_bytes(8, "little") for word in segment)


def stream(*segments):
    """Returns a message: the segment table and then the segments."""
    sizes = [len(segments) - 1, *(len(one) // 8 for one in segments)]
    table = b"".join(size.to_bytes(4, "little") for size in sizes)
    return table + bytes(len(table) % 8) + b"".join(segments)


def far(segment):
    """Returns a message whose root is a far pointer to the root pointer of the given segment."""
    return stream((2 | 1 << 32).to_bytes(8, "little"), segment)


@some.composite
def hostile(draw):
    """Draws bytes that may or may not be a valid message. They are random bytes, or a message with changed bytes, or a
    truncated message."""
    if draw(some.booleans()):
        return draw(some.binary(max_size=200))
    written = bare(draw(values()), draw(some.booleans()))
    data = bytearray(draw(some.sampled_from([bytes, stream, far]))(written))
    for _ in range(draw(some.integers(0, 3))):
        data[draw(some.integers(0, len(data) - 1))] = draw(some.integers(0, 255))
    return bytes(data[:draw(some.integers(0, len(data)))] if draw(some.booleans()) else data)
