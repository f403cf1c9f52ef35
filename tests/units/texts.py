"""texts.py make FOLDER: writes the texts there (texts), how Python's decoder reads them
(python.read), what they are mended to (expected.mended), and those that are well-formed, one after
the other (well_formed.utf16, well_formed.utf32). It prints how many texts there are, how many of
them well-formed, and for how many NFC was asked. It runs no part of the library.

texts.py same FOLDER ONE OTHER SIZE: are the two files the same, whose elements have SIZE bytes? If
not, it prints the first text of which they say different things, and exits 1.

tests/units/run says how the files are written. The generator is seeded and our own, so that every
Python writes the same bytes.
"""
import itertools
import os
import struct
import sys
import unicodedata

# What stands at the bounds of letters, syllables and surrogates, and some others. NFC changes
# nothing in a text of these but Hangul, with or without the pairs that they make.
POOL = [
    0x0000, 0x0020, 0x0041, 0x1100, 0x1112, 0x1113, 0x1161, 0x1175, 0x1176, 0x11A7, 0x11A8, 0x11C2, 0x11C3,
    0xAC00, 0xAC01, 0xAC1C, 0xD7A3, 0xD7FF, 0xD800, 0xDBFF, 0xDC00, 0xDFFF, 0xE000, 0xFEFF, 0xFFFD, 0xFFFF,
]
RANDOM_TEXTS = 20000
LONGEST = 40
LOST = "\uFFFD"


class Random:
    def __init__(self, seed):
        self.state = seed * 0x9E3779B97F4A7C15 % 2**64 or 1

    def below(self, bound):
        state = self.state
        state ^= state << 13 & 0xFFFFFFFFFFFFFFFF
        state ^= state >> 7
        state ^= state << 17 & 0xFFFFFFFFFFFFFFFF
        self.state = state
        return (state >> 11) % bound


# ---- the texts


def texts():
    """All of up to three units of the pool; then random ones: every second of the pool alone, in the
    others one unit in five is any."""
    for length in range(4):
        yield from map(list, itertools.product(POOL, repeat=length))
    random = Random(101)
    for number in range(RANDOM_TEXTS):
        text = []
        for _ in range(random.below(LONGEST + 1)):
            text.append(POOL[random.below(len(POOL))] if number % 2 or random.below(5) else random.below(0x10000))
        yield text


# ---- reading and joining


def in_bytes(units):
    return struct.pack("<%dH" % len(units), *units)


def read(units):
    """Python does not say how many surrogates it replaced: they are the FFFD that the text has
    not."""
    characters = in_bytes(units).decode("utf-16-le", "replace")
    return characters, characters.count(LOST) - units.count(ord(LOST))


def join(text):
    """Document 01's joining, written out: neighbours only, from the left."""
    joined = []
    for code in map(ord, text):
        last = joined[-1] if joined else 0
        if 0x1100 <= last <= 0x1112 and 0x1161 <= code <= 0x1175:
            joined[-1] = 0xAC00 + (last - 0x1100) * 588 + (code - 0x1161) * 28
        elif 0xAC00 <= last <= 0xD7A3 and (last - 0xAC00) % 28 == 0 and 0x11A8 <= code <= 0x11C2:
            joined[-1] = last + code - 0x11A7
        else:
            joined.append(code)
    return "".join(map(chr, joined))


def make(folder):
    names = "texts", "python.read", "expected.mended", "well_formed.utf16", "well_formed.utf32"
    given, readings, mended, well_formed, well_formed_read = (open(os.path.join(folder, name), "wb") for name in names)
    count = unharmed = normal = 0
    pool = set(POOL)
    for units in texts():
        characters, lost = read(units)
        joined = join(characters)
        if pool.issuperset(units):
            assert joined == unicodedata.normalize("NFC", characters), units
            normal += 1
        given.write(struct.pack("<I", len(units)) + in_bytes(units))
        readings.write(struct.pack("<II", lost, len(characters)) + characters.encode("utf-32-le"))
        whole = joined.encode("utf-16-le")
        mended.write(struct.pack("<II", lost, len(whole) // 2) + whole)
        if not lost:
            well_formed.write(in_bytes(units))
            well_formed_read.write(characters.encode("utf-32-le"))
            unharmed += 1
        count += 1
    print(count, unharmed, normal)
    return 0


# ---- comparing


def answers(path, size):
    """What a file says of each text: how many were replaced, and the elements."""
    with open(path, "rb") as file:
        data = file.read()
    at = 0
    while at < len(data):
        lost, length = struct.unpack_from("<II", data, at)
        at += 8 + size * length
        yield lost, data[at - size * length : at]


def same(folder, one, other, size):
    size = int(size)
    pairs = itertools.zip_longest(answers(os.path.join(folder, one), size), answers(os.path.join(folder, other), size))
    for units, (first, second) in itertools.zip_longest(texts(), pairs, fillvalue=(None, None)):
        if first is None or first != second:
            print("text", " ".join("%04X" % unit for unit in units or []))
            for name, answer in (one, first), (other, second):
                elements = answer and struct.unpack("<%d%s" % (len(answer[1]) // size, "HI"[size == 4]), answer[1])
                print(name, "has no answer" if answer is None else "%d replaced:" % answer[0], " ".join("%04X" % element for element in elements or []))
            return 1
    return 0


sys.exit({"make": make, "same": same}[sys.argv[1]](*sys.argv[2:]))
