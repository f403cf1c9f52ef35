"""inputs.py FOLDER: writes the benchmark's inputs there and, beside each, the answers expected of an
implementation that does the whole job. It asks no peer and no part of the library: the answers come
from Python's decoder and its Unicode database.

NAME.rec is the input (records as in driver.c), NAME.want the answers as the driver writes them. The
generator is seeded and our own, so that every Python writes the same bytes. The texts hold nothing
on which NFC and the joining of Hangul letters alone could differ, and that is checked.
"""
import os
import struct
import sys
import unicodedata

SIZE = 16000
RECORDS = 682
UNITS = "utf-16-le"
# how many units each input of units has: bench/report.py divides by these
SIZES = {"u-ascii": 16000, "u-nfc": 5334, "u-nfd": 5338, "u-mixed": 10168, "u-damaged": 10847, "u-short": 10198}


class Random:
    def __init__(self, seed):
        self.state = seed * 0x9E3779B97F4A7C15 % 2**64 or 1

    def below(self, bound):
        state = self.state
        state ^= state << 13 & 0xFFFFFFFFFFFFFFFF
        state ^= state >> 7
        state ^= state << 17 & 0xFFFFFFFFFFFFFFFF
        self.state = state
        return (state >> 11) % bound

    def pick(self, choices):
        return choices[self.below(len(choices))]


# ---- what is expected


def join(text):
    """Document 01's joining, written out: neighbours only, from the left."""
    joined = []
    for code in map(ord, text):
        last = joined[-1] if joined else 0
        if 0x1100 <= last <= 0x1112 and 0x1161 <= code <= 0x1175:
            joined[-1] = 0xAC00 + (last - 0x1100) * 588 + (code - 0x1161) * 28
        elif 0xAC00 <= last <= 0xD7A3 and (last - 0xAC00) % 28 == 0 and 0x11A8 <= code <= 0x11C2:
            joined[-1] = last + code - 0x11A7
        else:
            joined.append(code)
    return "".join(map(chr, joined))


def joins_as_nfc(text):
    return join(text) == unicodedata.normalize("NFC", text)


def mend(text, form="utf-8"):
    """Python reads each ill-formed maximal subpart as one FFFD, and each unpaired surrogate."""
    read = text.decode(form, "replace")
    assert joins_as_nfc(read), "a text on which NFC and joining differ"
    return join(read).encode(form)


def items(label):
    """A label as ranked: runs of digits are numbers, before all code points."""
    found, run = [], ""
    for character in mend(label).decode() + "\0":
        if "0" <= character <= "9":
            run += character
            continue
        if run:
            found.append((0, int(run)))
            run = ""
        found.append((1, ord(character)))
    return found[:-1]


def rank(first, second):
    return (items(first) > items(second)) - (items(first) < items(second))


# ---- labels


ENGLISH = ("Berth North South East West Pontoon Quay Outer Inner Basin Crane Slip Fuel Dock Gate Mole "
           "Visitor Ferry Pilot Lock Ramp Tug Buoy Pier Yard").split()


def syllable(random):
    """Half of all syllables have no final, about as in running text."""
    return chr(0xAC00 + random.below(399) * 28 + (1 + random.below(27) if random.below(2) else 0))


def word(random):
    return "".join(syllable(random) for _ in range(1 + random.below(4)))


def ascii_label(random):
    label = random.pick(ENGLISH) + " " + str(random.below(130))
    if random.below(2):
        label += random.pick("ABCDEFGH")
    if random.below(3) == 0:
        label += ", " + random.pick(ENGLISH).lower() + " side"
    return label


def mixed_label(random):
    """Of ten words three are English, two numbers, one a letter and a number, three Hangul in
    syllables, one Hangul in letters."""
    parts = []
    for _ in range(2 + random.below(3)):
        kind = random.below(10)
        if kind < 3:
            parts.append(random.pick(ENGLISH))
        elif kind < 5:
            parts.append(str(random.below(200)))
        elif kind < 6:
            parts.append(random.pick("ABCDEFGH") + "-" + "%02d" % random.below(40))
        elif kind < 9:
            parts.append(word(random))
        else:
            parts.append(unicodedata.normalize("NFD", word(random)))
    return " ".join(parts)


def short_label(random):
    while True:
        label = mixed_label(random).encode()
        if 8 <= len(label) <= 40:
            return label


def variant(random, label):
    """A label that is often equal to the given one, or differs only in a number or in its end."""
    kind, text = random.below(6), label.decode()
    if kind == 0:
        return unicodedata.normalize("NFD", text).encode()
    if kind == 1:
        return unicodedata.normalize("NFC", text).encode()
    if kind == 2:
        return (text + " " + str(random.below(99))).encode()
    if kind == 3:
        return "".join(str((int(c) + 1) % 10) if c in "0123456789" else c for c in text).encode()
    if kind == 4:
        return (text[: len(text) // 2] + mixed_label(random)).encode()
    return short_label(random)


# ---- inputs


def filled(pieces):
    """Pieces as long as they fit in SIZE bytes, then full stops."""
    text = b""
    for piece in pieces:
        if len(text) + len(piece) > SIZE:
            return text + b"." * (SIZE - len(text))
        text += piece


def lines(label, random):
    while True:
        yield label(random).encode() + b"\n"


def syllables(form):
    random = Random(2)
    while True:
        yield unicodedata.normalize(form, syllable(random)).encode()


def damaged():
    """The mixed text with each byte lost with probability 1/32."""
    lost, text = Random(4), bytearray()
    for line in lines(mixed_label, Random(3)):
        text += bytes(byte for byte in line if lost.below(32))
        if len(text) >= SIZE:
            return bytes(text[:SIZE])


def in_units(text):
    return text.decode("utf-8", "replace").encode(UNITS)


def damaged_units(text):
    """The text with a pair before a unit with probability 1/20, and then each unit lost with
    probability 1/32."""
    between, lost, units = Random(10), Random(11), []
    for unit, in struct.iter_unpack("<H", in_units(text)):
        if not between.below(20):
            units += [0xD83D, 0xDE00 + between.below(64)]
        units.append(unit)
    return b"".join(struct.pack("<H", unit) for unit in units if lost.below(32))


def short_labels():
    random, labels, left = Random(5), [], SIZE
    while left:
        label = short_label(random)
        if len(label) == left or len(label) + 8 <= left:
            labels.append(label)
            left -= len(label)
    return labels


def pairs():
    random, labels = Random(6), []
    for _ in range(400):
        label = short_label(random)
        labels += [label, variant(random, label)]
    return labels


PIECES = [bytes.fromhex(digits) for digits in """
    E18480 E18492 E18493 E1859F E185A0 E185A1 E185B5 E185B6 E186A7 E186A8 E18782 E18783 EAB080 EAB081 EAB09C
    ED9EA3 ED9E88 EFBFBD E380AE E380AF 41 20 30 7A C3A9 CEA9 E38582 E4B880 F09F9AA2 F48FBFBF
    E1 E184 EA EAB0 ED ED9E EDA080 EDBFBF E0 E09F80 E0A080 F0 F09F F09F9A F08F8080 F0908080 F4908080 F5 F8
    C0 C080 C1 C2 80 BF 84 A1 FE FF""".split()]


def odd_texts():
    """Short records of whole, cut and forbidden sequences, for agreement only."""
    random, texts = Random(8), []
    while len(texts) < 1000:
        text = b"".join(random.pick(PIECES[:20] if random.below(2) else PIECES) for _ in range(1 + random.below(12)))
        if joins_as_nfc(text.decode("utf-8", "replace")):
            texts.append(text)
    return texts


PIECES_OF_UNITS = [bytes.fromhex(digits).decode("utf-16-be", "surrogatepass").encode(UNITS, "surrogatepass") for digits in """
    1100 1112 1113 115F 1160 1161 1175 1176 11A7 11A8 11C2 11C3 AC00 AC01 AC1C D7A3 D788 FFFD 302E 302F
    0041 0020 0030 007A 00E9 03A9 3142 4E00 FEFF FFFF D7FF E000 D83DDEA2 DBFFDFFF D800DC00 D804DD61
    D800 D83D DBFF DC00 DEA2 DFFF""".split()]


def odd_texts_of_units():
    """Short records of letters, syllables, pairs and unpaired surrogates, for agreement only."""
    random, texts = Random(12), []
    while len(texts) < 1000:
        text = b"".join(random.pick(PIECES_OF_UNITS[:20] if random.below(2) else PIECES_OF_UNITS) for _ in range(1 + random.below(12)))
        if joins_as_nfc(text.decode(UNITS, "replace")):
            texts.append(text)
    return texts


def plan():
    """As many records as a label file may have: object, berth, label. The labels begin alike; every
    boat is in both spellings, at several berths."""
    random = Random(9)
    boats = [word(random) for _ in range(60)]
    records = []
    for number in range(RECORDS):
        form = random.pick(("NFC", "NFD"))
        label = "Outer Basin, north side, " + unicodedata.normalize(form, random.pick(boats)) + " " + str(random.below(40))
        records.append((number, random.below(500), label.encode()))
    return records


def image(records):
    """Document 01, 'The label file'."""
    return b"".join(struct.pack(">IHBB88s", number, berth, len(label), 0, label) for number, berth, label in records)


def order(records):
    """The ranker's lines: by label, then berth, then record number."""
    ordered = sorted(records, key=lambda record: (items(record[2]), record[1], record[0]))
    return "".join("%d\n" % number for number, _, _ in ordered).encode()


# ---- files


def counted(answer):
    return struct.pack("<I", len(answer)) + answer


def write(folder, name, records, answers):
    with open(os.path.join(folder, name + ".rec"), "wb") as file:
        file.writelines(counted(record) + b"\0" for record in records)
    with open(os.path.join(folder, name + ".want"), "wb") as file:
        file.writelines(answers)


def write_texts(folder):
    texts = {
        "ascii": [filled(lines(ascii_label, Random(1)))],
        "nfc": [filled(syllables("NFC"))],
        "nfd": [filled(syllables("NFD"))],
        "mixed": [filled(lines(mixed_label, Random(3)))],
        "damaged": [damaged()],
        "short": short_labels(),
        "odd": odd_texts(),
    }
    for name, records in texts.items():
        assert name == "odd" or sum(map(len, records)) == SIZE, name
        write(folder, name, records, [counted(mend(text)) for text in records])
    write_units(folder, texts)


def write_units(folder, texts):
    """The same texts in units, but for the damaged and the odd ones."""
    units = {"u-" + name: list(map(in_units, texts[name])) for name in ("ascii", "nfc", "nfd", "mixed", "short")}
    units["u-damaged"] = [damaged_units(texts["mixed"][0])]
    units["u-odd"] = odd_texts_of_units()
    for name, records in units.items():
        assert name == "u-odd" or sum(map(len, records)) == 2 * SIZES[name], name
        write(folder, name, records, [counted(mend(text, UNITS)) for text in records])


def write_names(folder):
    codes = [struct.pack("<I", code) for code in range(0xAC00, 0xD7A4)]
    names = [unicodedata.name(chr(code)).encode() for code in range(0xAC00, 0xD7A4)]
    write(folder, "codes", codes, map(counted, names))
    write(folder, "names", names, codes)


def write_labels(folder):
    labels = pairs()
    write(folder, "pairs", labels, [struct.pack("<i", rank(*labels[i : i + 2])) for i in range(0, len(labels), 2)])
    records = plan()
    write(folder, "plan", [image(records)], [counted(order(records))])
    with open(os.path.join(folder, "plan.labels"), "wb") as file:
        file.write(image(records))


def main(folder):
    os.makedirs(folder, exist_ok=True)
    write_texts(folder)
    write_names(folder)
    write_labels(folder)


main(sys.argv[1])
