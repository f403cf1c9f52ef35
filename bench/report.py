"""report.py COMMAND ..: compares answers, reckons what was counted and prints it; bench/run calls it.
It runs and counts nothing itself.

    agree JOB OUT WANT                  prints: same | refused | differs, then AGREEING/ALL
    rows                                JOB INPUT FEW MANY: what to measure, and the two numbers of
                                        passes whose difference is counted
    check RESULTS TARGETS               Pulphopper's rows against their targets; exits 1 if one is
                                        over it, or was not counted
    tables RESULTS TARGETS ID=LABEL..   the tables, in markdown
RESULTS has JOB.INPUT.ID.{agree,few,many} files.
"""
import collections
import os
import struct
import sys

Row = collections.namedtuple("Row", "id label job input per few many")
MENDING = [
    Row("ascii", "ASCII labels", "mend", "ascii", 16000, 8, 40),
    Row("nfc", "Hangul in syllables (NFC)", "mend", "nfc", 16000, 8, 40),
    Row("nfd", "Hangul in letters (NFD)", "mend", "nfd", 16000, 8, 40),
    Row("mixed", "mixed labels", "mend", "mixed", 16000, 8, 40),
    Row("damaged", "mixed, with bytes lost", "mend", "damaged", 16000, 8, 40),
    Row("short", "labels of 8 to 40 bytes", "mend", "short", 16000, 8, 40),
    Row("tight", "mixed, no room to spare", "tight", "mixed", 16000, 8, 40),
]
UNITS = [
    Row("u-ascii", "ASCII, in units", "units", "u-ascii", 16000, 8, 40),
    Row("u-nfc", "syllables (NFC), in units", "units", "u-nfc", 5334, 8, 40),
    Row("u-nfd", "letters (NFD), in units", "units", "u-nfd", 5338, 8, 40),
    Row("u-mixed", "mixed labels, in units", "units", "u-mixed", 10168, 8, 40),
    Row("u-damaged", "with pairs and units lost", "units", "u-damaged", 10847, 8, 40),
    Row("u-short", "labels of 4 to 24 units", "units", "u-short", 10198, 8, 40),
    Row("u-tight", "units, no room to spare", "tight-units", "u-mixed", 10168, 8, 40),
]
CALLS = [
    Row("name", "name a syllable", "name", "codes", 11172, 2, 6),
    Row("read", "read a name", "read", "names", 11172, 1, 2),
    Row("rank", "rank two labels", "rank", "pairs", 400, 8, 40),
    Row("sort", "sort 682 records", "sort", "plan", 1, 0, 1),
]
# for agreement only: nothing is counted
ODD = Row("odd", "right, of 1,000 odd texts", "mend", "odd", 1, 0, 0)
ODD_UNITS = Row("u-odd", "right, of 1,000 odd texts", "units", "u-odd", 1, 0, 0)
# it does only part of the work: its answers are not judged
PART = {"memcpy"}


# ---- agreement


def records(data):
    """A refusal is a length of FFFFFFFF."""
    at, found = 0, []
    while at + 4 <= len(data):
        length = struct.unpack_from("<I", data, at)[0]
        at += 4
        if length == 0xFFFFFFFF:
            found.append(None)
        else:
            found.append(data[at : at + length])
            at += length
    return found


def numbers(data):
    return list(struct.unpack("<%di" % (len(data) // 4), data))


def agree(job, out, want):
    load = numbers if job in ("read", "rank") else records
    answers, wanted = (load(open(path, "rb").read()) for path in (out, want))
    same = sum(a == b for a, b in zip(answers, wanted))
    refused = len(answers) != len(wanted) or (job in ("mend", "tight", "units", "tight-units") and None in answers)
    print("same" if answers == wanted else "refused" if refused else "differs", "%d/%d" % (same, len(wanted)))


# ---- what was counted


class Results:
    def __init__(self, folder):
        self.folder = folder

    def words(self, row, column, kind):
        try:
            with open(os.path.join(self.folder, "%s.%s.%s.%s" % (row.job, row.input, column, kind))) as file:
                return file.read().split()
        except OSError:
            return []

    def verdict(self, row, column):
        return self.words(row, column, "agree") or ["refused", "0/0"]

    def count(self, row, column):
        """Instructions for each byte, unit or call, or None."""
        few, many = self.words(row, column, "few"), self.words(row, column, "many")
        if self.verdict(row, column)[0] == "refused" or not few or not many:
            return None
        return (int(many[0]) - int(few[0])) / (row.many - row.few) / row.per

    def cell(self, row, column):
        if row in (ODD, ODD_UNITS):
            right = int(self.verdict(row, column)[1].split("/")[0])
            return "-" if column in PART or not right else "{:,}".format(right)
        count = self.count(row, column)
        if count is None:
            return "-"
        wrong = self.verdict(row, column)[0] == "differs" and column not in PART
        return shown(count) + ("*" if wrong else "")


def shown(number):
    return "%.2f" % number if number < 100 else "{:,.0f}".format(number)


def targets_of(path):
    with open(path) as file:
        lines = [line.split() for line in file if line.strip() and not line.startswith("#")]
    return {row: float(most) for row, most in lines}


# ---- what is printed


def check(folder, path):
    results, targets, over = Results(folder), targets_of(path), []
    for row in MENDING + UNITS + CALLS:
        count, most = results.count(row, "product"), targets.pop(row.id, None)
        aim = "" if most is None else "of " + shown(most)
        if count is None or (most is not None and count > most):
            over.append(row.id)
            aim += ": OVER"
        print("%-26s %11s  %s" % (row.label, "not counted" if count is None else shown(count), aim))
    over += targets  # what is left names no row
    print("over their targets, or not counted: " + ", ".join(over) if over else "every row is within its target")
    return 1 if over else 0


def table(lines):
    widths = [max(len(line[k]) for line in lines) for k in range(len(lines[0]))]
    rule = ["-" * widths[0]] + ["-" * (width - 1) + ":" for width in widths[1:]]
    for line in lines[:1] + [rule] + lines[1:]:
        print("| " + " | ".join(cell.ljust(width) if k == 0 else cell.rjust(width) for k, (cell, width) in enumerate(zip(line, widths))) + " |")
    print()


def rows_table(title, rows, results, targets, columns):
    lines = [[title] + [label for _, label in columns] + ["target"]]
    for row in rows:
        target = shown(targets[row.id]) if row.id in targets else ""
        lines.append([row.label] + [results.cell(row, column) for column, _ in columns] + [target])
    table(lines)


def notes(results, columns):
    """Where a peer's answers are others than those expected."""
    for column, label in columns:
        for row in MENDING + UNITS + CALLS:
            word, share = results.verdict(row, column)
            if word == "differs" and column not in PART:
                print("\\* %s, %s: %s answers as expected  " % (label, row.label, share))
    print("\\- there is no such call, or it refuses this input, or it could not be built here")


def tables(folder, path, *pairs):
    results, targets = Results(folder), targets_of(path)
    columns = [pair.split("=", 1) for pair in pairs]

    def able(rows):
        return [pair for pair in columns if any(results.count(row, pair[0]) is not None for row in rows)]

    rows_table("for each byte", MENDING + [ODD], results, targets, columns)
    rows_table("for each 16-bit unit", UNITS + [ODD_UNITS], results, targets, able(UNITS))
    rows_table("for each call", CALLS, results, targets, able(CALLS))
    notes(results, columns)
    return 0


def rows():
    for row in MENDING + UNITS + CALLS + [ODD, ODD_UNITS]:
        print(row.job, row.input, "%02d" % row.few, "%02d" % row.many)


sys.exit({"agree": agree, "rows": rows, "check": check, "tables": tables}[sys.argv[1]](*sys.argv[2:]))
