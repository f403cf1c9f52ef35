"""Respells this repository's own definitions and lemmas as Rattle's library spells its words: words
in snake case, types and modules in camel case. Run once, at the top of the repository, after the
kit's port.py, which knows only the library's names: python3 tools/respell.py

What it turns: the crates' code, definitions, proofs and must-fail edits, and the documents. Rust
names, the exported C names, strings, inputs and outputs had no such name, and stay. It stops where
a new name is one that another definition has already."""
import pathlib
import re
import sys

# a word that begins small: each of its capitals begins a word, a run of capitals is one word
WORDS = """
addedFinals addedInitials addedPeaks afterFirst afterInitial afterInitials afterLabel afterOne
afterPeak afterThree afterTwo allIn amongLetters asC asFinal asInitial asPeak asVerdict
badCodePoint badFrom badRecord beforeIll berthAt berthOf bothMakes bothWith byValue caseRow
characterFrom characterIn classIn classNumber classRanges classRows clusterCode clusterRow
codeBytes codeUnits codesIn compositeIn countedAnswer countedIn countedOf cutEmit cutFlush
cutStep decimalDigit decimalOf digitAt digitValue digitsValue digitsWithin doneReply doneWith
elementAt elementsOf extendedCodes extendedFinals extendedInitials extendedPeaks filledFront
filledReply finalIn finalOf finalSpan firstBad firstIll firstIllIn firstNumber firstSet
firstUnit firstWhere foundAs fourBytes fourOf freshRecord frontAs frontOf fullParts gatherEmit
gatherFlush gatherStep goesOnAs goodOf groupAt grownIn grownOnce grownOnceIn hasSort heldBefore
hexDigit hexOf highFirst howMany illCount illFormed illIn illOf illText inOrder indicesOf
initialFiller initialIn initialOf initialSpan innerRow innerTable isApartAs isBefore isClass
isDigit isJamo isL isLV isLetter isNew isPair isSyllable isT isUnpaired isV isZeroAs itemsAfter
jamoTxt joinEmit joinStep joinedBytes joinedFrom joinedIn joinedUnits judgedAs keptRoles kindBy
kindOf knownBefore lastFour lastStarter layoutsFrom leftAt letterAt letterIn lettersBy
lettersFrom lettersIn lettersOf listsSeveral lvTest lvtTest madeAt makeNumber makeOf mapLV
mapLVT mappingIn mappingRows meaningOf measureOf meetsIn mendedFrom mendedIn mendedUnits
modernFinal modernFinals modernInitial modernInitials modernPeak modernPeaks nameBy nameOrNone
namedAs namedFrom newAs noImage noLabel noName noRecord noRoom noSyllable notFull notSpare
numberAlone numberLine numbersFrom numbersOf objectOf ofImage oldFinal oldFinals oldInitial
oldInitials oldPeak oldPeaks oneStep opensAs orNone orderAnswer orderNumber otherCharacters
overImage overLimit packedRow pairAs partsIn partsTo peakFiller peakOf peakSpan piecesIn placeAs
placeNumber plainAnswer rankBytes rankFrom rankItem rankItems readAs readFrom readIn readText
readUnits recordAt recordOf refusedAnswer refusedBy refusedLine refusedReply replyBytes
rightFinal rightInitial rightLetter rightPair rightRow roleAs roleGoesOn roleIn roleOf rowCode
rowCodes rowsIn ruleNR1 sameRow saysCluster shortFrom shortIn shortName simpleLetters simpleOf
simpleRanges smallPair softAs softUnits sortIn sortNumber sortOf sortedBy splitW startsLow
stringOf syllableIn syllableOr tableCodes tableD91 tailOf tailSet takenFrom takenIn takesBytes
takesImage takesRecord takesText takesTwo takesTwoBytes takesUnits takesWriting takingIn
textAfter thenBy threeIn threeOf toneClass tooLong tooMany turnedBy twoIn twoOf unitBytes
unitsOf unitsOfBytes unlessZero unpairedFrom vowelFirst withComposite writeIn writeText
writeUnits zeroWith
""".split()

# the constants of chapter 3, section 3.12, and the indices that it makes of them: in code alone,
# since a comment names them as the Standard does
STANDARD = {
    'LBase': 'l_base',
    'LCount': 'l_count',
    'LIndex': 'l_index',
    'LVIndex': 'lv_index',
    'NCount': 'n_count',
    'SBase': 's_base',
    'SCount': 's_count',
    'SIndex': 's_index',
    'TBase': 't_base',
    'TCount': 't_count',
    'TIndex': 't_index',
    'VBase': 'v_base',
    'VCount': 'v_count',
    'VIndex': 'v_index',
}

# lemmas whose names would then be their definitions': `_lem` is added, as the library does
LEMMAS = {
    "crates/clusters/proofs/Clustering.antt": ["same_row", "two_in"],
    "crates/fillers/proofs/Turned.antt": ["turned_by"],
    "crates/joining/": ["join_step", "opens_as"],
}

# names that are another definition's in a crate that does not see the first: they may stay
APART = {"after_first", "four_bytes", "two_in"}

TOKEN = re.compile(r"[A-Za-z_][A-Za-z0-9_']*")


def snake(word):
    word = re.sub(r"([a-z0-9])([A-Z])", r"\1_\2", word)
    return re.sub(r"([A-Z]+)([A-Z][a-z])", r"\1_\2", word).lower()


NAMES = {word: snake(word) for word in WORDS}


def lemmas_of(path):
    return [name for place, names in LEMMAS.items() if str(path).startswith(place) and path.suffix == ".antt" for name in names]


def turned(line, code, lemmas):
    names = {**NAMES, **STANDARD} if code and not line.lstrip().startswith(("--", "//")) else dict(NAMES)
    names.update((name, name + "_lem") for name in lemmas)
    return TOKEN.sub(lambda found: names.get(found[0], found[0]), line)


DECLARED = re.compile(r"^\s*(?:(?:abbrev|unfoldable|pub|data|record)\s+)*([A-Za-z_][A-Za-z0-9_']*)\s*(?:\{[^}]*\}\s*|\([^)]*\)\s*)*:\s", re.M)


def together(texts):
    """The new names that a definition has already."""
    declared = {}
    for path, text in texts.items():
        for name in DECLARED.findall(text):
            if name not in APART and name not in lemmas_of(path):
                declared.setdefault(name, set()).add(str(path))
    both = {**NAMES, **STANDARD}
    return [f"{old} -> {new}: {sorted(declared[new])}" for old, new in both.items() if old in declared and new in declared]


def main():
    if len(set(NAMES.values())) != len(NAMES):
        sys.exit("respell: two names fall together")
    top = pathlib.Path(".")
    crates = [p for kind in ("rt", "antt", "edit") for p in sorted(top.glob("crates/**/*." + kind)) if "out" not in p.parts]
    pages = [*sorted(top.glob("*.md")), *sorted(top.glob("docs/*.md")), *sorted(top.glob("docs/landings/*.md"))]
    falls = together({path: path.read_text(encoding="utf-8") for path in crates if path.suffix == ".antt"})
    if falls:
        sys.exit("respell: these fall together\n" + "\n".join(falls))
    changed = 0
    for path in crates + pages:
        old = path.read_text(encoding="utf-8")
        new = "".join(turned(line, path in crates, lemmas_of(path)) for line in old.splitlines(keepends=True))
        if new != old:
            path.write_text(new, encoding="utf-8")
            changed += 1
    print(f"respell: {changed} files of {len(crates + pages)}, {len(NAMES) + len(STANDARD)} names")


main()
