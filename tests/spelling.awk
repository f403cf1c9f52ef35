# The published names of letters, and the letters that a name spells. tests/clusters and tests/sorts
# put this before their own awk, which has the function `wrong`. It takes no line by itself, and
# prints nothing.
#
# A letter's name is HANGUL, its place, its own name: CHOSEONG is an initial, JUNGSEONG a peak,
# JONGSEONG a final. These rules spell the own name:
#   1. The parts of a name with hyphens are spelled one after the other: PIEUP-SIOS-KIYEOK is PIEUP
#      SIOS KIYEOK.
#   2. KAPYEOUN before a name is that name's letters, then IEUNG: KAPYEOUNPIEUP is PIEUP IEUNG,
#      KAPYEOUNSSANGPIEUP is PIEUP PIEUP IEUNG.
#   3. SSANG before a name is the letter twice: SSANGSIOS is SIOS SIOS.
#   4. CHITUEUM and CEONGCHIEUM stay with each letter: CHITUEUMSIOS is a letter, CHITUEUMSSANGSIOS
#      is CHITUEUMSIOS CHITUEUMSIOS.
#   5. Eleven names of peaks do not spell their letters; these are: AE is A I, YAE is YA I, E is EO
#      I, YE is YEO I, WA is O A, WAE is O A I, OE is O I, WEO is U EO, WE is U EO I, WI is U I, YI
#      is EU I.
#   6. Any other name is one letter (PANSIOS, YESIEUNG, YEORINHIEUH and ARAEA too). A letter's code
#      is that of its name in the same place, so that IEUNG of an initial is 110B.
# The fillers are named as letters are, with the own name FILLER.
function number(hex,  i, n) { # awk reads no hexadecimal
    n = 0
    for (i = 1; i <= length(hex); i++) n = n * 16 + index("0123456789ABCDEF", substr(hex, i, 1)) - 1
    return n
}
function begins(text, front) { return index(text, front) == 1 }
function after(text, front) { return substr(text, length(front) + 1) }
# a part of a name, with what stays with its letters: the letters, each with a space before it
function spelled_part(text, kind) {
    if (begins(text, "KAPYEOUN")) return spelled_part(after(text, "KAPYEOUN"), kind) " " kind "IEUNG"
    if (begins(text, "CHITUEUM")) return spelled_part(after(text, "CHITUEUM"), "CHITUEUM")
    if (begins(text, "CEONGCHIEUM")) return spelled_part(after(text, "CEONGCHIEUM"), "CEONGCHIEUM")
    if (begins(text, "SSANG")) return spelled_part(after(text, "SSANG"), kind) spelled_part(after(text, "SSANG"), kind)
    if (text in peak) return " " peak[text]
    return " " kind text
}
function spelled(name,  n, i, parts, all) {
    n = split(name, parts, "-")
    all = ""
    for (i = 1; i <= n; i++) all = all spelled_part(parts[i], "")
    return all
}
# a line of UnicodeData.txt: of a letter or a filler the place and the own name, by its code, and
# back
function take_name(  field, words, c) {
    if (split($0, field, ";") != 15) wrong("line " FNR " of UnicodeData.txt has not fifteen fields")
    if (++name_lines == 1) first_name = field[1] ";" field[2]
    last_name = field[1] ";" field[2]
    if (field[2] !~ /^HANGUL (CHOSEONG|JUNGSEONG|JONGSEONG) /) return
    c = number(field[1])
    if (c in own) { wrong(field[1] " has two names"); return }
    if (split(field[2], words, " ") != 3) wrong(field[1] " is named " field[2])
    hex[c] = field[1]
    place[c] = words[2]
    own[c] = words[3]
    if ((words[2], words[3]) in code) wrong(field[2] " is the name of two codes")
    code[words[2], words[3]] = field[1]
    named++
}
# after the last line: was this the file, and whole?
function check_names() {
    if (first_name != "0000;<control>" || last_name != "10FFFD;<Plane 16 Private Use, Last>" || name_lines < 30000)
        wrong("this is not the published UnicodeData.txt: " name_lines + 0 " lines from \"" first_name "\" to \"" last_name "\"")
    if (named != 357) wrong("names of letters and fillers: " named + 0 "; 357 were expected")
}
BEGIN {
    split("AE=A I,YAE=YA I,E=EO I,YE=YEO I,WA=O A,WAE=O A I,OE=O I,WEO=U EO,WE=U EO I,WI=U I,YI=EU I", pairs, ",")
    for (i in pairs) { split(pairs[i], sides, "="); peak[sides[1]] = sides[2] }
}
