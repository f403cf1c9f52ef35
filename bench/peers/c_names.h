/* Naming a syllable and reading a name, as plain C: three tables, and a search for the longest
   entry. It names nothing but syllables. */

struct part { uint8_t length; char letters[3]; };

static const struct part initials[19] = {
    {1, "G"}, {2, "GG"}, {1, "N"}, {1, "D"}, {2, "DD"}, {1, "R"}, {1, "M"}, {1, "B"}, {2, "BB"}, {1, "S"},
    {2, "SS"}, {0, ""}, {1, "J"}, {2, "JJ"}, {1, "C"}, {1, "K"}, {1, "T"}, {1, "P"}, {1, "H"}
};
static const struct part peaks[21] = {
    {1, "A"}, {2, "AE"}, {2, "YA"}, {3, "YAE"}, {2, "EO"}, {1, "E"}, {3, "YEO"}, {2, "YE"}, {1, "O"}, {2, "WA"},
    {3, "WAE"}, {2, "OE"}, {2, "YO"}, {1, "U"}, {3, "WEO"}, {2, "WE"}, {2, "WI"}, {2, "YU"}, {2, "EU"}, {2, "YI"},
    {1, "I"}
};
static const struct part finals[28] = {
    {0, ""}, {1, "G"}, {2, "GG"}, {2, "GS"}, {1, "N"}, {2, "NJ"}, {2, "NH"}, {1, "D"}, {1, "L"}, {2, "LG"},
    {2, "LM"}, {2, "LB"}, {2, "LS"}, {2, "LT"}, {2, "LP"}, {2, "LH"}, {1, "M"}, {1, "B"}, {2, "BS"}, {1, "S"},
    {2, "SS"}, {2, "NG"}, {1, "J"}, {1, "C"}, {1, "K"}, {1, "T"}, {1, "P"}, {1, "H"}
};
static const char stem[16] = { 'H', 'A', 'N', 'G', 'U', 'L', ' ', 'S', 'Y', 'L', 'L', 'A', 'B', 'L', 'E', ' ' };

static inline size_t add(const struct part *part, uint8_t *out, size_t at)
{
    for (size_t i = 0; i < part->length; i++) out[at + i] = (uint8_t)part->letters[i];
    return at + part->length;
}

static long name(uint32_t code, uint8_t *out, size_t room)
{
    uint32_t index = code - 0xAC00;
    size_t at = 16;
    if (index >= 11172) return -1;
    const struct part *initial = &initials[index / 588], *peak = &peaks[index % 588 / 28], *final = &finals[index % 28];
    if (room < 16u + initial->length + peak->length + final->length) return -1;
    memcpy(out, stem, 16);
    at = add(initial, out, at);
    at = add(peak, out, at);
    return (long)add(final, out, at);
}

/* The longest entry of the list that stands at the front of the letters, or -1. An initial never
   ends and a final never begins with a letter of a peak, so the longest is the only one that can
   fit. */
static inline int longest(const struct part *list, int count, const uint8_t *letters, size_t length)
{
    int best = -1;
    for (int k = 0; k < count; k++) {
        size_t i = 0;
        if (list[k].length > length || (best >= 0 && list[k].length <= list[best].length)) continue;
        while (i < list[k].length && letters[i] == (uint8_t)list[k].letters[i]) i++;
        if (i == list[k].length) best = k;
    }
    return best;
}

static long read(const uint8_t *name, size_t length)
{
    const uint8_t *letters;
    size_t left;
    int initial, peak, final;
    if (length < 17 || length > 23 || memcmp(name, stem, 16)) return -1;
    letters = name + 16, left = length - 16;
    initial = longest(initials, 19, letters, left);
    letters += initials[initial].length, left -= initials[initial].length;
    peak = longest(peaks, 21, letters, left);
    if (peak < 0) return -1;
    letters += peaks[peak].length, left -= peaks[peak].length;
    final = longest(finals, 28, letters, left);
    return finals[final].length == left ? 0xAC00 + initial * 588 + peak * 28 + final : -1;
}
