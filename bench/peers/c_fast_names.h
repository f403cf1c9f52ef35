/* Names by somebody who thinks of speed: a name is put together from whole words in a buffer of its
   own, then copied; it is read letter by letter, with no search. It names nothing but syllables. */

static const char initials[19][4] = {
    "G", "GG", "N", "D", "DD", "R", "M", "B", "BB", "S", "SS", "", "J", "JJ", "C", "K", "T", "P", "H"
};
static const char peaks[21][4] = {
    "A", "AE", "YA", "YAE", "EO", "E", "YEO", "YE", "O", "WA", "WAE", "OE", "YO", "U", "WEO", "WE", "WI", "YU", "EU", "YI", "I"
};
static const char finals[28][4] = {
    "", "G", "GG", "GS", "N", "NJ", "NH", "D", "L", "LG", "LM", "LB", "LS", "LT", "LP", "LH", "M", "B", "BS", "S", "SS", "NG", "J", "C", "K", "T", "P", "H"
};
static const uint8_t initial_length[19] = { 1, 2, 1, 1, 2, 1, 1, 1, 2, 1, 2, 0, 1, 2, 1, 1, 1, 1, 1 };
static const uint8_t peak_length[21] = { 1, 2, 2, 3, 2, 1, 3, 2, 1, 2, 3, 2, 2, 1, 3, 2, 2, 2, 2, 2, 1 };
static const uint8_t final_length[28] = { 0, 1, 2, 2, 1, 2, 2, 1, 1, 2, 2, 2, 2, 2, 2, 2, 1, 1, 2, 1, 2, 2, 1, 1, 1, 1, 1, 1 };
static const char stem[] = "HANGUL SYLLABLE ";

static long name(uint32_t code, uint8_t *out, size_t room)
{
    char made[32];
    uint32_t index = code - 0xAC00, lv = index / 28, initial = index / 588, peak = lv - initial * 21, final = index - lv * 28;
    size_t at = 16;
    if (index >= 11172) return -1;
    memcpy(made, stem, 16);
    memcpy(made + at, initials[initial], 4);
    at += initial_length[initial];
    memcpy(made + at, peaks[peak], 4);
    at += peak_length[peak];
    memcpy(made + at, finals[final], 4);
    at += final_length[final];
    if (at > room) return -1;
    memcpy(out, made, 16);
    for (size_t i = 16; i < at; i++) out[i] = (uint8_t)made[i];
    return (long)at;
}

/* By letter, A to Z: the initial of that letter alone, or 31; with 32 added where it may stand
   twice. */
static const uint8_t initial_of[26] = {
    31, 39, 14, 35, 31, 31, 32, 18, 31, 44, 15, 31, 6, 2, 31, 17, 31, 5, 41, 16, 31, 31, 31, 31, 31, 31
};

static inline int vowel(uint8_t byte)
{
    return byte >= 'A' && byte <= 'Y' && (1u << (byte - 'A') & (1u << 0 | 1u << 4 | 1u << 8 | 1u << 14 | 1u << 20 | 1u << 22 | 1u << 24));
}

/* The letters of a part as one number, the first highest. */
#define TWO(a, b) ((uint32_t)(a) << 8 | (b))
#define THREE(a, b, c) ((uint32_t)(a) << 16 | (uint32_t)(b) << 8 | (c))

static inline int peak_spelled(uint32_t letters)
{
    switch (letters) {
    case 'A': return 0;
    case TWO('A', 'E'): return 1;
    case TWO('Y', 'A'): return 2;
    case THREE('Y', 'A', 'E'): return 3;
    case TWO('E', 'O'): return 4;
    case 'E': return 5;
    case THREE('Y', 'E', 'O'): return 6;
    case TWO('Y', 'E'): return 7;
    case 'O': return 8;
    case TWO('W', 'A'): return 9;
    case THREE('W', 'A', 'E'): return 10;
    case TWO('O', 'E'): return 11;
    case TWO('Y', 'O'): return 12;
    case 'U': return 13;
    case THREE('W', 'E', 'O'): return 14;
    case TWO('W', 'E'): return 15;
    case TWO('W', 'I'): return 16;
    case TWO('Y', 'U'): return 17;
    case TWO('E', 'U'): return 18;
    case TWO('Y', 'I'): return 19;
    case 'I': return 20;
    default: return -1;
    }
}

static inline int final_spelled(uint32_t letters)
{
    switch (letters) {
    case 0: return 0;
    case 'G': return 1;
    case TWO('G', 'G'): return 2;
    case TWO('G', 'S'): return 3;
    case 'N': return 4;
    case TWO('N', 'J'): return 5;
    case TWO('N', 'H'): return 6;
    case 'D': return 7;
    case 'L': return 8;
    case TWO('L', 'G'): return 9;
    case TWO('L', 'M'): return 10;
    case TWO('L', 'B'): return 11;
    case TWO('L', 'S'): return 12;
    case TWO('L', 'T'): return 13;
    case TWO('L', 'P'): return 14;
    case TWO('L', 'H'): return 15;
    case 'M': return 16;
    case 'B': return 17;
    case TWO('B', 'S'): return 18;
    case 'S': return 19;
    case TWO('S', 'S'): return 20;
    case TWO('N', 'G'): return 21;
    case 'J': return 22;
    case 'C': return 23;
    case 'K': return 24;
    case 'T': return 25;
    case 'P': return 26;
    case 'H': return 27;
    default: return -1;
    }
}

static long read(const uint8_t *name, size_t length)
{
    int initial = 11, peak, final;
    uint32_t letters = 0;
    size_t at = 16;
    if (length < 17 || length > 23 || memcmp(name, stem, 16)) return -1;
    if (!vowel(name[at])) {
        if (name[at] < 'A' || name[at] > 'Z' || (initial = initial_of[name[at] - 'A']) == 31) return -1;
        at++;
        if (initial >= 32) {
            initial -= 32;
            if (at < length && name[at] == name[at - 1]) initial++, at++;
        }
    }
    while (at < length && vowel(name[at])) letters = letters << 8 | name[at++];
    peak = peak_spelled(letters);
    if (length - at > 2) return -1;
    final = final_spelled(length == at ? 0 : length - at == 1 ? name[at] : TWO(name[at], name[at + 1]));
    return peak < 0 || final < 0 ? -1 : 0xAC00 + initial * 588 + peak * 28 + final;
}
