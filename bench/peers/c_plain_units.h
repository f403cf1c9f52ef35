/* Units as c_plain.c mends bytes: a decoder that takes a unit or a pair, the same joiner, an
   encoder. It keeps the whole contract (c_units.h). */

/* Reads the unit or the pair at p, or BAD for an unpaired surrogate, and answers the place after
   it. */
static inline const uint16_t *decode_units(const uint16_t *p, const uint16_t *end, uint32_t *code)
{
    uint32_t unit = *p++;

    *code = unit;
    if (unit < 0xD800 || unit > 0xDFFF) return p;
    *code = BAD;
    if (unit > 0xDBFF || p == end || *p < 0xDC00 || *p > 0xDFFF) return p;
    *code = 0x10000 + ((unit - 0xD800) << 10) + (*p - 0xDC00u);
    return p + 1;
}

/* Writes the code point, or only counts its units where write is 0, which each caller knows. */
static inline size_t encode_units(uint32_t code, uint16_t *out, size_t at, int write)
{
    if (code < 0x10000) {
        if (write) out[at] = (uint16_t)code;
        return at + 1;
    }
    if (write) {
        out[at] = (uint16_t)(0xD800 + ((code - 0x10000) >> 10));
        out[at + 1] = (uint16_t)(0xDC00 + (code & 0x3FF));
    }
    return at + 2;
}

/* The units written, or that would be. open is an initial or an LV syllable that may still grow. */
static inline __attribute__((always_inline)) size_t run_units(const uint16_t *text, size_t length, uint16_t *out, uint32_t *bad, int write)
{
    const uint16_t *p = text, *end = text + length;
    uint32_t open = 0, lost = 0, code;
    size_t at = 0;

    while (p < end) {
        p = decode_units(p, end, &code);
        if (code == BAD) {
            lost++;
            code = 0xFFFD;
        }
        if (open) {
            if (open <= 0x1112 && code >= 0x1161 && code <= 0x1175) {
                open = 0xAC00 + (open - 0x1100) * 588 + (code - 0x1161) * 28;
                continue;
            }
            if (open >= 0xAC00 && code >= 0x11A8 && code <= 0x11C2) {
                at = encode_units(open + code - 0x11A7, out, at, write);
                open = 0;
                continue;
            }
            at = encode_units(open, out, at, write);
            open = 0;
        }
        if ((code >= 0x1100 && code <= 0x1112) || (code >= 0xAC00 && code <= 0xD7A3 && (code - 0xAC00) % 28 == 0))
            open = code;
        else
            at = encode_units(code, out, at, write);
    }
    if (open) at = encode_units(open, out, at, write);
    *bad = lost;
    return at;
}
