/* Units as c_fast.c mends bytes, in scalar and portable C: the scan only looks, four units at a
   time, and copies whole runs. A syllable is made where an initial is met, by looking ahead, or
   where a final is met, by looking back. It keeps the whole contract (c_units.h). */

#define FOUR(unit) ((unit) * 0x0001000100010001u)

/* As struct scan of c_fast.c. */
struct scan_of_units { const uint16_t *p, *end, *from; uint16_t *out; size_t at; uint32_t lost; int write; };

ALWAYS int is_letter(uint32_t unit) { return unit - 0x1100 < 0x100; }
ALWAYS int is_surrogate(uint32_t unit) { return unit - 0xD800 < 0x800; }

/* The top bit of the lowest of four units that is 0; above it there may be others that are not. */
ALWAYS uint64_t zeros(uint64_t four) { return (four - FOUR(1)) & ~four & FOUR(0x8000); }

/* Passes over what is neither a letter nor a surrogate; what is below 1000 is seen at once. */
ALWAYS void others(struct scan_of_units *s)
{
    const uint16_t *p = s->p;
    for (; s->end - p >= 4; p += 4) {
        uint64_t four, stops;
        memcpy(&four, p, 8);
        if (!(four & FOUR(0xF000))) continue;
        stops = zeros((four & FOUR(0xFF00)) ^ FOUR(0x1100)) | zeros((four & FOUR(0xF800)) ^ FOUR(0xD800));
        if (stops) {
            s->p = p + (__builtin_ctzll(stops) >> 4);
            return;
        }
    }
    while (p < s->end && !is_letter(*p) && !is_surrogate(*p)) p++;
    s->p = p;
}

/* Copies the run up to `to`. */
ALWAYS void copy_run(struct scan_of_units *s, const uint16_t *to)
{
    size_t length = (size_t)(to - s->from);
    if (s->write && length) memcpy(s->out + s->at, s->from, 2 * length);
    s->at += length;
}

ALWAYS void put_unit(struct scan_of_units *s, uint32_t unit)
{
    if (s->write) s->out[s->at] = (uint16_t)unit;
    s->at++;
}

/* Copies the run up to `to`, writes the unit after it, and begins the next run at p. */
ALWAYS void replace_units(struct scan_of_units *s, const uint16_t *to, uint32_t unit)
{
    copy_run(s, to);
    put_unit(s, unit);
    s->from = s->p;
}

/* A letter at p: is it an initial, and does a peak follow? Then the syllable is made, with its
   final if one follows, and so are those that are spelled right after it. */
ALWAYS int spelled(struct scan_of_units *s)
{
    const uint16_t *p = s->p, *last = s->end - 1;
    uint32_t initial = p[0] - 0x1100u, peak, final;
    if (p >= last || initial > 18) return 0;
    peak = p[1] - 0x1161u;
    if (peak > 20) return 0;
    copy_run(s, p);
    do {
        p += 2;
        final = p <= last ? *p - 0x11A7u : 0;
        if (final > 27) final = 0;
        if (final) p++;
        put_unit(s, 0xAC00 + initial * 588 + peak * 28 + final);
        if (p >= last) break;
        initial = p[0] - 0x1100u;
        peak = p[1] - 0x1161u;
    } while (initial <= 18 && peak <= 20);
    s->p = s->from = p;
    return 1;
}

/* A final at p: does a syllable without one stand before it, in the run that is not copied yet? */
ALWAYS int completes(struct scan_of_units *s)
{
    const uint16_t *p = s->p;
    uint32_t final = p[0] - 0x11A7u, syllable;
    if (final - 1 > 26 || p == s->from) return 0;
    syllable = p[-1] - 0xAC00u;
    if (syllable >= 11172 || syllable % 28) return 0;
    s->p++;
    replace_units(s, p - 1, 0xAC00 + syllable + final);
    return 1;
}

/* A surrogate at p: a pair stays in the run. */
ALWAYS void surrogate(struct scan_of_units *s)
{
    const uint16_t *p = s->p;
    if (p[0] < 0xDC00 && s->end - p > 1 && p[1] - 0xDC00u < 0x400) {
        s->p += 2;
        return;
    }
    s->p++;
    s->lost++;
    replace_units(s, p, 0xFFFD);
}

ALWAYS size_t run_units(const uint16_t *text, size_t length, uint16_t *out, uint32_t *bad, int write)
{
    struct scan_of_units s = { text, text + length, text, out, 0, 0, write };
    while (s.p < s.end) {
        if (is_letter(*s.p)) {
            if (!spelled(&s) && !completes(&s)) s.p++;
        } else if (is_surrogate(*s.p)) {
            surrogate(&s);
        } else {
            others(&s);
        }
    }
    *bad = s.lost;
    if (write && s.end > s.from) memcpy(out + s.at, s.from, 2 * (size_t)(s.end - s.from));
    return s.at + (size_t)(s.end - s.from);
}
