/* The same contract by somebody who thinks of speed, in scalar and portable C: most text comes out
   as it went in, so the scan only looks, and copies whole runs. ASCII goes eight bytes at a time; a
   syllable is made where an initial is met, by looking ahead, or where a final is met, by looking
   back. */
#include <string.h>
#include "../peer.h"

#define ALWAYS static inline __attribute__((always_inline))

/* Where the scan is, where the run that is not copied yet begins, and what is written; where write
   is 0, which each caller knows, it only counts. */
struct scan { const uint8_t *p, *end, *from; uint8_t *out; size_t at; uint32_t lost; int write; };

ALWAYS int continues(uint8_t byte) { return (byte & 0xC0) == 0x80; }

/* The length of the well-formed sequence at p, or minus the length of the ill-formed maximal
   subpart. */
static inline int sequence(const uint8_t *p, const uint8_t *end)
{
    size_t left = (size_t)(end - p);
    uint8_t lead = p[0];
    if (lead < 0x80) return 1;
    if (lead < 0xC2 || lead > 0xF4) return -1;
    if (lead < 0xE0) return left > 1 && continues(p[1]) ? 2 : -1;
    if (left < 2 || !continues(p[1])) return -1;
    if ((lead == 0xE0 && p[1] < 0xA0) || (lead == 0xED && p[1] > 0x9F)) return -1;
    if ((lead == 0xF0 && p[1] < 0x90) || (lead == 0xF4 && p[1] > 0x8F)) return -1;
    if (left < 3 || !continues(p[2])) return -2;
    if (lead < 0xF0) return 3;
    return left > 3 && continues(p[3]) ? 4 : -3;
}

/* Three bytes as one number, the first lowest; 0 where fewer than three are left. It reads four
   where it can. */
ALWAYS uint32_t three(const uint8_t *p, const uint8_t *end)
{
    uint32_t word;
    if (end - p < 4) return end - p == 3 ? p[0] | (uint32_t)p[1] << 8 | (uint32_t)p[2] << 16 : 0;
    memcpy(&word, p, 4);
    return word & 0xFFFFFF;
}

/* The index of the modern final (E1 86 A8..BF, E1 87 80..82), or 0. */
ALWAYS uint32_t final_of(uint32_t word)
{
    uint32_t last = word >> 16;
    if ((word & 0xFFFF) == 0x86E1) return last >= 0xA8 && last <= 0xBF ? last - 0xA7 : 0;
    return (word & 0xFFFF) == 0x87E1 && last >= 0x80 && last <= 0x82 ? last - 0x80 + 25 : 0;
}

/* Copies the run up to `to`, writes the code point after it, and begins the next run at p. */
ALWAYS void replace(struct scan *s, const uint8_t *to, uint32_t code)
{
    size_t length = (size_t)(to - s->from);
    if (s->write) {
        uint16_t two = (uint16_t)(0x80E0 | code >> 12 | (code << 2 & 0x3F00));
        if (length) memcpy(s->out + s->at, s->from, length);
        memcpy(s->out + s->at + length, &two, 2);
        s->out[s->at + length + 2] = (uint8_t)(0x80 | (code & 0x3F));
    }
    s->at += length + 3;
    s->from = s->p;
}

/* An initial at p: does a peak follow? Then the syllable is made, with its final if one follows. */
ALWAYS int ahead(struct scan *s, uint32_t word)
{
    const uint8_t *initial = s->p;
    /* where ten bytes are left, the compiler sees that neither load is near the end */
    const uint8_t *end = s->end - s->p >= 10 ? s->p + 10 : s->end;
    uint32_t peak = three(s->p + 3, end), final;
    if (word >> 16 > 0x92 || (peak & 0xFFFF) != 0x85E1 || (peak >> 16) - 0xA1 >= 21) return 0;
    final = final_of(three(s->p + 6, end));
    s->p += final ? 9 : 6;
    replace(s, initial, 0xAC00 + ((word >> 16) - 0x80) * 588 + ((peak >> 16) - 0xA1) * 28 + final);
    return 1;
}

/* A final at p: does a syllable without one stand before it, in the run that is not copied yet? */
ALWAYS int behind(struct scan *s, uint32_t word)
{
    const uint8_t *p = s->p;
    uint32_t final, syllable;
    if (p - s->from < 3 || p[-3] < 0xEA || p[-3] > 0xED) return 0;
    final = final_of(word);
    syllable = ((p[-3] & 15u) << 12 | (p[-2] & 63u) << 6 | (p[-1] & 63u)) - 0xAC00;
    if (!final || syllable >= 11172 || syllable % 28) return 0;
    s->p += 3;
    replace(s, p - 3, 0xAC00 + syllable + final);
    return 1;
}

/* Passes over ASCII. */
ALWAYS void ascii(struct scan *s)
{
    const uint8_t *p = s->p;
    if (p == s->end || *p >= 0x80) return;
    for (p++; s->end - p >= 8; p += 8) {
        uint64_t word;
        memcpy(&word, p, 8);
        word &= 0x8080808080808080u;
        if (word) {
            s->p = p + (__builtin_ctzll(word) >> 3);
            return;
        }
    }
    while (p < s->end && *p < 0x80) p++;
    s->p = p;
}

/* Passes over well-formed sequences of three bytes, and joins where letters stand. */
ALWAYS void threes(struct scan *s)
{
    while (s->end - s->p >= 3) {
        uint32_t word = three(s->p, s->end), lead = word & 0xFF;
        if ((word & 0xC0C0F0) != 0x8080E0) return;
        if (lead - 0xE2 > 0xEC - 0xE2) {
            if (lead == 0xE1) {
                if ((word & 0xFF00) == 0x8400 ? ahead(s, word) : behind(s, word)) continue;
            } else if (lead == 0xED ? word & 0x2000 : lead == 0xE0 && !(word & 0x2000)) {
                return;
            }
        }
        s->p += 3;
    }
}

ALWAYS size_t run(const uint8_t *text, size_t length, uint8_t *out, uint32_t *bad, int write)
{
    struct scan s = { text, text + length, text, out, 0, 0, write };
    while (s.p < s.end) {
        ascii(&s);
        threes(&s);
        if (s.p == s.end || *s.p < 0x80) continue;
        int size = sequence(s.p, s.end);
        if (size > 0) {
            s.p += size;
            continue;
        }
        const uint8_t *to = s.p;
        s.p -= size;
        s.lost++;
        replace(&s, to, 0xFFFD);
    }
    *bad = s.lost;
    if (write && s.end > s.from) memcpy(out + s.at, s.from, (size_t)(s.end - s.from));
    return s.at + (size_t)(s.end - s.from);
}

#include "c_mend.h"
#include "c_fast_names.h"
#include "c_rank.h"
#include "c_sort.h"
#include "c_fast_units.h"
#include "c_units.h"

const struct peer peer = { 0, mend, name, read, rank, sort, units };
