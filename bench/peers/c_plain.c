/* What a good C programmer writes without thinking of speed: a decoder that stops at the end of
   each maximal subpart, a joiner that holds back one code point, an encoder. It keeps the whole
   contract (c_mend.h); nothing of it is proved. */
#include <string.h>
#include "../peer.h"

#define BAD 0xFFFFFFFFu

/* Reads the sequence at p, or BAD for an ill-formed maximal subpart, and answers the place after
   it. */
static inline const uint8_t *decode(const uint8_t *p, const uint8_t *end, uint32_t *code)
{
    uint32_t lead = *p++, least = 0x80, most = 0xBF, value;
    int more;

    *code = BAD;
    if (lead < 0x80) {
        *code = lead;
        return p;
    }
    if (lead >= 0xC2 && lead <= 0xDF) {
        more = 1;
        value = lead & 0x1F;
    } else if (lead >= 0xE0 && lead <= 0xEF) {
        more = 2;
        value = lead & 0x0F;
        if (lead == 0xE0) least = 0xA0;
        if (lead == 0xED) most = 0x9F;
    } else if (lead >= 0xF0 && lead <= 0xF4) {
        more = 3;
        value = lead & 0x07;
        if (lead == 0xF0) least = 0x90;
        if (lead == 0xF4) most = 0x8F;
    } else {
        return p;
    }
    for (; more > 0; more--) {
        if (p == end || *p < least || *p > most) return p;
        value = value << 6 | (*p++ & 0x3F);
        least = 0x80;
        most = 0xBF;
    }
    *code = value;
    return p;
}

/* Writes the code point, or only counts its bytes where write is 0, which each caller knows. */
static inline size_t encode(uint32_t code, uint8_t *out, size_t at, int write)
{
    if (code < 0x80) {
        if (write) out[at] = (uint8_t)code;
        return at + 1;
    }
    if (code < 0x800) {
        if (write) {
            out[at] = (uint8_t)(0xC0 | code >> 6);
            out[at + 1] = (uint8_t)(0x80 | (code & 0x3F));
        }
        return at + 2;
    }
    if (code < 0x10000) {
        if (write) {
            out[at] = (uint8_t)(0xE0 | code >> 12);
            out[at + 1] = (uint8_t)(0x80 | (code >> 6 & 0x3F));
            out[at + 2] = (uint8_t)(0x80 | (code & 0x3F));
        }
        return at + 3;
    }
    if (write) {
        out[at] = (uint8_t)(0xF0 | code >> 18);
        out[at + 1] = (uint8_t)(0x80 | (code >> 12 & 0x3F));
        out[at + 2] = (uint8_t)(0x80 | (code >> 6 & 0x3F));
        out[at + 3] = (uint8_t)(0x80 | (code & 0x3F));
    }
    return at + 4;
}

/* The bytes written, or that would be. open is an initial or an LV syllable that may still grow. */
static inline __attribute__((always_inline)) size_t run(const uint8_t *text, size_t length, uint8_t *out, uint32_t *bad, int write)
{
    const uint8_t *p = text, *end = text + length;
    uint32_t open = 0, lost = 0, code;
    size_t at = 0;

    while (p < end) {
        p = decode(p, end, &code);
        if (code == BAD) {
            lost++;
            code = 0xFFFD;
        }
        if (open) {
            if (open <= 0x1112 && code >= 0x1161 && code <= 0x1175) {
                open = 0xAC00 + (open - 0x1100) * 588 + (code - 0x1161) * 28;
                continue;
            }
            if (open >= 0xAC00 && code >= 0x11A8 && code <= 0x11C2) {
                at = encode(open + code - 0x11A7, out, at, write);
                open = 0;
                continue;
            }
            at = encode(open, out, at, write);
            open = 0;
        }
        if ((code >= 0x1100 && code <= 0x1112) || (code >= 0xAC00 && code <= 0xD7A3 && (code - 0xAC00) % 28 == 0))
            open = code;
        else
            at = encode(code, out, at, write);
    }
    if (open) at = encode(open, out, at, write);
    *bad = lost;
    return at;
}

#include "c_mend.h"
#include "c_names.h"
#include "c_rank.h"
#include "c_sort.h"
#include "c_plain_units.h"
#include "c_units.h"

const struct peer peer = { 0, mend, name, read, rank, sort, units };
