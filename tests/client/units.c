/* Checks of pulphopper_mend_units, from the caller's side.
   They do not try mending in depth: that is the work of the second program. */
#include "client.h"

#include <stdlib.h>
#include <string.h>

/* ---- texts, with what they are mended to */

#define MOST_UNITS 16 /* of a text that is written out here */

typedef struct text {
    uint16_t units[MOST_UNITS];
    size_t length;
} text;

/* Units as hexadecimal numbers, with a space between two. */
typedef struct sample {
    const char *text;
    const char *whole;
    uint32_t count;
} sample;

static text text_of(const char *numbers) {
    text got = {{0}, 0};
    while (*numbers != 0 && got.length < MOST_UNITS) {
        char *after;
        got.units[got.length] = (uint16_t)strtoul(numbers, &after, 16);
        got.length++;
        numbers = after;
    }
    return got;
}

static size_t whole_len(const sample *one) { return text_of(one->whole).length; }

/* A boat's name, once as finished syllables, once as single letters, and once as some of both. */
#define NAME "D478 B978 BC14 B2E4"
#define NAME_IN_LETTERS "1111 116E 1105 1173 11AB 1107 1161 1103 1161"
#define NAME_IN_BOTH "D478 B974 11AB 1107 1161 B2E4"

static const sample GOOD[] = {
    {"", "", 0},
    {"62 65 72 74 68 20 37", "62 65 72 74 68 20 37", 0},
    {"0 1 7F 80 FF 100 7FF 800", "0 1 7F 80 FF 100 7FF 800", 0},
    {"D7A4 D7FF E000 FFFF", "D7A4 D7FF E000 FFFF", 0},
    {"FEFF", "FEFF", 0},
    {"FFFE", "FFFE", 0},
    {"FEFF 41 FEFF FFFE", "FEFF 41 FEFF FFFE", 0},
    {"FFFD", "FFFD", 0},
    {"65 301 E9", "65 301 E9", 0},
    {NAME, NAME, 0},
    {NAME_IN_LETTERS, NAME, 0},
    {NAME_IN_BOTH, NAME, 0},
    {"1100", "1100", 0},
    {"1161 11A8 1100", "1161 11A8 1100", 0},
    {"1100 1161", "AC00", 0},
    {"1100 1161 11A8", "AC01", 0},
    {"AC00 11A8", "AC01", 0},
    {"1112 1175 11C2", "D7A3", 0},
    {"D788 11C2", "D7A3", 0},
    {"1100 1161 11A7", "AC00 11A7", 0},
    {"1100 1161 11C3", "AC00 11C3", 0},
    {"1100 1160", "1100 1160", 0},
    {"1100 1176", "1100 1176", 0},
    {"10FF 1161", "10FF 1161", 0},
    {"1113 1161", "1113 1161", 0},
    {"AC01 11A8", "AC01 11A8", 0},
    {"D7A3 11A8", "D7A3 11A8", 0},
    {"1100 1100 1161 11A8 11A8", "1100 AC01 11A8", 0},
    {"1100 1161 1161", "AC00 1161", 0},
    {"1100 302E 1161", "1100 302E 1161", 0},
    {"1100 FFFD 1161", "1100 FFFD 1161", 0},
    {"1100 FEFF 1161 11A8", "1100 FEFF 1161 11A8", 0},
};

/* A pair is kept. It joins to nothing, even if its code point is a letter when cut to 16 bits, and
   nothing is joined across it. */
static const sample PAIRS[] = {
    {"D800 DC00", "D800 DC00", 0},
    {"DBFF DFFF", "DBFF DFFF", 0},
    {"D800 DFFF DBFF DC00", "D800 DFFF DBFF DC00", 0},
    {"D83D DEA2", "D83D DEA2", 0},
    {"41 D83D DEA2 42", "41 D83D DEA2 42", 0},
    {"D83F DFFE D83F DFFF", "D83F DFFE D83F DFFF", 0},
    {"D83D DEA2 1100 1161 11A8 D83D DEA2", "D83D DEA2 AC01 D83D DEA2", 0},
    {"1100 D83D DEA2 1161", "1100 D83D DEA2 1161", 0},
    {"AC00 D800 DC00 11A8", "AC00 D800 DC00 11A8", 0},
    {"1100 D804 DD61", "1100 D804 DD61", 0},
    {"D804 DD00 1161", "D804 DD00 1161", 0},
    {"AC00 D804 DDA8", "AC00 D804 DDA8", 0},
    {"FFFD D83D DEA2 FFFD", "FFFD D83D DEA2 FFFD", 0},
};

/* Surrogates that are half of no pair, beside what they could be taken for half of. */
static const sample UNPAIRED[] = {
    {"D800", "FFFD", 1},
    {"DBFF", "FFFD", 1},
    {"DC00", "FFFD", 1},
    {"DFFF", "FFFD", 1},
    {"D800 D800", "FFFD FFFD", 2},
    {"DC00 DC00", "FFFD FFFD", 2},
    {"DC00 D800", "FFFD FFFD", 2},
    {"DFFF DBFF", "FFFD FFFD", 2},
    {"D800 D800 DC00", "FFFD D800 DC00", 1},
    {"D800 DC00 DC00", "D800 DC00 FFFD", 1},
    {"DC00 D800 DC00 D800", "FFFD D800 DC00 FFFD", 2},
    {"D83D DEA2 D83D", "D83D DEA2 FFFD", 1},
    {"D83D 41 DEA2", "FFFD 41 FFFD", 2},
    {"D83D FEFF DEA2", "FFFD FEFF FFFD", 2},
    {"D800 D7FF", "FFFD D7FF", 1},
    {"D800 E000", "FFFD E000", 1},
    {"D800 0", "FFFD 0", 1},
    {"D7FF DC00", "D7FF FFFD", 1},
    {"E000 DC00", "E000 FFFD", 1},
    {"61 D800 7A", "61 FFFD 7A", 1},
    {"FFFD D800 FFFD", "FFFD FFFD FFFD", 1},
    {"DBFF FFFD DFFF", "FFFD FFFD FFFD", 2},
    {"D800 D801 D802 D803 D804 DC00 DC01", "FFFD FFFD FFFD FFFD D804 DC00 FFFD", 5},
};

/* Letters with an unpaired surrogate between them, or beside them. */
static const sample STRAYED[] = {
    {"1100 D800 1161", "1100 FFFD 1161", 1},
    {"1100 DC00 1161 11A8", "1100 FFFD 1161 11A8", 1},
    {"AC00 D800 11A8", "AC00 FFFD 11A8", 1},
    {"1100 1161 DFFF 11A8", "AC00 FFFD 11A8", 1},
    {"D800 1100 1161 11A8 DC00", "FFFD AC01 FFFD", 2},
    {"1100 1161 11A8 D83D", "AC01 FFFD", 1},
    {"DEA2 AC00 11A8", "FFFD AC01", 1},
    {"D83D 1100 DEA2 1161", "FFFD 1100 FFFD 1161", 2},
};

typedef struct list {
    const sample *samples;
    size_t count;
} list;

static const list SAMPLES[] = {
    {GOOD, COUNT_OF(GOOD)},
    {PAIRS, COUNT_OF(PAIRS)},
    {UNPAIRED, COUNT_OF(UNPAIRED)},
    {STRAYED, COUNT_OF(STRAYED)},
};

/* Does `what` with every sample there is. */
static void each_sample(void (*what)(const sample *one)) {
    size_t i, k;
    for (i = 0; i < COUNT_OF(SAMPLES); i++) {
        for (k = 0; k < SAMPLES[i].count; k++) {
            what(&SAMPLES[i].samples[k]);
        }
    }
}

/* ---- the call */

/* What stands in the lent buffer after the last call; good until the next. */
static const uint8_t *made;

/* The call on a copy of the text. Whatever the answer: no fence, no byte of the text and no byte of
   the buffer after what was written may have changed; after a refusal none at all. The buffer has
   `real` units and is said to have `out_len`. */
static pulphopper_answer mend_as(const uint16_t *units, size_t length, size_t real, size_t out_len) {
    size_t text_at = FENCE + 2 * (calls_made % 8);
    size_t out_at = FENCE + 2 * (calls_made / 3 % 8);
    size_t written = 0;
    pulphopper_answer answer;
    calls_made++;
    fill(&text_lent, 2 * length, calls_made);
    fill(&out_lent, 2 * real, calls_made + 77);
    if (length > 0) {
        memcpy(text_lent.now + text_at, units, 2 * length);
    }
    remember(&text_lent);
    remember(&out_lent);
    made = out_lent.now + out_at;
    answer = pulphopper_mend_units(units_at(text_lent.now + text_at), length, units_at(out_lent.now + out_at), out_len);
    CHECK(unchanged_but(&text_lent, 0, 0));
    if (answer.refusal == PULPHOPPER_DONE) {
        CHECK(answer.value <= real);
        written = answer.value <= real ? (size_t)answer.value : 0;
    } else {
        CHECK(answer.count == 0);
    }
    CHECK(unchanged_but(&out_lent, out_at, 2 * written));
    return answer;
}

static pulphopper_answer mend(const uint16_t *units, size_t length, size_t out_len) {
    return mend_as(units, length, out_len, out_len);
}

static pulphopper_answer mend_sample_as(const sample *one, size_t real, size_t out_len) {
    text given = text_of(one->text);
    return mend_as(given.units, given.length, real, out_len);
}

static pulphopper_answer mend_sample(const sample *one, size_t out_len) { return mend_sample_as(one, out_len, out_len); }

static int is_made(const sample *one, pulphopper_answer answer) {
    text whole = text_of(one->whole);
    return is(answer, PULPHOPPER_DONE, whole.length, one->count) && memcmp(made, whole.units, 2 * whole.length) == 0;
}

static int is_short(const sample *one, pulphopper_answer answer) {
    return is(answer, PULPHOPPER_NO_ROOM, whole_len(one), 0);
}

static void all_are_mended(const sample *samples, size_t count) {
    size_t i;
    for (i = 0; i < count; i++) {
        size_t most = PULPHOPPER_MENDED_UNITS_MOST(text_of(samples[i].text).length);
        CHECK(is_made(&samples[i], mend_sample(&samples[i], most)));
        CHECK(is_made(&samples[i], mend_sample(&samples[i], most + 100)));
    }
}

/* ---- the checks */

static void null_is_taken_for_a_text_of_no_units(void) {
    uint16_t *out = units_at(out_lent.now + FENCE);
    fill(&out_lent, 200, 1);
    remember(&out_lent);
    CHECK(is(pulphopper_mend_units(NULL, 0, out, 100), PULPHOPPER_DONE, 0, 0));
    CHECK(unchanged_but(&out_lent, 0, 0));
    CHECK(is(pulphopper_mend_units(NULL, 0, out, 0), PULPHOPPER_DONE, 0, 0));
    CHECK(unchanged_but(&out_lent, 0, 0));
    CHECK(is(pulphopper_mend_units(NULL, 0, NULL, 0), PULPHOPPER_DONE, 0, 0));
}

static void null_asks_for_the_length_of(const sample *one) {
    text given = text_of(one->text);
    text before = given;
    pulphopper_answer answer = pulphopper_mend_units(given.units, given.length, NULL, 0);
    CHECK(whole_len(one) == 0 ? is(answer, PULPHOPPER_DONE, 0, 0) : is_short(one, answer));
    CHECK(memcmp(given.units, before.units, sizeof given.units) == 0);
    answer = mend_sample(one, 0);
    CHECK(whole_len(one) == 0 ? is(answer, PULPHOPPER_DONE, 0, 0) : is_short(one, answer));
}

static void null_is_taken_for_a_buffer_of_no_units(void) { each_sample(null_asks_for_the_length_of); }

static void refused_unread(size_t length) {
    uint16_t *out = units_at(out_lent.now + FENCE);
    fill(&out_lent, 2 * MOST_TEXT, length);
    remember(&out_lent);
    CHECK(is(pulphopper_mend_units(unreadable_units(), length, out, MOST_TEXT), PULPHOPPER_OVER_LIMIT, 16384, 0));
    CHECK(unchanged_but(&out_lent, 0, 0));
    CHECK(is(pulphopper_mend_units(unreadable_units(), length, out, 0), PULPHOPPER_OVER_LIMIT, 16384, 0));
    CHECK(unchanged_but(&out_lent, 0, 0));
    CHECK(is(pulphopper_mend_units(unreadable_units(), length, NULL, 0), PULPHOPPER_OVER_LIMIT, 16384, 0));
}

/* Once with lengths that are small when cut, once with such that are the limit then. The header
   allows a text of units to be said to have SIZE_MAX / 2 of them at most. */
static void a_text_of_too_many_units_is_refused_unread(void) {
    static const uint16_t single = 0x41;
    each_length_over(SIZE_MAX / 2, 1, refused_unread);
    each_length_over(SIZE_MAX / 2, PULPHOPPER_LIMIT, refused_unread);
    CHECK(is(pulphopper_mend_units(&single, SIZE_MAX / 2, NULL, 0), PULPHOPPER_OVER_LIMIT, 16384, 0));
}

static uint16_t long_text[MOST_TEXT];

/* The text of LIMIT units needs `needed`; one unit more, whatever it is, is refused. */
static void the_limit_holds_for(const char *numbers, size_t needed, uint32_t count) {
    text piece = text_of(numbers);
    repeat_units(long_text, MOST_TEXT, piece.units, piece.length);
    CHECK(is(mend(long_text, PULPHOPPER_LIMIT, needed), PULPHOPPER_DONE, needed, count));
    CHECK(is(mend(long_text, PULPHOPPER_LIMIT, needed - 1), PULPHOPPER_NO_ROOM, needed, 0));
    CHECK(is(mend(long_text, PULPHOPPER_LIMIT, PULPHOPPER_MENDED_UNITS_MOST(PULPHOPPER_LIMIT)), PULPHOPPER_DONE, needed, count));
    CHECK(is(mend(long_text, PULPHOPPER_LIMIT + 1, MOST_TEXT), PULPHOPPER_OVER_LIMIT, 16384, 0));
    CHECK(is(mend(long_text, PULPHOPPER_LIMIT + 1, 0), PULPHOPPER_OVER_LIMIT, 16384, 0));
}

/* 16,384 is three times 5,461 and one, and is even. */
static void texts_of_16384_units_are_taken_and_of_16385_refused(void) {
    the_limit_holds_for("41", 16384, 0);
    the_limit_holds_for("AC01", 16384, 0);
    the_limit_holds_for("1100 1161 11A8", 5461 + 1, 0);
    the_limit_holds_for("AC00 11A8", 8192, 0);
    the_limit_holds_for("D800", 16384, 16384);
    the_limit_holds_for("DC00", 16384, 16384);
    the_limit_holds_for("D83D DEA2", 16384, 0);
    the_limit_holds_for("41 D83D DEA2", 16384, 0);
    the_limit_holds_for("D83D DEA2 41", 16384, 1);
}

static void a_buffer_of_any_length_is_taken_for(const sample *one) {
    CHECK(is_made(one, mend_sample_as(one, MOST_UNITS, SIZE_MAX / 2)));
    CHECK(is_made(one, mend_sample_as(one, MOST_UNITS, SIZE_MAX / 4 + 1)));
}

static void a_buffer_of_units_may_be_said_to_have_any_length(void) { each_sample(a_buffer_of_any_length_is_taken_for); }

static void pairs_are_kept(void) { all_are_mended(PAIRS, COUNT_OF(PAIRS)); }

static void each_unpaired_surrogate_is_replaced_and_counted(void) { all_are_mended(UNPAIRED, COUNT_OF(UNPAIRED)); }

static void every_unit_alone_is_kept_or_replaced(void) {
    static const uint16_t replaced = 0xFFFD;
    uint32_t i;
    for (i = 0; i <= 0xFFFF; i++) {
        uint16_t unit = (uint16_t)i;
        int unpaired = i >= 0xD800 && i <= 0xDFFF;
        CHECK(is(mend(&unit, 1, 1), PULPHOPPER_DONE, 1, unpaired ? 1 : 0) && memcmp(made, unpaired ? &replaced : &unit, 2) == 0);
    }
}

static void exactly_enough_room_suffices_for(const sample *one) {
    size_t needed = whole_len(one);
    size_t most = PULPHOPPER_MENDED_UNITS_MOST(text_of(one->text).length);
    CHECK(is_made(one, mend_sample(one, needed)));
    CHECK(is_made(one, mend_sample(one, needed + 1)));
    CHECK(is_made(one, mend_sample(one, most)));
    if (most > 0) {
        pulphopper_answer answer = mend_sample(one, most - 1);
        CHECK(needed < most ? is_made(one, answer) : is_short(one, answer));
    }
}

static void exactly_enough_room_for_units_suffices(void) { each_sample(exactly_enough_room_suffices_for); }

/* mend() has looked at every byte of both buffers. */
static void every_smaller_room_is_refused_for(const sample *one) {
    size_t room;
    for (room = 0; room < whole_len(one); room++) {
        CHECK(is_short(one, mend_sample(one, room)));
    }
}

static void every_smaller_room_for_units_is_refused_and_changes_nothing(void) { each_sample(every_smaller_room_is_refused_for); }

static void the_spellings_of_a_name_give_the_same_units(void) {
    static const sample spellings[] = {
        {NAME, NAME, 0},
        {NAME_IN_LETTERS, NAME, 0},
        {NAME_IN_BOTH, NAME, 0},
    };
    CHECK(sizeof NAME != sizeof NAME_IN_LETTERS);
    all_are_mended(spellings, COUNT_OF(spellings));
}

static void good_texts_of_units_are_joined(void) { all_are_mended(GOOD, COUNT_OF(GOOD)); }

static void comes_back(const sample *one) {
    sample whole = {one->whole, one->whole, 0};
    CHECK(is_made(&whole, mend_sample(&whole, whole_len(one))));
}

static void a_joined_text_of_units_comes_back(void) { each_sample(comes_back); }

/* What the library itself made, not what is expected of it. */
static void changes_nothing_again(const uint16_t *units, size_t length) {
    static uint16_t first[MOST_TEXT];
    pulphopper_answer answer = mend(units, length, PULPHOPPER_MENDED_UNITS_MOST(length));
    size_t kept = answer.refusal == PULPHOPPER_DONE ? (size_t)answer.value : 0;
    CHECK(answer.refusal == PULPHOPPER_DONE && kept <= length);
    if (kept > length) {
        return;
    }
    memcpy(first, made, 2 * kept);
    CHECK(is(mend(first, kept, kept), PULPHOPPER_DONE, kept, 0) && memcmp(made, first, 2 * kept) == 0);
}

static void changes_nothing_again_for(const sample *one) {
    text given = text_of(one->text);
    changes_nothing_again(given.units, given.length);
}

static void mending_units_again_changes_nothing(void) {
    text piece = text_of("1100 1161 D800 11A8 20 61 62 D83D DEA2");
    each_sample(changes_nothing_again_for);
    repeat_units(long_text, MOST_TEXT, piece.units, piece.length);
    changes_nothing_again(long_text, PULPHOPPER_LIMIT);
}

static void nothing_is_joined_across_an_unpaired_surrogate(void) { all_are_mended(STRAYED, COUNT_OF(STRAYED)); }

/* A call between, of this kind or of the other, does not change what the next one answers. */
static void nothing_is_kept_between_calls_with(const sample *one) {
    static const sample open = {"1100", "1100", 0};
    static const sample half = {"D83D", "FFFD", 1};
    uint8_t bytes[3];
    CHECK(is_made(&open, mend_sample(&open, 1)));
    CHECK(is_made(one, mend_sample(one, whole_len(one))));
    CHECK(is_made(&half, mend_sample(&half, 1)));
    CHECK(is_made(one, mend_sample(one, whole_len(one))));
    CHECK(is_short(&open, mend_sample(&open, 0)));
    CHECK(is(pulphopper_mend(bytes_of("\xE1\x84\x80"), 3, bytes, 3), PULPHOPPER_DONE, 3, 0));
    CHECK(is_made(one, mend_sample(one, whole_len(one))));
}

static void nothing_is_kept_between_calls_of_units(void) { each_sample(nothing_is_kept_between_calls_with); }

/* ---- the same text in UTF-8 */

/* Writes units as UTF-8, an unpaired surrogate as FFFD, and answers how many bytes these are. */
static size_t in_bytes(const text *given, uint8_t *bytes) {
    size_t at = 0, i;
    for (i = 0; i < given->length; i++) {
        uint32_t code = given->units[i];
        uint32_t next = i + 1 < given->length ? given->units[i + 1] : 0;
        if (code >= 0xD800 && code <= 0xDBFF && next >= 0xDC00 && next <= 0xDFFF) {
            code = 0x10000 + ((code - 0xD800) << 10) + (next - 0xDC00);
            i++;
            bytes[at++] = (uint8_t)(0xF0 | code >> 18);
            bytes[at++] = (uint8_t)(0x80 | (code >> 12 & 0x3F));
            bytes[at++] = (uint8_t)(0x80 | (code >> 6 & 0x3F));
            bytes[at++] = (uint8_t)(0x80 | (code & 0x3F));
            continue;
        }
        if (code >= 0xD800 && code <= 0xDFFF) {
            code = 0xFFFD;
        }
        if (code < 0x80) {
            bytes[at++] = (uint8_t)code;
        } else if (code < 0x800) {
            bytes[at++] = (uint8_t)(0xC0 | code >> 6);
            bytes[at++] = (uint8_t)(0x80 | (code & 0x3F));
        } else {
            bytes[at++] = (uint8_t)(0xE0 | code >> 12);
            bytes[at++] = (uint8_t)(0x80 | (code >> 6 & 0x3F));
            bytes[at++] = (uint8_t)(0x80 | (code & 0x3F));
        }
    }
    return at;
}

static void reads_as_mended_bytes(const sample *one) {
    uint8_t bytes[3 * MOST_UNITS], mended[3 * MOST_UNITS], expected[3 * MOST_UNITS];
    text given = text_of(one->text);
    text got = {{0}, 0};
    size_t length = in_bytes(&given, bytes);
    pulphopper_answer answer = mend_sample(one, MOST_UNITS);
    CHECK(answer.refusal == PULPHOPPER_DONE && answer.value <= MOST_UNITS);
    got.length = answer.value <= MOST_UNITS ? (size_t)answer.value : 0;
    memcpy(got.units, made, 2 * got.length);
    answer = pulphopper_mend(bytes, length, mended, sizeof mended);
    CHECK(is(answer, PULPHOPPER_DONE, in_bytes(&got, expected), 0));
    CHECK(answer.value <= sizeof mended && memcmp(mended, expected, (size_t)answer.value) == 0);
}

static void units_read_as_what_mending_bytes_makes(void) { each_sample(reads_as_mended_bytes); }

/* ---- pages */

static pages text_pages;
static pages out_pages;

/* With the text and the buffer against the untouchable pages, once at their ends and once at their
   beginnings. */
static void touches_nothing_outside_with(const sample *one) {
    text given = text_of(one->text);
    size_t length = 2 * given.length;
    size_t room = whole_len(one);
    uint8_t *units = text_pages.good + text_pages.size - length;
    uint8_t *out = out_pages.good + out_pages.size - 2 * room;
    memcpy(units, given.units, length);
    made = out;
    CHECK(is_made(one, pulphopper_mend_units(units_at(units), given.length, units_at(out), room)));
    CHECK(memcmp(units, given.units, length) == 0);
    memcpy(text_pages.good, given.units, length);
    made = out_pages.good;
    CHECK(is_made(one, pulphopper_mend_units(units_at(text_pages.good), given.length, units_at(out_pages.good), room)));
    CHECK(memcmp(text_pages.good, given.units, length) == 0);
}

static void no_byte_outside_the_buffers_of_units_is_touched(void) {
    text_pages = guarded_pages();
    out_pages = guarded_pages();
    if (text_pages.good != NULL && out_pages.good != NULL) {
        each_sample(touches_nothing_outside_with);
    }
}

void check_mending_units(void) {
    RUN(null_is_taken_for_a_text_of_no_units);
    RUN(null_is_taken_for_a_buffer_of_no_units);
    RUN(a_text_of_too_many_units_is_refused_unread);
    RUN(texts_of_16384_units_are_taken_and_of_16385_refused);
    RUN(a_buffer_of_units_may_be_said_to_have_any_length);
    RUN(pairs_are_kept);
    RUN(each_unpaired_surrogate_is_replaced_and_counted);
    RUN(every_unit_alone_is_kept_or_replaced);
    RUN(exactly_enough_room_for_units_suffices);
    RUN(every_smaller_room_for_units_is_refused_and_changes_nothing);
    RUN(the_spellings_of_a_name_give_the_same_units);
    RUN(good_texts_of_units_are_joined);
    RUN(a_joined_text_of_units_comes_back);
    RUN(mending_units_again_changes_nothing);
    RUN(nothing_is_joined_across_an_unpaired_surrogate);
    RUN(nothing_is_kept_between_calls_of_units);
    RUN(units_read_as_what_mending_bytes_makes);
    RUN(no_byte_outside_the_buffers_of_units_is_touched);
}
