/* Checks of pulphopper_name and pulphopper_read_name, from the caller's side. Which name is whose,
   beyond some, is the work of the second program; here each of the two has to undo the other. */
#include "client.h"

#include <string.h>

#define FIRST_SYLLABLE 0xAC00
#define LAST_SYLLABLE 0xD7A3
#define PREFIX "HANGUL SYLLABLE "
#define PREFIX_LEN (sizeof PREFIX - 1)
#define MOST_REAL 64 /* of a name's buffer here: more than any name needs */

/* ---- names */

typedef struct known {
    uint32_t code;
    const char *name;
    size_t name_len;
} known;

static const known KNOWN[] = {
    {0xAC00, BYTES(PREFIX "GA")},
    {0xAC01, BYTES(PREFIX "GAG")},
    {0xAC03, BYTES(PREFIX "GAGS")},
    {0xAC1C, BYTES(PREFIX "GAE")},
    {0xAE4C, BYTES(PREFIX "GGA")},
    {0xAEA2, BYTES(PREFIX "GGYAEGG")},
    {0xB2ED, BYTES(PREFIX "DALG")},
    {0xC544, BYTES(PREFIX "A")},
    {0xC624, BYTES(PREFIX "O")},
    {0xC655, BYTES(PREFIX "WANG")},
    {0xC6E8, BYTES(PREFIX "WE")},
    {0xC774, BYTES(PREFIX "I")},
    {0xC789, BYTES(PREFIX "ING")},
    {0xD478, BYTES(PREFIX "PU")},
    {0xB978, BYTES(PREFIX "REUN")},
    {0xBC14, BYTES(PREFIX "BA")},
    {0xB2E4, BYTES(PREFIX "DA")},
    {0xD4DE, BYTES(PREFIX "PWIBS")},
    {0xD788, BYTES(PREFIX "HI")},
    {0xD7A3, BYTES(PREFIX "HIH")},
};

/* What is no syllable: beside them, letters, surrogates, what is no code point, and what is a
   syllable again when bits are lost. */
static const uint32_t NO_SYLLABLES[] = {
    0,      0x41,   0x1100, 0x1161, 0x11A8, 0x3131, 0xABFF,  0xD7A4,   0xD7A5,   0xD7FF,     0xD800,
    0xDBFF, 0xDC00, 0xDFFF, 0xE000, 0xFFFF, 0x1AC00, 0x10AC00, 0x10FFFF, 0x110000, 0x11AC00, 0x7FFFFFFF,
    0x80000000U, 0x8000AC00U, 0xFFFFAC00U, UINT32_MAX - 1, UINT32_MAX,
};

/* ---- the calls */

/* What stands in the lent buffer after the last call; good until the next. */
static const uint8_t *made;

/* The call. Whatever the answer: no fence and no byte of the buffer after what was written may have
   changed; after a refusal none at all. The buffer has `real` bytes and is said to have
   `out_len`. */
static pulphopper_answer name_as(uint32_t code, size_t real, size_t out_len) {
    size_t out_at = FENCE + calls_made % 16;
    size_t written = 0;
    pulphopper_answer answer;
    calls_made++;
    fill(&out_lent, MOST_REAL, calls_made);
    remember(&out_lent);
    made = out_lent.now + out_at;
    answer = pulphopper_name(code, out_lent.now + out_at, out_len);
    if (answer.refusal == PULPHOPPER_DONE) {
        CHECK(answer.value <= real);
        written = answer.value <= real ? (size_t)answer.value : 0;
    }
    CHECK(answer.count == 0);
    CHECK(unchanged_but(&out_lent, out_at, written));
    return answer;
}

static pulphopper_answer name(uint32_t code, size_t out_len) { return name_as(code, out_len, out_len); }

static int is_named(const known *one, pulphopper_answer answer) {
    return is(answer, PULPHOPPER_DONE, one->name_len, 0) && memcmp(made, one->name, one->name_len) == 0;
}

/* The call on a copy of the name, of which no byte may have changed, nor of its fences. */
static pulphopper_answer read_name(const uint8_t *bytes, size_t length) {
    size_t at = FENCE + calls_made % 16;
    pulphopper_answer answer;
    calls_made++;
    fill(&text_lent, length, calls_made);
    if (length > 0) {
        memcpy(text_lent.now + at, bytes, length);
    }
    remember(&text_lent);
    answer = pulphopper_read_name(text_lent.now + at, length);
    CHECK(unchanged_but(&text_lent, 0, 0));
    return answer;
}

static int is_no_name(const uint8_t *bytes, size_t length) {
    return is(read_name(bytes, length), PULPHOPPER_NO_NAME, 0, 0);
}

static void each_known(void (*what)(const known *one)) {
    size_t i;
    for (i = 0; i < COUNT_OF(KNOWN); i++) {
        what(&KNOWN[i]);
    }
}

/* ---- checks of naming */

static void is_named_in_room(const known *one) {
    CHECK(is_named(one, name(one->code, PULPHOPPER_NAME_MOST)));
    CHECK(is_named(one, name(one->code, MOST_REAL)));
    CHECK(is_named(one, name(one->code, one->name_len)));
    CHECK(is_named(one, name(one->code, one->name_len + 1)));
}

static void syllables_are_named(void) { each_known(is_named_in_room); }

static void null_asks_for_the_length_of(const known *one) {
    CHECK(is(pulphopper_name(one->code, NULL, 0), PULPHOPPER_NO_ROOM, one->name_len, 0));
    CHECK(is(name(one->code, 0), PULPHOPPER_NO_ROOM, one->name_len, 0));
}

static void null_is_taken_for_a_name_s_buffer_of_length_0(void) { each_known(null_asks_for_the_length_of); }

/* name() has looked at every byte of the buffer. */
static void needs_its_room(const known *one) {
    size_t room;
    for (room = 0; room < one->name_len; room++) {
        CHECK(is(name(one->code, room), PULPHOPPER_NO_ROOM, one->name_len, 0));
    }
}

static void every_room_smaller_than_a_name_is_refused(void) { each_known(needs_its_room); }

static void is_named_in_any_length(const known *one) {
    CHECK(is_named(one, name_as(one->code, MOST_REAL, SIZE_MAX)));
    CHECK(is_named(one, name_as(one->code, MOST_REAL, SIZE_MAX - 1)));
    CHECK(is_named(one, name_as(one->code, MOST_REAL, SIZE_MAX / 2 + 1)));
#if SIZE_MAX > UINT32_MAX
    CHECK(is_named(one, name_as(one->code, MOST_REAL, (size_t)UINT32_MAX + 1)));
#endif
}

static void a_name_s_buffer_may_be_said_to_have_any_length(void) { each_known(is_named_in_any_length); }

static void what_is_no_syllable_has_no_name(void) {
    static const size_t rooms[] = {0, 1, 16, 17, PULPHOPPER_NAME_MOST, MOST_REAL, SIZE_MAX};
    size_t i, k;
    for (i = 0; i < COUNT_OF(NO_SYLLABLES); i++) {
        for (k = 0; k < COUNT_OF(rooms); k++) {
            CHECK(is(name_as(NO_SYLLABLES[i], MOST_REAL, rooms[k]), PULPHOPPER_NO_SYLLABLE, 0, 0));
        }
        CHECK(is(pulphopper_name(NO_SYLLABLES[i], NULL, 0), PULPHOPPER_NO_SYLLABLE, 0, 0));
    }
}

/* ---- checks of reading */

static void is_read(const known *one) {
    CHECK(is(read_name(bytes_of(one->name), one->name_len), PULPHOPPER_DONE, one->code, 0));
}

static void names_are_read(void) { each_known(is_read); }

/* What the library itself wrote is read back, for each syllable; it needs as much room as it
   says. */
static void all_11172_names_are_read_back(void) {
    uint32_t code;
    unsigned long count = 0;
    for (code = FIRST_SYLLABLE; code <= LAST_SYLLABLE; code++) {
        uint8_t copy[PULPHOPPER_NAME_MOST];
        pulphopper_answer answer = name(code, PULPHOPPER_NAME_MOST);
        size_t length = answer.value <= sizeof copy ? (size_t)answer.value : 0;
        CHECK(answer.refusal == PULPHOPPER_DONE && length > PREFIX_LEN && memcmp(made, PREFIX, PREFIX_LEN) == 0);
        memcpy(copy, made, length);
        CHECK(is(read_name(copy, length), PULPHOPPER_DONE, code, 0));
        CHECK(is(name(code, length), PULPHOPPER_DONE, length, 0) && memcmp(made, copy, length) == 0);
        CHECK(length > 0 && is(name(code, length - 1), PULPHOPPER_NO_ROOM, length, 0));
        count++;
    }
    CHECK(count == 11172);
}

/* One capital of a name is changed to a small letter. */
static void counts_in_capitals_alone(const known *one) {
    uint8_t copy[PULPHOPPER_NAME_MOST];
    size_t i;
    for (i = 0; i < one->name_len; i++) {
        memcpy(copy, one->name, one->name_len);
        copy[i] = (uint8_t)(copy[i] ^ 0x20); /* of a space this makes a 00 */
        CHECK(is_no_name(copy, one->name_len));
    }
}

static void a_small_letter_makes_no_name(void) { each_known(counts_in_capitals_alone); }

static void ends_where_it_ends(const known *one) {
    static const char after[] = {'\0', ' ', '\n', 'a', '0', '1', 'Q', '\x7F', '\x80', '\xFF'};
    uint8_t copy[2 * PULPHOPPER_NAME_MOST];
    size_t i;
    for (i = 0; i < COUNT_OF(after); i++) {
        memcpy(copy, one->name, one->name_len);
        copy[one->name_len] = (uint8_t)after[i];
        CHECK(is_no_name(copy, one->name_len + 1));
        memcpy(copy + 1, one->name, one->name_len);
        copy[0] = (uint8_t)after[i];
        CHECK(is_no_name(copy, one->name_len + 1));
    }
    memcpy(copy, one->name, one->name_len);
    memcpy(copy + one->name_len, one->name, one->name_len);
    CHECK(is_no_name(copy, 2 * one->name_len));
}

static void a_byte_after_or_before_makes_no_name(void) { each_known(ends_where_it_ends); }

/* A byte of the prefix missing, the prefix cut at each place, and its front lost. */
static void needs_every_byte_of_the_prefix(const known *one) {
    uint8_t copy[PULPHOPPER_NAME_MOST];
    size_t i;
    for (i = 0; i < PREFIX_LEN; i++) {
        memcpy(copy, one->name, i);
        memcpy(copy + i, one->name + i + 1, one->name_len - i - 1);
        CHECK(is_no_name(copy, one->name_len - 1));
        CHECK(is_no_name(bytes_of(one->name), i));
        CHECK(is_no_name(bytes_of(one->name) + i + 1, one->name_len - i - 1));
    }
    CHECK(is_no_name(bytes_of(one->name), PREFIX_LEN));
}

typedef struct text {
    const char *bytes;
    size_t length;
} text;

/* Names with a byte of their last part missing or wrong, and strings of no list; source document
   003's two figures. */
static const text NO_NAMES[] = {
    {BYTES("")},
    {BYTES(PREFIX)},
    {BYTES(PREFIX "G")},
    {BYTES(PREFIX "GG")},
    {BYTES(PREFIX "NG")},
    {BYTES(PREFIX "W")},
    {BYTES(PREFIX "PWBS")},
    {BYTES(PREFIX "LA")},
    {BYTES(PREFIX "GAR")},
    {BYTES(PREFIX "GABB")},
    {BYTES(PREFIX "GAGGG")},
    {BYTES(PREFIX "GUI")},
    {BYTES(PREFIX "GWO")},
    {BYTES(PREFIX "GAA")},
    {BYTES(PREFIX "G1")},
    {BYTES(PREFIX "G0")},
    {BYTES(PREFIX "1")},
    {BYTES(PREFIX "0")},
    {BYTES(PREFIX "H1H")},
    {BYTES(PREFIX "\xCE\x91")},
    {BYTES(PREFIX "AC00")},
    {BYTES(PREFIX " GA")},
    {BYTES(PREFIX "\xEA\xB0\x80")},
    {BYTES("Hangul Syllable Ga")},
    {BYTES("HANGUL SYLLABLEGA")},
    {BYTES("HANGUL LETTER A")},
    {BYTES("GA")},
};

static void what_is_no_name_is_refused(void) {
    size_t i;
    each_known(needs_every_byte_of_the_prefix);
    for (i = 0; i < COUNT_OF(NO_NAMES); i++) {
        CHECK(is_no_name(bytes_of(NO_NAMES[i].bytes), NO_NAMES[i].length));
    }
}

static void null_is_taken_for_a_name_of_length_0(void) {
    CHECK(is(pulphopper_read_name(NULL, 0), PULPHOPPER_NO_NAME, 0, 0));
    CHECK(is(pulphopper_read_name(unreadable(), 0), PULPHOPPER_NO_NAME, 0, 0));
}

static void refused_unread(size_t length) {
    CHECK(is(pulphopper_read_name(unreadable(), length), PULPHOPPER_OVER_LIMIT, 16384, 0));
}

/* 18 is the length of a name. */
static void a_name_that_is_too_long_is_refused_unread(void) { each_length_over(SIZE_MAX, 18, refused_unread); }

/* A name and so many bytes after it that the whole is as long as the limit, and one longer. */
static void the_limit_holds_after(const known *one, int after) {
    static uint8_t bytes[MOST_TEXT];
    memset(bytes, after, sizeof bytes);
    memcpy(bytes, one->name, one->name_len);
    CHECK(is_no_name(bytes, PULPHOPPER_LIMIT));
    CHECK(is(read_name(bytes, PULPHOPPER_LIMIT + 1), PULPHOPPER_OVER_LIMIT, 16384, 0));
}

static void names_of_16384_bytes_are_none_and_of_16385_over_the_limit(void) {
    the_limit_holds_after(&KNOWN[0], 0);
    the_limit_holds_after(&KNOWN[0], ' ');
    the_limit_holds_after(&KNOWN[1], 'G');
}

/* A call between does not change what the next one answers. */
static void nothing_is_kept_after(const known *one) {
    static const known other = {0xC544, BYTES(PREFIX "A")};
    CHECK(is_named(&other, name(other.code, PULPHOPPER_NAME_MOST)));
    CHECK(is(read_name(bytes_of(one->name), one->name_len), PULPHOPPER_DONE, one->code, 0));
    CHECK(is_no_name(bytes_of(one->name), PREFIX_LEN));
    CHECK(is_named(one, name(one->code, one->name_len)));
    CHECK(is(name(one->code, 0), PULPHOPPER_NO_ROOM, one->name_len, 0));
    CHECK(is(read_name(bytes_of(other.name), other.name_len), PULPHOPPER_DONE, other.code, 0));
}

static void no_name_is_kept_between_calls(void) { each_known(nothing_is_kept_after); }

static pages name_pages;

/* With the name against the untouchable pages, once at its end and once at its beginning, written
   there and read from there. */
static void touches_nothing_outside_of(const known *one) {
    uint8_t *places[2];
    size_t i;
    places[0] = name_pages.good + name_pages.size - one->name_len;
    places[1] = name_pages.good;
    for (i = 0; i < 2; i++) {
        memset(name_pages.good, 0xA5, name_pages.size);
        made = places[i];
        CHECK(is_named(one, pulphopper_name(one->code, places[i], one->name_len)));
        CHECK(is(pulphopper_read_name(places[i], one->name_len), PULPHOPPER_DONE, one->code, 0));
        CHECK(is_named(one, pulphopper_name(one->code, places[i], one->name_len)));
    }
    CHECK(is(pulphopper_read_name(name_pages.good + name_pages.size - 1, 1), PULPHOPPER_NO_NAME, 0, 0));
    CHECK(is(pulphopper_name(one->code, name_pages.good + name_pages.size, 0), PULPHOPPER_NO_ROOM, one->name_len, 0));
}

/* A name that the end of its bytes cuts, in front of a page that may not be read. */
static void is_not_read_on(const known *one) {
    size_t length;
    for (length = 0; length <= PREFIX_LEN; length++) {
        uint8_t *cut = name_pages.good + name_pages.size - length;
        memcpy(cut, one->name, length);
        CHECK(is(pulphopper_read_name(cut, length), PULPHOPPER_NO_NAME, 0, 0));
    }
}

static void no_byte_outside_a_name_is_touched(void) {
    name_pages = guarded_pages();
    if (name_pages.good != NULL) {
        each_known(touches_nothing_outside_of);
        each_known(is_not_read_on);
    }
}

void check_naming(void) {
    RUN(syllables_are_named);
    RUN(null_is_taken_for_a_name_s_buffer_of_length_0);
    RUN(every_room_smaller_than_a_name_is_refused);
    RUN(a_name_s_buffer_may_be_said_to_have_any_length);
    RUN(what_is_no_syllable_has_no_name);
    RUN(names_are_read);
    RUN(all_11172_names_are_read_back);
    RUN(a_small_letter_makes_no_name);
    RUN(a_byte_after_or_before_makes_no_name);
    RUN(what_is_no_name_is_refused);
    RUN(null_is_taken_for_a_name_of_length_0);
    RUN(a_name_that_is_too_long_is_refused_unread);
    RUN(names_of_16384_bytes_are_none_and_of_16385_over_the_limit);
    RUN(no_name_is_kept_between_calls);
    RUN(no_byte_outside_a_name_is_touched);
}
