/* Checks of pulphopper_mend, from the caller's side.
   They do not try mending in depth: that is the work of the second program. */
#include "client.h"

#include <string.h>

/* What stands in the lent buffer after the last call; good until the next. */
static const uint8_t *made;

/* The call on a copy of the text. Whatever the answer: no fence, no byte of the text and no byte of
   the buffer after what was written may have changed; after a refusal none at all. The buffer has
   `real` bytes and is said to have `out_len`. */
static pulphopper_answer mend_as(const uint8_t *text, size_t text_len, size_t real, size_t out_len) {
    size_t text_at = FENCE + calls_made % 16;
    size_t out_at = FENCE + calls_made / 3 % 16;
    size_t written = 0;
    pulphopper_answer answer;
    calls_made++;
    fill(&text_lent, MOST_OUT, calls_made);
    fill(&out_lent, MOST_OUT, calls_made + 77);
    if (text_len > 0) {
        memcpy(text_lent.now + text_at, text, text_len);
    }
    remember(&text_lent);
    remember(&out_lent);
    made = out_lent.now + out_at;
    answer = pulphopper_mend(text_lent.now + text_at, text_len, out_lent.now + out_at, out_len);
    CHECK(unchanged_but(&text_lent, 0, 0));
    if (answer.refusal == PULPHOPPER_DONE) {
        CHECK(answer.value <= real);
        written = answer.value <= real ? (size_t)answer.value : 0;
    } else {
        CHECK(answer.count == 0);
    }
    CHECK(unchanged_but(&out_lent, out_at, written));
    return answer;
}

static pulphopper_answer mend(const uint8_t *text, size_t text_len, size_t out_len) {
    return mend_as(text, text_len, out_len, out_len);
}

/* ---- texts, with what they are mended to */

typedef struct sample {
    const char *text;
    size_t text_len;
    const char *whole;
    size_t whole_len;
    uint32_t count;
} sample;

#define NONE "\xEF\xBF\xBD" /* FFFD */

/* A boat's name, once as finished syllables, once as single letters, and once as some of both. */
#define NAME "\xED\x91\xB8\xEB\xA5\xB8\xEB\xB0\x94\xEB\x8B\xA4"
#define NAME_IN_LETTERS                                                                                                   \
    "\xE1\x84\x91\xE1\x85\xAE\xE1\x84\x85\xE1\x85\xB3\xE1\x86\xAB\xE1\x84\x87\xE1\x85\xA1\xE1\x84\x83\xE1\x85\xA1"
#define NAME_IN_BOTH "\xED\x91\xB8\xEB\xA5\xB4\xE1\x86\xAB\xE1\x84\x87\xE1\x85\xA1\xEB\x8B\xA4"

static const sample GOOD[] = {
    {BYTES(""), BYTES(""), 0},
    {BYTES("berth 7"), BYTES("berth 7"), 0},
    {BYTES("\x00\x7F\xC2\x80\xDF\xBF"), BYTES("\x00\x7F\xC2\x80\xDF\xBF"), 0},
    {BYTES("\xE0\xA0\x80\xED\x9F\xBF\xEE\x80\x80"), BYTES("\xE0\xA0\x80\xED\x9F\xBF\xEE\x80\x80"), 0},
    {BYTES("\xF0\x90\x80\x80\xF4\x8F\xBF\xBF"), BYTES("\xF0\x90\x80\x80\xF4\x8F\xBF\xBF"), 0},
    {BYTES("\xEF\xBB\xBF\xEF\xBF\xBE"), BYTES("\xEF\xBB\xBF\xEF\xBF\xBE"), 0},
    {BYTES(NONE), BYTES(NONE), 0},
    {BYTES("\x65\xCC\x81\xC3\xA9"), BYTES("\x65\xCC\x81\xC3\xA9"), 0},
    {BYTES(NAME), BYTES(NAME), 0},
    {BYTES(NAME_IN_LETTERS), BYTES(NAME), 0},
    {BYTES(NAME_IN_BOTH), BYTES(NAME), 0},
    {BYTES("\xE1\x84\x80\xE1\x85\xA1\xE1\x86\xA8"), BYTES("\xEA\xB0\x81"), 0},
    {BYTES("\xEA\xB0\x80\xE1\x86\xA8"), BYTES("\xEA\xB0\x81"), 0},
    {BYTES("\xE1\x84\x92\xE1\x85\xB5\xE1\x87\x82"), BYTES("\xED\x9E\xA3"), 0},
    {BYTES("\xE1\x84\x80\xE1\x85\xA1\xE1\x86\xA7"), BYTES("\xEA\xB0\x80\xE1\x86\xA7"), 0},
    {BYTES("\xE1\x84\x80\xE1\x85\xA1\xE1\x87\x83"), BYTES("\xEA\xB0\x80\xE1\x87\x83"), 0},
    {BYTES("\xEA\xB0\x81\xE1\x86\xA8"), BYTES("\xEA\xB0\x81\xE1\x86\xA8"), 0},
    {BYTES("\xE1\x84\x93\xE1\x85\xA1"), BYTES("\xE1\x84\x93\xE1\x85\xA1"), 0},
    {BYTES("\xE1\x84\x80\xE3\x80\xAE\xE1\x85\xA1"), BYTES("\xE1\x84\x80\xE3\x80\xAE\xE1\x85\xA1"), 0},
    {BYTES("\xE1\x84\x80" NONE "\xE1\x85\xA1"), BYTES("\xE1\x84\x80" NONE "\xE1\x85\xA1"), 0},
};

/* What table 3-7 does not have, at each of its boundaries, and what stands before and after it. */
static const sample BAD[] = {
    {BYTES("\x80"), BYTES(NONE), 1},
    {BYTES("\xBF"), BYTES(NONE), 1},
    {BYTES("a\x80z"), BYTES("a" NONE "z"), 1},
    {BYTES("\xC0\x80"), BYTES(NONE NONE), 2},
    {BYTES("\xC0\xAF"), BYTES(NONE NONE), 2},
    {BYTES("\xC1\xBF"), BYTES(NONE NONE), 2},
    {BYTES("\xE0\x80\x80"), BYTES(NONE NONE NONE), 3},
    {BYTES("\xE0\x9F\xBF"), BYTES(NONE NONE NONE), 3},
    {BYTES("\xED\xA0\x80"), BYTES(NONE NONE NONE), 3},
    {BYTES("\xED\xBF\xBF"), BYTES(NONE NONE NONE), 3},
    {BYTES("\xF0\x80\x80\x80"), BYTES(NONE NONE NONE NONE), 4},
    {BYTES("\xF0\x8F\xBF\xBF"), BYTES(NONE NONE NONE NONE), 4},
    {BYTES("\xF4\x90\x80\x80"), BYTES(NONE NONE NONE NONE), 4},
    {BYTES("\xF4\xBF\xBF\xBF"), BYTES(NONE NONE NONE NONE), 4},
    {BYTES("\xF5\x80\x80\x80"), BYTES(NONE NONE NONE NONE), 4},
    {BYTES("\xF8\x88\x80\x80\x80"), BYTES(NONE NONE NONE NONE NONE), 5},
    {BYTES("\xFE\xFF"), BYTES(NONE NONE), 2},
    {BYTES("\xFF\xFE"), BYTES(NONE NONE), 2},
    {BYTES("\xC2\x41"), BYTES(NONE "A"), 1},
    {BYTES("\xC2\xC3\xB1"), BYTES(NONE "\xC3\xB1"), 1},
    {BYTES("\xE1\x80\x41"), BYTES(NONE "A"), 1},
    {BYTES("\xE1\x41\x80"), BYTES(NONE "A" NONE), 2},
    {BYTES("\xF1\x80\x80\x41"), BYTES(NONE "A"), 1},
    {BYTES("\xF1\x80\x41\x80"), BYTES(NONE "A" NONE), 2},
    {BYTES("\xF1\x80\x80\xEA\xB0\x81"), BYTES(NONE "\xEA\xB0\x81"), 1},
    {BYTES(NONE "\xEF\xBF" NONE), BYTES(NONE NONE NONE), 1},
    {BYTES("\xE1\x84\x80\xE1\x20\xA1\xE1\x86\xA8"), BYTES("\xE1\x84\x80" NONE " " NONE "\xE1\x86\xA8"), 2},
};

/* A sequence that the end of the text cuts is one subpart. */
static const sample CUT[] = {
    {BYTES("\xC2"), BYTES(NONE), 1},
    {BYTES("\xDF"), BYTES(NONE), 1},
    {BYTES("\xE0"), BYTES(NONE), 1},
    {BYTES("\xE0\xA0"), BYTES(NONE), 1},
    {BYTES("\xE1\x84"), BYTES(NONE), 1},
    {BYTES("\xED\x9F"), BYTES(NONE), 1},
    {BYTES("\xEF\xBF"), BYTES(NONE), 1},
    {BYTES("\xF0"), BYTES(NONE), 1},
    {BYTES("\xF0\x90"), BYTES(NONE), 1},
    {BYTES("\xF0\x90\x80"), BYTES(NONE), 1},
    {BYTES("\xF4\x8F\xBF"), BYTES(NONE), 1},
    {BYTES("\xE1\x84\x80\xE1\x85"), BYTES("\xE1\x84\x80" NONE), 1},
    {BYTES("\xE1\x84\x80\xE1\x85\xA1\xE1\x86"), BYTES("\xEA\xB0\x80" NONE), 1},
    {BYTES("\xEA\xB0\x80\xE1"), BYTES("\xEA\xB0\x80" NONE), 1},
};

/* Letters with an ill-formed byte between them. */
static const sample STRAYED[] = {
    {BYTES("\xEA\xB0\x80\x80\xE1\x86\xA8"), BYTES("\xEA\xB0\x80" NONE "\xE1\x86\xA8"), 1},
    {BYTES("\xE1\x84\x80\x80\xE1\x85\xA1"), BYTES("\xE1\x84\x80" NONE "\xE1\x85\xA1"), 1},
    {BYTES("\xE1\x84\x80\xFF\xE1\x85\xA1\xE1\x86\xA8"), BYTES("\xE1\x84\x80" NONE "\xE1\x85\xA1\xE1\x86\xA8"), 1},
    {BYTES("\xE1\x84\x80\xE1\x85\xA1\xE1\xE1\x86\xA8"), BYTES("\xEA\xB0\x80" NONE "\xE1\x86\xA8"), 1},
    {BYTES("\xE1\x84\x80\xE1\x85\xE1\x85\xA1"), BYTES("\xE1\x84\x80" NONE "\xE1\x85\xA1"), 1},
};

typedef struct list {
    const sample *samples;
    size_t count;
} list;

static const list SAMPLES[] = {
    {GOOD, COUNT_OF(GOOD)},
    {BAD, COUNT_OF(BAD)},
    {CUT, COUNT_OF(CUT)},
    {STRAYED, COUNT_OF(STRAYED)},
};

static pulphopper_answer mend_sample(const sample *one, size_t out_len) {
    return mend(bytes_of(one->text), one->text_len, out_len);
}

static int is_made(const sample *one, pulphopper_answer answer) {
    return is(answer, PULPHOPPER_DONE, one->whole_len, one->count) && memcmp(made, one->whole, one->whole_len) == 0;
}

static int is_short(const sample *one, pulphopper_answer answer) {
    return is(answer, PULPHOPPER_NO_ROOM, one->whole_len, 0);
}

/* Does `what` with every sample there is. */
static void each_sample(void (*what)(const sample *one)) {
    size_t i, k;
    for (i = 0; i < COUNT_OF(SAMPLES); i++) {
        for (k = 0; k < SAMPLES[i].count; k++) {
            what(&SAMPLES[i].samples[k]);
        }
    }
}

static void all_are_mended(const sample *samples, size_t count) {
    size_t i;
    for (i = 0; i < count; i++) {
        CHECK(is_made(&samples[i], mend_sample(&samples[i], PULPHOPPER_MENDED_MOST(samples[i].text_len))));
        CHECK(is_made(&samples[i], mend_sample(&samples[i], PULPHOPPER_MENDED_MOST(samples[i].text_len) + 100)));
    }
}

/* ---- the checks */

static void null_is_taken_for_a_text_of_length_0(void) {
    fill(&out_lent, MOST_OUT, 1);
    remember(&out_lent);
    CHECK(is(pulphopper_mend(NULL, 0, out_lent.now + FENCE, 100), PULPHOPPER_DONE, 0, 0));
    CHECK(unchanged_but(&out_lent, 0, 0));
    CHECK(is(pulphopper_mend(NULL, 0, out_lent.now + FENCE, 0), PULPHOPPER_DONE, 0, 0));
    CHECK(unchanged_but(&out_lent, 0, 0));
    CHECK(is(pulphopper_mend(NULL, 0, NULL, 0), PULPHOPPER_DONE, 0, 0));
}

static void null_of_length_0_asks_for_the_length_of(const sample *one) {
    size_t at = FENCE + one->text_len % 16;
    pulphopper_answer answer;
    fill(&text_lent, MOST_OUT, one->text_len);
    memcpy(text_lent.now + at, one->text, one->text_len);
    remember(&text_lent);
    answer = pulphopper_mend(text_lent.now + at, one->text_len, NULL, 0);
    CHECK(one->whole_len == 0 ? is(answer, PULPHOPPER_DONE, 0, 0) : is_short(one, answer));
    CHECK(unchanged_but(&text_lent, 0, 0));
    answer = mend_sample(one, 0);
    CHECK(one->whole_len == 0 ? is(answer, PULPHOPPER_DONE, 0, 0) : is_short(one, answer));
}

static void null_is_taken_for_a_buffer_of_length_0(void) { each_sample(null_of_length_0_asks_for_the_length_of); }

static void refused_unread(size_t text_len) {
    fill(&out_lent, MOST_OUT, text_len);
    remember(&out_lent);
    CHECK(is(pulphopper_mend(unreadable(), text_len, out_lent.now + FENCE, MOST_OUT), PULPHOPPER_OVER_LIMIT, 16384, 0));
    CHECK(unchanged_but(&out_lent, 0, 0));
    CHECK(is(pulphopper_mend(unreadable(), text_len, out_lent.now + FENCE, 0), PULPHOPPER_OVER_LIMIT, 16384, 0));
    CHECK(unchanged_but(&out_lent, 0, 0));
    CHECK(is(pulphopper_mend(unreadable(), text_len, NULL, 0), PULPHOPPER_OVER_LIMIT, 16384, 0));
}

/* Once with lengths that are small when cut, once with such that are the limit then. */
static void a_text_that_is_too_long_is_refused_unread(void) {
    static const uint8_t single = 0x41;
    each_length_over(SIZE_MAX, 1, refused_unread);
    each_length_over(SIZE_MAX, PULPHOPPER_LIMIT, refused_unread);
    CHECK(is(pulphopper_mend(&single, SIZE_MAX, NULL, 0), PULPHOPPER_OVER_LIMIT, 16384, 0));
}

static uint8_t long_text[MOST_TEXT];

/* The text of LIMIT bytes needs `needed`; one byte more, whatever it is, is refused. */
static void the_limit_holds_for(const char *piece, size_t piece_len, size_t needed, uint32_t count) {
    repeat(long_text, sizeof long_text, piece, piece_len);
    CHECK(is(mend(long_text, PULPHOPPER_LIMIT, needed), PULPHOPPER_DONE, needed, count));
    CHECK(is(mend(long_text, PULPHOPPER_LIMIT, needed - 1), PULPHOPPER_NO_ROOM, needed, 0));
    CHECK(is(mend(long_text, PULPHOPPER_LIMIT, PULPHOPPER_MENDED_MOST(PULPHOPPER_LIMIT)), PULPHOPPER_DONE, needed, count));
    CHECK(is(mend(long_text, PULPHOPPER_LIMIT + 1, MOST_OUT), PULPHOPPER_OVER_LIMIT, 16384, 0));
    CHECK(is(mend(long_text, PULPHOPPER_LIMIT + 1, 0), PULPHOPPER_OVER_LIMIT, 16384, 0));
}

static void texts_of_16384_bytes_are_taken_and_of_16385_refused(void) {
    the_limit_holds_for(BYTES("A"), 16384, 0);
    the_limit_holds_for(BYTES("\x80"), 49152, 16384);
    the_limit_holds_for(BYTES("\xE1\x84\x80\xE1\x85\xA1\xE1\x86\xA8"), 3 * 1820 + 3 + 3, 1);
    the_limit_holds_for(BYTES("\xEA\xB0\x81"), 16383 + 3, 1);
}

static void a_buffer_of_size_max_is_taken_for(const sample *one) {
    CHECK(is_made(one, mend_as(bytes_of(one->text), one->text_len, MOST_OUT, SIZE_MAX)));
    CHECK(is_made(one, mend_as(bytes_of(one->text), one->text_len, MOST_OUT, SIZE_MAX / 2 + 1)));
}

static void a_buffer_may_be_said_to_have_any_length(void) { each_sample(a_buffer_of_size_max_is_taken_for); }

static void every_kind_of_bad_input_is_mended(void) { all_are_mended(BAD, COUNT_OF(BAD)); }

static void sequences_cut_at_the_end_are_mended(void) { all_are_mended(CUT, COUNT_OF(CUT)); }

static void every_byte_alone_is_kept_or_replaced(void) {
    unsigned int i;
    for (i = 0; i <= 0xFF; i++) {
        uint8_t byte = (uint8_t)i;
        if (i < 0x80) {
            CHECK(is(mend(&byte, 1, 1), PULPHOPPER_DONE, 1, 0) && made[0] == byte);
        } else {
            CHECK(is(mend(&byte, 1, 3), PULPHOPPER_DONE, 3, 1) && memcmp(made, NONE, 3) == 0);
        }
    }
}

static void exactly_enough_room_suffices_for(const sample *one) {
    size_t most = PULPHOPPER_MENDED_MOST(one->text_len);
    CHECK(is_made(one, mend_sample(one, one->whole_len)));
    CHECK(is_made(one, mend_sample(one, one->whole_len + 1)));
    CHECK(is_made(one, mend_sample(one, most)));
    if (most > 0) {
        pulphopper_answer answer = mend_sample(one, most - 1);
        CHECK(one->whole_len < most ? is_made(one, answer) : is_short(one, answer));
    }
}

static void exactly_enough_room_suffices(void) { each_sample(exactly_enough_room_suffices_for); }

/* mend() has looked at every byte of both buffers. */
static void every_smaller_room_is_refused_for(const sample *one) {
    size_t room;
    for (room = 0; room < one->whole_len; room++) {
        CHECK(is_short(one, mend_sample(one, room)));
    }
}

static void every_smaller_room_is_refused_and_changes_nothing(void) { each_sample(every_smaller_room_is_refused_for); }

static void the_spellings_of_a_name_give_the_same_bytes(void) {
    static const sample spellings[] = {
        {BYTES(NAME), BYTES(NAME), 0},
        {BYTES(NAME_IN_LETTERS), BYTES(NAME), 0},
        {BYTES(NAME_IN_BOTH), BYTES(NAME), 0},
    };
    CHECK(sizeof NAME != sizeof NAME_IN_LETTERS);
    all_are_mended(spellings, COUNT_OF(spellings));
}

static void good_texts_are_joined(void) { all_are_mended(GOOD, COUNT_OF(GOOD)); }

static void comes_back(const sample *one) {
    sample whole = {one->whole, one->whole_len, one->whole, one->whole_len, 0};
    CHECK(is_made(&whole, mend_sample(&whole, whole.text_len)));
}

static void a_joined_text_comes_back(void) { each_sample(comes_back); }

/* What the library itself made, not what is expected of it. */
static void changes_nothing_again(const uint8_t *text, size_t text_len) {
    static uint8_t first[MOST_OUT];
    pulphopper_answer answer = mend(text, text_len, PULPHOPPER_MENDED_MOST(text_len));
    size_t length = answer.refusal == PULPHOPPER_DONE ? (size_t)answer.value : 0;
    CHECK(answer.refusal == PULPHOPPER_DONE && length <= PULPHOPPER_LIMIT);
    if (length > PULPHOPPER_LIMIT) {
        return;
    }
    memcpy(first, made, length);
    CHECK(is(mend(first, length, length), PULPHOPPER_DONE, length, 0) && memcmp(made, first, length) == 0);
}

static void changes_nothing_again_for(const sample *one) { changes_nothing_again(bytes_of(one->text), one->text_len); }

static void mending_again_changes_nothing(void) {
    each_sample(changes_nothing_again_for);
    repeat(long_text, sizeof long_text, BYTES("\xE1\x84\x80\xE1\x85\xA1\x80\xE1\x86\xA8 ab"));
    changes_nothing_again(long_text, PULPHOPPER_LIMIT / 2);
}

static void nothing_is_joined_across_an_ill_formed_byte(void) { all_are_mended(STRAYED, COUNT_OF(STRAYED)); }

/* A call between does not change what the next one answers. */
static void nothing_is_kept_between_calls_with(const sample *one) {
    static const sample open = {BYTES("\xE1\x84\x80"), BYTES("\xE1\x84\x80"), 0};
    CHECK(is_made(&open, mend_sample(&open, 3)));
    CHECK(is_made(one, mend_sample(one, one->whole_len)));
    CHECK(is_short(&open, mend_sample(&open, 2)));
    CHECK(is_made(one, mend_sample(one, one->whole_len)));
}

static void nothing_is_kept_between_calls(void) { each_sample(nothing_is_kept_between_calls_with); }

static pages text_pages;
static pages out_pages;

/* With the text and the buffer against the untouchable pages, once at their ends and once at their
   beginnings. */
static void touches_nothing_outside_with(const sample *one) {
    uint8_t *text = text_pages.good + text_pages.size - one->text_len;
    uint8_t *out = out_pages.good + out_pages.size - one->whole_len;
    memcpy(text, one->text, one->text_len);
    made = out;
    CHECK(is_made(one, pulphopper_mend(text, one->text_len, out, one->whole_len)));
    CHECK(memcmp(text, one->text, one->text_len) == 0);
    memcpy(text_pages.good, one->text, one->text_len);
    made = out_pages.good;
    CHECK(is_made(one, pulphopper_mend(text_pages.good, one->text_len, out_pages.good, one->whole_len)));
    CHECK(memcmp(text_pages.good, one->text, one->text_len) == 0);
}

static void no_byte_outside_the_buffers_is_touched(void) {
    text_pages = guarded_pages();
    out_pages = guarded_pages();
    if (text_pages.good != NULL && out_pages.good != NULL) {
        each_sample(touches_nothing_outside_with);
    }
}

void check_mending(void) {
    RUN(null_is_taken_for_a_text_of_length_0);
    RUN(null_is_taken_for_a_buffer_of_length_0);
    RUN(a_text_that_is_too_long_is_refused_unread);
    RUN(texts_of_16384_bytes_are_taken_and_of_16385_refused);
    RUN(a_buffer_may_be_said_to_have_any_length);
    RUN(every_kind_of_bad_input_is_mended);
    RUN(sequences_cut_at_the_end_are_mended);
    RUN(every_byte_alone_is_kept_or_replaced);
    RUN(exactly_enough_room_suffices);
    RUN(every_smaller_room_is_refused_and_changes_nothing);
    RUN(the_spellings_of_a_name_give_the_same_bytes);
    RUN(good_texts_are_joined);
    RUN(a_joined_text_comes_back);
    RUN(mending_again_changes_nothing);
    RUN(nothing_is_joined_across_an_ill_formed_byte);
    RUN(nothing_is_kept_between_calls);
    RUN(no_byte_outside_the_buffers_is_touched);
}
