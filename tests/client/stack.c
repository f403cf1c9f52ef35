/* How much stack a call takes: each runs in a thread that has 64 KiB, on texts of the limit's size
   too, and may need at most STACK_MOST of them. It holds no answer to its text, beyond the refusal:
   mending.c, units.c, naming.c and ranking.c do. */
#ifndef _DEFAULT_SOURCE
#define _DEFAULT_SOURCE 1 /* for pthread_attr_setstack */
#endif
#include "client.h"

#include <pthread.h>
#include <string.h>

/* ---- a call in a thread, with its stack painted */

#define STACK ((size_t)64 * 1024)
#define PAINT 0xC0 /* no text here has this byte, nor has a unit */
/* Bytes below the caller's mark: its own frame, and what painting itself needs. */
#define UNPAINTED 256

typedef struct task {
    pulphopper_answer (*call)(const struct task *one);
    const uint8_t *text;
    size_t text_len;
    const uint8_t *other;
    size_t other_len;
    uint8_t *out;
    size_t out_len;
    const uint16_t *units; /* with text_len and out_len, in place of text and out */
    uint16_t *units_out;
    uint32_t code;
    pulphopper_answer answer;
    size_t taken; /* from the caller down to the lowest byte that was written; at least UNPAINTED */
} task;

static pages stack;
static size_t most_taken;

/* The thread paints what is below itself just before the call, and looks just after it: how deep
   the start and the end of a thread reach is the C library's matter, and can hide a call. */
static void *run_painted(void *given) {
    task *one = (task *)given;
    uint8_t mark = 0;
    size_t top = (size_t)((uintptr_t)&mark - (uintptr_t)stack.good);
    size_t lowest = 0;
    memset(stack.good, PAINT, top - UNPAINTED);
    one->answer = one->call(one);
    while (lowest < top - UNPAINTED && stack.good[lowest] == PAINT) {
        lowest++;
    }
    one->taken = top - lowest;
    return NULL;
}

static size_t stack_of(task *one) {
    pthread_attr_t attributes;
    pthread_t thread;
    one->taken = STACK; /* stays, and fails, where there is no thread */
    CHECK(pthread_attr_init(&attributes) == 0);
    CHECK(pthread_attr_setstack(&attributes, stack.good, stack.size) == 0);
    if (pthread_create(&thread, &attributes, run_painted, one) == 0) {
        CHECK(pthread_join(thread, NULL) == 0);
    }
    CHECK(pthread_attr_destroy(&attributes) == 0);
    return one->taken;
}

/* The call answers so, and takes no more stack than it may. */
static void takes_little(task one, uint32_t refusal) {
    size_t taken = stack_of(&one);
    CHECK(one.answer.refusal == refusal);
    CHECK(taken <= STACK_MOST);
    if (taken > most_taken) {
        most_taken = taken;
    }
}

/* ---- the measure itself */

static pulphopper_answer call_nothing(const task *one) { return one->answer; }

#define KNOWN_SIZE ((size_t)20 * 1024)

static pulphopper_answer call_with_a_known_size(const task *one) {
    volatile uint8_t known[KNOWN_SIZE];
    pulphopper_answer answer = one->answer;
    size_t i;
    for (i = 0; i < KNOWN_SIZE; i++) {
        known[i] = 1;
        answer.value += known[i];
    }
    return answer;
}

static task task_of(pulphopper_answer (*call)(const task *one)) {
    task one;
    memset(&one, 0, sizeof one);
    one.call = call;
    return one;
}

/* Else a call that takes too much could pass. */
static void the_measure_sees_what_is_taken(void) {
    task nothing = task_of(call_nothing);
    task known = task_of(call_with_a_known_size);
    CHECK(stack_of(&nothing) == UNPAINTED);
    CHECK(stack_of(&known) >= KNOWN_SIZE && known.taken <= KNOWN_SIZE + 2 * UNPAINTED);
    CHECK(known.taken > STACK_MOST && known.answer.value == KNOWN_SIZE);
}

/* ---- texts of the limit's size and one byte or unit more, each a piece repeated */

static const struct piece {
    const char *bytes;
    size_t length;
} PIECES[] = {
    {BYTES("A")},
    {BYTES("\xEA\xB0\x81")},                                           /* a syllable */
    {BYTES("\xE1\x84\x80\xE1\x85\xA1\xE1\x86\xA8")},                   /* the same in letters */
    {BYTES("\xE1\x84\x80\xE1\xA1\xE1\x86\xA8 b\xEA\xB0\xF0\x90\x80")}, /* with bytes lost */
    {BYTES("\xE1")},                                                   /* nothing but damage: three bytes for each */
    {BYTES("\xF0\x90\x80\x80")},
    {BYTES("berth 07, \xEA\xB0\x81")},
    {BYTES("0")},
    {BYTES("9")},
};

static const struct piece_of_units {
    uint16_t units[8];
    size_t length;
} PIECES_OF_UNITS[] = {
    {{0x41}, 1},
    {{0xAC01}, 1},                                               /* a syllable */
    {{0x1100, 0x1161, 0x11A8}, 3},                               /* the same in letters */
    {{0xAC00, 0x11A8}, 2},                                       /* and in some of both */
    {{0x1100, 0xD83D, 0x1161, 0x20, 0xDEA2, 0xAC00, 0x11A8}, 7}, /* with units lost */
    {{0xD800}, 1},                                               /* nothing but damage */
    {{0xDC00}, 1},
    {{0xD83D, 0xDEA2}, 2},                                       /* a pair; the limit cuts none */
    {{0x1100, 0xD83D, 0xDEA2}, 3},
};

static uint8_t texts[COUNT_OF(PIECES)][MOST_TEXT];
static uint8_t room[MOST_OUT];
static uint16_t texts_of_units[COUNT_OF(PIECES_OF_UNITS)][MOST_TEXT];
static uint16_t room_for_units[MOST_TEXT];

static void make_texts(void) {
    size_t i;
    for (i = 0; i < COUNT_OF(PIECES); i++) {
        repeat(texts[i], MOST_TEXT, PIECES[i].bytes, PIECES[i].length);
    }
    for (i = 0; i < COUNT_OF(PIECES_OF_UNITS); i++) {
        repeat_units(texts_of_units[i], MOST_TEXT, PIECES_OF_UNITS[i].units, PIECES_OF_UNITS[i].length);
    }
}

/* ---- the calls */

static pulphopper_answer call_mend(const task *one) { return pulphopper_mend(one->text, one->text_len, one->out, one->out_len); }

static void mending_takes_little(const uint8_t *text, size_t text_len, size_t out_len, uint32_t refusal) {
    task one = task_of(call_mend);
    one.text = text;
    one.text_len = text_len;
    one.out = out_len > 0 ? room : NULL;
    one.out_len = out_len;
    takes_little(one, refusal);
}

/* With a full buffer, one that is just large enough, shorter ones and none. */
static void mending_takes_little_stack(void) {
    size_t i;
    for (i = 0; i < COUNT_OF(texts); i++) {
        size_t needed = (size_t)pulphopper_mend(texts[i], PULPHOPPER_LIMIT, NULL, 0).value;
        mending_takes_little(texts[i], PULPHOPPER_LIMIT, PULPHOPPER_MENDED_MOST(PULPHOPPER_LIMIT), PULPHOPPER_DONE);
        mending_takes_little(texts[i], PULPHOPPER_LIMIT, needed, PULPHOPPER_DONE);
        mending_takes_little(texts[i], PULPHOPPER_LIMIT, needed - 1, PULPHOPPER_NO_ROOM);
        mending_takes_little(texts[i], PULPHOPPER_LIMIT, 1, PULPHOPPER_NO_ROOM);
        mending_takes_little(texts[i], PULPHOPPER_LIMIT, 0, PULPHOPPER_NO_ROOM);
        mending_takes_little(texts[i], PULPHOPPER_LIMIT + 1, MOST_OUT, PULPHOPPER_OVER_LIMIT);
    }
    mending_takes_little(NULL, 0, 0, PULPHOPPER_DONE);
}

static pulphopper_answer call_mend_units(const task *one) {
    return pulphopper_mend_units(one->units, one->text_len, one->units_out, one->out_len);
}

static void mending_units_takes_little(const uint16_t *text, size_t text_len, size_t out_len, uint32_t refusal) {
    task one = task_of(call_mend_units);
    one.units = text;
    one.text_len = text_len;
    one.units_out = out_len > 0 ? room_for_units : NULL;
    one.out_len = out_len;
    takes_little(one, refusal);
}

/* With a full buffer, one that is just large enough, shorter ones and none. */
static void mending_units_takes_little_stack(void) {
    size_t i;
    for (i = 0; i < COUNT_OF(texts_of_units); i++) {
        const uint16_t *text = texts_of_units[i];
        size_t needed = (size_t)pulphopper_mend_units(text, PULPHOPPER_LIMIT, NULL, 0).value;
        mending_units_takes_little(text, PULPHOPPER_LIMIT, PULPHOPPER_MENDED_UNITS_MOST(PULPHOPPER_LIMIT), PULPHOPPER_DONE);
        mending_units_takes_little(text, PULPHOPPER_LIMIT, needed, PULPHOPPER_DONE);
        mending_units_takes_little(text, PULPHOPPER_LIMIT, needed - 1, PULPHOPPER_NO_ROOM);
        mending_units_takes_little(text, PULPHOPPER_LIMIT, 1, PULPHOPPER_NO_ROOM);
        mending_units_takes_little(text, PULPHOPPER_LIMIT, 0, PULPHOPPER_NO_ROOM);
        mending_units_takes_little(text, PULPHOPPER_LIMIT + 1, MOST_TEXT, PULPHOPPER_OVER_LIMIT);
    }
    mending_units_takes_little(NULL, 0, 0, PULPHOPPER_DONE);
}

#define LONGEST_NAMED 0xAEA2 /* HANGUL SYLLABLE GGYAEGG */

static pulphopper_answer call_name(const task *one) { return pulphopper_name(one->code, one->out, one->out_len); }

static void naming_takes_little(uint32_t code, size_t out_len, uint32_t refusal) {
    task one = task_of(call_name);
    one.code = code;
    one.out = room;
    one.out_len = out_len;
    takes_little(one, refusal);
}

static pulphopper_answer call_read_name(const task *one) { return pulphopper_read_name(one->text, one->text_len); }

static void reading_takes_little(const uint8_t *name, size_t name_len, uint32_t refusal) {
    task one = task_of(call_read_name);
    one.text = name;
    one.text_len = name_len;
    takes_little(one, refusal);
}

/* Every syllable is named and its name read, one after the other: the answer is that of the last,
   or the first that is wrong. */
static pulphopper_answer call_every_name(const task *one) {
    pulphopper_answer answer = one->answer;
    uint32_t code;
    for (code = 0xAC00; code <= 0xD7A3 && answer.refusal == PULPHOPPER_DONE; code++) {
        answer = pulphopper_name(code, one->out, one->out_len);
        answer = pulphopper_read_name(one->out, (size_t)answer.value);
    }
    return answer;
}

static void names_take_little_stack(void) {
    static const char longest[] = "HANGUL SYLLABLE GGYAEGG";
    static uint8_t long_name[MOST_TEXT];
    task every = task_of(call_every_name);
    every.out = room;
    every.out_len = PULPHOPPER_NAME_MOST;
    takes_little(every, PULPHOPPER_DONE);
    naming_takes_little(LONGEST_NAMED, PULPHOPPER_NAME_MOST, PULPHOPPER_DONE);
    naming_takes_little(LONGEST_NAMED, PULPHOPPER_NAME_MOST - 1, PULPHOPPER_NO_ROOM);
    naming_takes_little(UINT32_MAX, PULPHOPPER_NAME_MOST, PULPHOPPER_NO_SYLLABLE);
    repeat(long_name, sizeof long_name, BYTES(longest));
    reading_takes_little(long_name, sizeof longest - 1, PULPHOPPER_DONE);
    reading_takes_little(long_name, sizeof longest, PULPHOPPER_NO_NAME);
    reading_takes_little(long_name, PULPHOPPER_LIMIT, PULPHOPPER_NO_NAME);
    reading_takes_little(long_name, PULPHOPPER_LIMIT + 1, PULPHOPPER_OVER_LIMIT);
    reading_takes_little(NULL, 0, PULPHOPPER_NO_NAME);
}

static pulphopper_answer call_rank(const task *one) { return pulphopper_rank(one->text, one->text_len, one->other, one->other_len); }

static void ranking_takes_little(const uint8_t *first, const uint8_t *second, size_t length, uint32_t refusal) {
    task one = task_of(call_rank);
    one.text = first;
    one.text_len = length;
    one.other = second;
    one.other_len = length;
    takes_little(one, refusal);
}

/* Each text with each, and with one that is another only at its end, so that all of both is
   read. */
static void ranking_takes_little_stack(void) {
    static uint8_t late[MOST_TEXT];
    size_t i, k;
    for (i = 0; i < COUNT_OF(texts); i++) {
        for (k = 0; k < COUNT_OF(texts); k++) {
            ranking_takes_little(texts[i], texts[k], PULPHOPPER_LIMIT, PULPHOPPER_DONE);
        }
        memcpy(late, texts[i], sizeof late);
        late[PULPHOPPER_LIMIT - 1] = '1';
        ranking_takes_little(texts[i], late, PULPHOPPER_LIMIT, PULPHOPPER_DONE);
        ranking_takes_little(late, texts[i], PULPHOPPER_LIMIT, PULPHOPPER_DONE);
        ranking_takes_little(texts[i], late, PULPHOPPER_LIMIT + 1, PULPHOPPER_OVER_LIMIT);
    }
    ranking_takes_little(NULL, NULL, 0, PULPHOPPER_DONE);
}

size_t check_stack(void) {
    stack = guarded_bytes(STACK);
    CHECK(stack.good != NULL);
    if (stack.good != NULL) {
        make_texts();
        RUN(the_measure_sees_what_is_taken);
        RUN(mending_takes_little_stack);
        RUN(mending_units_takes_little_stack);
        RUN(names_take_little_stack);
        RUN(ranking_takes_little_stack);
    }
    return most_taken;
}
