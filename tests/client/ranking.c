/* Checks of pulphopper_rank, from the caller's side.
   They do not try ranking in depth: that is the work of the second program. */
#include "client.h"

#include <stdlib.h>
#include <string.h>

typedef struct label {
    const char *bytes;
    size_t length;
    int place; /* in the order: labels of one place rank equal */
} label;

#define NONE "\xEF\xBF\xBD" /* FFFD */

/* A boat's name, as finished syllables and as single letters. */
#define BOAT "\xED\x91\xB8\xEB\xA5\xB8"
#define BOAT_IN_LETTERS "\xE1\x84\x91\xE1\x85\xAE\xE1\x84\x85\xE1\x85\xB3\xE1\x86\xAB"

static const label IN_ORDER[] = {
    {BYTES(""), 0},
    {BYTES("0"), 1},
    {BYTES("0000000000000000000000000"), 1},
    {BYTES("0A"), 2},
    {BYTES("1"), 3},
    {BYTES("1\xE1\x84" "2"), 4}, /* a cut sequence parts the numbers */
    {BYTES("1" NONE "02"), 4},
    {BYTES("2"), 5},
    {BYTES("7"), 6},
    {BYTES("07"), 6},
    {BYTES("10"), 7},
    {BYTES("10 berths"), 8},
    {BYTES("4294967295"), 9},
    {BYTES("4294967296"), 10},
    {BYTES("18446744073709551615"), 11},
    {BYTES("18446744073709551616"), 12},
    {BYTES("0018446744073709551616"), 12},
    {BYTES("340282366920938463463374607431768211456"), 13},
    {BYTES("\0"), 14},
    {BYTES("/"), 15},
    {BYTES(":"), 16},
    {BYTES("berth"), 17},
    {BYTES("berth 2"), 18},
    {BYTES("berth 02"), 18},
    {BYTES("berth 10"), 19},
    {BYTES("berth 10a"), 20},
    {BYTES("berth a"), 21},
    {BYTES("\xD9\xA1"), 22}, /* 0661, a digit elsewhere */
    {BYTES("\xE1\x84\x80"), 23},
    {BYTES("\xE1\x84\x80" "1\xE1\x85\xA1"), 24},
    {BYTES("\xE1\x84\x80\x80\xE1\x85\xA1"), 25},
    {BYTES("\xEA\xB0\x80"), 26},
    {BYTES("\xE1\x84\x80\xE1\x85\xA1"), 26},
    {BYTES("\xEA\xB0\x80" "7"), 27},
    {BYTES("\xE1\x84\x80\xE1\x85\xA1" "007"), 27},
    {BYTES("\xE1\x84\x80\xE1\x85\xA1\xE1\x86\xA7"), 28},
    {BYTES("\xEA\xB0\x81"), 29},
    {BYTES("\xEA\xB0\x80\xE1\x86\xA8"), 29},
    {BYTES("\xE1\x84\x80\xE1\x85\xA1\xE1\x86\xA8"), 29},
    {BYTES("\xEA\xB0\x81\xE1\x86\xA8"), 30},
    {BYTES(BOAT " 2"), 31},
    {BYTES(BOAT_IN_LETTERS " 2"), 31},
    {BYTES(BOAT " 10"), 32},
    {BYTES(BOAT_IN_LETTERS " 010"), 32},
    {BYTES("\xEF\xBC\x91"), 33}, /* FF11 */
    {BYTES(NONE), 34},
    {BYTES("\x80"), 34},
    {BYTES("\xFF"), 34},
    {BYTES("\xF1\x80\x80"), 34},
    {BYTES("\xC0\xAF"), 35},
    {BYTES("\xF0\x90\x80\x80"), 36},
    {BYTES("\xF4\x8F\xBF\xBF"), 37},
};

/* ---- the call */

/* The call on copies of the labels, of which no byte may have changed, nor of their fences. */
static pulphopper_answer rank_bytes(const uint8_t *first, size_t first_len, const uint8_t *second, size_t second_len) {
    size_t first_at = FENCE + calls_made % 16;
    size_t second_at = FENCE + calls_made / 3 % 16;
    pulphopper_answer answer;
    calls_made++;
    fill(&text_lent, first_len, calls_made);
    fill(&out_lent, second_len, calls_made + 77);
    if (first_len > 0) {
        memcpy(text_lent.now + first_at, first, first_len);
    }
    if (second_len > 0) {
        memcpy(out_lent.now + second_at, second, second_len);
    }
    remember(&text_lent);
    remember(&out_lent);
    answer = pulphopper_rank(text_lent.now + first_at, first_len, out_lent.now + second_at, second_len);
    CHECK(unchanged_but(&text_lent, 0, 0));
    CHECK(unchanged_but(&out_lent, 0, 0));
    return answer;
}

static pulphopper_answer rank(const label *first, const label *second) {
    return rank_bytes(bytes_of(first->bytes), first->length, bytes_of(second->bytes), second->length);
}

static int is_ranked(pulphopper_answer answer, uint64_t order) { return is(answer, PULPHOPPER_DONE, order, 0); }

static int is_over(pulphopper_answer answer) { return is(answer, PULPHOPPER_OVER_LIMIT, 16384, 0); }

/* What is to be said of a label at the first place, beside one at the second. */
static uint64_t order_of(int first, int second) {
    return first < second ? PULPHOPPER_BEFORE : first == second ? PULPHOPPER_EQUAL : PULPHOPPER_AFTER;
}

/* Does `what` with every two labels there are, in either order. */
static void each_pair(void (*what)(const label *first, const label *second)) {
    size_t i, k;
    for (i = 0; i < COUNT_OF(IN_ORDER); i++) {
        for (k = 0; k < COUNT_OF(IN_ORDER); k++) {
            what(&IN_ORDER[i], &IN_ORDER[k]);
        }
    }
}

/* ---- the checks */

static void the_orders_have_the_header_s_numbers(void) {
    CHECK(PULPHOPPER_BEFORE == 0);
    CHECK(PULPHOPPER_EQUAL == 1);
    CHECK(PULPHOPPER_AFTER == 2);
}

static void ranks_by_place(const label *first, const label *second) {
    CHECK(is_ranked(rank(first, second), order_of(first->place, second->place)));
}

static void labels_rank_in_their_order(void) { each_pair(ranks_by_place); }

static void null_is_taken_for_a_label_of_length_0(void) {
    static const uint8_t zero = 0x30;
    CHECK(is_ranked(pulphopper_rank(NULL, 0, NULL, 0), PULPHOPPER_EQUAL));
    CHECK(is_ranked(pulphopper_rank(NULL, 0, &zero, 1), PULPHOPPER_BEFORE));
    CHECK(is_ranked(pulphopper_rank(&zero, 1, NULL, 0), PULPHOPPER_AFTER));
    CHECK(is_ranked(pulphopper_rank(NULL, 0, &zero, 0), PULPHOPPER_EQUAL));
    CHECK(is_ranked(pulphopper_rank(unreadable(), 0, &zero, 1), PULPHOPPER_BEFORE));
    CHECK(is_ranked(pulphopper_rank(&zero, 1, unreadable(), 0), PULPHOPPER_AFTER));
    CHECK(is_ranked(pulphopper_rank(unreadable(), 0, NULL, 0), PULPHOPPER_EQUAL));
}

/* As the first label, as the second and as both; the other one is not read either. */
static void refused_unread(size_t length) {
    static const uint8_t single = 0x41;
    CHECK(is_over(pulphopper_rank(unreadable(), length, &single, 1)));
    CHECK(is_over(pulphopper_rank(&single, 1, unreadable(), length)));
    CHECK(is_over(pulphopper_rank(unreadable(), length, NULL, 0)));
    CHECK(is_over(pulphopper_rank(NULL, 0, unreadable(), length)));
    CHECK(is_over(pulphopper_rank(unreadable(), length, unreadable(), length)));
    CHECK(is_over(pulphopper_rank(unreadable(), length, unreadable(), PULPHOPPER_LIMIT)));
    CHECK(is_over(pulphopper_rank(unreadable(), PULPHOPPER_LIMIT, unreadable(), length)));
}

static void a_label_that_is_too_long_is_refused_unread(void) { each_length_over(SIZE_MAX, 1, refused_unread); }

static uint8_t long_label[MOST_TEXT];
static uint8_t other_label[MOST_TEXT];

/* Labels of LIMIT bytes, of which the last of the second is changed; one byte more, whatever it is,
   is refused. */
static void the_limit_holds_for(int byte, int last, uint64_t order) {
    memset(long_label, byte, sizeof long_label);
    memset(other_label, byte, sizeof other_label);
    other_label[PULPHOPPER_LIMIT - 1] = (uint8_t)last;
    CHECK(is_ranked(rank_bytes(long_label, PULPHOPPER_LIMIT, other_label, PULPHOPPER_LIMIT), order));
    CHECK(is_ranked(rank_bytes(other_label, PULPHOPPER_LIMIT, long_label, PULPHOPPER_LIMIT), 2 - order));
    CHECK(is_over(rank_bytes(long_label, PULPHOPPER_LIMIT + 1, other_label, PULPHOPPER_LIMIT)));
    CHECK(is_over(rank_bytes(long_label, PULPHOPPER_LIMIT, other_label, PULPHOPPER_LIMIT + 1)));
    CHECK(is_over(rank_bytes(long_label, PULPHOPPER_LIMIT + 1, other_label, PULPHOPPER_LIMIT + 1)));
}

static void labels_of_16384_bytes_are_taken_and_of_16385_refused(void) {
    the_limit_holds_for('7', '7', PULPHOPPER_EQUAL);
    the_limit_holds_for('7', '8', PULPHOPPER_BEFORE);
    the_limit_holds_for('0', '1', PULPHOPPER_BEFORE);
    the_limit_holds_for('A', '9', PULPHOPPER_AFTER);
    the_limit_holds_for(0x80, 0xFF, PULPHOPPER_EQUAL);
    the_limit_holds_for(0xE1, 0x84, PULPHOPPER_AFTER); /* the last two bytes are one subpart */
}

/* A number of 16,384 digits beside its own end: zeros in front count for nothing. */
static void zeros_in_front_of_a_number_do_not_count(void) {
    size_t length;
    memset(long_label, '0', sizeof long_label);
    memset(long_label + PULPHOPPER_LIMIT - 300, '9', 300);
    for (length = 298; length <= 302; length++) {
        const uint8_t *end = long_label + PULPHOPPER_LIMIT - length;
        uint64_t order = length < 300 ? PULPHOPPER_AFTER : PULPHOPPER_EQUAL;
        CHECK(is_ranked(rank_bytes(long_label, PULPHOPPER_LIMIT, end, length), order));
        CHECK(is_ranked(rank_bytes(end, length, long_label, PULPHOPPER_LIMIT), 2 - order));
    }
}

/* After the length the number, the letters or the sequence would go on. */
static void a_label_ends_where_its_length_says(void) {
    static const char number[] = "1234567";
    static const char letters[] = "\xE1\x84\x80\xE1\x85\xA1\xE1\x86\xA8";
    size_t i, k;
    for (i = 0; i < sizeof number; i++) {
        for (k = 0; k < sizeof number; k++) {
            CHECK(is_ranked(pulphopper_rank(bytes_of(number), i, bytes_of(number), k), order_of((int)i, (int)k)));
        }
    }
    CHECK(is_ranked(pulphopper_rank(bytes_of(letters), 6, bytes_of("\xEA\xB0\x80"), 3), PULPHOPPER_EQUAL));
    CHECK(is_ranked(pulphopper_rank(bytes_of(letters), 3, bytes_of("\xEA\xB0\x80"), 3), PULPHOPPER_BEFORE));
    CHECK(is_ranked(pulphopper_rank(bytes_of(letters), 2, bytes_of(NONE), 3), PULPHOPPER_EQUAL));
    CHECK(is_ranked(pulphopper_rank(bytes_of(letters), 8, bytes_of("\xEA\xB0\x80" NONE), 6), PULPHOPPER_EQUAL));
}

/* The second label is the first, a part of it, or has a part of it: nothing is written, so it may
   be. */
static void labels_may_overlap(void) {
    static const char bytes[] = "7007 07";
    const uint8_t *at = bytes_of(bytes);
    size_t i;
    for (i = 0; i < COUNT_OF(IN_ORDER); i++) {
        const uint8_t *same = bytes_of(IN_ORDER[i].bytes);
        CHECK(is_ranked(pulphopper_rank(same, IN_ORDER[i].length, same, IN_ORDER[i].length), PULPHOPPER_EQUAL));
    }
    CHECK(is_ranked(pulphopper_rank(at + 1, 3, at + 3, 1), PULPHOPPER_EQUAL));
    CHECK(is_ranked(pulphopper_rank(at, 4, at + 1, 3), PULPHOPPER_AFTER));
    CHECK(is_ranked(pulphopper_rank(at + 3, 4, at + 1, 6), PULPHOPPER_EQUAL));
    CHECK(is_ranked(pulphopper_rank(at + 1, 3, at, 4), PULPHOPPER_BEFORE));
}

/* A call between does not change what the next one answers, nor do those of the other functions. */
static void nothing_is_kept_with(const label *first, const label *second) {
    static const label open = {BYTES("\xE1\x84\x80"), 23};
    uint64_t order = order_of(first->place, second->place);
    CHECK(is_ranked(rank(&open, &open), PULPHOPPER_EQUAL));
    CHECK(is_ranked(rank(first, second), order));
    CHECK(is_over(pulphopper_rank(unreadable(), SIZE_MAX, NULL, 0)));
    CHECK(is_ranked(rank(first, second), order));
}

static void no_order_is_kept_between_calls(void) { each_pair(nothing_is_kept_with); }

static pages first_pages;
static pages second_pages;

/* With both labels against the untouchable pages, at their ends and at their beginnings. */
static void touches_nothing_outside(const label *first, const label *second) {
    uint64_t order = order_of(first->place, second->place);
    uint8_t *first_end = first_pages.good + first_pages.size - first->length;
    uint8_t *second_end = second_pages.good + second_pages.size - second->length;
    memcpy(first_end, first->bytes, first->length);
    memcpy(second_end, second->bytes, second->length);
    CHECK(is_ranked(pulphopper_rank(first_end, first->length, second_end, second->length), order));
    CHECK(memcmp(first_end, first->bytes, first->length) == 0);
    CHECK(memcmp(second_end, second->bytes, second->length) == 0);
    memcpy(first_pages.good, first->bytes, first->length);
    memcpy(second_pages.good, second->bytes, second->length);
    CHECK(is_ranked(pulphopper_rank(first_pages.good, first->length, second_pages.good, second->length), order));
    CHECK(is_ranked(pulphopper_rank(first_pages.good, first->length, second_end, second->length), order));
}

/* A label that ends within a character or a number, in front of a page that may not be read. */
static void is_not_read_on(const label *first, const label *second) {
    size_t length;
    for (length = 0; length <= first->length; length++) {
        uint8_t *cut = first_pages.good + first_pages.size - length;
        pulphopper_answer answer;
        memcpy(cut, first->bytes, length);
        answer = pulphopper_rank(cut, length, bytes_of(second->bytes), second->length);
        CHECK(answer.refusal == PULPHOPPER_DONE && answer.count == 0 && answer.value <= PULPHOPPER_AFTER);
        CHECK(is_ranked(rank_bytes(cut, length, bytes_of(second->bytes), second->length), answer.value));
        CHECK(is_ranked(pulphopper_rank(bytes_of(second->bytes), second->length, cut, length), 2 - answer.value));
    }
}

static void no_byte_outside_the_labels_is_touched(void) {
    first_pages = guarded_pages();
    second_pages = guarded_pages();
    if (first_pages.good != NULL && second_pages.good != NULL) {
        each_pair(touches_nothing_outside);
        each_pair(is_not_read_on);
    }
}

/* ---- sorting */

static int by_rank(const void *first, const void *second) {
    const label *one = (const label *)first;
    const label *other = (const label *)second;
    pulphopper_answer answer = rank(one, other);
    return answer.value == PULPHOPPER_BEFORE ? -1 : answer.value == PULPHOPPER_EQUAL ? 0 : 1;
}

static void shuffle(label *list, size_t count, unsigned long *seed) {
    for (; count > 1; count--) {
        label last = list[count - 1];
        size_t other;
        *seed = (*seed * 1103515245UL + 12345UL) & 0xFFFFFFFFUL;
        other = (*seed >> 16) % count;
        list[count - 1] = list[other];
        list[other] = last;
    }
}

static void a_list_is_sorted_by_it(void) {
    static label list[COUNT_OF(IN_ORDER)];
    unsigned long seed = 2026;
    size_t i, k;
    memcpy(list, IN_ORDER, sizeof list);
    for (i = 0; i < 20; i++) {
        shuffle(list, COUNT_OF(list), &seed);
        qsort(list, COUNT_OF(list), sizeof list[0], by_rank);
        for (k = 0; k < COUNT_OF(list); k++) {
            CHECK(list[k].place == IN_ORDER[k].place);
        }
    }
}

void check_ranking(void) {
    RUN(the_orders_have_the_header_s_numbers);
    RUN(labels_rank_in_their_order);
    RUN(null_is_taken_for_a_label_of_length_0);
    RUN(a_label_that_is_too_long_is_refused_unread);
    RUN(labels_of_16384_bytes_are_taken_and_of_16385_refused);
    RUN(zeros_in_front_of_a_number_do_not_count);
    RUN(a_label_ends_where_its_length_says);
    RUN(labels_may_overlap);
    RUN(no_order_is_kept_between_calls);
    RUN(no_byte_outside_the_labels_is_touched);
    RUN(a_list_is_sorted_by_it);
}
