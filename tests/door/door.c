/* The C calls behind one door: reads calls of the kinds that C has (docs/CALLS.md) on standard
   input, makes them by the archive, writes the answers. It makes up no call and judges no answer:
   the second program does both. It judges only that a call changed nothing beside what it was
   lent. */
#ifndef _DEFAULT_SOURCE
#define _DEFAULT_SOURCE 1 /* for MAP_ANONYMOUS */
#endif
#include "pulphopper.h"

#include <stdio.h>
#include <stdlib.h>
#include <string.h>
#include <sys/mman.h>
#include <unistd.h>

/* Ends the door where its answers would be worth nothing: the second program then misses one. */
static void trouble(const char *what) {
    fprintf(stderr, "door: %s\n", what);
    exit(2);
}

/* ---- slots: where the buffers of a call stand */

#define CANARIES 64
static uint8_t canaries[CANARIES];

/* Bytes between two pages that may not be touched. The buffer of a call stands there, just as long
   as is said, against one of the pages; at its other side stand canaries. Its elements are bytes,
   or 16-bit units, which then stand at even places, as a page begins at one. */
struct slot {
    uint8_t *first; /* of the bytes between the pages */
    size_t size;
    uint8_t *bytes; /* of the buffer */
    size_t length;  /* in elements */
    size_t element; /* how many bytes each has: 1 or 2 */
    uint8_t *canaries;
    uint8_t *pointer; /* what the call is given */
};

static struct slot new_slot(size_t most) {
    struct slot slot = {NULL, 0, NULL, 0, 1, NULL, NULL};
    size_t page = (size_t)sysconf(_SC_PAGESIZE);
    uint8_t *all;
    slot.size = (most + CANARIES + page - 1) / page * page;
    all = (uint8_t *)mmap(NULL, page + slot.size + page, PROT_NONE, MAP_PRIVATE | MAP_ANONYMOUS, -1, 0);
    if (all == MAP_FAILED || mprotect(all + page, slot.size, PROT_READ | PROT_WRITE) != 0) {
        trouble("there are no pages for the buffers");
    }
    slot.first = all + page;
    return slot;
}

/* Lays a buffer against the page after it, or against the page in front of it; there an empty one
   is NULL, which the header allows. */
static void lay(struct slot *slot, size_t length, size_t element, int at_end) {
    size_t in_bytes = element * length;
    slot->length = length;
    slot->element = element;
    slot->bytes = at_end ? slot->first + slot->size - in_bytes : slot->first;
    slot->canaries = at_end ? slot->bytes - CANARIES : slot->bytes + in_bytes;
    slot->pointer = length == 0 && !at_end ? NULL : slot->bytes;
    memcpy(slot->canaries, canaries, CANARIES);
}

static void check_canaries(const struct slot *slot) {
    if (memcmp(slot->canaries, canaries, CANARIES) != 0) {
        trouble("a byte beside a buffer was changed");
    }
}

static uint16_t *units_of(uint8_t *place) { return (uint16_t *)(void *)place; }

/* ---- the wire form */

enum { NAMING = 8, READING_A_NAME = 9, MENDING = 12, RANKING = 14, MENDING_UNITS = 22 };
enum { HEAD_NUMBERS = 8, ANSWER_NUMBERS = 4, MOST_ELEMENTS = 20000, MOST_ROOM = 120000, UNTOUCHED = 0xA5 };

struct head {
    uint32_t kind;
    uint32_t x;
    uint32_t room;
    uint32_t na;
    uint32_t nb;
};

static int read_whole(uint8_t *bytes, size_t count) { return fread(bytes, 1, count, stdin) == count; }

static uint32_t number_at(const uint8_t *bytes, size_t place) {
    const uint8_t *at = bytes + 4 * place;
    return (uint32_t)at[0] | (uint32_t)at[1] << 8 | (uint32_t)at[2] << 16 | (uint32_t)at[3] << 24;
}

static void put_number(uint8_t *bytes, size_t place, uint32_t number) {
    size_t i;
    for (i = 0; i < 4; i++) {
        bytes[4 * place + i] = (uint8_t)(number >> (8 * i) & 0xFF);
    }
}

static int read_head(struct head *head) {
    uint8_t bytes[4 * HEAD_NUMBERS];
    if (!read_whole(bytes, sizeof bytes)) {
        return 0;
    }
    head->kind = number_at(bytes, 0);
    head->x = number_at(bytes, 1);
    head->room = number_at(bytes, 5);
    head->na = number_at(bytes, 6);
    head->nb = number_at(bytes, 7);
    return 1;
}

static int has_call(uint32_t kind) {
    return kind == NAMING || kind == READING_A_NAME || kind == MENDING || kind == RANKING || kind == MENDING_UNITS;
}

static int keeps_bounds(const struct head *head) {
    uint32_t most_of_b = head->kind == RANKING ? MOST_ELEMENTS : 0;
    return head->room <= MOST_ROOM && head->na <= MOST_ELEMENTS && head->nb <= most_of_b;
}

/* The elements of the buffers of a call: units, or bytes. */
static size_t bytes_of_element(uint32_t kind) { return kind == MENDING_UNITS ? 2 : 1; }

/* Naming takes no elements; those that come are code points, and are passed over. */
static size_t bytes_of_given(uint32_t kind) { return kind == NAMING ? 4 : bytes_of_element(kind); }

/* Fills a buffer with elements in wire form. There a unit is two bytes, low byte first; to the call
   it is a number. */
static void take(struct slot *slot, const uint8_t *wire) {
    size_t i;
    if (slot->element == 1) {
        memcpy(slot->bytes, wire, slot->length);
        return;
    }
    for (i = 0; i < slot->length; i++) {
        units_of(slot->bytes)[i] = (uint16_t)(wire[2 * i] | wire[2 * i + 1] << 8);
    }
}

/* The elements of a buffer in wire form; good until the next are asked for. */
static const uint8_t *wire_form(const struct slot *slot) {
    static uint8_t wire[2 * MOST_ROOM];
    size_t i;
    if (slot->element == 1) {
        return slot->bytes;
    }
    for (i = 0; i < slot->length; i++) {
        uint16_t unit = units_of(slot->bytes)[i];
        wire[2 * i] = (uint8_t)(unit & 0xFF);
        wire[2 * i + 1] = (uint8_t)(unit >> 8);
    }
    return wire;
}

static int is_as_given(const struct slot *slot, const uint8_t *given) {
    return memcmp(wire_form(slot), given, slot->element * slot->length) == 0;
}

/* ---- one call */

static uint8_t first_given[4 * MOST_ELEMENTS];
static uint8_t second_given[MOST_ELEMENTS];
static uint8_t untouched[2 * MOST_ROOM];
static struct slot first_text;
static struct slot second_text;
static struct slot lent;

/* Each buffer changes its side on turns of its own, so that they meet in every way. */
static void lay_buffers(const struct head *head, unsigned long turn) {
    size_t element = bytes_of_element(head->kind);
    lay(&first_text, head->kind == NAMING ? 0 : head->na, element, (turn & 1) != 0);
    lay(&second_text, head->nb, element, (turn & 2) != 0);
    lay(&lent, head->room, element, (turn & 4) != 0);
    take(&first_text, first_given);
    take(&second_text, second_given);
    take(&lent, untouched);
}

static pulphopper_answer call(const struct head *head) {
    switch (head->kind) {
    case NAMING:
        return pulphopper_name(head->x, lent.pointer, lent.length);
    case READING_A_NAME:
        return pulphopper_read_name(first_text.pointer, first_text.length);
    case MENDING:
        return pulphopper_mend(first_text.pointer, first_text.length, lent.pointer, lent.length);
    case MENDING_UNITS:
        return pulphopper_mend_units(units_of(first_text.pointer), first_text.length, units_of(lent.pointer), lent.length);
    default:
        return pulphopper_rank(first_text.pointer, first_text.length, second_text.pointer, second_text.length);
    }
}

static void check_buffers(void) {
    check_canaries(&first_text);
    check_canaries(&second_text);
    check_canaries(&lent);
    if (!is_as_given(&first_text, first_given) || !is_as_given(&second_text, second_given)) {
        trouble("a text that was only to be read was changed");
    }
}

static int put_bytes(const uint8_t *bytes, size_t count) { return fwrite(bytes, 1, count, stdout) == count; }

/* The count goes out whatever the kind: where the kind counts nothing it has to be 0. Each answer
   goes out at once, so that a call that ends the door is the one whose answer is missing. */
static void write_answer(pulphopper_answer answer) {
    uint8_t bytes[4 * ANSWER_NUMBERS];
    if (answer.value > UINT32_MAX) {
        trouble("a value has more than 32 bits");
    }
    put_number(bytes, 0, answer.refusal);
    put_number(bytes, 1, (uint32_t)answer.value);
    put_number(bytes, 2, answer.count);
    put_number(bytes, 3, 0);
    if (!put_bytes(bytes, sizeof bytes) || !put_bytes(wire_form(&lent), lent.element * lent.length) || fflush(stdout) != 0) {
        trouble("an answer cannot be written");
    }
}

/* Answers one call: 0 at the end of the input, and where a call is none. */
static int one_call(unsigned long turn) {
    struct head head;
    pulphopper_answer answer;
    if (!read_head(&head) || !has_call(head.kind) || !keeps_bounds(&head)) {
        return 0;
    }
    if (!read_whole(first_given, bytes_of_given(head.kind) * head.na) || !read_whole(second_given, head.nb)) {
        return 0;
    }
    lay_buffers(&head, turn);
    answer = call(&head);
    check_buffers();
    write_answer(answer);
    return 1;
}

int main(void) {
    unsigned long turn = 0;
    memset(canaries, 0x3C, sizeof canaries);
    memset(untouched, UNTOUCHED, sizeof untouched);
    first_text = new_slot(2 * MOST_ELEMENTS);
    second_text = new_slot(MOST_ELEMENTS);
    lent = new_slot(2 * MOST_ROOM);
    while (one_call(turn)) {
        turn++;
    }
    return 0;
}
