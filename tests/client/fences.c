/* Counting, lent buffers between fences, and pages that may not be touched: client.h says what each
   is for. It calls nothing of the library. */
#ifndef _DEFAULT_SOURCE
#define _DEFAULT_SOURCE 1 /* for MAP_ANONYMOUS */
#endif
#include "client.h"

#include <stdio.h>
#include <string.h>
#ifdef __linux__
#include <sys/mman.h>
#include <unistd.h>
#endif

/* ---- counting */

unsigned long passed;
unsigned long failed;

void check(int holds, const char *where, int line, const char *what) {
    if (holds) {
        passed++;
    } else {
        failed++;
        printf("client: FAILED: %s, line %d: %s\n", where, line, what);
    }
}

void announce(const char *name) { printf("client: %s\n", name); }

/* ---- lent buffers */

lent text_lent;
lent out_lent;
size_t calls_made;

void fill(lent *buffer, size_t size, size_t seed) {
    size_t i;
    buffer->used = FENCE + 16 + size + FENCE;
    for (i = 0; i < buffer->used; i++) {
        buffer->now[i] = (uint8_t)((i * 37 + seed * 101 + i / 251) & 0xFF);
    }
}

void remember(lent *buffer) { memcpy(buffer->before, buffer->now, buffer->used); }

int unchanged_but(const lent *buffer, size_t from, size_t count) {
    size_t after = from + count;
    return memcmp(buffer->now, buffer->before, from) == 0 &&
           memcmp(buffer->now + after, buffer->before + after, buffer->used - after) == 0;
}

/* ---- pages that may not be touched */

#ifdef __linux__
static size_t page_size(void) { return (size_t)sysconf(_SC_PAGESIZE); }
#else
static size_t page_size(void) { return 0; }
#endif

pages guarded_bytes(size_t size) {
    pages got = {NULL, 0};
#ifdef __linux__
    size_t page = page_size();
    void *all = mmap(NULL, page + size + page, PROT_NONE, MAP_PRIVATE | MAP_ANONYMOUS, -1, 0);
    if (all != MAP_FAILED && mprotect((uint8_t *)all + page, size, PROT_READ | PROT_WRITE) == 0) {
        got.good = (uint8_t *)all + page;
        got.size = size;
    }
    CHECK(got.good != NULL);
#else
    (void)size;
#endif
    return got;
}

pages guarded_pages(void) { return guarded_bytes(page_size()); }

/* NULL if there are no such pages. */
static uint8_t *untouchable_page(void) {
    static pages guarded = {NULL, 0};
    if (guarded.good == NULL) {
        guarded = guarded_pages();
    }
    return guarded.good != NULL ? guarded.good + guarded.size : NULL;
}

const uint8_t *unreadable(void) {
    static const uint8_t single = 0x41;
    const uint8_t *page = untouchable_page();
    return page != NULL ? page : &single;
}

const uint16_t *unreadable_units(void) {
    static const uint16_t single = 0x41;
    uint8_t *page = untouchable_page();
    return page != NULL ? units_at(page) : &single;
}

/* ---- small things */

const uint8_t *bytes_of(const char *text) { return (const uint8_t *)text; }

uint16_t *units_at(uint8_t *place) { return (uint16_t *)(void *)place; }

int is(pulphopper_answer answer, uint32_t refusal, uint64_t value, uint32_t count) {
    return answer.refusal == refusal && answer.value == value && answer.count == count;
}

void repeat(uint8_t *text, size_t text_len, const char *piece, size_t piece_len) {
    size_t i;
    for (i = 0; i < text_len; i++) {
        text[i] = (uint8_t)piece[i % piece_len];
    }
}

void repeat_units(uint16_t *text, size_t text_len, const uint16_t *piece, size_t piece_len) {
    size_t i;
    for (i = 0; i < text_len; i++) {
        text[i] = piece[i % piece_len];
    }
}

void each_length_over(size_t most, size_t small, void (*refused)(size_t length)) {
    refused(most);
    refused(most - 1);
    refused(most / 2 + 1);
    refused(most / 2);
    refused(most / 3 + 1);
    refused(most / 3);
#if SIZE_MAX > UINT32_MAX
    refused((size_t)UINT32_MAX);
    refused((size_t)UINT32_MAX + 1);
    refused((size_t)UINT32_MAX + 1 + small);
    refused((size_t)UINT32_MAX / 2 + 1 + small);
#endif
    refused((size_t)0x10000 + small);
    refused((size_t)0x8000 + small);
    refused(PULPHOPPER_LIMIT + 2);
    refused(PULPHOPPER_LIMIT + 1);
}
