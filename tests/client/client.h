/* What the files of the client share: counting, lent buffers between fences, and pages that may not
   be touched. It calls nothing of the library: mending.c, units.c, naming.c, ranking.c and stack.c
   do, which hold each call to what include/pulphopper.h says of it. */
#ifndef CLIENT_H
#define CLIENT_H

#include "pulphopper.h"

/* ---- counting */

extern unsigned long passed;
extern unsigned long failed;

void check(int holds, const char *where, int line, const char *what);

#define CHECK(what) check((what) ? 1 : 0, __func__, __LINE__, #what)

/* Each check is named before it runs, so that a crash says where. */
void announce(const char *name);

#define RUN(name) (announce(#name), name())

/* ---- lent buffers: each stands between two fences, and is compared with what it was after every
   call */

#define FENCE 64 /* and up to 15 bytes more, so that calls meet every alignment */
#define MOST_TEXT (PULPHOPPER_LIMIT + 1)
#define MOST_OUT PULPHOPPER_MENDED_MOST(MOST_TEXT)

typedef struct lent {
    size_t used; /* how many bytes of the two are in use, fences included */
    uint8_t now[FENCE + 16 + MOST_OUT + FENCE];
    uint8_t before[FENCE + 16 + MOST_OUT + FENCE];
} lent;

extern lent text_lent;
extern lent out_lent;
extern size_t calls_made;

/* Fills a buffer of `size` bytes, and its fences, with bytes that differ from their neighbours, so
   that a moved one shows; other ones for each seed. */
void fill(lent *buffer, size_t size, size_t seed);

void remember(lent *buffer);

/* Whether every byte is what it was but for `count` of them from `from` on. */
int unchanged_but(const lent *buffer, size_t from, size_t count);

/* ---- pages that may not be touched */

typedef struct pages {
    /* `size` bytes between two pages that may not be touched; NULL where there are no such pages */
    uint8_t *good;
    size_t size;
} pages;

/* So many bytes, a multiple of the page's size, or a page of them. */
pages guarded_bytes(size_t size);
pages guarded_pages(void);

/* Where a text can be said to stand that must not be read: an untouchable page, else a single good
   element. */
const uint8_t *unreadable(void);
const uint16_t *unreadable_units(void);

/* ---- small things */

#define BYTES(literal) literal, sizeof(literal) - 1
#define COUNT_OF(list) (sizeof(list) / sizeof((list)[0]))

/* A pointer to char may point at any bytes; the library takes them as uint8_t. */
const uint8_t *bytes_of(const char *text);

/* A place among bytes as a pointer to units: it is even, which no compiler can see. */
uint16_t *units_at(uint8_t *place);

int is(pulphopper_answer answer, uint32_t refusal, uint64_t value, uint32_t count);

/* Fills a text with a piece, again and again; the last may be cut. */
void repeat(uint8_t *text, size_t text_len, const char *piece, size_t piece_len);
void repeat_units(uint16_t *text, size_t text_len, const uint16_t *piece, size_t piece_len);

/* Does `refused` with lengths over the limit, up to `most`. Some are `small` again when they are cut
   to 32 or 16 bits, some when they are doubled and cut, and some are small when two or three of
   them are added. */
void each_length_over(size_t most, size_t small, void (*refused)(size_t length));

/* ---- the checks, by what is called */

void check_mending(void);
void check_mending_units(void);
void check_naming(void);
void check_ranking(void);

/* The most stack that a call took, in bytes; every call has at most STACK_MOST. */
size_t check_stack(void);

#define STACK_MOST ((size_t)16 * 1024)

#endif
