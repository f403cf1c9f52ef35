/* Pulphopper: Hangul text for berth plans. This header is C99, and C++ from C++98 on.

   A call takes every input, checks it itself, and ends. It mends, names and ranks Hangul. It is no
   general normalisation: other scripts pass through as they are.

   What is proved, and what is not:

   - Proved, for every input: what a call answers and what it leaves in its buffer, as documented
     below; that it reads and writes nothing outside what it is lent; and that it ends.
     docs/PROMISES.md names the proofs, and docs/TRUST.md says what they rest on.
   - Measured, by tests/client: a call needs at most 16 KiB of stack.
   - Tested, by tests/client: this header and the archive agree; a text over the limit is not read;
     the archive has no writable byte and needs no symbol from elsewhere, so that a call can keep
     nothing and can call nothing outside the library. */
#ifndef PULPHOPPER_H
#define PULPHOPPER_H

#include <stddef.h>
#include <stdint.h>

#ifdef __cplusplus
extern "C" {
#endif

/* A call keeps nothing from one call to the next, allocates nothing, and calls nothing outside the
   library. It writes only to the buffer lent to it and to its own stack, of which it needs at most
   16 KiB. Any threads, and signal handlers, may call at once, each with an output buffer of its
   own.

   The caller has duties that no call can check:

   - A pointer is good for as many elements as the length beside it says: bytes, or 16-bit units. A
     pointer to units is aligned as C asks of a uint16_t *. NULL comes only with length 0.
   - A buffer that is written to overlaps no other of the same call: a text is not mended in place.

         WRONG   pulphopper_mend(label, length, label, sizeof label);

         RIGHT   uint8_t mended[PULPHOPPER_MENDED_MOST(sizeof label)];
                 pulphopper_mend(label, length, mended, sizeof mended);

   A text over the limit is refused before anything of it is read, for every length up to SIZE_MAX,
   of units up to SIZE_MAX / 2. */

/* The version of this header and its archive, as three numbers. The first rises when a program that
   was right may have to change, the second when something is added, the third otherwise. */
#define PULPHOPPER_VERSION_MAJOR 1
#define PULPHOPPER_VERSION_MINOR 1
#define PULPHOPPER_VERSION_PATCH 0

/* The version as one number, for #if: 10203 would be 1.2.3. */
#define PULPHOPPER_VERSION (PULPHOPPER_VERSION_MAJOR * 10000 + PULPHOPPER_VERSION_MINOR * 100 + PULPHOPPER_VERSION_PATCH)

/* The version as a string, "1.2.3". The two macros after it only serve to make it: the first
   expands its arguments to numbers, the second makes a string of each. */
#define PULPHOPPER_VERSION_STRING PULPHOPPER_DOTTED(PULPHOPPER_VERSION_MAJOR, PULPHOPPER_VERSION_MINOR, PULPHOPPER_VERSION_PATCH)
#define PULPHOPPER_DOTTED(major, minor, patch) PULPHOPPER_QUOTED(major) "." PULPHOPPER_QUOTED(minor) "." PULPHOPPER_QUOTED(patch)
#define PULPHOPPER_QUOTED(number) #number

/* The most bytes of a text that a call takes, and the most 16-bit units. */
#define PULPHOPPER_LIMIT 16384

/* The most bytes that a text of `length` bytes is mended to, three for each: a buffer of this size
   is always enough. For lengths up to PULPHOPPER_LIMIT; a longer text is refused. */
#define PULPHOPPER_MENDED_MOST(length) (3 * (length))

/* The most units that a text of `length` units is mended to, as many: mending units never makes a
   text longer. */
#define PULPHOPPER_MENDED_UNITS_MOST(length) (length)

/* The most bytes of a name: a buffer of this size is always enough. */
#define PULPHOPPER_NAME_MOST 23

/* The answer of every call. If `refusal` is 0 the call is done, and `value` and `count` are as the
   call documents them; one that it does not document is 0. Else the call is refused: `refusal` is
   the refusal's number, `value` its place, `count` is 0, and no byte of any buffer has changed. */
typedef struct pulphopper_answer {
    uint32_t refusal; /* PULPHOPPER_DONE, or one of the refusals below it */
    uint32_t count;
    uint64_t value;
} pulphopper_answer;

/* The refusals. Each call lists those that it gives, in the order in which it checks for them. The
   numbers left out are refusals of calls that C does not have. */
enum {
    PULPHOPPER_DONE = 0,        /* no refusal: the call is done */
    PULPHOPPER_OVER_LIMIT = 1,  /* the text is over PULPHOPPER_LIMIT; value: that limit */
    PULPHOPPER_NO_ROOM = 3,     /* the buffer is too small; value: the length needed */
    PULPHOPPER_NO_SYLLABLE = 4, /* what is to be named is no syllable; value: 0 */
    PULPHOPPER_NO_NAME = 5      /* the bytes are no syllable's name; value: 0 */
};

/* Mends a text: reads it as UTF-8, each ill-formed maximal subpart as one U+FFFD; joins Hangul
   letters to syllables, as NFC does; and writes it as UTF-8 to the front of `out`. The rest of
   `out` stays as it was. So a name in finished syllables and the same name in single letters give
   the same bytes.

     text, text_len   the bytes; at most PULPHOPPER_LIMIT of them
     out, out_len     the buffer; PULPHOPPER_MENDED_MOST(text_len) bytes are always enough
     value            how many bytes were written
     count            how many ill-formed subparts there were; a U+FFFD in the text is none

   Refuses PULPHOPPER_OVER_LIMIT, then PULPHOPPER_NO_ROOM. To learn the length needed, lend NULL and
   0: the refusal says it, or the mended text is empty. A text that was ill-formed can be mended to
   one that is longer than the limit. A mended text within the limit stays as it is when it is
   mended again. */
pulphopper_answer pulphopper_mend(const uint8_t *text, size_t text_len, uint8_t *out, size_t out_len);

/* Mends a text of 16-bit units, as a clipboard gives it: reads it as UTF-16, each unpaired
   surrogate as one U+FFFD; joins Hangul letters to syllables, as NFC does; and writes it as UTF-16
   to the front of `out`. The rest of `out` stays as it was. A unit is a number, with no order of
   bytes: no byte order mark is dropped or made, and U+FEFF is a character like any other.

     text, text_len   the units; at most PULPHOPPER_LIMIT of them
     out, out_len     the buffer, in units; PULPHOPPER_MENDED_UNITS_MOST(text_len) are always enough
     value            how many units were written
     count            how many unpaired surrogates there were; a U+FFFD in the text is none

   Refuses PULPHOPPER_OVER_LIMIT, then PULPHOPPER_NO_ROOM. To learn the length needed, lend NULL and
   0: the refusal says it, or the mended text is empty. A mended text stays as it is when it is
   mended again. It reads as what pulphopper_mend makes of the same text in UTF-8. */
pulphopper_answer pulphopper_mend_units(const uint16_t *text, size_t text_len, uint16_t *out, size_t out_len);

/* Writes the name of a syllable, as the Unicode Standard has it, to the front of `out`. The rest of
   `out` stays as it was. A name is "HANGUL SYLLABLE " and one to seven letters, 17 to 23 bytes. No
   terminating 00 is written.

     code             the syllable, U+AC00 to U+D7A3
     out, out_len     the buffer; PULPHOPPER_NAME_MOST bytes are always enough
     value            how many bytes were written

   Refuses PULPHOPPER_NO_SYLLABLE, then PULPHOPPER_NO_ROOM. */
pulphopper_answer pulphopper_name(uint32_t code, uint8_t *out, size_t out_len);

/* Reads a name, as pulphopper_name writes it: in capitals, with nothing before or after it.

     name, name_len   the bytes; at most PULPHOPPER_LIMIT of them
     value            the syllable

   Refuses PULPHOPPER_OVER_LIMIT, then PULPHOPPER_NO_NAME. */
pulphopper_answer pulphopper_read_name(const uint8_t *name, size_t name_len);

/* Where pulphopper_rank says that the first label stands. */
enum {
    PULPHOPPER_BEFORE = 0, /* it comes before the second */
    PULPHOPPER_EQUAL = 1,  /* the two rank equal */
    PULPHOPPER_AFTER = 2   /* it comes after the second */
};

/* Ranks two labels. Each is read and joined as pulphopper_mend does it, but needs no buffer. So the
   two spellings of one name rank equal, and rank alike against every other label.

   A label is compared item by item. A longest run of the digits 0 to 9 is one item, a number of any
   length; any other code point is an item of its own. Numbers come before code points. Numbers rank
   by value (2 before 10, 07 equal to 7), and so do code points. A label whose items are the
   beginning of another's comes first.

     first, first_len     the bytes of a label; at most PULPHOPPER_LIMIT of them
     second, second_len   those of the other, likewise; the two may overlap: nothing is written
     value                PULPHOPPER_BEFORE, PULPHOPPER_EQUAL or PULPHOPPER_AFTER

   Swapping the labels swaps before and after, and the order is transitive, so it can be used to
   sort: (int)answer.value - PULPHOPPER_EQUAL is what qsort asks for (docs/C.md). Labels that rank
   equal need not be the same bytes.

   Refuses PULPHOPPER_OVER_LIMIT if either label is too long, and does not say which. */
pulphopper_answer pulphopper_rank(const uint8_t *first, size_t first_len, const uint8_t *second, size_t second_len);

#ifdef __cplusplus
}
#endif

#endif
