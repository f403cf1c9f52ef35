/* What one implementation offers to the driver (bench/driver.c). A job that it cannot do is a null
   pointer. It is no interface of Pulphopper: that is include/pulphopper.h. */
#ifndef PEER_H
#define PEER_H

#include <stddef.h>
#include <stdint.h>

struct peer {
    /* Called once before anything else; 0 when ready. May be null. */
    int (*start)(void);
    /* UTF-8 in, joined UTF-8 out. Bytes written, or -1 when it refuses. text[length] is a zero
       byte. */
    long (*mend)(const uint8_t *text, size_t length, uint8_t *out, size_t room);
    /* The name of a code point, no zero byte after it. Bytes written, or -1. */
    long (*name)(uint32_t code, uint8_t *out, size_t room);
    /* The code point that has this name, or -1. name[length] is a zero byte. */
    long (*read)(const uint8_t *name, size_t length);
    /* -1 before, 0 equal, 1 after; -2 when it refuses. */
    int (*rank)(const uint8_t *first, size_t first_length, const uint8_t *second, size_t second_length);
    /* The image of a label file in, the ranker's lines out. Bytes written, or -1. */
    long (*sort)(const uint8_t *image, size_t length, uint8_t *out, size_t room);
    /* UTF-16 in, joined UTF-16 out; lengths and room are in units. Units written, or -1 when it
       refuses. */
    long (*units)(const uint16_t *text, size_t length, uint16_t *out, size_t room);
};

extern const struct peer peer;

#endif
