/* What the two programs in C share: texts and numbers, written as tests/units/run says. They are
   read from standard input, and written to standard output. */
#ifndef TEXTS_H
#define TEXTS_H

#include <stdint.h>
#include <stdio.h>

static int read_number(uint32_t *number) {
    uint8_t bytes[4];
    if (fread(bytes, 1, 4, stdin) != 4) {
        return 0;
    }
    *number = (uint32_t)bytes[0] | (uint32_t)bytes[1] << 8 | (uint32_t)bytes[2] << 16 | (uint32_t)bytes[3] << 24;
    return 1;
}

static void write_number(uint32_t number) {
    int i;
    for (i = 0; i < 4; i++) {
        putchar((int)(number >> (8 * i) & 0xFF));
    }
}

static int read_units(uint16_t *units, uint32_t length) {
    uint32_t i;
    for (i = 0; i < length; i++) {
        uint8_t bytes[2];
        if (fread(bytes, 1, 2, stdin) != 2) {
            return 0;
        }
        units[i] = (uint16_t)(bytes[0] | bytes[1] << 8);
    }
    return 1;
}

#endif
