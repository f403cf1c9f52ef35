/* GNU libunistring: u8_normalize into a buffer of our own; names by uniname.
   It ranks by the locale alone, so it does not rank here. */
#include <stdlib.h>
#include <string.h>
#include <uniname.h>
#include <uninorm.h>
#include "../peer.h"

static long mend(const uint8_t *text, size_t length, uint8_t *out, size_t room)
{
    size_t size = room;
    uint8_t *made = u8_normalize(UNINORM_NFC, text, length, out, &size);
    if (made == out) return (long)size;
    free(made);
    return -1;
}

static long name(uint32_t code, uint8_t *out, size_t room)
{
    char buffer[UNINAME_MAX];
    size_t size;
    if (!unicode_character_name(code, buffer)) return -1;
    size = strlen(buffer);
    if (size > room) return -1;
    memcpy(out, buffer, size);
    return (long)size;
}

static long read(const uint8_t *name, size_t length)
{
    ucs4_t code = unicode_name_character((const char *)name);
    (void)length;
    return code == UNINAME_INVALID ? -1 : (long)code;
}

const struct peer peer = { 0, mend, name, read, 0, 0, 0 };
