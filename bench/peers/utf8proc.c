/* utf8proc: utf8proc_map with NFC, the documented call; it sizes, allocates, decomposes and
   re-encodes. It refuses ill-formed text and has no names and no order, so those rows stay
   empty. */
#include <stdlib.h>
#include <string.h>
#include <utf8proc.h>
#include "../peer.h"

static long mend(const uint8_t *text, size_t length, uint8_t *out, size_t room)
{
    utf8proc_uint8_t *made = 0;
    utf8proc_ssize_t size = utf8proc_map(text, (utf8proc_ssize_t)length, &made, UTF8PROC_STABLE | UTF8PROC_COMPOSE);
    int fits = size >= 0 && (size_t)size <= room;
    if (fits) memcpy(out, made, (size_t)size);
    free(made);
    return fits ? (long)size : -1;
}

const struct peer peer = { 0, mend, 0, 0, 0, 0, 0 };
