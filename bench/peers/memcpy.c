/* The floor: the text is moved and nothing is looked at. It does none of the work, so its answers
   are not judged. No implementation can take fewer instructions than this, unless it writes
   nothing. */
#include <string.h>
#include "../peer.h"

static long mend(const uint8_t *text, size_t length, uint8_t *out, size_t room)
{
    if (length > room) return -1;
    memcpy(out, text, length);
    return (long)length;
}

static long units(const uint16_t *text, size_t length, uint16_t *out, size_t room)
{
    if (length > room) return -1;
    memcpy(out, text, 2 * length);
    return (long)length;
}

const struct peer peer = { 0, mend, 0, 0, 0, 0, units };
