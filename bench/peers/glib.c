/* GLib: g_utf8_make_valid, then g_utf8_normalize. Both allocate.
   GLib has no names and ranks by the locale alone, so it only mends here. */
#include <glib.h>
#include <string.h>
#include "../peer.h"

static long mend(const uint8_t *text, size_t length, uint8_t *out, size_t room)
{
    char *valid = g_utf8_make_valid((const char *)text, (gssize)length);
    char *made = g_utf8_normalize(valid, -1, G_NORMALIZE_NFC);
    size_t size = made ? strlen(made) : 0;
    int fits = made && size <= room;
    if (fits) memcpy(out, made, size);
    g_free(made);
    g_free(valid);
    return fits ? (long)size : -1;
}

const struct peer peer = { 0, mend, 0, 0, 0, 0, 0 };
