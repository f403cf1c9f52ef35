/* Rust's peer behind the driver's interface; what it calls stands in rust.rs.
   It does no work of its own. */
#include "../peer.h"

int64_t rust_mend(const uint8_t *text, size_t length, uint8_t *out, size_t room);

static long mend(const uint8_t *text, size_t length, uint8_t *out, size_t room)
{
    return (long)rust_mend(text, length, out, room);
}

const struct peer peer = { 0, mend, 0, 0, 0, 0, 0 };
