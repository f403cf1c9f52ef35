/* Pulphopper's calls for C behind the driver's interface. It sorts no label file: that row is
   counted on the program, target/bin/ranker. It adds nothing to a call but the test of its
   refusal. */
#include "../include/pulphopper.h"
#include "peer.h"

static long value_of(pulphopper_answer answer)
{
    return answer.refusal ? -1 : (long)answer.value;
}

static long mend(const uint8_t *text, size_t length, uint8_t *out, size_t room)
{
    return value_of(pulphopper_mend(text, length, out, room));
}

static long name(uint32_t code, uint8_t *out, size_t room)
{
    return value_of(pulphopper_name(code, out, room));
}

static long read(const uint8_t *name, size_t length)
{
    return value_of(pulphopper_read_name(name, length));
}

static int rank(const uint8_t *first, size_t first_length, const uint8_t *second, size_t second_length)
{
    return (int)value_of(pulphopper_rank(first, first_length, second, second_length)) - 1;
}

static long units(const uint16_t *text, size_t length, uint16_t *out, size_t room)
{
    return value_of(pulphopper_mend_units(text, length, out, room));
}

const struct peer peer = { 0, mend, name, read, rank, 0, units };
