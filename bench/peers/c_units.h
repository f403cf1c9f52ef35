/* Mending of units as both C peers keep the contract: over 16,384 units are refused, and so is a
   buffer that is too small, before a unit is written. How a text is mended is not here: each peer
   has its own run_units(), above the #include. */

static struct mended units_counting(const uint16_t *text, size_t length, uint16_t *out, size_t room)
{
    struct mended answer = { 0, 0, 0 };
    if (length > LIMIT) return (struct mended){ 1, 0, LIMIT };
    if (room < length) {
        answer.value = run_units(text, length, 0, &answer.count, 0);
        if (answer.value > room) return (struct mended){ 3, 0, answer.value };
    }
    answer.value = run_units(text, length, out, &answer.count, 1);
    return answer;
}

static long units(const uint16_t *text, size_t length, uint16_t *out, size_t room)
{
    struct mended answer = units_counting(text, length, out, room);
    return answer.refusal ? -1 : (long)answer.value;
}
