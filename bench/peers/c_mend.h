/* Mending as both C peers keep the contract: over 16,384 bytes are refused, and so is a buffer that
   is too small, before a byte is written. How a text is mended is not here: each peer has its own
   run(), above the #include. */

#define LIMIT 16384

struct mended { uint32_t refusal, count; uint64_t value; };

static struct mended mend_counting(const uint8_t *text, size_t length, uint8_t *out, size_t room)
{
    struct mended answer = { 0, 0, 0 };
    if (length > LIMIT) return (struct mended){ 1, 0, LIMIT };
    if (room < 3 * length) {
        answer.value = run(text, length, 0, &answer.count, 0);
        if (answer.value > room) return (struct mended){ 3, 0, answer.value };
    }
    answer.value = run(text, length, out, &answer.count, 1);
    return answer;
}

static long mend(const uint8_t *text, size_t length, uint8_t *out, size_t room)
{
    struct mended answer = mend_counting(text, length, out, room);
    return answer.refusal ? -1 : (long)answer.value;
}
