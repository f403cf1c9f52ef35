/* Sorting a label file in C: every record is judged and its label mended once, then qsort compares
   what was mended. It keeps all mended labels, in some 190,000 bytes; the ranker keeps none. It
   refuses without saying what or where. */
#include <stdlib.h>

#define RECORD 96
#define RECORDS 682
#define LABEL 88

struct entry { uint32_t number, berth; size_t length; uint8_t label[3 * LABEL]; };

/* Does the record keep its layout? Then the entry has its berth and its mended label. */
static int take(const uint8_t *record, struct entry *entry)
{
    struct mended answer;
    if (record[6] > LABEL || record[7]) return 0;
    for (size_t i = 8u + record[6]; i < RECORD; i++)
        if (record[i]) return 0;
    answer = mend_counting(record + 8, record[6], entry->label, sizeof entry->label);
    entry->berth = (uint32_t)record[4] << 8 | record[5];
    entry->length = (size_t)answer.value;
    return answer.count == 0;
}

static int compare(const void *first, const void *second)
{
    const struct entry *a = *(const struct entry *const *)first, *b = *(const struct entry *const *)second;
    int order = rank_mended(a->label, a->length, b->label, b->length);
    if (order) return order;
    if (a->berth != b->berth) return a->berth < b->berth ? -1 : 1;
    return a->number < b->number ? -1 : 1;
}

static size_t put_line(uint8_t *out, uint32_t number)
{
    size_t at = 0;
    if (number >= 100) out[at++] = (uint8_t)('0' + number / 100);
    if (number >= 10) out[at++] = (uint8_t)('0' + number / 10 % 10);
    out[at++] = (uint8_t)('0' + number % 10);
    out[at++] = '\n';
    return at;
}

static long sort(const uint8_t *image, size_t length, uint8_t *out, size_t room)
{
    static struct entry entries[RECORDS], *order[RECORDS];
    size_t count = length / RECORD, at = 0;
    if (length % RECORD || count > RECORDS || room < 4 * count) return -1;
    for (size_t i = 0; i < count; i++) {
        order[i] = &entries[i];
        entries[i].number = (uint32_t)i;
        if (!take(image + i * RECORD, &entries[i])) return -1;
    }
    qsort(order, count, sizeof *order, compare);
    for (size_t i = 0; i < count; i++) at += put_line(out + at, order[i]->number);
    return (long)at;
}
