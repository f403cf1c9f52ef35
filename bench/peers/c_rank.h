/* Ranking in C: both labels mended (by the mend above the #include), then compared item by item.
   UTF-8 keeps the order of code points, so what is no number is compared byte by byte. It is
   another way than Pulphopper's, which stores nothing. */

static inline int digit(uint8_t byte) { return (uint8_t)(byte - '0') <= 9; }

/* A number's first digit that counts, and its end. */
static inline size_t skip_zeros(const uint8_t *label, size_t length, size_t i)
{
    while (label[i] == '0' && i + 1 < length && digit(label[i + 1])) i++;
    return i;
}

static inline size_t skip_digits(const uint8_t *label, size_t length, size_t i)
{
    while (i < length && digit(label[i])) i++;
    return i;
}

static int rank_mended(const uint8_t *a, size_t na, const uint8_t *b, size_t nb)
{
    size_t i = 0, j = 0, x, y;
    while (i < na && j < nb) {
        if (!digit(a[i])) {
            if (a[i] != b[j]) return digit(b[j]) || a[i] > b[j] ? 1 : -1;
            i++, j++;
            continue;
        }
        if (!digit(b[j])) return -1;
        i = skip_zeros(a, na, i);
        j = skip_zeros(b, nb, j);
        x = skip_digits(a, na, i);
        y = skip_digits(b, nb, j);
        if (x - i != y - j) return x - i < y - j ? -1 : 1;
        for (; i < x; i++, j++)
            if (a[i] != b[j]) return a[i] < b[j] ? -1 : 1;
    }
    return (i < na) - (j < nb);
}

static int rank(const uint8_t *first, size_t first_length, const uint8_t *second, size_t second_length)
{
    static uint8_t a[3 * LIMIT], b[3 * LIMIT];
    long na = mend(first, first_length, a, sizeof a), nb = mend(second, second_length, b, sizeof b);
    return na < 0 || nb < 0 ? -2 : rank_mended(a, (size_t)na, b, (size_t)nb);
}
