/* one_boat: reads lines such as '12 갈매기' and prints which berths carry one boat, in any spelling.
   It names lines that it cannot take on standard error, leaves them out, and then exits with 1. */
#include "pulphopper.h"
#include <stdio.h>
#include <string.h>

#define BERTHS_MOST 1000
#define LINE_MOST 100 /* bytes of a line: the berth's digits, the space and the label */

static struct berth {
    unsigned number;
    size_t length;                                    /* of the mended label, in `label` */
    uint8_t label[PULPHOPPER_MENDED_MOST(LINE_MOST)]; /* always enough */
} berths[BERTHS_MOST];
static size_t count;

/* Reads a line and returns its length, without the line feed. Only LINE_MOST bytes are kept. */
static size_t read_line(uint8_t *line) {
    size_t length = 0;
    for (int byte = getchar(); byte != EOF && byte != '\n'; byte = getchar()) {
        if (length < LINE_MOST) line[length] = (uint8_t)byte;
        length++;
    }
    return length;
}

/* Adds a line's berth and prints which others carry its boat. Returns NULL, or why it cannot. */
static const char *add(const uint8_t *line, size_t length) {
    if (length > LINE_MOST) return "it is too long";
    if (count == BERTHS_MOST) return "there are too many";
    struct berth *to = &berths[count];
    size_t at = 0;
    for (to->number = 0; at < length && at < 5 && line[at] >= '0' && line[at] <= '9'; at++) {
        to->number = 10 * to->number + (unsigned)(line[at] - '0');
    }
    if (at == 0 || length - at < 2 || line[at] != ' ') return "it is not one to five digits, a space and a label";
    pulphopper_answer answer = pulphopper_mend(line + at + 1, length - at - 1, to->label, sizeof to->label);
    if (answer.refusal != PULPHOPPER_DONE) return "its label was refused"; /* never: it has room */
    if (answer.count > 0) printf("berth %u: parts of the label that could not be read: %u\n", to->number, (unsigned)answer.count);
    to->length = (size_t)answer.value;
    for (size_t i = 0; i < count; i++) {
        int same = berths[i].length == to->length && memcmp(berths[i].label, to->label, to->length) == 0;
        if (same) printf("berths %u and %u: one boat\n", berths[i].number, to->number);
    }
    count++;
    return NULL;
}

int main(void) {
    uint8_t line[LINE_MOST];
    int status = 0;
    for (unsigned long number = 1; !feof(stdin) && !ferror(stdin); number++) {
        size_t length = read_line(line);
        const char *wrong = length > 0 ? add(line, length) : NULL;
        if (wrong == NULL) continue;
        fprintf(stderr, "line %lu is left out: %s\n", number, wrong);
        status = 1;
    }
    return ferror(stdin) || fflush(stdout) != 0 || ferror(stdout) ? 1 : status;
}
