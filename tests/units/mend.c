/* Mends texts of 16-bit units by the archive, and writes the mended texts: tests/units/run says how
   both are written. It ends at the first text that is refused. */
#include "pulphopper.h"
#include "texts.h"

int main(void) {
    static uint16_t text[PULPHOPPER_LIMIT];
    static uint16_t out[PULPHOPPER_MENDED_UNITS_MOST(PULPHOPPER_LIMIT)];
    uint32_t length;
    while (read_number(&length)) {
        pulphopper_answer answer;
        uint64_t i;
        if (length > PULPHOPPER_LIMIT || !read_units(text, length)) {
            return 1;
        }
        answer = pulphopper_mend_units(text, length, out, PULPHOPPER_MENDED_UNITS_MOST(length));
        if (answer.refusal != PULPHOPPER_DONE || answer.value > length) {
            return 1;
        }
        write_number(answer.count);
        write_number((uint32_t)answer.value);
        for (i = 0; i < answer.value; i++) {
            putchar(out[i] & 0xFF);
            putchar(out[i] >> 8);
        }
    }
    return fflush(stdout) != 0;
}
