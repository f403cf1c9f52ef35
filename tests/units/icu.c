/* Reads texts of 16-bit units by ICU's u_strToUTF32WithSub, and writes the readings;
   tests/units/run says how both are written. It replaces an unpaired surrogate by FFFD. */
#include "texts.h"

#include <unicode/ustring.h>

#define MOST 1000
#define REPLACEMENT 0xFFFD

int main(void) {
    static UChar units[MOST];
    static UChar32 codes[MOST];
    uint32_t length;
    while (read_number(&length)) {
        UErrorCode error = U_ZERO_ERROR;
        int32_t count = 0, replaced = 0, i;
        if (length > MOST || !read_units(units, length)) {
            return 1;
        }
        u_strToUTF32WithSub(codes, MOST, &count, units, (int32_t)length, REPLACEMENT, &replaced, &error);
        if (U_FAILURE(error)) {
            return 1;
        }
        write_number((uint32_t)replaced);
        write_number((uint32_t)count);
        for (i = 0; i < count; i++) {
            write_number((uint32_t)codes[i]);
        }
    }
    return fflush(stdout) != 0;
}
