/* A client of the library in plain C99 that is C++ as well: it holds every call to what
   include/pulphopper.h says of it, from the caller's side. It is no proof and no example of use,
   and it tries no call in depth: that is the work of the second program. */
#include "client.h"

#include <stdio.h>
#include <string.h>

static void the_answer_is_laid_out_as_the_header_says(void) {
    CHECK(sizeof(pulphopper_answer) == 16);
    CHECK(offsetof(pulphopper_answer, refusal) == 0);
    CHECK(offsetof(pulphopper_answer, count) == 4);
    CHECK(offsetof(pulphopper_answer, value) == 8);
    CHECK(PULPHOPPER_DONE == 0 && PULPHOPPER_OVER_LIMIT == 1 && PULPHOPPER_NO_ROOM == 3);
    CHECK(PULPHOPPER_NO_SYLLABLE == 4 && PULPHOPPER_NO_NAME == 5);
    CHECK(PULPHOPPER_LIMIT == 16384);
    CHECK(PULPHOPPER_NAME_MOST == 23);
    CHECK(PULPHOPPER_MENDED_MOST(1 + 1) == 6 && 12 / PULPHOPPER_MENDED_MOST(2) == 2);
    CHECK(2 * PULPHOPPER_MENDED_UNITS_MOST(1 + 1) == 4 && 12 / PULPHOPPER_MENDED_UNITS_MOST(1 + 2) == 4);
}

#if PULPHOPPER_VERSION < 10100 || PULPHOPPER_MENDED_MOST(PULPHOPPER_LIMIT) != 49152 || PULPHOPPER_MENDED_UNITS_MOST(PULPHOPPER_LIMIT) != 16384
#error "a macro of the header is of no use in #if"
#endif

static void the_version_is_said_alike_in_every_form(void) {
    char dotted[32];
    sprintf(dotted, "%d.%d.%d", PULPHOPPER_VERSION_MAJOR, PULPHOPPER_VERSION_MINOR, PULPHOPPER_VERSION_PATCH);
    CHECK(strcmp(dotted, PULPHOPPER_VERSION_STRING) == 0);
    CHECK(PULPHOPPER_VERSION / 10000 == PULPHOPPER_VERSION_MAJOR);
    CHECK(PULPHOPPER_VERSION / 100 % 100 == PULPHOPPER_VERSION_MINOR);
    CHECK(PULPHOPPER_VERSION % 100 == PULPHOPPER_VERSION_PATCH);
    CHECK(PULPHOPPER_VERSION == 10100 && strcmp(PULPHOPPER_VERSION_STRING, "1.1.0") == 0);
}

int main(void) {
    size_t most_stack;
    setvbuf(stdout, NULL, _IONBF, 0);
    RUN(the_answer_is_laid_out_as_the_header_says);
    RUN(the_version_is_said_alike_in_every_form);
    check_mending();
    check_mending_units();
    check_naming();
    check_ranking();
    most_stack = check_stack();
    if (failed > 0) {
        printf("client: %lu of %lu checks failed\n", failed, passed + failed);
        return 1;
    }
    printf("%lu checks passed; a call took at most %lu bytes of stack\n", passed, (unsigned long)most_stack);
    return 0;
}
