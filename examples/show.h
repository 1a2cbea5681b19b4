/* What several examples share: leaving where a call is refused, and showing what a word says. */
#ifndef SHOW_H
#define SHOW_H

#include "slash.h"

#include <inttypes.h>
#include <stdio.h>
#include <stdlib.h>

/* Leaves if a call was refused. */
static inline void check(const char *call, uint64_t returned) {
    if (returned != 0) {
        fprintf(stderr, "%s: stop %" PRIu64 " at %" PRIu64 ", %s\n", call, SLASH_STOP_NUMBER(returned),
                SLASH_STOP_PLACE(returned), slash_stop_text(returned));
        exit(EXIT_FAILURE);
    }
}

/* Prints a word of any format, the fraction that it holds, and its mark. */
static inline void print_word(const char *name, uint64_t kind, uint64_t k, uint64_t word) {
    slash_value value;
    check("slash_read", slash_read(kind, k, word, &value));
    printf("%s: word %08" PRIx64 ", %s%" PRIu64 "/%" PRIu64 ", %s\n", name, word, value.sign != 0 ? "-" : "",
           value.numerator, value.denominator, value.mark != 0 ? "approximate" : "exact");
}

#endif
