/* Keeps ratios for a storage unit that wants numerators at the right: rounds those of two breaths, in of
 * whole, and the papers' 355/113 into floating words, twists them, masks the numerators out,
 * and untwists them. */

#include "show.h"

#include <string.h>

/* The format: its slash position has 5 bits, as 2^5 is the least power of 2 that is at least 26. */
#define K 26
#define LAST_POSITION 31

#define RATIOS 3

static const uint64_t ratios[RATIOS][2] = {{277, 642}, {16, 40}, {355, 113}};

/* The numerator of a twisted word: one AND, with a mask by its slash position. An infinity or a
 * not-a-number has none, and gets 0. */
static uint64_t numerator(uint64_t twisted) {
    uint64_t e = twisted >> (K - 1) & LAST_POSITION;
    if (e > K - 2) {
        return 0;
    }
    uint64_t mask = (UINT64_C(1) << (K - 1 - e)) - 1;
    return twisted & mask;
}

int main(void) {
    uint64_t words[RATIOS] = {0}, twisted[RATIOS] = {0}, back[RATIOS] = {0};
    for (size_t i = 0; i < RATIOS; i++) {
        check("slash_round",
              slash_round(SLASH_FLOATING, K, ratios[i][0], ratios[i][1], &words[i]));
    }

    /* To the storage unit, where numerators are read, and back. */
    check("slash_twist_each",
          slash_twist_each(SLASH_FLOATING, K, words, RATIOS, twisted, RATIOS));
    for (size_t i = 0; i < RATIOS; i++) {
        printf("%" PRIu64 "/%" PRIu64 ": word %08" PRIx64 ", twisted %08" PRIx64
               ", numerator %" PRIu64 "\n",
               ratios[i][0], ratios[i][1], words[i], twisted[i], numerator(twisted[i]));
    }
    check("slash_untwist_each",
          slash_untwist_each(SLASH_FLOATING, K, twisted, RATIOS, back, RATIOS));
    int is_same = memcmp(words, back, sizeof words) == 0;
    printf("the words that came back are %s\n", is_same ? "the same" : "others");

    /* A fixed word has its numerator at one place always: such a format is refused. */
    uint64_t returned = slash_twist_each(SLASH_FIXED, 15, words, RATIOS, twisted, RATIOS);
    printf("fixed k = 15: stop %" PRIu64 ", %s\n", SLASH_STOP_NUMBER(returned), slash_stop_text(returned));
    return is_same ? EXIT_SUCCESS : EXIT_FAILURE;
}
