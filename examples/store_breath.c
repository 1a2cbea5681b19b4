/* Stores one breath as a slash word, as the recorder does, and reads its ratio back: 277 ticks in of 642. Then
 * lists a night of three breaths, and asks for what is refused. */

#include "show.h"

#include <string.h>

/* The recorder's clock ticks so many times a second. */
#define RATE 1024

/* The word that the recorder stores of a breath, in fixed k = 15. */
static uint64_t stored_breath(uint32_t onset, uint32_t peak, uint32_t next) {
    uint64_t word = 0;
    check("slash_breath", slash_breath(RATE, onset, peak, next, &word));
    return word;
}

/* Prints the partial quotients of a word of fixed k = 15. No word has more than 2k; just as many places as this
 * one needs are lent. */
static void print_quotients(uint64_t word) {
    uint32_t quotients[30];
    uint64_t places = 0, count = 0;
    check("slash_quotient_count", slash_quotient_count(SLASH_FIXED, 15, word, &places));
    check("slash_quotients", slash_quotients(SLASH_FIXED, 15, word, quotients, places, &count));
    printf("%" PRIu64 " partial quotients:", places);
    for (uint64_t i = 0; i < count; i++) {
        printf(" %" PRIu32, quotients[i]);
    }
    printf("\n");
}

/* Prints why a call was refused, and the word that it was lent. */
static void print_refused(const char *asked, uint64_t returned, uint64_t word) {
    printf("%s: stop %" PRIu64 ", %s; the word is still %08" PRIx64 "\n", asked, SLASH_STOP_NUMBER(returned),
           slash_stop_text(returned), word);
}

/* Prints the listing of a recording, or why it has none. A null pointer is a recording without a byte. */
static void print_night(const char *recording) {
    static uint8_t listing[SLASH_LISTING_BYTES];
    size_t recording_length = recording != NULL ? strlen(recording) : 0;
    uint64_t length = 0;
    uint64_t returned = slash_night((const uint8_t *)recording, recording_length, listing, &length);
    if (returned == 0) {
        fwrite(listing, 1, length, stdout);
    } else {
        printf("a night: stop %" PRIu64 " at line %" PRIu64 ", %s; nothing is listed\n",
               SLASH_STOP_NUMBER(returned), SLASH_STOP_PLACE(returned), slash_stop_text(returned));
    }
}

int main(void) {
    /* The recorder's format holds the ratio. */
    uint64_t breath = stored_breath(0, 277, 642);
    print_word("fixed k = 15", SLASH_FIXED, 15, breath);

    /* A next onset before its onset reads as a breath of nearly the whole clock: it is void, its word 0. */
    uint64_t overlong = stored_breath(642, 919, 600);
    printf("an overlong breath: word %08" PRIx64 "%s\n", overlong, overlong == 0 ? ", void" : "");

    /* Nine bits can't hold the ratio: the word keeps the best pair that they hold, and is marked. */
    uint64_t short_word = 0;
    check("slash_round", slash_round(SLASH_FIXED, 9, 277, 642, &short_word));
    print_word("fixed k = 9", SLASH_FIXED, 9, short_word);

    /* To a floating word and back. */
    uint64_t floating = 0, back = 0, order = 0;
    check("slash_convert", slash_convert(SLASH_FIXED, 15, SLASH_FLOATING, 26, breath, &floating));
    check("slash_convert", slash_convert(SLASH_FLOATING, 26, SLASH_FIXED, 15, floating, &back));
    print_word("floating k = 26", SLASH_FLOATING, 26, floating);
    print_word("back to fixed k = 15", SLASH_FIXED, 15, back);
    check("slash_compare", slash_compare(SLASH_FIXED, 15, breath, back, &order));
    printf("the word that came back is %s\n", order == SLASH_EQUAL ? "equal" : "another");

    print_quotients(breath);

    /* A refused call returns its stop and leaves the word as it was. */
    uint64_t untouched = breath;
    uint64_t returned = slash_round(SLASH_FIXED, 15, 277, 0, &untouched);
    print_refused("277/0", returned, untouched);
    returned = slash_breath(0, 0, 277, 642, &untouched);
    print_refused("rate 0", returned, untouched);

    /* A night, one with nothing in it, one whose second breath lacks a field, and one without its rate. */
    print_night("rate\t1024\n0\t277\t642\n4294967290\t10\t34\n100\t100\t100\n");
    print_night(NULL);
    print_night("rate\t1024\n0\t277\t642\n642\t900\n");
    print_night("0\t277\t642\n");
    return order == SLASH_EQUAL ? EXIT_SUCCESS : EXIT_FAILURE;
}
