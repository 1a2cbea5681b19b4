/* Reads back the listing of a night, of which the recording wasn't kept: each breath's number and word,
 * and the total's word. Then that of a recorder that was never worn, and one in which a percentage was
 * changed. */

#include "slash.h"

#include <inttypes.h>
#include <stdio.h>
#include <stdlib.h>
#include <string.h>

/* What is printed behind a word. */
static const char *note(uint64_t word) {
    return word == 0 ? ", void" : "";
}

/* Reads a listing back and prints what it says, or why it is refused; returns whether it was read. */
static int print_loaded(const char *listing) {
    static uint64_t numbers[SLASH_MOST_BREATHS], words[SLASH_MOST_BREATHS];
    uint64_t count = 0, total = 0;
    uint64_t returned = slash_load((const uint8_t *)listing, strlen(listing), numbers,
                                   SLASH_MOST_BREATHS, words, SLASH_MOST_BREATHS, &count, &total);
    if (returned != 0) {
        printf("the listing: stop %" PRIu64 " at line %" PRIu64 ", %s; nothing is read back\n",
               SLASH_STOP_NUMBER(returned), SLASH_STOP_PLACE(returned), slash_stop_text(returned));
        return 0;
    }
    for (uint64_t i = 0; i < count; i++) {
        printf("breath %" PRIu64 ": word %08" PRIx64 "%s\n", numbers[i], words[i], note(words[i]));
    }
    printf("the night: word %08" PRIx64 "%s\n", total, note(total));
    return 1;
}

int main(void) {
    /* What the program `night` printed. */
    int is_read = print_loaded("1\t01150282\t277/642\t43.1\n"
                               "2\t00020005\t2/5\t40.0\n"
                               "3\t00000000\t-\t-\n"
                               "all\t012502aa\t293/682\t43.0\n");

    /* And what it printed for a night with nothing in it: no breath, and a void total. */
    int is_empty_night_read = print_loaded("all\t00000000\t-\t-\n");

    /* 2/5 is 40.0 percent, and nothing else. */
    int is_read_too = print_loaded("1\t01150282\t277/642\t43.1\n"
                                   "2\t00020005\t2/5\t41.0\n"
                                   "3\t00000000\t-\t-\n"
                                   "all\t012502aa\t293/682\t43.0\n");
    return is_read && is_empty_night_read && !is_read_too ? EXIT_SUCCESS : EXIT_FAILURE;
}
