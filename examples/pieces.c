/* Lists a night's recording, of the file that is given or of standard input, without room for either: through 256
 * bytes of the recording and 256 of text. Prints what the program `night` prints. */

#include "slash.h"

#include <inttypes.h>
#include <stdio.h>
#include <stdlib.h>
#include <string.h>

#define BUFFER_BYTES 256

/* The start of what is read of a recording and not listed. */
struct held {
    uint8_t bytes[BUFFER_BYTES];
    size_t length;
    int is_last; /* whether no bytes follow these */
};

/* Fills the buffer. There is room, but at the recording's end: of a full buffer a piece uses some bytes. */
static void read_on(FILE *recording, struct held *held) {
    if (!held->is_last) {
        held->length += fread(held->bytes + held->length, 1, BUFFER_BYTES - held->length, recording);
        held->is_last = feof(recording);
    }
}

/* Leaves the bytes out that are listed. */
static void drop(struct held *held, size_t used) {
    held->length -= used;
    memmove(held->bytes, held->bytes + used, held->length);
}

/* Lists a recording; says whether it was listed to its end. */
static int list(FILE *recording) {
    struct held held = {.length = 0, .is_last = 0};
    uint8_t text[BUFFER_BYTES];
    slash_night_state night = {0, 0, 0, 0};
    slash_piece piece = {0, 0, 0};
    while (piece.ended == 0) {
        read_on(recording, &held);
        if (ferror(recording)) {
            fputs("pieces: the recording cannot be read\n", stderr);
            return 0;
        }
        uint64_t returned = slash_night_piece(&night, held.bytes, held.length, (uint64_t)held.is_last, text,
                                              sizeof text, &piece);
        if (returned != 0) {
            printf("refused\t%" PRIu64 "\t%" PRIu64 "\n", SLASH_STOP_NUMBER(returned), SLASH_STOP_PLACE(returned));
            fprintf(stderr, "pieces: line %" PRIu64 ": %s\n", SLASH_STOP_PLACE(returned), slash_stop_text(returned));
            return 0;
        }
        fwrite(text, 1, piece.length, stdout);
        drop(&held, piece.used);
    }
    return 1;
}

int main(int count, char **arguments) {
    FILE *recording = count > 1 ? fopen(arguments[1], "rb") : stdin;
    if (recording == NULL) {
        perror(arguments[1]);
        return EXIT_FAILURE;
    }
    int is_listed = list(recording);
    if (fflush(stdout) != 0 || ferror(stdout)) {
        fputs("pieces: the listing cannot be written\n", stderr);
        return EXIT_FAILURE;
    }
    return is_listed ? EXIT_SUCCESS : EXIT_FAILURE;
}
