/* How much stack each function of the archive takes, measured over inputs that take its longest ways: the widest
 * formats, the most divisions, the longest lines, words and lines that are refused. (Not every stop is among them: a
 * call that stops early takes less.)
 *
 * Prints the most that any call of a function took, then the calls on the words with the most partial quotients
 * beside these quotients. Ends with status 1 where a function takes more than the header's SLASH_STACK_BYTES, where
 * that is more than twice what any takes, where no call of a function was done, and where a word's quotients would
 * have room on its stack. (The archive has no static memory that a call could write to, which tests/stack/run looks
 * at.) */

#include "lent.h"
#include "painted.h"

#include <inttypes.h>
#include <stdio.h>
#include <stdlib.h>
#include <string.h>

#define LENGTH_OF(array) (sizeof(array) / sizeof(array)[0])

/* A function, the inputs that it is measured over, and what it took. */
struct measured {
    const char *name;
    uint64_t (*call)(void);
    void (*over_inputs)(struct measured *);
    size_t most;
    size_t calls;
    size_t done; /* the calls that weren't refused */
};

/* Measures one call more; gives what it returned. */
static uint64_t measure(struct measured *function) {
    uint64_t returned = 0;
    size_t bytes = taken(function->call, &returned);
    function->most = bytes > function->most ? bytes : function->most;
    function->calls++;
    function->done += returned == 0;
    return returned;
}

/* ---- formats, ratios and words */

/* The widest formats, those of the recorder and of the papers' examples, the narrowest, and none. */
static const uint64_t formats[][2] = {{SLASH_FIXED, 31},    {SLASH_FLOATING, 32}, {SLASH_FIXED, 15},
                                      {SLASH_FLOATING, 26}, {SLASH_FIXED, 2},     {SLASH_FLOATING, 2},
                                      {SLASH_FIXED, 1}};

/* Neighbouring Fibonacci numbers, which take the most divisions: the largest in fixed k = 31, in floating k = 32 and
 * in 64 bits. Then a breath's ratio, and the ends. */
static const uint64_t ratios[][2] = {{1134903170, 1836311903},
                                     {28657, 46368},
                                     {UINT64_C(7540113804746346429), UINT64_C(12200160415121876738)},
                                     {277, 642},
                                     {1, 2147483647},
                                     {UINT64_MAX, 1},
                                     {1, UINT64_MAX},
                                     {0, 1},
                                     {1, 0}};

/* Takes the words of the format in both vectors: of the ratios, not-a-number, and all bits of a word. */
static void take_words(void) {
    uint64_t width = 1;
    slash_width(kind, k, &width);
    count_of_words = 0;
    for (size_t i = 0; i < LENGTH_OF(ratios); i++) {
        count_of_words += slash_round(kind, k, ratios[i][0], ratios[i][1], &lefts[count_of_words]) == 0;
    }
    lefts[count_of_words++] = 0;
    lefts[count_of_words++] = UINT64_MAX >> (64 - width);
    for (size_t i = 0; i < count_of_words; i++) {
        rights[i] = lefts[count_of_words - 1 - i];
    }
}

/* Takes each format with its words, each code, also the unknown 0, and by the code another format to convert to. */
static void over_formats(struct measured *function, void (*over_inputs)(struct measured *)) {
    for (size_t i = 0; i < LENGTH_OF(formats); i++) {
        kind = formats[i][0];
        k = formats[i][1];
        take_words();
        for (code = 0; code <= SLASH_NORMALISE; code++) {
            to_kind = formats[code % LENGTH_OF(formats)][0];
            to_k = formats[code % LENGTH_OF(formats)][1];
            over_inputs(function);
        }
    }
}

static void over_these_words(struct measured *function) {
    for (size_t i = 0; i < count_of_words; i++) {
        left = lefts[i];
        for (size_t j = 0; j < count_of_words; j++) {
            right = rights[j];
            measure(function);
        }
    }
    left = UINT64_MAX; /* which has bits above its width */
    measure(function);
}

static void over_words(struct measured *function) { over_formats(function, over_these_words); }

/* Each ratio, and as a value in the class that the code names, also in none. */
static void over_these_ratios(struct measured *function) {
    for (size_t i = 0; i < LENGTH_OF(ratios); i++) {
        n = ratios[i][0];
        d = ratios[i][1];
        value = (slash_value){1, code, n, d, 1};
        measure(function);
    }
}

static void over_ratios(struct measured *function) { over_formats(function, over_these_ratios); }

/* The words at once, then with one behind them that is refused. */
static void over_these_vectors(struct measured *function) {
    measure(function);
    lefts[count_of_words] = rights[count_of_words] = UINT64_MAX;
    count_of_words++;
    measure(function);
    count_of_words--;
}

static void over_vectors(struct measured *function) { over_formats(function, over_these_vectors); }

/* Each word with lists of every length. */
static void over_these_lists(struct measured *function) {
    for (size_t i = 0; i < count_of_words; i++) {
        left = lefts[i];
        for (places = 0; places <= SLASH_MOST_QUOTIENTS; places++) {
            measure(function);
        }
    }
}

static void over_lists(struct measured *function) { over_formats(function, over_these_lists); }

/* ---- breaths, recordings, listings and records */

static void over_breaths(struct measured *function) {
    static const uint32_t marks[][3] = {
        {0, 277, 642}, {UINT32_MAX, 28656, 46367}, {0, 317810, 491519}, {0, 0, 1}, {100, 100, 100}, {9, 10, 8}};
    for (rate = 0; rate <= SLASH_MOST_RATE; rate += 1024) {
        for (size_t i = 0; i < LENGTH_OF(marks); i++) {
            onset = marks[i][0];
            peak = marks[i][1];
            next = marks[i][2];
            measure(function);
        }
    }
}

/* A recording: its first line, so many times a breath's line, and what stands behind them. */
struct night {
    const char *first, *breath;
    size_t count;
    const char *end;
};

/* Nothing, no breath, the longest lines, short ones, and lines that are refused. */
static const struct night nights[] = {{"", "", 0, ""},
                                      {"rate\t4096\n", "", 0, ""},
                                      {"rate\t4096\n", "4294966653\t4294966930\t4294967295\n", 1000, ""},
                                      {"rate\t1024\n", "0\t28657\t46368\n", 1000, ""},
                                      {"rate\t1\n", "0\t0\t0\n", 1000, ""},
                                      {"rate\t1024\n", "0\t277\t642\n", 20, "0\t277\n"},
                                      {"rate\t1024\n", "0\t277\t642\n", 20, "0\t277\t0642\n"},
                                      {"rate\t1024\n", "0\t277\t642\n", 20, "000000000000000000000000000000000\n"},
                                      {"rate\t0\n", "", 0, ""}};

static void take_text(const char *line) {
    memcpy(recording + recording_length, line, strlen(line));
    recording_length += strlen(line);
}

static void take_recording(const struct night *recorded) {
    recording_length = 0;
    take_text(recorded->first);
    for (size_t i = 0; i < recorded->count; i++) {
        take_text(recorded->breath);
    }
    take_text(recorded->end);
}

static void over_recordings(struct measured *function) {
    for (size_t i = 0; i < LENGTH_OF(nights); i++) {
        take_recording(&nights[i]);
        measure(function);
    }
}

/* Each recording in pieces to its end, its bytes at hand at once, with room for a line, for some, and for all. */
static void over_pieces(struct measured *function) {
    static const size_t rooms[] = {SLASH_LINE_BYTES, 256, SLASH_LISTING_BYTES};
    for (size_t i = 0; i < LENGTH_OF(nights) * LENGTH_OF(rooms); i++) {
        take_recording(&nights[i / LENGTH_OF(rooms)]);
        text_length = rooms[i % LENGTH_OF(rooms)];
        night = (slash_night_state){0, 0, 0, 0};
        piece = (slash_piece){0, 0, 0};
        last = 1;
        while (measure(function) == 0 && piece.ended == 0) {
            recording_length -= piece.used;
            memmove(recording, recording + piece.used, recording_length);
        }
    }
}

/* The listing of each recording, then with a byte of its last line changed. */
static void over_listings(struct measured *function) {
    for (size_t i = 0; i < LENGTH_OF(nights); i++) {
        take_recording(&nights[i]);
        if (call_night() == 0) {
            measure(function);
            listing[listing_length - 2] ^= 1;
            measure(function);
        }
    }
}

/* Records with the longest and the shortest times, ratios, and a kind that is none. */
static void over_records(struct measured *function) {
    static const uint32_t exported[][3] = {{SLASH_RECORD_TIMINGS, 0x3a800000, 0x447fffff},
                                           {SLASH_RECORD_TIMINGS, 0x3fcccccd, 0x40800000},
                                           {SLASH_RECORD_TIMINGS, 0x447ffffe, 0x447fffff},
                                           {SLASH_RECORD_RATIO, 0x3dcccccd, 0},
                                           {SLASH_RECORD_RATIO, 0x3f1e3779, 0},
                                           {3, 0, 0}};
    memcpy(records, exported, sizeof exported);
    for (count_of_words = 0; count_of_words <= LENGTH_OF(exported); count_of_words++) {
        measure(function);
    }
}

/* ---- the functions */

#define FUNCTION(name, inputs) {"slash_" #name, call_##name, over_##inputs, 0, 0, 0}

static struct measured functions[] = {
    FUNCTION(width, words),
    FUNCTION(largest, words),
    FUNCTION(check, words),
    FUNCTION(read, words),
    FUNCTION(write, ratios),
    FUNCTION(round, ratios),
    FUNCTION(binary, words),
    FUNCTION(unary, words),
    FUNCTION(compare, words),
    FUNCTION(gcd, words),
    FUNCTION(convert, words),
    FUNCTION(quotients, lists),
    FUNCTION(quotient_count, words),
    FUNCTION(twist, words),
    FUNCTION(untwist, words),
    FUNCTION(binary_each, vectors),
    FUNCTION(unary_each, vectors),
    FUNCTION(convert_each, vectors),
    FUNCTION(twist_each, vectors),
    FUNCTION(untwist_each, vectors),
    FUNCTION(breath, breaths),
    FUNCTION(night, recordings),
    FUNCTION(night_piece, pieces),
    FUNCTION(load, listings),
    FUNCTION(timings, records),
};

/* Measures every function and prints the most that it took; says whether the header's figure is true of all. */
static int is_header_true(void) {
    size_t largest = 0;
    int is_true = 1;
    for (size_t i = 0; i < LENGTH_OF(functions); i++) {
        struct measured *function = &functions[i];
        function->over_inputs(function);
        printf("%s: %zu bytes, the most of %zu calls\n", function->name, function->most, function->calls);
        if (function->done == 0) {
            printf("%s: every call was refused\n", function->name);
            is_true = 0;
        }
        largest = function->most > largest ? function->most : largest;
    }
    int is_near = largest <= SLASH_STACK_BYTES && SLASH_STACK_BYTES <= 2 * largest;
    printf("the largest: %zu bytes; the header says at most %d%s\n", largest, SLASH_STACK_BYTES,
           is_near ? "" : ", which is less, or more than twice as much");
    return is_true && is_near;
}

/* Prints what a function takes for the word of n/d, whatever the list; says whether the word's quotients would have
 * no room there. */
static int has_no_room(const char *name, uint64_t (*call)(void), const uint64_t *format, const uint64_t *ratio) {
    struct measured function = {name, call, NULL, 0, 0, 0};
    uint64_t count = 0;
    kind = format[0];
    k = format[1];
    if (slash_round(kind, k, ratio[0], ratio[1], &left) != 0 || slash_quotient_count(kind, k, left, &count) != 0) {
        return 0;
    }
    for (places = 0; places <= SLASH_MOST_QUOTIENTS; places++) {
        measure(&function);
    }
    uint64_t bytes = count * sizeof quotients[0];
    int is_less = function.most < bytes;
    printf("%s, %s k = %" PRIu64 ": %zu bytes; the word's %" PRIu64 " quotients have %" PRIu64 "%s\n", name,
           kind == SLASH_FIXED ? "fixed" : "floating", k, function.most, count, bytes,
           is_less ? "" : ", which would have room there");
    return is_less;
}

int main(void) {
    int is_good = is_header_true();
    /* The words with the most quotients, in the widest formats. */
    for (size_t i = 0; i < 2; i++) {
        is_good &= has_no_room("slash_quotients", call_quotients, formats[i], ratios[i]);
        is_good &= has_no_room("slash_quotient_count", call_quotient_count, formats[i], ratios[i]);
    }
    return is_good ? EXIT_SUCCESS : EXIT_FAILURE;
}
