/* What the calls that are measured are given and lent, and a call of each function with it. The calls have no
 * arguments, so that they can run on a stack of their own. */
#ifndef LENT_H
#define LENT_H

#include "slash.h"

#define MOST_WORDS 16
#define MOST_RECORDING_BYTES 65536

static uint64_t kind, k, to_kind, to_k, code, left, right, n, d;
static slash_value value;
static uint64_t lefts[MOST_WORDS], rights[MOST_WORDS], words[MOST_WORDS];
static size_t count_of_words;
static uint32_t quotients[SLASH_MOST_QUOTIENTS];
static size_t places;

static uint64_t rate;
static uint32_t onset, peak, next;
static uint8_t recording[MOST_RECORDING_BYTES], listing[SLASH_LISTING_BYTES], text[SLASH_LISTING_BYTES];
static size_t recording_length, text_length;
static uint64_t listing_length, last;
static slash_night_state night;
static slash_piece piece;
static uint64_t numbers[SLASH_MOST_BREATHS], breaths[SLASH_MOST_BREATHS], total;
static uint8_t records[MOST_WORDS * SLASH_RECORD_BYTES];

static uint64_t stored;

static uint64_t call_width(void) { return slash_width(kind, k, &stored); }
static uint64_t call_largest(void) { return slash_largest(kind, k, &stored); }
static uint64_t call_check(void) { return slash_check(kind, k, left); }
static uint64_t call_read(void) { return slash_read(kind, k, left, &value); }
static uint64_t call_write(void) { return slash_write(kind, k, &value, &stored); }
static uint64_t call_round(void) { return slash_round(kind, k, n, d, &stored); }
static uint64_t call_binary(void) { return slash_binary(kind, k, code, left, right, &stored); }
static uint64_t call_unary(void) { return slash_unary(kind, k, code, left, &stored); }
static uint64_t call_compare(void) { return slash_compare(kind, k, left, right, &stored); }
static uint64_t call_gcd(void) { return slash_gcd(kind, k, left, &stored); }
static uint64_t call_convert(void) { return slash_convert(kind, k, to_kind, to_k, left, &stored); }
static uint64_t call_quotients(void) { return slash_quotients(kind, k, left, quotients, places, &stored); }
static uint64_t call_quotient_count(void) { return slash_quotient_count(kind, k, left, &stored); }
static uint64_t call_twist(void) { return slash_twist(kind, k, left, &stored); }
static uint64_t call_untwist(void) { return slash_untwist(kind, k, left, &stored); }

static uint64_t call_binary_each(void) {
    return slash_binary_each(kind, k, code, lefts, count_of_words, rights, count_of_words, words, count_of_words);
}

static uint64_t call_unary_each(void) {
    return slash_unary_each(kind, k, code, lefts, count_of_words, words, count_of_words);
}

static uint64_t call_convert_each(void) {
    return slash_convert_each(kind, k, to_kind, to_k, lefts, count_of_words, words, count_of_words);
}

static uint64_t call_twist_each(void) {
    return slash_twist_each(kind, k, lefts, count_of_words, words, count_of_words);
}

static uint64_t call_untwist_each(void) {
    return slash_untwist_each(kind, k, lefts, count_of_words, words, count_of_words);
}

static uint64_t call_breath(void) { return slash_breath(rate, onset, peak, next, &stored); }

static uint64_t call_night(void) { return slash_night(recording, recording_length, listing, &listing_length); }

static uint64_t call_night_piece(void) {
    return slash_night_piece(&night, recording, recording_length, last, text, text_length, &piece);
}

static uint64_t call_load(void) {
    return slash_load(listing, listing_length, numbers, SLASH_MOST_BREATHS, breaths, SLASH_MOST_BREATHS, &stored,
                      &total);
}

static uint64_t call_timings(void) {
    return slash_timings(records, count_of_words * SLASH_RECORD_BYTES, words, count_of_words);
}

#endif
