/* Imports breaths that a scoring package exported, as timings or as ratios: each record's ratio becomes a
 * word of fixed k = 15. Then the same again with a bad record among them, which is refused. */

#include "show.h"

#include <string.h>

#define RECORDS 4

/* SLASH_RECORD_TIMINGS with the seconds of inspiration and of the whole breath, or SLASH_RECORD_RATIO
 * with the ratio and 0. */
struct record {
    uint32_t kind;
    float first, second;
};

/* Writes 32 bits, lowest byte first. */
static void write_bits(uint32_t bits, uint8_t *bytes) {
    for (int i = 0; i < 4; i++) {
        bytes[i] = (uint8_t)(bits >> 8 * i);
    }
}

/* Writes a binary32 number, lowest byte first. */
static void write_number(float number, uint8_t *bytes) {
    uint32_t bits = 0;
    memcpy(&bits, &number, sizeof bits);
    write_bits(bits, bytes);
}

/* Prints what a record says, and its word. */
static void print_record(const struct record *record, uint64_t word) {
    char name[64];
    if (record->kind == SLASH_RECORD_TIMINGS) {
        snprintf(name, sizeof name, "%g s of %g s", record->first, record->second);
    } else {
        snprintf(name, sizeof name, "ratio %g", record->first);
    }
    print_word(name, SLASH_FIXED, 15, word);
}

/* Imports the records, in the bytes that the package exports, and prints their words, or why they are
 * refused; returns whether they were imported. */
static int print_imported(const struct record *records) {
    uint8_t exported[RECORDS * SLASH_RECORD_BYTES];
    uint64_t words[RECORDS] = {0};
    for (size_t i = 0; i < RECORDS; i++) {
        uint8_t *bytes = exported + i * SLASH_RECORD_BYTES;
        write_bits(records[i].kind, bytes);
        write_number(records[i].first, bytes + 4);
        write_number(records[i].second, bytes + 8);
    }
    uint64_t returned = slash_timings(exported, sizeof exported, words, RECORDS);
    if (returned != 0) {
        printf("the records: stop %" PRIu64 " at record %" PRIu64 ", %s; no word is stored\n",
               SLASH_STOP_NUMBER(returned), SLASH_STOP_PLACE(returned), slash_stop_text(returned));
        return 0;
    }
    for (size_t i = 0; i < RECORDS; i++) {
        print_record(&records[i], words[i]);
    }
    return 1;
}

int main(void) {
    /* The floats for 1.6 and 0.1 lie close by, at fractions that no such word holds. */
    struct record records[RECORDS] = {{SLASH_RECORD_TIMINGS, 1.5f, 4.0f},
                                      {SLASH_RECORD_TIMINGS, 1.6f, 4.0f},
                                      {SLASH_RECORD_RATIO, 0.375f, 0.0f},
                                      {SLASH_RECORD_RATIO, 0.1f, 0.0f}};
    int is_imported = print_imported(records);

    /* No inspiration is longer than its breath. Records are counted from 0. */
    records[2] = (struct record){SLASH_RECORD_TIMINGS, 4.0f, 1.5f};
    int is_imported_too = print_imported(records);
    return is_imported && !is_imported_too ? EXIT_SUCCESS : EXIT_FAILURE;
}
