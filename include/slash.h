/* Slash arithmetic for breath ratios: the proved archive's functions. Link with -llekhnaom (liblekhnaom.a, which
 * `rt lib` builds in crates/lekhnaom).
 *
 * A word travels in 64 bits. Its format is a kind and a number k:
 *
 *   SLASH_FIXED, k from 2 to 31      2k + 2 bits: the sign at bit 2k + 1, the numerator at bits
 *                                    2k to k + 1, the mark at bit k, the denominator below
 *   SLASH_FLOATING, k from 2 to 32   k + L + 1 bits, L the least with 2^L >= k: the sign, the
 *                                    mark, the slash position e in L bits, the field f in k - 1
 *
 * The mark is 1 where the value is approximate. A word stands for a signed fraction, zero, infinity
 * or not-a-number: slash_read takes it apart, slash_write puts it together. Results are canonical, but negation
 * and absolute value change the sign's bit alone.
 *
 * Twisted words, another arrangement of floating ones, are for storage alone: see slash_twist. Every
 * function but the two that untwist takes plain words, and none can tell a twisted word from a plain one.
 * Twisting and untwisting leave a word's parts as they are, canonical or not.
 *
 * What a call returns
 *
 *   Each function returns 0 where nothing stopped. Otherwise it returns the place times 256 plus the
 *   stop's number (SLASH_STOP_NUMBER, SLASH_STOP_PLACE, and in words slash_stop_text), and changes nothing behind
 *   any pointer. The place is an index from 0 in the vector functions' stops 4 and 5 and in slash_timings's 17 and
 *   18, a line from 1 in slash_night's, slash_night_piece's (but 255) and slash_load's 13 to 15, else 0. Where
 *   several stops would apply, the checks run in the order of the numbers, but slash_load's 7 comes last,
 *   slash_timings's 16 and slash_night_piece's 255 come first, and on a recording's first line 19 stands in place
 *   of 10 and 11; of words, the lowest place comes first, then the left operand, and within one word 4 before 5; of
 *   records, the lowest place; of a recording or a listing, the first bad line.
 *
 * What the caller owes
 *
 *   Every pointer is aligned and not null, and points to as many numbers as the length after it says; a pointer
 *   without a length points to one number or one struct (a listing to SLASH_LISTING_BYTES bytes). Only where a
 *   length is 0 may its pointer be null: nothing is read or written through it then (run in the compiled archive,
 *   not proved: the language's references are never null). What a call may write through one pointer is reached
 *   through no other pointer of that call: results don't overlap operands, so that no vector is its own result.
 *   Nothing else writes there meanwhile.
 *
 * What firmware asks
 *
 *   No function keeps a state from one call to the next, allocates memory, or reads or writes a file, and none
 *   calls anything but, of the C library, memset. So each may be called from any thread and any interrupt, at the
 *   same time as any other, as long as they write to different memory. Each returns, whatever it is given (proved).
 *   slash_night, slash_night_piece and slash_load take time in proportion to their bytes, slash_timings to its
 *   records, a vector function to its places; any other call takes some 5 to 80 ns on a desktop machine, by its
 *   words (bench/RESULTS.md). No call takes more stack than SLASH_STACK_BYTES, and the archive has about 30 KB of
 *   code and constants, with no memory that is written to (tests/stack/run measures both).
 *
 *   It is built for x86-64 as Linux calls functions there, and links into programs and shared objects alike. As any
 *   code for that interface it may use the 128 bytes below the stack pointer, and the SSE registers: an interrupt's
 *   entry has to leave the one alone and to save the other. For another processor the toolchain has no back end yet.
 */
#ifndef SLASH_H
#define SLASH_H

#include <stddef.h>
#include <stdint.h>

#ifdef __cplusplus
extern "C" {
#endif

/* The product's version, of this header and of the archive that is built beside it: CHANGELOG.md tells what each
 * has. */
#define SLASH_VERSION "0.9.0"

/* Kinds. */
#define SLASH_FIXED 1
#define SLASH_FLOATING 2

/* Codes of slash_binary and slash_binary_each. */
#define SLASH_ADD 1
#define SLASH_SUBTRACT 2
#define SLASH_MULTIPLY 3
#define SLASH_DIVIDE 4

/* Codes of slash_unary and slash_unary_each. */
#define SLASH_NEGATE 1
#define SLASH_ABSOLUTE 2
#define SLASH_RECIPROCAL 3
#define SLASH_FLOOR 4
#define SLASH_CEILING 5
#define SLASH_MOD_ONE 6
#define SLASH_NORMALISE 7

/* What slash_compare stores. */
#define SLASH_BELOW 0
#define SLASH_EQUAL 1
#define SLASH_ABOVE 2
#define SLASH_UNORDERED 3

/* Classes of values, for slash_read and slash_write. */
#define SLASH_FRACTION 1
#define SLASH_ZERO 2
#define SLASH_INFINITY 3
#define SLASH_NOT_A_NUMBER 4

/* Kinds of the scoring package's records, for slash_timings. */
#define SLASH_RECORD_TIMINGS 1
#define SLASH_RECORD_RATIO 2

/* Stops. (12 is reserved: no call returns it.) */
#define SLASH_UNKNOWN_FORMAT 1           /* unknown kind or k, or a fixed format given to twisting */
#define SLASH_UNKNOWN_CODE 2             /* unknown operation code; or a value's class, sign or mark that is none */
#define SLASH_UNEQUAL_LENGTHS 3          /* vectors of unequal length, or other than one place a record */
#define SLASH_BITS_ABOVE_WIDTH 4         /* word with bits above its width */
#define SLASH_UNDEFINED_SLASH_POSITION 5 /* floating word whose e lies between k - 1 and 2^L - 2 */
#define SLASH_DENOMINATOR_ZERO 6         /* denominator 0 given to rounding */
#define SLASH_LIST_TOO_SHORT 7           /* list shorter than the quotients or the breaths */
#define SLASH_TOO_MANY_BREATHS 8         /* breath 65,537 begins */
#define SLASH_BAD_LINE_END 9             /* over 32 bytes before the line feed, or no line feed */
#define SLASH_NOT_THREE_FIELDS 10        /* breath's line with other than two tabs */
#define SLASH_BAD_TICK_MARK 11           /* field that isn't a number as slash_night takes them */
#define SLASH_BAD_LISTED_LINE 13         /* line without the shape of a listed one */
#define SLASH_OUT_OF_SEQUENCE 14         /* number or `all` out of sequence, as slash_load says */
#define SLASH_BAD_LISTED_WORD 15         /* word that no listing has, or columns of another */
#define SLASH_CUT_RECORD 16              /* byte count not a multiple of SLASH_RECORD_BYTES */
#define SLASH_UNKNOWN_RECORD 17          /* record of an unknown kind */
#define SLASH_BAD_RECORD_NUMBER 18       /* number that slash_timings doesn't take in such a record */
#define SLASH_BAD_RATE 19                /* rate out of 1 to 4096, or a first line that is no rate line */
#define SLASH_NO_NIGHT 255               /* state of a night that no recording has (the papers number no such stop) */

/* A returned number that isn't 0, taken apart. */
#define SLASH_STOP_NUMBER(returned) ((returned) % 256)
#define SLASH_STOP_PLACE(returned) ((returned) / 256)

/* A stop in words, by its number or by what a call returned. */
static inline const char *slash_stop_text(uint64_t returned) {
    switch (SLASH_STOP_NUMBER(returned)) {
    case 0: return "done";
    case 1: return "unknown format (twisting: floating ones only)";
    case 2: return "unknown code";
    case 3: return "unequal lengths";
    case 4: return "bits above the word's width";
    case 5: return "undefined slash position";
    case 6: return "denominator 0";
    case 7: return "list too short";
    case 8: return "more than 65,536 breaths";
    case 9: return "over 32 bytes before the line feed, or no line feed";
    case 10: return "not three fields";
    case 11: return "a field that is no tick mark";
    case 13: return "not the shape of a listed line";
    case 14: return "out of sequence";
    case 15: return "no listed word, or columns of another";
    case 16: return "not whole records of 12 bytes";
    case 17: return "unknown kind of record";
    case 18: return "a number that no record of its kind has";
    case 19: return "no rate line, or no rate from 1 to 4096";
    case 255: return "a night that no recording has";
    default: return "unknown stop";
    }
}

/* ---- the largest counts */

/* The bytes that slash_night is lent: no listing has more. */
#define SLASH_LISTING_BYTES 2162719

/* The most bytes of a line of a recording, its line feed counted; and of a line of a listing. */
#define SLASH_LINE_BYTES 33

/* The most breaths of a recording or a listing: lists of so many places are never too short for slash_load. */
#define SLASH_MOST_BREATHS 65536

/* The most ticks a second. */
#define SLASH_MOST_RATE 4096

/* The most partial quotients of any word: a list of so many places is never too short for slash_quotients. (A word
 * of a format with k has at most 2k.) */
#define SLASH_MOST_QUOTIENTS 64

/* The bytes of one record that slash_timings takes. */
#define SLASH_RECORD_BYTES 12

/* No call takes more stack (measured; the call's return address included). */
#define SLASH_STACK_BYTES 1024

/* ---- formats, and words taken apart */

/* What a word says. */
typedef struct {
    uint64_t sign;        /* 0, or 1 where it is negative; of a not-a-number 0 */
    uint64_t value_class; /* SLASH_FRACTION, SLASH_ZERO, SLASH_INFINITY or SLASH_NOT_A_NUMBER */
    uint64_t numerator;   /* of a fraction as stored, not 0, perhaps not in lowest terms; else 0, infinity 1 */
    uint64_t denominator; /* the same; of a zero 1, else 0 */
    uint64_t mark;        /* 1 where the value is approximate; of a not-a-number the word's bit */
} slash_value;

/* Stores how many bits a word of the format has, at most 64. Stop 1. */
uint64_t slash_width(uint64_t kind, uint64_t k, uint64_t *width);

/* Stores the largest numerator of a fraction that the format holds; the largest denominator is the same.
 * Stop 1. */
uint64_t slash_largest(uint64_t kind, uint64_t k, uint64_t *largest);

/* Returns whether the word is one of the format: 0, or its stop, 1, 4 or 5. */
uint64_t slash_check(uint64_t kind, uint64_t k, uint64_t word);

/* Stores what a word says. Stops 1, 4, 5. */
uint64_t slash_read(uint64_t kind, uint64_t k, uint64_t word, slash_value *value);

/* Stores the canonical word of a value: a fraction's parts, whichever they are, rounded as slash_round says, its
 * sign kept, marked if the value is or rounding changed it. Of any other class the parts aren't looked at, and
 * of a not-a-number the sign and the mark are looked at and not kept. What slash_read stored of a word is written
 * as that word normalised (slash_unary), in its format. Stops 1, 2 (a class that is none of the four, a sign or a
 * mark above 1), 6 (a fraction with denominator 0). */
uint64_t slash_write(uint64_t kind, uint64_t k, const slash_value *value, uint64_t *word);

/* ---- words made and combined */

/* Stores the word, of sign 0, of n/d rounded into the format: the last convergent that it holds,
 * marked if its value isn't n/d. Every other held pair r/s has a larger miss (the size of s * n - r * d),
 * or an equal miss and a larger sum r + s. Stops 1, 6. */
uint64_t slash_round(uint64_t kind, uint64_t k, uint64_t n, uint64_t d, uint64_t *word);

/* Stores the word of left + right, left - right, left * right or left / right: the exact result,
 * rounded. Marked if an operand is or rounding changed the value. Where the result is finite, the
 * pair stored is the best for its absolute value N/D, as slash_round says. With finite operands a/b
 * and c/d, signs apart and zero as 0/1, N over D is: for a sum or difference the size of
 * a * d + b * c or a * d - b * c over b * d, plus where the two terms added have the same sign; for a
 * product a * c over b * d; for a quotient a * d over b * c, or 0 over 1 where a finite value is
 * divided by infinity. Stops 1, 2, 4, 5. */
uint64_t slash_binary(uint64_t kind, uint64_t k, uint64_t code, uint64_t left, uint64_t right,
                      uint64_t *word);

/* Stores the word of the operand negated, its absolute value, reciprocal, floor, ceiling, what is
 * left of it modulo 1, or itself normalised. Stops 1, 2, 4, 5. */
uint64_t slash_unary(uint64_t kind, uint64_t k, uint64_t code, uint64_t operand, uint64_t *word);

/* Stores how the left value lies to the right one: SLASH_BELOW, SLASH_EQUAL, SLASH_ABOVE, or
 * SLASH_UNORDERED with a not-a-number. Stops 1, 4, 5. */
uint64_t slash_compare(uint64_t kind, uint64_t k, uint64_t left, uint64_t right, uint64_t *order);

/* Stores the greatest common divisor of the stored parts of a nonzero fraction, 0 for any other
 * value. Stops 1, 4, 5. */
uint64_t slash_gcd(uint64_t kind, uint64_t k, uint64_t operand, uint64_t *divisor);

/* Stores the word of the format to_kind, to_k for a word of the format kind, k: rounded if finite,
 * with its sign. Stops 1 (for kind, k, then for to_kind, to_k), 4, 5. */
uint64_t slash_convert(uint64_t kind, uint64_t k, uint64_t to_kind, uint64_t to_k,
                       uint64_t operand, uint64_t *word);

/* Stores the partial quotients of the absolute value, first one first, at the start of the list,
 * leaves the rest of the list as it was, and stores their count, at most 2k: 1 for a zero, 0 for an
 * infinity or a not-a-number. They go into the list as they are found, once it is known that they fit;
 * no other list of them is kept. Stops 1, 4, 5, 7. */
uint64_t slash_quotients(uint64_t kind, uint64_t k, uint64_t operand, uint32_t *list,
                         size_t list_length, uint64_t *count);

/* Stores how many partial quotients a word has, with no list lent: what slash_quotients counts, at most
 * 2k, 1 for a zero, 0 for an infinity or a not-a-number. A list of so many places is long enough for
 * slash_quotients, and every shorter one gets its stop 7. Stops 1, 4, 5. */
uint64_t slash_quotient_count(uint64_t kind, uint64_t k, uint64_t operand, uint64_t *count);

/* Stores the word twisted, so that its numerator stands at the right. The sign, the mark and the slash
 * position e stay where they are. For e <= k - 2 the leftmost e bits of the field hold the denominator
 * without its leading bit, lowest bit leftmost, and the rest, the lowest k - 1 - e bits of the twisted
 * word, is the numerator:
 *
 *   e = twisted >> (k - 1) & ((1 << L) - 1)
 *   numerator = twisted & ((UINT64_C(1) << (k - 1 - e)) - 1)     where e <= k - 2
 *
 * An infinity or a not-a-number, where e is the last position, all ones, stays as it is. What a zero has for its
 * denominator is kept like any denominator, and no two words become one. Stops 1 (for a fixed format too), 4, 5. */
uint64_t slash_twist(uint64_t kind, uint64_t k, uint64_t word, uint64_t *twisted);

/* Stores the word of which this is the twisted one: each of the two functions undoes the other. A twisted
 * word has its slash position where a plain one has it, and is checked in the same way. Stops 1 (for a
 * fixed format too), 4, 5. */
uint64_t slash_untwist(uint64_t kind, uint64_t k, uint64_t twisted, uint64_t *word);

/* slash_binary at each place: out[i] from left[i] and right[i]. Stops 1, 2, 3 (unless all three
 * lengths are equal), then 4 and 5 with the index as place. */
uint64_t slash_binary_each(uint64_t kind, uint64_t k, uint64_t code, const uint64_t *left,
                           size_t left_length, const uint64_t *right, size_t right_length,
                           uint64_t *out, size_t out_length);

/* slash_unary at each place: out[i] from operand[i]. Stops 1, 2, 3 (unless both lengths are equal),
 * then 4 and 5 with the index as place. */
uint64_t slash_unary_each(uint64_t kind, uint64_t k, uint64_t code, const uint64_t *operand,
                          size_t operand_length, uint64_t *out, size_t out_length);

/* slash_convert at each place: out[i] from operand[i]. Stops 1 (for kind, k, then for to_kind,
 * to_k), 3 (unless both lengths are equal), then 4 and 5 with the index as place. */
uint64_t slash_convert_each(uint64_t kind, uint64_t k, uint64_t to_kind, uint64_t to_k,
                            const uint64_t *operand, size_t operand_length, uint64_t *out,
                            size_t out_length);

/* slash_twist at each place: out[i] from operand[i]. Stops 1 (for a fixed format too), 3 (unless both
 * lengths are equal), then 4 and 5 with the index as place. */
uint64_t slash_twist_each(uint64_t kind, uint64_t k, const uint64_t *operand,
                          size_t operand_length, uint64_t *out, size_t out_length);

/* slash_untwist at each place: out[i] from operand[i]. Stops 1 (for a fixed format too), 3 (unless both
 * lengths are equal), then 4 and 5 with the index as place. */
uint64_t slash_untwist_each(uint64_t kind, uint64_t k, const uint64_t *operand,
                            size_t operand_length, uint64_t *out, size_t out_length);

/* Stores the word, in fixed k = 15, of one breath as the recorder's firmware stores it. Onset, peak and next
 * onset are marks of a clock 32 bits wide that ticks rate times a second, so that its durations are
 * differences modulo 2^32: in = peak - onset and whole = next - onset. The breath is void if whole is 0, if in
 * exceeds whole, or if whole is greater than 120 times the rate (a next onset before its onset reads as a
 * breath of nearly the whole clock); its word is 0 then, which no other breath has. Otherwise in over whole
 * is rounded as slash_round says. Stop 19, for a rate out of 1 to 4096. */
uint64_t slash_breath(uint64_t rate, uint32_t onset, uint32_t peak, uint32_t next, uint64_t *word);

/* Stores the listing of a night's recording, what the program `night` prints for it, at the start of
 * the lent listing, leaves the rest as it was, and stores the listing's length. The recording opens with the
 * rate line: `rate` and a whole number from 1 to 4096, the clock's ticks a second. Then it has a breath a
 * line: onset, peak and next onset, decimal numbers from 0 to 4294967295. Numbers have no leading zeros, what
 * stands in a line is parted by one tab, and each line is ended by one line feed. A breath has the word that
 * slash_breath stores of it at that rate, and a void one is left out of the line `all`. A recording without a
 * byte is a night with nothing in it: its listing is the line `all`, void, and so is that of the rate line
 * alone. Stops, with the line as place, where the rate line is line 1 and breath i is on line i + 1:
 *
 *   8    breath 65,537 begins, at line 65,538
 *   9    over 32 bytes before the line feed, or no line feed, of the first line too
 *   10   a breath's line that has not three fields
 *   11   a field of it that isn't such a number
 *   19   a first line that is no rate line: there this stands in place of 10 and 11
 *
 * The recording is read through before anything is stored, so that a stop leaves the listing and the length as
 * they were; the lines before that line are good, and can be listed by a call of their own. */
uint64_t slash_night(const uint8_t *recording, size_t recording_length, uint8_t *listing,
                     uint64_t *length);

/* A night that is listed in pieces: all four 0 where nothing of it is read; else what slash_night_piece
 * stored. */
typedef struct {
    uint64_t rate;        /* the clock's ticks a second */
    uint64_t breath;      /* the number of the next breath, from 1 */
    uint64_t inspiration; /* the sums so far, void breaths left out */
    uint64_t whole;
} slash_night_state;

/* What a piece came to. */
typedef struct {
    uint64_t used;   /* so many bytes of the recording are listed */
    uint64_t length; /* so many bytes of text are stored */
    uint64_t ended;  /* 1 where the listing is whole, its line `all` stored; else 0 */
} slash_piece;

/* Lists a night in pieces, for one who has no SLASH_LISTING_BYTES: from its state on, stores the lines of as many
 * breaths of these bytes as are whole and have room at the start of the lent text, leaves the rest as it was, and
 * stores the state behind them and what the piece came to. `last` is 0 where bytes may follow, else these are the
 * recording's last. A piece that hasn't ended goes on by the next call, with its state, the bytes that weren't
 * used and those that follow them. A line, the rate line and a bad one too, is looked at only where the text has
 * room for SLASH_LINE_BYTES more, and the bytes have all of it or SLASH_LINE_BYTES or are the last; then the call
 * uses it, ends or is refused. So buffers of SLASH_LINE_BYTES each are enough, and larger ones are faster. All
 * texts in a row are the listing that slash_night stores. Behind the end the night is over: its state isn't put
 * back to zeros, and a further call would list `all` again.
 *
 * A line is refused by the call that begins with it, with the stops of slash_night and its line as place: the
 * pieces before it have listed the lines before it. And first of all 255, place 0, for a state that no recording
 * has. */
uint64_t slash_night_piece(slash_night_state *night, const uint8_t *bytes, size_t bytes_length, uint64_t last,
                           uint8_t *text, size_t text_length, slash_piece *piece);

/* Reads a printed listing back: stores the breaths' numbers, from 1, and their words at the start of the
 * two lists, leaves the rest of each as it was, and stores the count of breaths and the total's word. The
 * listing has from 0 to 65,536 lines of breaths, then the line `all`, and each line reads as slash_night
 * lists it: the breath's number or `all`; the word, 0 where it is void, else canonical in fixed k = 15,
 * of sign 0 and from 0 to 1, marked or not; the word's fraction and percentage, or two hyphens where it
 * is void. Where there are no breaths, `all` is void; whether the total follows from the breaths isn't
 * judged otherwise. Stops, with the line as place:
 *
 *   13   a line of another shape than: a whole number or `all`; eight lowercase hexadecimal digits; two
 *        hyphens, or a fraction and a decimal number of one place. Whole numbers may have any length, but
 *        no leading zeros; tabs and line feed are as listed
 *   14   a number out of sequence or above 65,536, `all` as the first line where it differs from that of
 *        no breaths, a line after `all`, or no `all`: that at the line after the last
 *   15   a word that is none of those, or a fraction or percentage that isn't the word's
 *
 * and last 7, for a list shorter than the breaths. The listing is read through before anything is stored. */
uint64_t slash_load(const uint8_t *text, size_t text_length, uint64_t *numbers,
                    size_t numbers_length, uint64_t *words, size_t words_length, uint64_t *count,
                    uint64_t *total);

/* Stores the words, in fixed k = 15, of the ratios that a scoring package exported: words[i] from record
 * i alone. A record has SLASH_RECORD_BYTES bytes, a 32-bit kind and then two binary32 numbers, all
 * lowest byte first:
 *
 *   SLASH_RECORD_TIMINGS   seconds of inspiration, then of the whole breath; both from 2^-10 to below
 *                          2^10, the first no larger than the second
 *   SLASH_RECORD_RATIO     the ratio itself, from 2^-10 to 1, then a number whose bits are all 0
 *
 * The ratio is formed exactly from the numbers' bits and rounded as slash_round says: no such word misses
 * it by less, and the mark is 1 where the word's value isn't the ratio. (A ratio of 1/32768 or less is no
 * stop: its word is that of 0/1, marked.) Stops, in this order:
 *
 *   16   a byte count, records_length, that is not a multiple of SLASH_RECORD_BYTES
 *   3    words has not exactly one place for each record
 *
 * then of the lowest bad record, with its index as place:
 *
 *   17   an unknown kind
 *   18   a number that breaks these rules, as do all subnormal or negative ones, infinities and NaNs, and
 *        the negative zero as a ratio's second number
 *
 * All records are checked before anything is stored. No bytes and no places is good. */
uint64_t slash_timings(const uint8_t *records, size_t records_length, uint64_t *words,
                       size_t words_length);

#ifdef __cplusplus
}
#endif

#endif
