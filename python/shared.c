/* What Python takes from the header beside the archive's functions. A shared object has no macros and no inline
 * functions: here they get names in it, so that each text and each number stands once, in the header. */

#include "slash.h"

const char lekhnaom_version[] = SLASH_VERSION;

/* A returned number taken apart, and in words. */
uint64_t lekhnaom_stop_number(uint64_t returned) {
    return SLASH_STOP_NUMBER(returned);
}

uint64_t lekhnaom_stop_place(uint64_t returned) {
    return SLASH_STOP_PLACE(returned);
}

const char *lekhnaom_stop_text(uint64_t returned) {
    return slash_stop_text(returned);
}

/* The header's SLASH_name, as lekhnaom_name. */
#define NUMBER(name) const uint64_t lekhnaom_##name = SLASH_##name;

NUMBER(FIXED)
NUMBER(FLOATING)

NUMBER(ADD)
NUMBER(SUBTRACT)
NUMBER(MULTIPLY)
NUMBER(DIVIDE)

NUMBER(NEGATE)
NUMBER(ABSOLUTE)
NUMBER(RECIPROCAL)
NUMBER(FLOOR)
NUMBER(CEILING)
NUMBER(MOD_ONE)
NUMBER(NORMALISE)

NUMBER(BELOW)
NUMBER(EQUAL)
NUMBER(ABOVE)

NUMBER(FRACTION)
NUMBER(ZERO)
NUMBER(INFINITY)
NUMBER(NOT_A_NUMBER)

NUMBER(UNKNOWN_FORMAT)
NUMBER(BAD_LINE_END)
NUMBER(BAD_LISTED_LINE)

NUMBER(LISTING_BYTES)
NUMBER(LINE_BYTES)
NUMBER(MOST_BREATHS)
NUMBER(MOST_QUOTIENTS)
NUMBER(RECORD_BYTES)

/* The structs' bytes: Python lays them out anew. */
const uint64_t lekhnaom_value_bytes = sizeof(slash_value);
const uint64_t lekhnaom_night_state_bytes = sizeof(slash_night_state);
const uint64_t lekhnaom_piece_bytes = sizeof(slash_piece);
