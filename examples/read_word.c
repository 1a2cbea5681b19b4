/* Reads one word back: that of a breath of 642 ticks, 277 of them in, as the recorder stores it. */

#include "slash.h"

#include <inttypes.h>
#include <stdio.h>

int main(void) {
    slash_value value;
    uint64_t returned = slash_read(SLASH_FIXED, 15, 0x01150282, &value);
    if (returned != 0) {
        printf("refused: %s\n", slash_stop_text(returned));
        return 1;
    }
    printf("%s%" PRIu64 "/%" PRIu64 ", %s\n", value.sign != 0 ? "-" : "", value.numerator, value.denominator,
           value.mark != 0 ? "approximate" : "exact");
    return 0;
}
