/* The explanation of the merging bound through the header and the library: prints its lines, or its refusal; and tries it with too
 * little memory lent.
 *
 *   way ROUTINE
 *
 * Exit status: 0 lines, 1 a refusal, 2 anything else. */
#include <inttypes.h>
#include <stdio.h>

#include "tickbound.h"

static uint8_t text[TICKBOUND_TEXT_LIMIT + 1], lines[TICKBOUND_EXPLAIN_MEMORY];

int main(int argc, char **argv) {
    FILE *file = argc == 2 ? fopen(argv[1], "rb") : NULL;
    if (file == NULL) {
        fprintf(stderr, "usage: way ROUTINE\n");
        return 2;
    }
    size_t length = fread(text, 1, sizeof text, file);
    fclose(file);
    tickbound_answer answer = tickbound_explain_merge(text, length, lines, sizeof lines - 1);
    if (tickbound_refusal_number(answer) != TICKBOUND_LENT_TOO_LITTLE || tickbound_refusal_place(answer) != 0) {
        fprintf(stderr, "way: too little memory is not refused\n");
        return 2;
    }
    answer = tickbound_explain_merge(text, length, lines, sizeof lines);
    if (tickbound_is_refused(answer)) {
        printf("refusal %u at %" PRIu32 "\n", tickbound_refusal_number(answer), tickbound_refusal_place(answer));
        return 1;
    }
    return fwrite(lines, 1, tickbound_length(answer), stdout) == tickbound_length(answer) ? 0 : 2;
}
