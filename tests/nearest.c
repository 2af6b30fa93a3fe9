/* The search for the nearest number that moves the bound, through the header and the library: prints what is read of its
 * report, or its refusal; and tries it with too little memory lent.
 *
 *   nearest ROUTINE
 *
 * Exit status: 0 a change, 3 none, 1 a refusal, 2 anything else. */
#include <inttypes.h>
#include <stdio.h>

#include "tickbound.h"

static uint8_t text[TICKBOUND_TEXT_LIMIT + 1], report[TICKBOUND_REPORT_MEMORY];

int main(int argc, char **argv) {
    FILE *file = argc == 2 ? fopen(argv[1], "rb") : NULL;
    if (file == NULL) {
        fprintf(stderr, "usage: nearest ROUTINE\n");
        return 2;
    }
    size_t length = fread(text, 1, sizeof text, file);
    fclose(file);
    tickbound_answer answer = tickbound_nearest(text, length, report, sizeof report - 1);
    if (tickbound_refusal_number(answer) != TICKBOUND_LENT_TOO_LITTLE || tickbound_refusal_place(answer) != 0) {
        fprintf(stderr, "nearest: too little memory is not refused\n");
        return 2;
    }
    answer = tickbound_nearest(text, length, report, sizeof report);
    if (tickbound_is_refused(answer)) {
        printf("refusal %u at %" PRIu32 "\n", tickbound_refusal_number(answer), tickbound_refusal_place(answer));
        return 1;
    }
    struct tickbound_nearest_report said;
    if (!tickbound_read_nearest_report(report, tickbound_length(answer), &said)) {
        fprintf(stderr, "nearest: the report could not be read\n");
        return 2;
    }
    if (!said.moves) {
        printf("no change moves the bound\n");
        return 3;
    }
    printf("%s as %" PRId32 " moves the bound\n", said.name, said.value);
    return 0;
}
