/* The trace of a run through the header and the library: prints it and what its replay with the same file says, or its
 * refusal; and tries it with too little memory lent.
 *
 *   record ROUTINE
 *
 * Exit status: 0 agrees, 1 a refusal, 2 anything else. */
#include <inttypes.h>
#include <stdio.h>

#include "tickbound.h"

static uint8_t text[TICKBOUND_TEXT_LIMIT + 1], lines[TICKBOUND_TRACE_MEMORY], report[TICKBOUND_REPORT_MEMORY];

int main(int argc, char **argv) {
    FILE *file = argc == 2 ? fopen(argv[1], "rb") : NULL;
    if (file == NULL) {
        fprintf(stderr, "usage: record ROUTINE\n");
        return 2;
    }
    size_t text_length = fread(text, 1, sizeof text, file);
    fclose(file);
    tickbound_answer answer = tickbound_trace(text, text_length, lines, sizeof lines - 1);
    if (tickbound_refusal_number(answer) != TICKBOUND_LENT_TOO_LITTLE || tickbound_refusal_place(answer) != 0) {
        fprintf(stderr, "record: too little memory is not refused\n");
        return 2;
    }
    answer = tickbound_trace(text, text_length, lines, sizeof lines);
    if (tickbound_is_refused(answer)) {
        printf("refusal %u at %" PRIu32 "\n", tickbound_refusal_number(answer), tickbound_refusal_place(answer));
        return 1;
    }
    fwrite(lines, 1, tickbound_length(answer), stdout);
    answer = tickbound_replay(text, text_length, lines, tickbound_length(answer), report, sizeof report);
    struct tickbound_replay_report said;
    if (tickbound_is_refused(answer) || !tickbound_read_replay_report(report, tickbound_length(answer), &said) || !said.agrees) {
        fprintf(stderr, "record: the trace does not agree with its own run\n");
        return 2;
    }
    printf("agrees\n");
    return 0;
}
