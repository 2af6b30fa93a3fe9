/* The replay through the header and the library: prints what is read of its report, or its refusal and which of the two
 * texts the place is in; and tries it with too little memory lent.
 *
 *   trace ROUTINE TRACE
 *
 * Exit status: 0 agrees, 3 differs, 1 a refusal, 2 anything else. */
#include <inttypes.h>
#include <stdio.h>

#include "tickbound.h"

static uint8_t text[TICKBOUND_TEXT_LIMIT + 1], trace[TICKBOUND_TRACE_LIMIT + 1], report[TICKBOUND_REPORT_MEMORY];

static bool read_file(const char *name, uint8_t *bytes, size_t most, size_t *length) {
    FILE *file = fopen(name, "rb");
    if (file == NULL) {
        return false;
    }
    *length = fread(bytes, 1, most, file);
    fclose(file);
    return true;
}

/* Whether the run of a routine file is refused before it begins. */
static bool is_unread(tickbound_answer answer) {
    unsigned number = tickbound_refusal_number(answer);
    return (number >= TICKBOUND_TEXT_TOO_LONG && number <= TICKBOUND_NO_TARGET) || number == TICKBOUND_BACKWARD ||
           number == TICKBOUND_UNKNOWN_CELL;
}

int main(int argc, char **argv) {
    size_t text_length, trace_length;
    if (argc != 3 || !read_file(argv[1], text, sizeof text, &text_length) ||
        !read_file(argv[2], trace, sizeof trace, &trace_length)) {
        fprintf(stderr, "usage: trace ROUTINE TRACE\n");
        return 2;
    }
    tickbound_answer answer = tickbound_replay(text, text_length, trace, trace_length, report, sizeof report - 1);
    if (tickbound_refusal_number(answer) != TICKBOUND_LENT_TOO_LITTLE || tickbound_refusal_place(answer) != 0) {
        fprintf(stderr, "trace: too little memory is not refused\n");
        return 2;
    }
    answer = tickbound_replay(text, text_length, trace, trace_length, report, sizeof report);
    if (tickbound_is_refused(answer)) {
        bool in_text = is_unread(tickbound_run(text, text_length, report, sizeof report));
        printf("refusal %u at %" PRIu32 " of the %s\n", tickbound_refusal_number(answer), tickbound_refusal_place(answer),
               in_text ? "routine file" : "trace");
        return 1;
    }
    struct tickbound_replay_report said;
    if (!tickbound_read_replay_report(report, tickbound_length(answer), &said)) {
        fprintf(stderr, "trace: the report could not be read\n");
        return 2;
    }
    if (said.agrees) {
        printf("agrees\n");
        return 0;
    }
    printf("line %" PRIu64 " differs\n", said.line);
    return 3;
}
