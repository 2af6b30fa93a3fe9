/* The bound by cases and its decision through the header and the library: prints what is read of them, or the refusal and which
 * of the two texts the place is in; and tries both with too little memory lent.
 *
 *   cuts ROUTINE CUTS
 *
 * Exit status: 0 fits, 4 undecided, 1 a refusal, 2 anything else. */
#include <inttypes.h>
#include <stdio.h>

#include "tickbound.h"

static uint8_t text[TICKBOUND_TEXT_LIMIT + 1], cuts[TICKBOUND_CUTS_LIMIT + 1], report[TICKBOUND_REPORT_MEMORY];
static size_t text_length, cuts_length;

static bool read_file(const char *name, uint8_t *bytes, size_t most, size_t *length) {
    FILE *file = fopen(name, "rb");
    if (file == NULL) {
        return false;
    }
    *length = fread(bytes, 1, most, file);
    fclose(file);
    return true;
}

static bool is_lent_too_little(tickbound_answer answer) {
    return tickbound_refusal_number(answer) == TICKBOUND_LENT_TOO_LITTLE && tickbound_refusal_place(answer) == 0;
}

/* Where the place of a refusal is. */
static const char *place_of(unsigned number) {
    unsigned merging = tickbound_refusal_number(tickbound_merge(text, text_length, report, sizeof report));
    if ((merging >= TICKBOUND_TEXT_TOO_LONG && merging <= TICKBOUND_NO_TARGET) || merging == TICKBOUND_BACKWARD) {
        return "routine file";
    }
    return number == TICKBOUND_STUCK || number == TICKBOUND_NO_MEETING ? "code, in a case" : "cuts";
}

int main(int argc, char **argv) {
    if (argc != 3 || !read_file(argv[1], text, sizeof text, &text_length) ||
        !read_file(argv[2], cuts, sizeof cuts, &cuts_length)) {
        fprintf(stderr, "usage: cuts ROUTINE CUTS\n");
        return 2;
    }
    if (!is_lent_too_little(tickbound_split(text, text_length, cuts, cuts_length, report, sizeof report - 1)) ||
        !is_lent_too_little(tickbound_decide_split(text, text_length, cuts, cuts_length, report, sizeof report - 1))) {
        fprintf(stderr, "cuts: too little memory is not refused\n");
        return 2;
    }
    tickbound_answer answer = tickbound_split(text, text_length, cuts, cuts_length, report, sizeof report);
    if (tickbound_is_refused(answer)) {
        unsigned number = tickbound_refusal_number(answer);
        printf("refusal %u at %" PRIu32 " of the %s\n", number, tickbound_refusal_place(answer), place_of(number));
        return 1;
    }
    struct tickbound_report read;
    if (!tickbound_read_report(report, tickbound_length(answer), &read) || read.path[0] != 0) {
        fprintf(stderr, "cuts: the report could not be read\n");
        return 2;
    }
    struct tickbound_figures figures;
    answer = tickbound_decide_split(text, text_length, cuts, cuts_length, report, sizeof report);
    tickbound_decide_figures(answer, report, &figures);
    if (figures.bound != TICKBOUND_SPLIT || figures.cycles != read.cycles || figures.words != read.words ||
        figures.depth != read.depth || figures.steps != read.steps) {
        fprintf(stderr, "cuts: the decision is not that of the report\n");
        return 2;
    }
    bool fits = figures.decision == TICKBOUND_FITS;
    printf("%s: %" PRIu64 " cycles of %" PRIu64 ", %" PRIu64 " words\n", fits ? "fits" : "undecided", figures.cycles,
           figures.tick, figures.words);
    return fits ? 0 : 4;
}
