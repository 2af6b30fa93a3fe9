/* A loader: reads a routine file, asks `tickbound_decide` whether the routine fits in its tick, and goes by that alone.
 * Of a routine that fits it prints what to reserve for it, once, when the card starts; of any other why it is not
 * loaded.
 *
 *   ./tickbound install PREFIX
 *   cc -I PREFIX/include -o loader examples/loader.c -L PREFIX/lib -ltickbound
 *   ./loader FILE
 *
 * Exit status: 0 fits, and nothing else is 0; 4 over its tick by the first bound, or undecided; 1 refused; 2 anything
 * else, also where the output cannot be written. */
#include <inttypes.h>
#include <stdio.h>

#include "tickbound.h"

enum { LOADED = 0, REFUSED = 1, FAILED = 2, NOT_WITHIN_TICK = 4 };

/* What the place of a refusal is. */
static const char *place_of(unsigned number) {
    switch (number) {
    case TICKBOUND_LENT_TOO_LITTLE:
    case TICKBOUND_TEXT_TOO_LONG:
        return "place";
    case TICKBOUND_STUCK:
    case TICKBOUND_OPENINGS:
    case TICKBOUND_SPENT:
        return "address";
    default:
        return "line";
    }
}

/* Reads a file into `most` bytes; false, with a message, where it cannot be read. */
static bool read_file(const char *name, uint8_t *bytes, size_t most, size_t *length) {
    FILE *file = fopen(name, "rb");
    if (file == NULL) {
        perror(name);
        return false;
    }
    *length = fread(bytes, 1, most, file);
    bool is_read = ferror(file) == 0;
    if (!is_read) {
        perror(name);
    }
    fclose(file);
    return is_read;
}

static int loaded(const struct tickbound_figures *figures) {
    const char *bound = figures->bound == TICKBOUND_FIRST ? "first" : "merging";
    printf("fits: at most %" PRIu64 " of the %" PRIu64 " cycles of a tick, by the %s bound\n", figures->cycles,
           figures->tick, bound);
    printf("reserve once, when the card starts: words %" PRIu64 ", stack entries %" PRIu64 "\n", figures->words,
           figures->depth);
    return LOADED;
}

static int refused(const struct tickbound_figures *figures) {
    if (figures->number == 0) {
        fprintf(stderr, "loader: the decision cannot be read; use the header and the library of one version\n");
        return FAILED;
    }
    printf("not loaded: refusal %u at %s %" PRIu32 "\n", figures->number, place_of(figures->number), figures->place);
    return REFUSED;
}

/* Prints what is decided, and gives the exit status. */
static int told(const struct tickbound_figures *figures) {
    switch (figures->decision) {
    case TICKBOUND_FITS:
        return loaded(figures);
    case TICKBOUND_OVER:
        printf("not loaded: the bound, %" PRIu64 " cycles, is over the %" PRIu64 " of a tick\n", figures->cycles,
               figures->tick);
        return NOT_WITHIN_TICK;
    case TICKBOUND_UNDECIDED:
        printf("not loaded: undecided, too many paths to walk, and the merging bound, %" PRIu64
               " cycles, is over the %" PRIu64 " of a tick\n",
               figures->cycles, figures->tick);
        return NOT_WITHIN_TICK;
    case TICKBOUND_REFUSED:
        break;
    }
    return refused(figures);
}

/* One byte more than a routine file may have: a longer file fills it, and is refused by 1. */
static uint8_t text[TICKBOUND_TEXT_LIMIT + 1];

int main(int argc, char **argv) {
    if (argc != 2) {
        fprintf(stderr, "usage: loader FILE\n");
        return FAILED;
    }
    size_t length;
    if (!read_file(argv[1], text, sizeof text, &length)) {
        return FAILED;
    }
    uint8_t report[TICKBOUND_REPORT_MEMORY];
    struct tickbound_figures figures;
    tickbound_answer answer = tickbound_decide(text, length, report, sizeof report);
    tickbound_decide_figures(answer, report, &figures);
    int status = told(&figures);
    if (ferror(stdout) != 0 || fclose(stdout) != 0) {
        perror("loader: the output cannot be written");
        return FAILED;
    }
    return status;
}
