/* tests/seed.c SEED: the routine file of a seed and its bound, as a caller in C has them; and the file with a byte too little lent.
 * Prints the length and the cycles and ends with 0; prints a refusal and ends with 1; ends with 2 for anything else. */
#include "tickbound.h"

#include <inttypes.h>
#include <stdio.h>
#include <stdlib.h>

int main(int argc, char **argv) {
    static uint8_t file[TICKBOUND_FILE_MEMORY];
    uint8_t memory[TICKBOUND_REPORT_MEMORY];
    struct tickbound_report report;
    if (argc != 2) {
        return 2;
    }
    uint32_t seed = (uint32_t)strtoul(argv[1], NULL, 10);
    tickbound_answer answer = tickbound_generate(seed, file, sizeof file - 1);
    if (tickbound_refusal_number(answer) != TICKBOUND_LENT_TOO_LITTLE || tickbound_refusal_place(answer) != 0) {
        return 2;
    }
    answer = tickbound_generate(seed, file, sizeof file);
    if (tickbound_is_refused(answer)) {
        printf("the seed: refusal %u at %" PRIu32 "\n", tickbound_refusal_number(answer), tickbound_refusal_place(answer));
        return 1;
    }
    size_t length = tickbound_length(answer);
    answer = tickbound_bound(file, length, memory, sizeof memory);
    if (tickbound_is_refused(answer)) {
        printf("its bound: refusal %u at %" PRIu32 "\n", tickbound_refusal_number(answer), tickbound_refusal_place(answer));
        return 1;
    }
    if (!tickbound_read_report(memory, tickbound_length(answer), &report)) {
        return 2;
    }
    printf("%zu bytes, %" PRIu64 " cycles\n", length, report.cycles);
    return 0;
}
