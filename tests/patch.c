/* tests/patch.c FILE ADDRESS INSTRUCTION: the report of a routine file with another instruction, as a caller in C asks for it. Prints the
 * cycles and ends with 0; prints a refusal and ends with 1; ends with 2 for anything else. */
#include "tickbound.h"

#include <inttypes.h>
#include <stdio.h>
#include <stdlib.h>
#include <string.h>

int main(int argc, char **argv) {
    static uint8_t text[TICKBOUND_TEXT_LIMIT + 1];
    uint8_t memory[TICKBOUND_REPORT_MEMORY];
    struct tickbound_report report;
    if (argc != 4) {
        return 2;
    }
    FILE *file = fopen(argv[1], "rb");
    if (file == NULL) {
        return 2;
    }
    size_t length = fread(text, 1, sizeof text, file);
    fclose(file);
    uint32_t address = (uint32_t)strtoul(argv[2], NULL, 10);
    tickbound_answer answer = tickbound_preview(text, length, address, (const uint8_t *)argv[3], strlen(argv[3]), memory,
                                                sizeof memory);
    if (tickbound_is_refused(answer)) {
        printf("refusal %u at %" PRIu32 "\n", tickbound_refusal_number(answer), tickbound_refusal_place(answer));
        return 1;
    }
    if (!tickbound_read_report(memory, tickbound_length(answer), &report)) {
        return 2;
    }
    printf("%" PRIu64 " cycles\n", report.cycles);
    return 0;
}
