/* The import and the export through the header and the library: prints the lines that a routine file's own words are
 * imported to, with the primitives line given, or the refusal of either call; and tries each with too little memory
 * lent.
 *
 *   words FILE PRIMITIVES
 *
 * Exit status: 0 lines, 1 a refusal, 2 anything else. */
#include <inttypes.h>
#include <stdio.h>

#include "tickbound.h"

static uint8_t text[TICKBOUND_TEXT_LIMIT + 1], words[TICKBOUND_CODE_MEMORY], lines[TICKBOUND_CODE_MEMORY];

static int refused(const char *call, tickbound_answer answer) {
    printf("%s: refusal %u at %" PRIu32 "\n", call, tickbound_refusal_number(answer), tickbound_refusal_place(answer));
    return 1;
}

static bool lent_too_little(tickbound_answer answer) {
    return tickbound_refusal_number(answer) == TICKBOUND_LENT_TOO_LITTLE && tickbound_refusal_place(answer) == 0;
}

int main(int argc, char **argv) {
    FILE *file = argc == 3 ? fopen(argv[1], "rb") : NULL;
    if (file == NULL) {
        fprintf(stderr, "usage: words FILE PRIMITIVES\n");
        return 2;
    }
    size_t length = fread(text, 1, sizeof text, file);
    fclose(file);
    const uint8_t *primitives = (const uint8_t *)argv[2];
    tickbound_answer answer = tickbound_export(text, length, words, sizeof words);
    if (tickbound_is_refused(answer)) {
        return refused("export", answer);
    }
    size_t count = tickbound_length(answer);
    answer = tickbound_import(words, count, primitives, strlen(argv[2]), lines, sizeof lines);
    if (tickbound_is_refused(answer)) {
        return refused("import", answer);
    }
    if (!lent_too_little(tickbound_export(text, length, words, sizeof words - 1)) ||
        !lent_too_little(tickbound_import(words, count, primitives, strlen(argv[2]), NULL, 0))) {
        fprintf(stderr, "words: too little memory is not refused\n");
        return 2;
    }
    return fwrite(lines, 1, tickbound_length(answer), stdout) == tickbound_length(answer) ? 0 : 2;
}
