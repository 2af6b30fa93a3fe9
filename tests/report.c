/* What include/tickbound.h reads: reports, damaged reports, and answers taken apart. tests/decisions.c has the decision.
 *
 *   cc -I include -o target/report tests/report.c
 *   target/report
 *
 * Prints each case that is not as it must be. The last line is `N passed, M failed`; the exit status is 0 only if
 * nothing failed. */
#include <inttypes.h>
#include <stdio.h>

#include "tickbound.h"

#define NAMES "CYCLES WORDS DEPTH STEPS SHARE PATH\n"
#define RUN_NAMES "CYCLES WORDS DEPTH STEPS\n"
#define N32 "NNNNNNNNNNNNNNNNNNNNNNNNNNNNNNNN"
#define MOST "18446744073709551615"

static unsigned passed, failed;

static void check(bool is_right, const char *what) {
    if (is_right) {
        passed++;
    } else {
        failed++;
        printf("not as it must be: %s\n", what);
    }
}

/* Figures that no report has, to show that refused bytes leave them. */
static const struct tickbound_report former = {1, 2, 3, 4, 5, "TNT"};
static const struct tickbound_run_report former_run = {1, 2, 3, 4};
static const struct tickbound_replay_report former_replay = {true, 5};
static const struct tickbound_nearest_report former_nearest = {true, "S9", 9};

static bool same(const struct tickbound_report *a, const struct tickbound_report *b) {
    return a->cycles == b->cycles && a->words == b->words && a->depth == b->depth && a->steps == b->steps && a->share == b->share &&
           strcmp(a->path, b->path) == 0;
}

static bool same_run(const struct tickbound_run_report *a, const struct tickbound_run_report *b) {
    return a->cycles == b->cycles && a->words == b->words && a->depth == b->depth && a->steps == b->steps;
}

static bool same_replay(const struct tickbound_replay_report *a, const struct tickbound_replay_report *b) {
    return a->agrees == b->agrees && a->line == b->line;
}

/* The bytes are a report with these figures. */
static void reads(const char *bytes, uint64_t cycles, uint64_t words, uint64_t depth, uint64_t steps, uint64_t share, const char *path) {
    struct tickbound_report got = former, wanted = {cycles, words, depth, steps, share, ""};
    strcpy(wanted.path, path);
    check(tickbound_read_report((const uint8_t *)bytes, strlen(bytes), &got) && same(&got, &wanted), bytes);
}

static void reads_run(const char *bytes, uint64_t cycles, uint64_t words, uint64_t depth, uint64_t steps) {
    struct tickbound_run_report got = former_run, wanted = {cycles, words, depth, steps};
    check(tickbound_read_run_report((const uint8_t *)bytes, strlen(bytes), &got) && same_run(&got, &wanted), bytes);
}

/* The bytes are a search's report with this cell and value; an empty name for none. */
static void reads_nearest(const char *bytes, const char *name, int32_t value) {
    struct tickbound_nearest_report got = former_nearest;
    check(tickbound_read_nearest_report((const uint8_t *)bytes, strlen(bytes), &got) && got.moves == (*name != 0) &&
              strcmp(got.name, name) == 0 && got.value == value,
          bytes);
}

/* The bytes are no search's report, and nothing is read of them. */
static void refuses_nearest(const char *bytes) {
    struct tickbound_nearest_report got = former_nearest;
    check(!tickbound_read_nearest_report((const uint8_t *)bytes, strlen(bytes), &got) && got.moves && strcmp(got.name, "S9") == 0 &&
              got.value == 9,
          bytes);
}

static void reads_replay(const char *bytes, bool agrees, uint64_t line) {
    struct tickbound_replay_report got = former_replay, wanted = {agrees, line};
    check(tickbound_read_replay_report((const uint8_t *)bytes, strlen(bytes), &got) && same_replay(&got, &wanted), bytes);
}

static bool is_refused(const uint8_t *bytes, size_t length) {
    struct tickbound_report got = former;
    return !tickbound_read_report(bytes, length, &got) && same(&got, &former);
}

static bool is_refused_run(const uint8_t *bytes, size_t length) {
    struct tickbound_run_report got = former_run;
    return !tickbound_read_run_report(bytes, length, &got) && same_run(&got, &former_run);
}

static bool is_refused_replay(const uint8_t *bytes, size_t length) {
    struct tickbound_replay_report got = former_replay;
    return !tickbound_read_replay_report(bytes, length, &got) && same_replay(&got, &former_replay);
}

/* The bytes are no report, and the figures stay as they are. */
static void refuses(const char *bytes) {
    check(is_refused((const uint8_t *)bytes, strlen(bytes)), bytes);
}

static void refuses_run(const char *bytes) {
    check(is_refused_run((const uint8_t *)bytes, strlen(bytes)), bytes);
}

static void refuses_replay(const char *bytes) {
    check(is_refused_replay((const uint8_t *)bytes, strlen(bytes)), bytes);
}

/* Every byte of a report exchanged for every byte: so many of these are reports, and each prints as it was read. */
static void changed_bytes(const char *report, unsigned wanted) {
    size_t length = strlen(report);
    unsigned found = 0;
    bool is_right = true;
    for (size_t at = 0; at < length; at++) {
        for (unsigned byte = 0; byte < 256; byte++) {
            uint8_t bytes[TICKBOUND_REPORT_MEMORY];
            char again[2 * TICKBOUND_REPORT_MEMORY];
            struct tickbound_report got;
            memcpy(bytes, report, length);
            bytes[at] = (uint8_t)byte;
            if (!tickbound_read_report(bytes, length, &got)) {
                is_right = is_right && is_refused(bytes, length);
                continue;
            }
            found++;
            int printed = snprintf(again, sizeof again, NAMES "%" PRIu64 " %" PRIu64 " %" PRIu64 " %" PRIu64 " %" PRIu64 " %s\n", got.cycles,
                                   got.words, got.depth, got.steps, got.share, got.path[0] != 0 ? got.path : "-");
            is_right = is_right && (size_t)printed == length && memcmp(again, bytes, length) == 0;
        }
    }
    if (found != wanted) {
        printf("%u changed reports are reports, not %u\n", found, wanted);
    }
    check(is_right && found == wanted, report);
}

/* No report with bytes left off at its end or at its start is a report. */
static void cut_off(const char *report) {
    size_t length = strlen(report);
    bool is_right = true;
    for (size_t n = 0; n < length; n++) {
        is_right = is_right && is_refused((const uint8_t *)report, n);
        is_right = is_right && (n == 0 || is_refused((const uint8_t *)report + n, length - n));
    }
    check(is_right, "a report cut off");
}

/* A report longer than any is not read, whatever stands there: the SIZE_MAX of a refusal is such a length. */
static void too_long(void) {
    uint8_t bytes[TICKBOUND_REPORT_MEMORY + 1];
    memset(bytes, '1', sizeof bytes);
    check(is_refused(bytes, sizeof bytes) && is_refused_run(bytes, sizeof bytes) && is_refused_replay(bytes, sizeof bytes),
          "129 bytes");
    check(is_refused(NULL, SIZE_MAX) && is_refused_run(NULL, SIZE_MAX) && is_refused_replay(NULL, SIZE_MAX), "no memory");
    struct tickbound_nearest_report got = former_nearest;
    check(!tickbound_read_nearest_report(NULL, SIZE_MAX, &got) && got.value == former_nearest.value, "no memory of a search");
}

static tickbound_answer answer_of(uint64_t word) {
    tickbound_answer answer;
    answer.word = word;
    return answer;
}

/* The word is a report's length. */
static void is_length(uint64_t word, size_t length) {
    tickbound_answer answer = answer_of(word);
    check(!tickbound_is_refused(answer) && tickbound_length(answer) == length && tickbound_refusal_number(answer) == 0 &&
              tickbound_refusal_place(answer) == 0,
          "a length taken apart");
}

/* The word is a refusal; of one that no function answers the number and the place are 0. */
static void is_refusal(uint64_t word, unsigned number, uint32_t place) {
    tickbound_answer answer = answer_of(word);
    check(tickbound_is_refused(answer) && tickbound_length(answer) == SIZE_MAX && tickbound_refusal_number(answer) == number &&
              tickbound_refusal_place(answer) == place,
          "a refusal taken apart");
}

/* An answer has the bits that the functions return, and memory of zeros is a refusal. */
static void zeros(void) {
    tickbound_answer answer;
    check(sizeof answer == sizeof(uint64_t), "the size of an answer");
    memset(&answer, 0, sizeof answer);
    check(tickbound_is_refused(answer) && tickbound_length(answer) == SIZE_MAX, "an answer of zeros");
    struct tickbound_figures figures;
    memset(&figures, 0, sizeof figures);
    check(figures.decision == TICKBOUND_REFUSED && figures.bound == TICKBOUND_NO_BOUND, "figures of zeros");
}

/* The string of the version is that of its numbers. */
static void version(void) {
    char numbers[32];
    snprintf(numbers, sizeof numbers, "%d.%d.%d", TICKBOUND_VERSION_MAJOR, TICKBOUND_VERSION_MINOR, TICKBOUND_VERSION_PATCH);
    check(strcmp(numbers, TICKBOUND_VERSION) == 0, "the version");
}

static void answers(void) {
    is_length(1, 1);
    is_length(50, 50);
    is_length(TICKBOUND_REPORT_MEMORY, 128);
    is_length(TICKBOUND_CODE_MEMORY, 32768);
    is_length(TICKBOUND_EXPLAIN_MEMORY, 65536);
    is_refusal(0x800000020000000e, TICKBOUND_LAYOUT, 14);
    is_refusal(0x8000000a00000000, TICKBOUND_LENT_TOO_LITTLE, 0);
    is_refusal(0x800000070000f230, TICKBOUND_STUCK, 62000);
    is_refusal(0x80000004ffffffff, TICKBOUND_BAD_NAME, 4294967295u);
    /* no function gives these: without bit 63 there is no refusal to take a number or a place from, and no such length */
    is_refusal(0, 0, 0);
    is_refusal(65537, 0, 0);
    is_refusal(0x0000000700000005, 0, 0);
    is_refusal(0x7fffffffffffffff, 0, 0);
}

static void searches(void) {
    reads_nearest("NONE\n", "", 0);
    reads_nearest("ACCU 0\n", "ACCU", 0);
    reads_nearest("ACCU -1073741824\n", "ACCU", -1073741824);
    reads_nearest("S0 1073741823\n", "S0", 1073741823);
    reads_nearest("S31 -1\n", "S31", -1);
    reads_nearest("B0.0 64\n", "B0.0", 64);
    reads_nearest("B7.15 -64\n", "B7.15", -64);
    const char *not_nearest[] = {"", "NONE", "NONE \n", "NONE\n\n", "ACCU\n", "ACCU \n", "ACCU 1", "ACCU 01\n", "ACCU -0\n",
                                 "ACCU 1073741824\n", "ACCU -1073741825\n", "ACCU 1 \n", "ACCU  1\n", "S32 1\n", "S 1\n",
                                 "S00 1\n", "B8.0 1\n", "B0.16 1\n", "B0 1\n", "B.0 1\n", "B0. 1\n", "C0 1\n", "S0 +1\n",
                                 "REFUSED 7 1\n"};
    for (size_t i = 0; i < sizeof not_nearest / sizeof *not_nearest; i++) {
        refuses_nearest(not_nearest[i]);
    }
}

static void bounds(void) {
    reads(NAMES "65 4 1 6 65 N\n", 65, 4, 1, 6, 65, "N");
    reads(NAMES "0 0 0 1 0 -\n", 0, 0, 0, 1, 0, "");
    reads(NAMES "8233 17 4 99 206 NNNN\n", 8233, 17, 4, 99, 206, "NNNN");
    reads(NAMES "6 0 0 3 6 T\n", 6, 0, 0, 3, 6, "T");
    reads(NAMES "10 100 64 1000000 1000 NTTN\n", 10, 100, 64, 1000000, 1000, "NTTN");
    reads(NAMES "1 1 1 1 1 " N32 "\n", 1, 1, 1, 1, 1, N32);
    reads(NAMES MOST " 1 2 3 4 -\n", UINT64_MAX, 1, 2, 3, 4, "");
    reads(NAMES "1 18446744073709551609 2 3 4 -\n", 1, 18446744073709551609u, 2, 3, 4, "");
    reads(NAMES "1 2 3 4 " MOST " T\n", 1, 2, 3, 4, UINT64_MAX, "T");
}

/* What is no report of a bound. */
static const char *const not_reports[] = {
    "REFUSED 8 1\n",
    NAMES,
    "65 4 1 6 65 N\n",
    RUN_NAMES "65 4 1 6\n",
    NAMES "65 4 1 6\n",
    NAMES "65 4 1 6 65\n",
    NAMES "65 4 1 6 65 \n",
    NAMES "65 4 1 6 65 N",
    NAMES "65 4 1 6 65 N\n\n",
    NAMES "65 4 1 6 65 N\nx",
    NAMES "65 4 1 6 65 N \n",
    NAMES "65 4 1 6 65 N\r\n",
    NAMES "65 4 1 6 65  N\n",
    NAMES "65  4 1 6 65 N\n",
    NAMES " 65 4 1 6 65 N\n",
    NAMES "65\t4 1 6 65 N\n",
    NAMES "65 4 1 6 65 7 N\n",
    NAMES "065 4 1 6 65 N\n",
    NAMES "65 00 1 6 65 N\n",
    NAMES "65 4 01 6 65 N\n",
    NAMES "65 4 1 06 65 N\n",
    NAMES "65 4 1 6 00065 N\n",
    NAMES "-65 4 1 6 65 N\n",
    NAMES "-0 4 1 6 65 N\n",
    NAMES "+65 4 1 6 65 N\n",
    NAMES "6x5 4 1 6 65 N\n",
    NAMES "0x41 4 1 6 65 N\n",
    NAMES "65 ? 1 6 65 N\n",
    NAMES "65  1 6 65 N\n",
    NAMES "18446744073709551616 4 1 6 65 N\n",
    NAMES "65 18446744073709551620 1 6 65 N\n",
    NAMES "65 4 99999999999999999999 6 65 N\n",
    NAMES "65 4 1 184467440737095516150 65 N\n",
    NAMES "65 4 1 6 100000000000000000000000000000 N\n",
    NAMES "65 4 1 6 65 n\n",
    NAMES "65 4 1 6 65 X\n",
    NAMES "65 4 1 6 65 NTX\n",
    NAMES "65 4 1 6 65 N-\n",
    NAMES "65 4 1 6 65 -N\n",
    NAMES "65 4 1 6 65 --\n",
    NAMES "65 4 1 6 65 N N\n",
    NAMES "65 4 1 6 65 " N32 "T\n",
    "CYCLES WORDS DEPTH STEPS PATH SHARE\n65 4 1 6 65 N\n",
    "cycles WORDS DEPTH STEPS SHARE PATH\n65 4 1 6 65 N\n",
    "CYCLES WORDS DEPTH STEPS SHARE PATH \n65 4 1 6 65 N\n",
    "CYCLES WORDS DEPTH STEPS SHARE PATH\r\n65 4 1 6 65 N\n",
    "CYCLES WORDS DEPTH STEPS SHARE PATH 65 4 1 6 65 N\n",
    "\n" NAMES "65 4 1 6 65 N\n",
};

static void damaged_bounds(void) {
    check(is_refused(NULL, 0), "no bytes");
    check(is_refused((const uint8_t *)NAMES "65 4 1 6 65 N\n\0", sizeof NAMES "65 4 1 6 65 N\n"), "a 0 after a report");
    check(is_refused((const uint8_t *)NAMES "65 4 1 6 65 N\0\n", sizeof NAMES "65 4 1 6 65 N\n"), "a 0 in a report");
    for (size_t i = 0; i < sizeof not_reports / sizeof *not_reports; i++) {
        refuses(not_reports[i]);
    }
    cut_off(NAMES "65 4 1 6 65 N\n");
    cut_off(NAMES "8233 17 4 99 206 NNNN\n");
    cut_off(NAMES "0 0 0 1 0 -\n");
    /* 36 names bytes and 6 parting ones stay; a first digit of two can be 9 digits, another digit 10, a path 3 letters */
    changed_bytes(NAMES "65 4 1 6 65 N\n", 36 + 6 + 9 + 10 + 10 + 10 + 10 + 9 + 10 + 3);
    changed_bytes(NAMES "0 0 0 1 0 -\n", 36 + 6 + 5 * 10 + 3);
    /* here a digit between two can be a space in no place, since a figure more is no report */
    changed_bytes(NAMES "123 4 1 6 65 NT\n", 36 + 6 + 9 + 10 + 10 + 10 + 10 + 10 + 9 + 10 + 2 + 2);
}

/* What is no report of a run. */
static const char *const not_runs[] = {
    "REFUSED 11 11\n",
    RUN_NAMES,
    NAMES "65 4 1 6 65 N\n",
    RUN_NAMES "65 4 1 6 65 N\n",
    RUN_NAMES "56 4 1\n",
    RUN_NAMES "56 4 1 3 \n",
    RUN_NAMES "56 4 1 3",
    RUN_NAMES "56 4 1 3\n\n",
    RUN_NAMES "56 4 1 03\n",
    RUN_NAMES "56 4 1 -\n",
    RUN_NAMES "56 4 1 18446744073709551616\n",
};

static void runs(void) {
    reads_run(RUN_NAMES "56 4 1 3\n", 56, 4, 1, 3);
    reads_run(RUN_NAMES "0 0 0 1\n", 0, 0, 0, 1);
    reads_run(RUN_NAMES "8233 17 4 33\n", 8233, 17, 4, 33);
    reads_run(RUN_NAMES "0 1 2 " MOST "\n", 0, 1, 2, UINT64_MAX);
    check(is_refused_run(NULL, 0), "no bytes");
    check(is_refused_run((const uint8_t *)RUN_NAMES "56 4 1 3\n", sizeof RUN_NAMES "56 4 1 3\n"), "a 0 after a run's report");
    for (size_t i = 0; i < sizeof not_runs / sizeof *not_runs; i++) {
        refuses_run(not_runs[i]);
    }
}

/* What is no report of a replay. */
static const char *const not_replays[] = {
    "REFUSED 2 1\n",
    RUN_NAMES "56 4 1 3\n",
    "AGREES",
    "AGREES 2\n",
    "AGREES \n",
    "AGREES\n\n",
    "AGREES\nDIFFERS 2\n",
    "agrees\n",
    "DIFFERS\n",
    "DIFFERS \n",
    "DIFFERS 0\n",
    "DIFFERS 1\n",
    "DIFFERS 02\n",
    "DIFFERS -2\n",
    "DIFFERS  2\n",
    "DIFFERS 2",
    "DIFFERS 2 \n",
    "DIFFERS 2 3\n",
    "DIFFERS 2\n\n",
    "DIFFERS 18446744073709551616\n",
};

static void replays(void) {
    reads_replay("AGREES\n", true, 0);
    reads_replay("DIFFERS 2\n", false, 2);
    reads_replay("DIFFERS 10\n", false, 10);
    reads_replay("DIFFERS 4097\n", false, 4097);
    reads_replay("DIFFERS " MOST "\n", false, UINT64_MAX);
    check(is_refused_replay(NULL, 0), "no bytes");
    check(is_refused_replay((const uint8_t *)"AGREES\n", sizeof "AGREES\n"), "a 0 after a replay's report");
    for (size_t i = 0; i < sizeof not_replays / sizeof *not_replays; i++) {
        refuses_replay(not_replays[i]);
    }
}

int main(void) {
    searches();
    bounds();
    damaged_bounds();
    runs();
    replays();
    too_long();
    answers();
    zeros();
    version();

    printf("%u passed, %u failed\n", passed, failed);
    return failed == 0 ? 0 : 1;
}
