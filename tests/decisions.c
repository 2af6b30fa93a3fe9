/* The decision in C: what `tickbound_decide` answers for a routine of each row of its table, on both sides of each TICK, and
 * for each refusal; and what `tickbound_decide_figures` reads of lines as they are, cut off, changed and contradicting
 * themselves.
 *
 *   decisions
 *
 * Prints each case that is not as it must be. The last line is `N passed, M failed`; the exit status is 0 only if
 * nothing failed. */
#include <inttypes.h>
#include <stdio.h>

#include "tickbound.h"

#define NAMES "DECISION BOUND CYCLES TICK WORDS DEPTH STEPS\n"
#define MOST "18446744073709551615"
#define LENGTH(list) (sizeof(list) / sizeof *(list))

static unsigned passed, failed;

static void check(bool is_right, const char *what) {
    if (is_right) {
        passed++;
    } else {
        failed++;
        printf("not as it must be: %s\n", what);
    }
}

static tickbound_answer answer_of(uint64_t word) {
    tickbound_answer answer;
    answer.word = word;
    return answer;
}

static bool same(const struct tickbound_figures *a, const struct tickbound_figures *b) {
    return a->decision == b->decision && a->bound == b->bound && a->number == b->number && a->place == b->place &&
           a->cycles == b->cycles && a->tick == b->tick && a->words == b->words && a->depth == b->depth && a->steps == b->steps;
}

/* What is read of an answer and its bytes into memory that says FITS with figures of 0: all of it must be written. */
static struct tickbound_figures figures_of(tickbound_answer answer, const uint8_t *bytes) {
    struct tickbound_figures figures = {TICKBOUND_FITS, TICKBOUND_FIRST, 77, 77, 0, 0, 0, 0, 0};
    tickbound_decide_figures(answer, bytes, &figures);
    return figures;
}

/* A refusal with every figure UINT64_MAX. */
static bool says_refused(const struct tickbound_figures *figures, unsigned number, uint32_t place) {
    struct tickbound_figures wanted = {TICKBOUND_REFUSED, TICKBOUND_NO_BOUND, number, place, UINT64_MAX, UINT64_MAX, UINT64_MAX,
                                       UINT64_MAX, UINT64_MAX};
    return same(figures, &wanted);
}

/* Bytes that cannot be read are a refusal without a number. */
static bool is_refused(const uint8_t *bytes, size_t length) {
    struct tickbound_figures figures = figures_of(answer_of(length), bytes);
    return says_refused(&figures, 0, 0);
}

static void reads(const char *bytes, struct tickbound_figures wanted) {
    struct tickbound_figures figures = figures_of(answer_of(strlen(bytes)), (const uint8_t *)bytes);
    check(same(&figures, &wanted), bytes);
}

static struct tickbound_figures decided(enum tickbound_decision decision, enum tickbound_which_bound bound, const uint64_t figures[5]) {
    struct tickbound_figures all = {decision, bound, 0, 0, figures[0], figures[1], figures[2], figures[3], figures[4]};
    return all;
}

static void lines_as_they_are(void) {
    const uint64_t first[] = {65, 100, 4, 1, 6}, over[] = {2121, 2120, 0, 6, 27}, merging[] = {149980, 400000, 151, 6, 814};
    const uint64_t undecided[] = {1929, 1500, 9, 0, 9}, nothing[] = {0, 1, 0, 0, 1}, equal[] = {7, 7, 0, 0, 1}, one[] = {8, 7, 0, 0, 1};
    reads(NAMES "FITS FIRST 65 100 4 1 6\n", decided(TICKBOUND_FITS, TICKBOUND_FIRST, first));
    reads(NAMES "OVER FIRST 2121 2120 0 6 27\n", decided(TICKBOUND_OVER, TICKBOUND_FIRST, over));
    reads(NAMES "FITS MERGING 149980 400000 151 6 814\n", decided(TICKBOUND_FITS, TICKBOUND_MERGING, merging));
    reads(NAMES "UNDECIDED MERGING 1929 1500 9 0 9\n", decided(TICKBOUND_UNDECIDED, TICKBOUND_MERGING, undecided));
    reads(NAMES "FITS FIRST 0 1 0 0 1\n", decided(TICKBOUND_FITS, TICKBOUND_FIRST, nothing));
    reads(NAMES "FITS FIRST 7 7 0 0 1\n", decided(TICKBOUND_FITS, TICKBOUND_FIRST, equal));
    reads(NAMES "OVER FIRST 8 7 0 0 1\n", decided(TICKBOUND_OVER, TICKBOUND_FIRST, one));
    reads(NAMES "FITS MERGING 7 7 0 0 1\n", decided(TICKBOUND_FITS, TICKBOUND_MERGING, equal));
    reads(NAMES "UNDECIDED MERGING 8 7 0 0 1\n", decided(TICKBOUND_UNDECIDED, TICKBOUND_MERGING, one));
    reads(NAMES "FITS SPLIT 7 7 0 0 1\n", decided(TICKBOUND_FITS, TICKBOUND_SPLIT, equal));
    reads(NAMES "UNDECIDED SPLIT 8 7 0 0 1\n", decided(TICKBOUND_UNDECIDED, TICKBOUND_SPLIT, one));
    const uint64_t most[] = {1, UINT64_MAX - 1, UINT64_MAX - 1, 1, 1};
    reads(NAMES "FITS FIRST 1 18446744073709551614 18446744073709551614 1 1\n", decided(TICKBOUND_FITS, TICKBOUND_FIRST, most));
}

/* Bytes that are no decision, or one that its own figures contradict. */
static const char *const damaged[] = {
    "",
    "REFUSED 8 1\n",
    NAMES,
    NAMES "\n",
    "FITS FIRST 65 100 4 1 6\n",
    "DECISION BOUND CYCLES TICK WORDS DEPTH\nFITS FIRST 65 100 4 1 6\n",
    "CYCLES WORDS DEPTH STEPS SHARE PATH\n65 4 1 6 65 N\n",
    "CYCLES WORDS DEPTH STEPS\n65 4 1 6\n",
    "decision BOUND CYCLES TICK WORDS DEPTH STEPS\nFITS FIRST 65 100 4 1 6\n",
    "DECISION BOUND CYCLES TICK WORDS DEPTH STEPS\r\nFITS FIRST 65 100 4 1 6\n",
    "DECISION BOUND CYCLES TICK WORDS DEPTH STEPS FITS FIRST 65 100 4 1 6\n",
    "\n" NAMES "FITS FIRST 65 100 4 1 6\n",
    NAMES NAMES "FITS FIRST 6 9 4 1 6\n",
    NAMES "FITS FIRST 65 100 4 1 6",
    NAMES "FITS FIRST 65 100 4 1 6\r\n",
    NAMES "FITS FIRST 65 100 4 1 6 \n",
    NAMES "FITS FIRST 65 100 4 1 6\n\n",
    NAMES "FITS FIRST 65 100 4 1 6\nx",
    NAMES "FITS FIRST 65 100 4 1 6 7\n",
    NAMES "FITS FIRST 65 100 4 1 6 N\n",
    NAMES "FITS FIRST 65 100 4 1\n",
    NAMES "FITS FIRST 65 100 4 1 \n",
    NAMES "FITS FIRST  65 100 4 1 6\n",
    NAMES "FITS  FIRST 65 100 4 1 6\n",
    NAMES " FITS FIRST 65 100 4 1 6\n",
    NAMES "FITS FIRST\t65 100 4 1 6\n",
    NAMES "FITS FIRST 065 100 4 1 6\n",
    NAMES "FITS FIRST 65 0100 4 1 6\n",
    NAMES "FITS FIRST 65 100 00 1 6\n",
    NAMES "FITS FIRST 65 100 4 1 06\n",
    NAMES "FITS FIRST -65 100 4 1 6\n",
    NAMES "FITS FIRST +65 100 4 1 6\n",
    NAMES "FITS FIRST 0x41 100 4 1 6\n",
    NAMES "FITS FIRST 6x5 100 4 1 6\n",
    NAMES "FITS FIRST ? 100 4 1 6\n",
    NAMES "FITS FIRST - 100 4 1 6\n",
    NAMES "fits FIRST 65 100 4 1 6\n",
    NAMES "FITS first 65 100 4 1 6\n",
    NAMES "FIT FIRST 65 100 4 1 6\n",
    NAMES "FITSFIRST 65 100 4 1 6\n",
    NAMES "FITS 65 100 4 1 6\n",
    NAMES "FIRST 65 100 4 1 6\n",
    NAMES "FITS NONE 65 100 4 1 6\n",
    NAMES "FITS BOTH 65 100 4 1 6\n",
    NAMES "LOAD FIRST 65 100 4 1 6\n",
    NAMES "REFUSED FIRST 65 100 4 1 6\n",
    /* the words of two rows */
    NAMES "OVER MERGING 2121 2120 0 6 27\n",
    NAMES "UNDECIDED FIRST 1929 1500 9 0 9\n",
    NAMES "OVER SPLIT 2121 2120 0 6 27\n",
    /* what is decided is not what the figures say */
    NAMES "FITS FIRST 101 100 4 1 6\n",
    NAMES "FITS MERGING 101 100 4 1 6\n",
    NAMES "OVER FIRST 100 100 4 1 6\n",
    NAMES "OVER FIRST 99 100 4 1 6\n",
    NAMES "UNDECIDED MERGING 100 100 4 1 6\n",
    NAMES "UNDECIDED MERGING 99 100 4 1 6\n",
    NAMES "FITS SPLIT 101 100 4 1 6\n",
    NAMES "UNDECIDED SPLIT 100 100 4 1 6\n",
    /* no routine has these: TICK is at least 1, and STOP is a step */
    NAMES "FITS FIRST 0 0 0 0 0\n",
    NAMES "FITS FIRST 0 0 0 0 1\n",
    NAMES "OVER FIRST 1 0 0 0 1\n",
    NAMES "FITS FIRST 65 100 4 1 0\n",
    /* digits too many for 64 bits, and the number that stands for no figure */
    NAMES "OVER FIRST 18446744073709551616 100 4 1 6\n",
    NAMES "FITS FIRST 65 18446744073709551616 4 1 6\n",
    NAMES "FITS FIRST 65 100 18446744073709551620 1 6\n",
    NAMES "FITS FIRST 65 100 4 99999999999999999999 6\n",
    NAMES "FITS FIRST 65 100 4 1 184467440737095516150\n",
    NAMES "FITS FIRST 65 100000000000000000000000000000 4 1 6\n",
    NAMES "OVER FIRST " MOST " 100 4 1 6\n",
    NAMES "FITS FIRST 65 " MOST " 4 1 6\n",
    NAMES "FITS FIRST 65 100 " MOST " 1 6\n",
    NAMES "FITS FIRST 65 100 4 " MOST " 6\n",
    NAMES "FITS FIRST 65 100 4 1 " MOST "\n",
};

/* Bytes left off at the end or at the start. */
static void cut_off(const char *report) {
    size_t length = strlen(report);
    bool is_right = true;
    for (size_t n = 0; n < length; n++) {
        is_right = is_right && is_refused((const uint8_t *)report, n);
        is_right = is_right && (n == 0 || is_refused((const uint8_t *)report + n, length - n));
    }
    check(is_right, "a decision cut off");
}

static const char *const decisions[] = {"REFUSED", "FITS", "OVER", "UNDECIDED"};
static const char *const bounds[] = {"NONE", "FIRST", "MERGING", "SPLIT"};

/* Whether figures are printed as these bytes and say what they show. */
static bool prints(const struct tickbound_figures *read, const uint8_t *bytes, size_t length) {
    char again[2 * TICKBOUND_REPORT_MEMORY];
    int printed =
        snprintf(again, sizeof again, NAMES "%s %s %" PRIu64 " %" PRIu64 " %" PRIu64 " %" PRIu64 " %" PRIu64 "\n",
                 decisions[read->decision], bounds[read->bound], read->cycles, read->tick, read->words, read->depth, read->steps);
    return (size_t)printed == length && memcmp(again, bytes, length) == 0 &&
           (read->decision == TICKBOUND_FITS) == (read->cycles <= read->tick);
}

/* Every byte exchanged for every byte: so many of these are decisions, each prints as it was read, and the rest is refused. */
static void changed_bytes(const char *report, unsigned wanted) {
    size_t length = strlen(report);
    unsigned found = 0;
    bool is_right = true;
    for (size_t i = 0; i < 256 * length; i++) {
        uint8_t bytes[TICKBOUND_REPORT_MEMORY];
        memcpy(bytes, report, length);
        bytes[i / 256] = (uint8_t)(i % 256);
        struct tickbound_figures read = figures_of(answer_of(length), bytes);
        if (read.decision == TICKBOUND_REFUSED) {
            is_right = is_right && says_refused(&read, 0, 0);
        } else {
            found++;
            is_right = is_right && prints(&read, bytes, length);
        }
    }
    if (found != wanted) {
        printf("%u changed decisions are decisions, not %u\n", found, wanted);
    }
    check(is_right && found == wanted, report);
}

static void lines_damaged(void) {
    for (size_t i = 0; i < LENGTH(damaged); i++) {
        check(is_refused((const uint8_t *)damaged[i], strlen(damaged[i])), damaged[i]);
    }
    check(is_refused((const uint8_t *)NAMES "FITS FIRST 65 100 4 1 6\n", sizeof NAMES "FITS FIRST 65 100 4 1 6\n"), "a 0 after a decision");
    check(is_refused((const uint8_t *)NAMES "FITS FIRST 65 100 4 1 6\0\n", sizeof NAMES "FITS FIRST 65 100 4 1 6\n"), "a 0 in a decision");
    cut_off(NAMES "FITS FIRST 65 100 4 1 6\n");
    cut_off(NAMES "OVER FIRST 2121 2120 0 6 27\n");
    cut_off(NAMES "FITS MERGING 149980 400000 151 6 814\n");
    cut_off(NAMES "UNDECIDED MERGING 1929 1500 9 0 9\n");
    cut_off(NAMES "FITS SPLIT 97180 120000 210 1 421\n");
    /* 45 bytes of names, 11 of words and 5 parting ones stay. Of 65 each digit can be any but a first 0; of 100 the first
     * digit 1 to 9 and the others any; WORDS and DEPTH any, STEPS any but 0. */
    changed_bytes(NAMES "FITS FIRST 65 100 4 1 6\n", 45 + 11 + 5 + 9 + 10 + 9 + 10 + 10 + 10 + 10 + 9);
    /* CYCLES stay above 65: a first digit of 7, 8 or 9 beside the 6, and then 6 to 9 */
    changed_bytes(NAMES "OVER FIRST 66 65 4 1 6\n", 45 + 11 + 5 + 4 + 4 + 6 + 6 + 10 + 10 + 9);
}

/* Answers that are refusals, and words that no function answers: nothing is read, where `bytes` is null too. */
static void refusals(void) {
    const char *fits = NAMES "FITS FIRST 65 100 4 1 6\n";
    for (unsigned number = 1; number <= 14; number++) {
        tickbound_answer answer = answer_of(UINT64_C(1) << 63 | (uint64_t)number << 32 | 62000);
        struct tickbound_figures beside = figures_of(answer, (const uint8_t *)fits), alone = figures_of(answer, NULL);
        check(says_refused(&beside, number, 62000) && says_refused(&alone, number, 62000), "a refusal beside a former decision");
    }
    const uint64_t words[] = {0, 129, 32768, 65536, 65537, UINT64_C(1) << 32, UINT64_MAX >> 1};
    for (size_t i = 0; i < LENGTH(words); i++) {
        struct tickbound_figures alone = figures_of(answer_of(words[i]), NULL);
        check(says_refused(&alone, 0, 0), "a word that is no report's length");
    }
    uint8_t longer[TICKBOUND_REPORT_MEMORY + 1];
    memset(longer, '\n', sizeof longer);
    memcpy(longer, fits, strlen(fits));
    check(is_refused(longer, TICKBOUND_REPORT_MEMORY) && is_refused(longer, sizeof longer), "a decision and more bytes");
    struct tickbound_figures zeros;
    memset(&zeros, 0, sizeof zeros);
    check(zeros.decision == TICKBOUND_REFUSED, "figures of zeros");
}

static char text[TICKBOUND_TEXT_LIMIT + 2];

/* The decision of the text, or its refusal, and nothing written past it. */
static struct tickbound_figures asked(size_t length, size_t lent) {
    uint8_t report[TICKBOUND_REPORT_MEMORY + 8];
    memset(report, 0xa5, sizeof report);
    tickbound_answer answer = tickbound_decide((const uint8_t *)text, length, report, lent);
    size_t written = tickbound_is_refused(answer) ? 0 : tickbound_length(answer);
    bool is_kept = true;
    for (size_t i = written; i < sizeof report; i++) {
        is_kept = is_kept && report[i] == 0xa5;
    }
    check(is_kept, "the bytes past a decision");
    return figures_of(answer, report);
}

static void answers(const char *name, struct tickbound_figures wanted) {
    struct tickbound_figures figures = asked(strlen(text), TICKBOUND_REPORT_MEMORY);
    check(same(&figures, &wanted), name);
}

static void answers_refusal(const char *name, unsigned number, uint32_t place) {
    struct tickbound_figures figures = asked(strlen(text), TICKBOUND_REPORT_MEMORY);
    check(says_refused(&figures, number, place), name);
}

/* A siren or a self test: 1,099 cycles by the first bound within BUDGET, 1,929 by the merging bound. */
static void put_siren(unsigned budget, unsigned tick) {
    snprintf(text, sizeof text,
             "BUDGET TICK\n%u %u\nC_CALL1 BRANCHIFNOT BRANCHIF BRANCH CONST0 CONST1 STOP\n30 6 6 4 2 2 1\n0 0 0 0 0 0 0\n"
             "0 0 0 0 0 0 0\nDOOR SIREN SELFTEST\n120 900 800\n2 1 6\nACCU\n0\n-\n-\nAT OP ARG\n0 C_CALL1 DOOR\n"
             "1 BRANCHIFNOT 5\n2 C_CALL1 SIREN\n3 CONST1 -\n4 BRANCH 6\n5 CONST0 -\n6 BRANCHIF 8\n7 C_CALL1 SELFTEST\n8 STOP -\n",
             budget, tick);
}

static void siren_is(unsigned budget, unsigned tick, enum tickbound_decision decision, enum tickbound_which_bound bound) {
    const uint64_t first[] = {1099, tick, 8, 0, 11}, merging[] = {1929, tick, 9, 0, 9};
    put_siren(budget, tick);
    answers(decisions[decision], decided(decision, bound, bound == TICKBOUND_FIRST ? first : merging));
}

/* So many branches on an unknown, each to the next address, and then the given lines of code. */
static void put_branches(unsigned count, const char *last) {
    int at = snprintf(text, sizeof text,
                      "BUDGET TICK\n1000 1000\nBRANCHIF PUSH STOP\n5 1 1\n0 0 0\n0 0 0\n-\n-\n-\nACCU\n?\n-\n-\nAT OP ARG\n");
    for (unsigned i = 0; i < count; i++) {
        at += snprintf(text + at, sizeof text - (size_t)at, "%u BRANCHIF %u\n", i, i + 1);
    }
    snprintf(text + at, sizeof text - (size_t)at, "%s", last);
}

static void rows(void) {
    siren_is(1000, 1500, TICKBOUND_FITS, TICKBOUND_FIRST);
    siren_is(1000, 1099, TICKBOUND_FITS, TICKBOUND_FIRST);
    siren_is(1000, 1098, TICKBOUND_OVER, TICKBOUND_FIRST);
    siren_is(1000, 1, TICKBOUND_OVER, TICKBOUND_FIRST);
    siren_is(11, 1500, TICKBOUND_FITS, TICKBOUND_FIRST);
    siren_is(10, 1500, TICKBOUND_UNDECIDED, TICKBOUND_MERGING);
    siren_is(1, 1500, TICKBOUND_UNDECIDED, TICKBOUND_MERGING);
    siren_is(1, 1928, TICKBOUND_UNDECIDED, TICKBOUND_MERGING);
    siren_is(1, 1929, TICKBOUND_FITS, TICKBOUND_MERGING);
    siren_is(1, 4000000000u, TICKBOUND_FITS, TICKBOUND_MERGING);
    const uint64_t branches[] = {33 * 5 + 1, 1000, 0, 0, 34};
    put_branches(33, "33 STOP -\n");
    answers("33 branches, refused by 8 and merged", decided(TICKBOUND_FITS, TICKBOUND_MERGING, branches));
}

/* The siren's text with one piece of it replaced. */
static void put_changed(const char *old, const char *other) {
    put_siren(1000, 1500);
    char *at = strstr(text, old), rest[1024];
    snprintf(rest, sizeof rest, "%s", at + strlen(old));
    snprintf(at, sizeof text - (size_t)(at - text), "%s%s", other, rest);
}

static void refused_texts(void) {
    struct tickbound_figures figures;
    put_siren(1000, 1500);
    for (size_t lent = 0; lent < TICKBOUND_REPORT_MEMORY; lent++) {
        figures = asked(strlen(text), lent);
        check(says_refused(&figures, TICKBOUND_LENT_TOO_LITTLE, 0), "too little memory");
    }
    memset(text, 'x', sizeof text - 1);
    answers_refusal("a text that is too long", TICKBOUND_TEXT_TOO_LONG, 0);
    figures = asked(0, TICKBOUND_REPORT_MEMORY);
    check(says_refused(&figures, TICKBOUND_LAYOUT, 1), "an empty text");
    put_siren(1000, 0);
    answers_refusal("a TICK of 0", TICKBOUND_OUT_OF_RANGE, 2);
    put_changed("DOOR SIREN SELFTEST", "DOOR DOOR SELFTEST");
    answers_refusal("a primitive twice", TICKBOUND_BAD_NAME, 7);
    put_changed("5 CONST0 -", "5 CONST2 -");
    answers_refusal("a kind without a price", TICKBOUND_UNPRICED, 20);
    put_changed("6 BRANCHIF 8", "6 BRANCHIF 9");
    answers_refusal("a target outside the code", TICKBOUND_NO_TARGET, 21);
    put_changed("6 BRANCHIF 8", "6 BRANCHIF 6");
    answers_refusal("a jump backwards", TICKBOUND_BACKWARD, 21);
    put_changed("8 STOP -", "8 CONST1 -");
    answers_refusal("a routine that is stuck", TICKBOUND_STUCK, 9);
    put_branches(33, "33 BRANCHIF 35\n34 PUSH -\n35 STOP -\n");
    answers_refusal("33 branches and ways that do not meet", TICKBOUND_OPENINGS, 32);
    put_branches(1, "1 BRANCHIF 3\n2 PUSH -\n3 STOP -\n");
    memcpy(strstr(text, "1000 1000"), "0001 1000", 9);
    answers_refusal("a BUDGET with zeros", TICKBOUND_LAYOUT, 2);
}

static void refused_for_its_budget(void) {
    put_branches(1, "1 BRANCHIF 3\n2 PUSH -\n3 STOP -\n");
    char *budget = strstr(text, "1000 ");
    memmove(budget + 1, budget + 4, strlen(budget + 4) + 1);
    answers_refusal("a BUDGET of 1 and ways that do not meet", TICKBOUND_SPENT, 1);
}

int main(void) {
    lines_as_they_are();
    lines_damaged();
    refusals();
    rows();
    refused_texts();
    refused_for_its_budget();
    printf("%u passed, %u failed\n", passed, failed);
    return failed == 0 ? 0 : 1;
}
