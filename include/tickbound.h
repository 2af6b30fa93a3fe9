/* The decision whether a routine fits in its tick, its two bounds, the merging bound by cases and the decision by it,
 * its run, that run as a card would record it, the steps of its worst path and of a costliest way through merged states,
 * its code from and to the compiler's words, a card's trace held against its run, the bound of a routine with one
 * instruction replaced, the nearest number that moves the bound and a routine file of a seed, for a loader in C.
 *
 * `tickbound install PREFIX` puts this header into PREFIX/include and the library to link with into PREFIX/lib:
 * `cc -I PREFIX/include .. -L PREFIX/lib -ltickbound`, on x86-64 Linux. In the repository `tests/build` puts the same
 * library into target/staticlib/libc_interface.a.
 *
 * A loader asks for the decision, reads it, and loads where it is FITS and nowhere else (examples/loader.c):
 *
 *   uint8_t report[TICKBOUND_REPORT_MEMORY];
 *   struct tickbound_figures figures;
 *   tickbound_answer answer = tickbound_decide(text, text_length, report, sizeof report);
 *   tickbound_decide_figures(answer, report, &figures);
 *   if (figures.decision == TICKBOUND_FITS) ..
 *
 * Each function reads a routine file of `text_length` bytes at `text`, or what its own comment names, and writes into
 * the bytes lent to it, as `report_length` bytes at `report`.
 *
 * - The memory that is lent for writing must not overlap what is read, and nothing else may write either during
 *   the call.
 * - A pointer may be null where its length is 0. With a length above 0 it must point to that many bytes; the
 *   bytes lent for writing must be writable.
 * - Every text of every length is answered. An empty text is refused by 2. Too little lent memory, fewer than
 *   TICKBOUND_REPORT_MEMORY bytes for a report, TICKBOUND_CODE_MEMORY for lines and words, TICKBOUND_EXPLAIN_MEMORY
 *   for an explanation, TICKBOUND_TRACE_MEMORY for a trace or TICKBOUND_FILE_MEMORY for the file of a seed, is refused
 *   by 10, before anything is read.
 * - After a report (lines, words), the memory holds its bytes and then its former bytes. After a refusal it is
 *   unchanged. A report is text (two lines, one of a replay and of a search, each ending in a line feed); no 0 byte
 *   ends it.
 * - The functions keep nothing between calls, allocate nothing and may be called from several threads. Leave each call
 *   the stack that the macros TICKBOUND_.._STACK say.
 *
 * An answer is a length or a refusal, and never both. It is a type of its own, so that it is neither a number nor a
 * condition for the compiler: `int length = tickbound_bound(..)` and `if (tickbound_bound(..))` are errors. A routine
 * that costs nothing has a report (`0 0 0 1 0 -`), and its answer is that report's length; a refused routine has no
 * figures at all. Ask `tickbound_is_refused` before anything is read from the report's memory.
 *
 * The functions below the declarations stand in this header whole and need no library. */
#ifndef TICKBOUND_H
#define TICKBOUND_H

/* The functions return the 64 bits of an answer in one register, as System V's convention for x86-64 returns a struct
 * of 64 bits. Elsewhere a struct may be returned in another place, and an answer would be whatever stands there. No
 * macro shows gcc's options -fpcc-struct-return and -mabi=ms, which change the convention: compile without them. */
#if !defined __x86_64__ || defined __ILP32__ || defined _WIN32 || defined __CYGWIN__
#error "tickbound.h: the library is for x86-64 with System V's calling convention, as on Linux; not for x32 or Windows"
#endif

#include <stdbool.h>
#include <stddef.h>
#include <stdint.h>
#include <string.h>

#ifdef __cplusplus
extern "C" {
#endif

/* The version of this header and of the library installed with it. The first number rises where a caller must be
 * changed. */
#define TICKBOUND_VERSION_MAJOR 2
#define TICKBOUND_VERSION_MINOR 1
#define TICKBOUND_VERSION_PATCH 0
#define TICKBOUND_VERSION "2.1.0"

/* What a function answers. `word` is for `tickbound_is_refused`, `tickbound_length`, `tickbound_refusal_number` and
 * `tickbound_refusal_place` and not for a caller:
 *
 *   a report    its length, 1 to TICKBOUND_REPORT_MEMORY; of lines or words, 1 to TICKBOUND_CODE_MEMORY;
 *               of an explanation, 1 to TICKBOUND_EXPLAIN_MEMORY; of a trace, 1 to TICKBOUND_TRACE_MEMORY;
 *               of the file of a seed, 1 to TICKBOUND_FILE_MEMORY
 *   a refusal   bit 63 is 1, bits 32 to 47 are the refusal's number, bits 0 to 31 its place;
 *               all other bits are 0. No place is above 62,000, but for the address of a preview,
 *               which may be any number of 32 bits
 *
 * No function answers anything else; 0 and every other word count as refused. */
typedef struct {
    uint64_t word;
} tickbound_answer;

/* An answer that is not used is a warning of the compiler. */
#if defined __GNUC__
#define TICKBOUND_USED __attribute__((warn_unused_result))
#elif defined __cplusplus && __cplusplus >= 201703L
#define TICKBOUND_USED [[nodiscard]]
#else
#define TICKBOUND_USED
#endif

/* The stack to leave a call of each function, in bytes; and beside it what was measured, in KB of 1,024 bytes: the most
 * that a call wrote to, of those tried (32 openings, 1,024 lines of code, as many instructions of words, the examples,
 * files of seeds). Each call was made on no more stack than the macro says. This is measured (tests/stack.c), not
 * proved. */
#define TICKBOUND_DECIDE_STACK (2304 * 1024)        /* 1,758 */
#define TICKBOUND_MERGE_STACK (2048 * 1024)         /* 1,677 */
#define TICKBOUND_EXPLAIN_MERGE_STACK (2304 * 1024) /* 1,697 */
#define TICKBOUND_SPLIT_STACK (2560 * 1024)         /* 1,824 */
#define TICKBOUND_DECIDE_SPLIT_STACK (2560 * 1024)  /* 1,824 */
#define TICKBOUND_PREVIEW_STACK (256 * 1024)        /* 185 */
#define TICKBOUND_EXPLAIN_STACK (256 * 1024)        /* 163 */
#define TICKBOUND_NEAREST_STACK (256 * 1024)        /* 164 */
#define TICKBOUND_BOUND_STACK (256 * 1024)          /* 153 */
#define TICKBOUND_REPLAY_STACK (128 * 1024)         /* 59 */
#define TICKBOUND_TRACE_STACK (128 * 1024)          /* 64 */
#define TICKBOUND_RUN_STACK (128 * 1024)            /* 56 */
#define TICKBOUND_IMPORT_STACK (64 * 1024)          /* 17 */
#define TICKBOUND_EXPORT_STACK (64 * 1024)          /* 10 */
#define TICKBOUND_GENERATE_STACK (64 * 1024)        /* 1 */

/* Report memory that is enough for every report; with less a call is refused by 10. */
#define TICKBOUND_REPORT_MEMORY 128

/* Memory that is enough for the lines of every import and the words of every export; with less a call is refused
 * by 10. */
#define TICKBOUND_CODE_MEMORY 32768

/* Memory that is enough for every explanation; with less a call is refused by 10. */
#define TICKBOUND_EXPLAIN_MEMORY 65536

/* Memory that is enough for the trace of every run; with less a call is refused by 10. */
#define TICKBOUND_TRACE_MEMORY 32768

/* Memory that is enough for the file of every seed; with less a call is refused by 10. */
#define TICKBOUND_FILE_MEMORY 32768

/* The longest text that is not refused by 1. */
#define TICKBOUND_TEXT_LIMIT 32768

/* The longest trace that is not refused by 1. */
#define TICKBOUND_TRACE_LIMIT 131072

/* The longest text of cuts that is not refused by 1, and the most cuts that it has. */
#define TICKBOUND_CUTS_LIMIT 4096
#define TICKBOUND_CUTS 16

/* The most letters that a path has. */
#define TICKBOUND_PATH_LIMIT 32

/* The numbers of the refusals. The place is 0 for 10 and 1, a line of the text for 2 to 6, 13 and 11, an address of
 * the code for 7, 8, 9 and 14, and for 12 the index of a word, from 0. An import refuses its primitives line by 2 or 4
 * at place 1. A replay refuses its trace by 1, 2 or 3, after its routine file: a line is then one of the trace. The bound
 * by cases refuses its cuts by 1, 2, 3 or 4, after its routine file: a line is then one of the cuts. A preview refuses an
 * address outside the code by 4 at that address. The seed 0 is refused by 3 at place 0. */
enum {
    TICKBOUND_TEXT_TOO_LONG = 1,
    TICKBOUND_LAYOUT = 2,
    TICKBOUND_OUT_OF_RANGE = 3,
    TICKBOUND_BAD_NAME = 4,
    TICKBOUND_UNPRICED = 5,
    TICKBOUND_NO_TARGET = 6,
    TICKBOUND_STUCK = 7,
    TICKBOUND_OPENINGS = 8,
    TICKBOUND_SPENT = 9,
    TICKBOUND_LENT_TOO_LITTLE = 10,
    TICKBOUND_UNKNOWN_CELL = 11,
    TICKBOUND_BAD_WORD = 12,
    TICKBOUND_BACKWARD = 13,
    TICKBOUND_NO_MEETING = 14
};

/* The decision whether a routine fits in its tick: `DECISION BOUND CYCLES TICK WORDS DEPTH STEPS` and their values,
 * which `tickbound_decide_figures` reads. CYCLES, WORDS, DEPTH and STEPS are those of the bound that BOUND names:
 *
 *   FITS FIRST          the first bound reports, and its CYCLES are at most TICK
 *   OVER FIRST          the first bound reports, and its CYCLES are above TICK
 *   FITS MERGING        the first refuses by 8 or 9, the merging bound reports, and its CYCLES are at most TICK
 *   UNDECIDED MERGING   the same, and its CYCLES are above TICK
 *
 * Where FITS is answered, every run, for every number that the file allows and every answer of a primitive, spends at
 * most TICK cycles and WORDS words, is nowhere deeper than DEPTH and makes its STOP within STEPS; this is proved,
 * whichever bound gave the figures. OVER says that the bound is above TICK, and not that a run is. UNDECIDED says neither.
 *
 * Refused by 10; then as the first bound is: by 1 to 6, 13 and 7, and by 8 and 9 where the merging bound refuses too. */
TICKBOUND_USED tickbound_answer tickbound_decide(const uint8_t *text, size_t text_length, uint8_t *report,
                                                 size_t report_length);

/* The report of the bound: `CYCLES WORDS DEPTH STEPS SHARE PATH` and their values. It holds for every number that a `?`
 * or a range (`0..1008`) in the file allows. */
TICKBOUND_USED tickbound_answer tickbound_bound(const uint8_t *text, size_t text_length, uint8_t *report,
                                                size_t report_length);

/* The report of the merging bound, for a routine with too many paths to walk. It goes through the addresses once, in
 * rising order, and merges the states where ways meet: equal cells stay, unlike numbers and ranges become the
 * smallest range that covers both. The report has the same names and is read by `tickbound_read_report`; `steps` is
 * the number of addresses reached, and PATH is `-`, so that `path` is empty. Neither BUDGET nor a limit on openings
 * plays a part. Every run is within this report too. Where both bounds report, its cycles, words and depth are at
 * least those of `tickbound_bound`.
 *
 * Refused by 10; then by 1 to 6 and 13, as the bound is; then at the lowest address that has one of these two, 14
 * before 7: 14, where ways meet with stacks of unlike heights or with a cell that is a handle on one of them and
 * anything else, another handle too, on another; 7, where the step of the merged state is stuck. Never by 8, 9 or
 * 11. */
TICKBOUND_USED tickbound_answer tickbound_merge(const uint8_t *text, size_t text_length, uint8_t *report,
                                                size_t report_length);

/* The report of the bound, its two lines, and then the steps of the worst path, one to a line, under the line of names
 * `AT OP ARG CYCLES WORDS DEPTH WAY`. A line begins with the code line as the file has it; CYCLES and WORDS are the sums
 * so far, this step included, DEPTH is the height of the stack before the step, and WAY is `N` or `T` at an unknown
 * branch and `-` elsewhere. CYCLES of the last line is the report's, and the letters of WAY are its PATH. The answer's
 * length is 1 to TICKBOUND_EXPLAIN_MEMORY, and that much must be lent.
 *
 * Refused as the bound is. */
TICKBOUND_USED tickbound_answer tickbound_explain(const uint8_t *text, size_t text_length, uint8_t *lines,
                                                  size_t lines_length);

/* The report of the merging bound, its two lines, and then a costliest way through the merged states, one line for each
 * address, under the same line of names. CYCLES and WORDS are the sums on this way, this step included, DEPTH is the
 * height of the merged state, and WAY is `N` or `T` where its step opens two ways and `-` elsewhere. CYCLES of the last
 * line is the report's; its WORDS can be below. Ways meet in merged states, so a run need not take this way as a whole. Of
 * several costliest ways it is the one whose STOP is the lowest; back from there the origin of each address is the lowest
 * one, and T where both ways of one branch lead there at the same cost. At least TICKBOUND_EXPLAIN_MEMORY bytes must be
 * lent.
 *
 * Refused by 10; then as the merging bound is: by 1 to 6, 13, 14 and 7. */
TICKBOUND_USED tickbound_answer tickbound_explain_merge(const uint8_t *text, size_t text_length, uint8_t *lines,
                                                        size_t lines_length);

/* The report of the merging bound by cases, under the names of a bound and read by `tickbound_read_report`. The cuts are a
 * text of their own: the line `CELL FROM`, which alone means no cuts, and then at most TICKBOUND_CUTS lines of a cell's
 * name, as the file has it on line 10 or 12, one space and a number. A cut at n parts a cell that may hold numbers below n
 * and numbers from n on; a handle, and a number that does not part its cell, is passed over. Each choice of one part of
 * each cell is a case. The merging bound is taken of each case, and the largest of each figure is reported: none is above
 * that of `tickbound_merge`, more cuts never give more, and every run is within this report too; this is proved. With no
 * cut it is the merging bound.
 *
 * Refused by 10; then by 1 to 6 and 13, as the bound is; then for the cuts by 1 (at place 0), 2, 3 and 4 (at a line of the
 * cuts); then by 14 or 7 at an address, as the first case is that is refused, the part below a cut before the other. So of
 * a refusal by 1 to 4 the place is in the routine file where `tickbound_merge` refuses that file by any of 1 to 6 or by
 * 13, and else in the cuts.
 *
 * A call takes as many merging bounds as there are cases, 65,536 at most. */
TICKBOUND_USED tickbound_answer tickbound_split(const uint8_t *text, size_t text_length, const uint8_t *cuts,
                                                size_t cuts_length, uint8_t *report, size_t report_length);

/* The decision by the bound by cases: `DECISION BOUND CYCLES TICK WORDS DEPTH STEPS` and their values, which
 * `tickbound_decide_figures` reads.
 *
 *   FITS SPLIT          CYCLES of `tickbound_split` with these cuts are at most TICK
 *   UNDECIDED SPLIT     they are above TICK
 *
 * What is said of FITS at `tickbound_decide` holds of this one too. Refused as `tickbound_split` is. */
TICKBOUND_USED tickbound_answer tickbound_decide_split(const uint8_t *text, size_t text_length, const uint8_t *cuts,
                                                       size_t cuts_length, uint8_t *report, size_t report_length);

/* The report of the one run that the file gives: `CYCLES WORDS DEPTH STEPS` and their values. Refused by 11 where a cell
 * is `?` or a range of more than one number. */
TICKBOUND_USED tickbound_answer tickbound_run(const uint8_t *text, size_t text_length, uint8_t *report,
                                              size_t report_length);

/* The run that the file gives, as a card would record it: the line `AT CYCLES`, and under it a line for each step with its
 * address and what it costs, its primitive and a jump that is taken included. STOP is the last. `tickbound_replay` of
 * these bytes and the same file says `AGREES`, the cycles of the lines add up to CYCLES of `tickbound_run`, and there are
 * STEPS lines under the names; this is proved. The answer's length is 1 to TICKBOUND_TRACE_MEMORY, and that much must be
 * lent.
 *
 * Refused by 10; then as the run is: by 1 to 6, 13, 11, 7 and 9. */
TICKBOUND_USED tickbound_answer tickbound_trace(const uint8_t *text, size_t text_length, uint8_t *lines,
                                                size_t lines_length);

/* The nearest number that moves the bound: among the start and block cells that hold one number, the single change of at
 * least 1 and at most 64 that alters CYCLES of `tickbound_bound` or makes the routine refused by 7, 8 or 9. The smallest
 * change comes first, then the cell earlier in the file, then downwards before upwards; values outside the 31 bits are
 * passed over. The report is one line: the cell's name, one space and its new value, as `S2 1009`; or `NONE`, where no
 * such change exists.
 *
 * Refused by 10; then as the bound refuses the file: by 1 to 6, 13, 7, 8 and 9. A search takes one bound, one more for
 * each cell that holds one number, and up to 128 for each of those whose number the bound reads: 19,738 at most. Its time
 * is that of as many calls of `tickbound_bound`, and can be minutes. */
TICKBOUND_USED tickbound_answer tickbound_nearest(const uint8_t *text, size_t text_length, uint8_t *report,
                                                  size_t report_length);

/* A card's trace, lines under `AT CYCLES`, held against the run that the file gives. The report is one line: `AGREES`,
 * or `DIFFERS` and the number of the first line of the trace that differs, its line of names being line 1. A trace may
 * end before the run does. BUDGET plays no part.
 *
 * Refused by 10; then by 1 to 6, 13 and 11, as a run of the file is; then by 1 (at place 0), 2 and 3 (at a line of the
 * trace) for the trace. So of a refusal by 1, 2 or 3 the place is in the routine file where `tickbound_run` refuses
 * that file by any of 1 to 6, by 13 or by 11, and else in the trace. */
TICKBOUND_USED tickbound_answer tickbound_replay(const uint8_t *text, size_t text_length, const uint8_t *trace,
                                                 size_t trace_length, uint8_t *report, size_t report_length);

/* The report of the bound of a copy of the file in which the instruction's bytes stand after the address and a space, up
 * to the line feed of that line. The bytes are taken as they are: line feeds and spaces are part of the copy. The file
 * and the instruction stay as they are.
 *
 * Refused by 10; then by 1 to 6 and 13, as the bound of the file is; then by 4 at the address, where it is none of the
 * code; then as the bound of the copy is, with a copy of more than TICKBOUND_TEXT_LIMIT bytes by 1. So of a refusal by 1
 * to 6 or 13 the place is in the file where `tickbound_bound` refuses the file by one of these; else it is the address,
 * where the address is outside the code; else it is in the copy. */
TICKBOUND_USED tickbound_answer tickbound_preview(const uint8_t *text, size_t text_length, uint32_t address,
                                                  const uint8_t *instruction, size_t instruction_length, uint8_t *report,
                                                  size_t report_length);

/* The lines of the code that the compiler's words hold: `AT OP ARG` and a line for each instruction, from address 0.
 * The words are 32 bits each, the lowest byte first, numbered as in OCaml 4.13.1; `primitives` is the line of
 * primitives that the file is to have (`-` for none), with or without a line feed at its end. */
TICKBOUND_USED tickbound_answer tickbound_import(const uint8_t *words, size_t words_length, const uint8_t *primitives,
                                                 size_t primitives_length, uint8_t *lines, size_t lines_length);

/* The words of the code of a routine file, in the same form. */
TICKBOUND_USED tickbound_answer tickbound_export(const uint8_t *text, size_t text_length, uint8_t *words,
                                                 size_t words_length);

/* The routine file of a seed, as a test load: the same seed gives the same bytes at every site and in every later
 * version (docs/GENERATOR.md has the rules). At least TICKBOUND_FILE_MEMORY bytes must be lent; the answer is the
 * file's length. No such file is refused by 1 to 6 or 13.
 *
 * Refused by 10, whatever the seed; then by 3 at place 0, where the seed is 0. */
TICKBOUND_USED tickbound_answer tickbound_generate(uint32_t seed, uint8_t *file, size_t file_length);

/* Whether an answer is a refusal. Whatever is no answer of a function, as a word of 0, is one too. */
static inline bool tickbound_is_refused(tickbound_answer answer) {
    return answer.word == 0 || answer.word > TICKBOUND_EXPLAIN_MEMORY;
}

/* The length of the report, the lines or the words; SIZE_MAX, which no memory has, where the answer is a refusal. */
static inline size_t tickbound_length(tickbound_answer answer) {
    return tickbound_is_refused(answer) ? SIZE_MAX : (size_t)answer.word;
}

/* The number of a refusal; 0, which is no refusal's number, where the answer is a report or no answer of a function. */
static inline unsigned tickbound_refusal_number(tickbound_answer answer) {
    return answer.word >> 63 != 0 ? (unsigned)(answer.word >> 32 & 0xffff) : 0;
}

/* The place of a refusal; 0 where the answer is a report or no answer of a function. (0 is the place of refusals 10 and
 * 1 too, and that of the seed 0.) */
static inline uint32_t tickbound_refusal_place(tickbound_answer answer) {
    return answer.word >> 63 != 0 ? (uint32_t)(answer.word & 0xffffffff) : 0;
}

/* What is decided. A memory of zeros says REFUSED. */
enum tickbound_decision {
    TICKBOUND_REFUSED = 0,
    TICKBOUND_FITS = 1,
    TICKBOUND_OVER = 2,
    TICKBOUND_UNDECIDED = 3
};

/* The bound that gave the figures of a decision: none of a refusal, the first, which walks every path, the merging one, or
 * the merging one by cases. */
enum tickbound_which_bound {
    TICKBOUND_NO_BOUND = 0,
    TICKBOUND_FIRST = 1,
    TICKBOUND_MERGING = 2,
    TICKBOUND_SPLIT = 3
};

/* The decision on a routine. Load it where `decision` is TICKBOUND_FITS, and nowhere else. Set aside `words` words and
 * `depth` stack entries for it, once, when the card starts.
 *
 * Of a refusal every figure from `cycles` on is UINT64_MAX, `number` is the refusal's number and `place` its place;
 * where the bytes cannot be read, both are 0. Of a decision both are 0. */
struct tickbound_figures {
    enum tickbound_decision decision;
    enum tickbound_which_bound bound;
    unsigned number;
    uint32_t place;
    uint64_t cycles, tick, words, depth, steps;
};

/* The figures of a bound, of any. `share` is the cycles in thousandths of TICK, to the nearest whole number, at an
 * exact half the even one; so it does not say whether the routine fits in TICK, which `tickbound_decide` decides.
 * `path` is the letters of the decisions, N or T, ended by a 0; where there is none, it is
 * empty (the report has `-` there). */
struct tickbound_report {
    uint64_t cycles, words, depth, steps, share;
    char path[TICKBOUND_PATH_LIMIT + 1];
};

/* The figures of a run. */
struct tickbound_run_report {
    uint64_t cycles, words, depth, steps;
};

/* What a replay says: whether the trace agrees, and otherwise the first line that differs. `line` is 0, which is no
 * such line, where the trace agrees. */
struct tickbound_replay_report {
    bool agrees;
    uint64_t line;
};

/* What a search says: whether a change moves the bound, and then the name of its cell, ended by a 0, and its new value.
 * Where none does, `name` is empty and `value` is 0. */
struct tickbound_nearest_report {
    bool moves;
    char name[8];
    int32_t value;
};

/* Bytes that are still to be read. The functions up to `tickbound_take_decision` are for those below them: each passes
 * over what it reads and says true, or says false. */
struct tickbound_bytes {
    const uint8_t *next;
    size_t count;
};

/* The bytes of a string. */
static inline bool tickbound_take_string(struct tickbound_bytes *bytes, const char *string) {
    size_t length = strlen(string);
    if (bytes->count < length || memcmp(bytes->next, string, length) != 0) {
        return false;
    }
    bytes->next += length;
    bytes->count -= length;
    return true;
}

/* One of the bytes from `low` to `high`. */
static inline bool tickbound_take_byte(struct tickbound_bytes *bytes, char low, char high, uint8_t *byte) {
    if (bytes->count == 0 || *bytes->next < (uint8_t)low || *bytes->next > (uint8_t)high) {
        return false;
    }
    *byte = *bytes->next++;
    bytes->count--;
    return true;
}

/* A decimal number without leading zeros that 64 bits hold, and the string that ends it. */
static inline bool tickbound_take_number(struct tickbound_bytes *bytes, const char *ending, uint64_t *number) {
    uint8_t digit;
    if (!tickbound_take_byte(bytes, '0', '9', &digit)) {
        return false;
    }
    uint64_t value = (uint64_t)(digit - '0');
    while (value != 0 && tickbound_take_byte(bytes, '0', '9', &digit)) {
        if (value > (UINT64_MAX - (uint64_t)(digit - '0')) / 10) {
            return false;
        }
        value = 10 * value + (uint64_t)(digit - '0');
    }
    *number = value;
    return tickbound_take_string(bytes, ending);
}

/* The decisions of a path, or `-` for none, and a line feed. */
static inline bool tickbound_take_path(struct tickbound_bytes *bytes, char *path) {
    size_t length = 0;
    uint8_t letter;
    while (length < TICKBOUND_PATH_LIMIT &&
           (tickbound_take_byte(bytes, 'N', 'N', &letter) || tickbound_take_byte(bytes, 'T', 'T', &letter))) {
        path[length++] = (char)letter;
    }
    path[length] = 0;
    return tickbound_take_string(bytes, length == 0 ? "-\n" : "\n");
}

/* The bytes of a report; none where there are more than a report has, as the SIZE_MAX of a refusal. */
static inline struct tickbound_bytes tickbound_report_bytes(const uint8_t *bytes, size_t length) {
    struct tickbound_bytes left = {bytes, length > TICKBOUND_REPORT_MEMORY ? 0 : length};
    return left;
}

/* What is decided and by which bound, and a space. */
static inline bool tickbound_take_decision(struct tickbound_bytes *bytes, struct tickbound_figures *figures) {
    figures->bound = TICKBOUND_FIRST;
    if (tickbound_take_string(bytes, "FITS FIRST ")) {
        figures->decision = TICKBOUND_FITS;
    } else if (tickbound_take_string(bytes, "OVER FIRST ")) {
        figures->decision = TICKBOUND_OVER;
    } else if (tickbound_take_string(bytes, "FITS MERGING ")) {
        figures->decision = TICKBOUND_FITS;
        figures->bound = TICKBOUND_MERGING;
    } else if (tickbound_take_string(bytes, "UNDECIDED MERGING ")) {
        figures->decision = TICKBOUND_UNDECIDED;
        figures->bound = TICKBOUND_MERGING;
    } else if (tickbound_take_string(bytes, "FITS SPLIT ")) {
        figures->decision = TICKBOUND_FITS;
        figures->bound = TICKBOUND_SPLIT;
    } else if (tickbound_take_string(bytes, "UNDECIDED SPLIT ")) {
        figures->decision = TICKBOUND_UNDECIDED;
        figures->bound = TICKBOUND_SPLIT;
    } else {
        return false;
    }
    return true;
}

/* Whether the figures say what is decided, and are such as a routine has: TICK is at least 1, a run makes at least its
 * STOP, and UINT64_MAX, which stands for no figure, is none. */
static inline bool tickbound_is_consistent(const struct tickbound_figures *figures) {
    bool is_within = figures->cycles <= figures->tick;
    return is_within == (figures->decision == TICKBOUND_FITS) && figures->tick != 0 && figures->steps != 0 &&
           figures->cycles != UINT64_MAX && figures->tick != UINT64_MAX && figures->words != UINT64_MAX &&
           figures->depth != UINT64_MAX && figures->steps != UINT64_MAX;
}

/* Reads the decision that `tickbound_decide` or `tickbound_decide_split` answered and wrote to `report`, and writes all
 * of `figures`, whatever they held. They say TICKBOUND_REFUSED where the answer is a refusal, and where the bytes are not
 * exactly the two lines of a decision or contradict themselves, as FITS with CYCLES above TICK. Of an answer that is no
 * report's length nothing is read: `report` may then be null. */
static inline void tickbound_decide_figures(tickbound_answer answer, const uint8_t *report,
                                            struct tickbound_figures *figures) {
    struct tickbound_bytes left = tickbound_report_bytes(report, tickbound_length(answer));
    struct tickbound_figures read;
    if (tickbound_take_string(&left, "DECISION BOUND CYCLES TICK WORDS DEPTH STEPS\n") &&
        tickbound_take_decision(&left, &read) && tickbound_take_number(&left, " ", &read.cycles) &&
        tickbound_take_number(&left, " ", &read.tick) && tickbound_take_number(&left, " ", &read.words) &&
        tickbound_take_number(&left, " ", &read.depth) && tickbound_take_number(&left, "\n", &read.steps) &&
        left.count == 0 && tickbound_is_consistent(&read)) {
        read.number = 0;
        read.place = 0;
    } else {
        read.decision = TICKBOUND_REFUSED;
        read.bound = TICKBOUND_NO_BOUND;
        read.number = tickbound_refusal_number(answer);
        read.place = tickbound_refusal_place(answer);
        read.cycles = read.tick = read.words = read.depth = read.steps = UINT64_MAX;
    }
    *figures = read;
}

/* Reads the report of a bound, of any. False, with `report` unchanged, where the bytes are not exactly a report: its
 * line of names, then five numbers and a path, separated by one space, and a line feed. */
static inline bool tickbound_read_report(const uint8_t *bytes, size_t length, struct tickbound_report *report) {
    struct tickbound_bytes left = tickbound_report_bytes(bytes, length);
    struct tickbound_report read;
    memset(&read, 0, sizeof read);
    if (!tickbound_take_string(&left, "CYCLES WORDS DEPTH STEPS SHARE PATH\n") ||
        !tickbound_take_number(&left, " ", &read.cycles) || !tickbound_take_number(&left, " ", &read.words) ||
        !tickbound_take_number(&left, " ", &read.depth) || !tickbound_take_number(&left, " ", &read.steps) ||
        !tickbound_take_number(&left, " ", &read.share) || !tickbound_take_path(&left, read.path) || left.count != 0) {
        return false;
    }
    *report = read;
    return true;
}

/* Reads the report of a run. False, with `report` unchanged, where the bytes are not exactly a run's report: its line
 * of names, then four numbers, separated by one space, and a line feed. */
static inline bool tickbound_read_run_report(const uint8_t *bytes, size_t length, struct tickbound_run_report *report) {
    struct tickbound_bytes left = tickbound_report_bytes(bytes, length);
    struct tickbound_run_report read;
    if (!tickbound_take_string(&left, "CYCLES WORDS DEPTH STEPS\n") ||
        !tickbound_take_number(&left, " ", &read.cycles) || !tickbound_take_number(&left, " ", &read.words) ||
        !tickbound_take_number(&left, " ", &read.depth) || !tickbound_take_number(&left, "\n", &read.steps) ||
        left.count != 0) {
        return false;
    }
    *report = read;
    return true;
}

/* Reads the report of a replay. False, with `report` unchanged, where the bytes are not exactly a replay's report:
 * `AGREES`, or `DIFFERS`, one space and a number above 1 (line 1, of names, never differs), and a line feed. */
static inline bool tickbound_read_replay_report(const uint8_t *bytes, size_t length,
                                                struct tickbound_replay_report *report) {
    struct tickbound_bytes left = tickbound_report_bytes(bytes, length);
    struct tickbound_replay_report read;
    read.agrees = tickbound_take_string(&left, "AGREES\n");
    read.line = 0;
    if (!read.agrees && (!tickbound_take_string(&left, "DIFFERS ") || !tickbound_take_number(&left, "\n", &read.line) ||
                         read.line < 2)) {
        return false;
    }
    if (left.count != 0) {
        return false;
    }
    *report = read;
    return true;
}

/* Reads the report of a search. False, with `report` unchanged, where the bytes are not exactly a search's report: `NONE`,
 * or the name of a cell (`ACCU`, `S0` to `S31`, `B0.0` to `B7.15`), one space and a number of 31 bits, and a line feed. */
static inline bool tickbound_read_nearest_report(const uint8_t *bytes, size_t length,
                                                 struct tickbound_nearest_report *report) {
    struct tickbound_bytes left = tickbound_report_bytes(bytes, length);
    struct tickbound_nearest_report read;
    memset(&read, 0, sizeof read);
    read.moves = !tickbound_take_string(&left, "NONE\n");
    if (read.moves) {
        uint64_t entry = 0, block = 0, field = 0, value;
        if (tickbound_take_string(&left, "S")) {
            if (!tickbound_take_number(&left, " ", &entry) || entry > 31) {
                return false;
            }
        } else if (tickbound_take_string(&left, "B")) {
            if (!tickbound_take_number(&left, ".", &block) || block > 7 || !tickbound_take_number(&left, " ", &field) ||
                field > 15) {
                return false;
            }
        } else if (!tickbound_take_string(&left, "ACCU ")) {
            return false;
        }
        memcpy(read.name, bytes, (size_t)(left.next - bytes) - 1);
        bool below = tickbound_take_string(&left, "-");
        if (!tickbound_take_number(&left, "\n", &value) || value > (below ? 1073741824u : 1073741823u) ||
            (below && value == 0)) {
            return false;
        }
        read.value = below ? -(int32_t)value : (int32_t)value;
    }
    if (left.count != 0) {
        return false;
    }
    *report = read;
    return true;
}

#ifdef __cplusplus
}
#endif

#endif
