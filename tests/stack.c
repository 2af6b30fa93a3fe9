/* How much stack a call of each function writes to, on the inputs that take most: 32 openings, 1,024 lines, sixteen cuts, words
 * and a trace of as many instructions, the files of seeds and the files that are named. Each is held against the stack that the header
 * asks for, and made once more with no more stack than that.
 *
 *   cc -I PREFIX/include -o stack tests/stack.c -L PREFIX/lib -ltickbound -lpthread
 *   ./stack FILE..
 *
 * The last line is `N passed, M failed`; the exit status is 0 only if nothing failed. */
#define _DEFAULT_SOURCE
#include <pthread.h>
#include <stdio.h>
#include <stdlib.h>
#include <sys/mman.h>
#include <sys/wait.h>
#include <unistd.h>

#include "tickbound.h"

#define STACK (4u * 1024 * 1024)
#define PAGE 4096u
#define LINES 1024
#define SEEDS 20
#define PAINT UINT64_C(0x5ac3966978a5b41e)

/* What the calls are handed. */
static uint8_t text[TICKBOUND_TEXT_LIMIT + 1], lent[TICKBOUND_EXPLAIN_MEMORY], words[TICKBOUND_CODE_MEMORY];
static uint8_t trace[TICKBOUND_TRACE_LIMIT], instruction[TICKBOUND_TEXT_LIMIT];
static size_t text_length, words_length, trace_length, instruction_length;
static uint32_t address, seed;
/* as many cuts as there can be, of a cell that every text here has */
static const char cuts[] = "CELL FROM\nACCU -7\nACCU -6\nACCU -5\nACCU -4\nACCU -3\nACCU -2\nACCU -1\nACCU 0\nACCU 1\nACCU 2\n"
                           "ACCU 3\nACCU 4\nACCU 5\nACCU 6\nACCU 7\nACCU 8\n";

static tickbound_answer call_decide(void) {
    return tickbound_decide(text, text_length, lent, sizeof lent);
}

static tickbound_answer call_merge(void) {
    return tickbound_merge(text, text_length, lent, sizeof lent);
}

static tickbound_answer call_explain_merge(void) {
    return tickbound_explain_merge(text, text_length, lent, sizeof lent);
}

static tickbound_answer call_split(void) {
    return tickbound_split(text, text_length, (const uint8_t *)cuts, strlen(cuts), lent, sizeof lent);
}

static tickbound_answer call_decide_split(void) {
    return tickbound_decide_split(text, text_length, (const uint8_t *)cuts, strlen(cuts), lent, sizeof lent);
}

static tickbound_answer call_preview(void) {
    return tickbound_preview(text, text_length, address, instruction, instruction_length, lent, sizeof lent);
}

static tickbound_answer call_explain(void) {
    return tickbound_explain(text, text_length, lent, sizeof lent);
}

static tickbound_answer call_nearest(void) {
    return tickbound_nearest(text, text_length, lent, sizeof lent);
}

static tickbound_answer call_bound(void) {
    return tickbound_bound(text, text_length, lent, sizeof lent);
}

static tickbound_answer call_replay(void) {
    return tickbound_replay(text, text_length, trace, trace_length, lent, sizeof lent);
}

static tickbound_answer call_trace(void) {
    return tickbound_trace(text, text_length, lent, sizeof lent);
}

static tickbound_answer call_run(void) {
    return tickbound_run(text, text_length, lent, sizeof lent);
}

static tickbound_answer call_import(void) {
    return tickbound_import(words, words_length, (const uint8_t *)"-", 1, lent, sizeof lent);
}

static tickbound_answer call_export(void) {
    return tickbound_export(text, text_length, lent, sizeof lent);
}

static tickbound_answer call_generate(void) {
    return tickbound_generate(seed, lent, sizeof lent);
}

static struct {
    const char *name;
    tickbound_answer (*call)(void);
    /* the stack that the header asks for, and the most that a call wrote to */
    size_t asked, written;
    /* the inputs tried, and those on which a call with no more than is asked for gave another answer or ended its program */
    unsigned inputs, broken;
} functions[] = {
    {"decide", call_decide, TICKBOUND_DECIDE_STACK, 0, 0, 0},
    {"merge", call_merge, TICKBOUND_MERGE_STACK, 0, 0, 0},
    {"explain_merge", call_explain_merge, TICKBOUND_EXPLAIN_MERGE_STACK, 0, 0, 0},
    {"split", call_split, TICKBOUND_SPLIT_STACK, 0, 0, 0},
    {"decide_split", call_decide_split, TICKBOUND_DECIDE_SPLIT_STACK, 0, 0, 0},
    {"preview", call_preview, TICKBOUND_PREVIEW_STACK, 0, 0, 0},
    {"explain", call_explain, TICKBOUND_EXPLAIN_STACK, 0, 0, 0},
    {"nearest", call_nearest, TICKBOUND_NEAREST_STACK, 0, 0, 0},
    {"bound", call_bound, TICKBOUND_BOUND_STACK, 0, 0, 0},
    {"replay", call_replay, TICKBOUND_REPLAY_STACK, 0, 0, 0},
    {"trace", call_trace, TICKBOUND_TRACE_STACK, 0, 0, 0},
    {"run", call_run, TICKBOUND_RUN_STACK, 0, 0, 0},
    {"import", call_import, TICKBOUND_IMPORT_STACK, 0, 0, 0},
    {"export", call_export, TICKBOUND_EXPORT_STACK, 0, 0, 0},
    {"generate", call_generate, TICKBOUND_GENERATE_STACK, 0, 0, 0},
};
#define FUNCTIONS (sizeof functions / sizeof *functions)

static void fail(const char *what) {
    perror(what);
    exit(2);
}

/* The memory that a thread has as its stack, painted, and what the thread is to call. */
static uint64_t *stack;

struct turn {
    tickbound_answer (*call)(void);
    /* no more stack than so many bytes below the call; 0 for all of it */
    size_t room;
    tickbound_answer answer;
    uintptr_t top;
};

static void *take_turn(void *handed) {
    struct turn *turn = (struct turn *)handed;
    turn->top = (uintptr_t)__builtin_frame_address(0);
    if (turn->room != 0) {
        uintptr_t lowest = (turn->top - turn->room) / PAGE * PAGE;
        if (mprotect(stack, lowest - (uintptr_t)stack, PROT_NONE) != 0) {
            fail("mprotect");
        }
    }
    turn->answer = turn->call();
    return NULL;
}

/* Makes a call on the stack. */
static struct turn called(tickbound_answer (*call)(void), size_t room) {
    struct turn turn = {call, room, {0}, 0};
    pthread_attr_t attributes;
    pthread_t thread;
    if (pthread_attr_init(&attributes) != 0 || pthread_attr_setstack(&attributes, stack, STACK) != 0 ||
        pthread_create(&thread, &attributes, take_turn, &turn) != 0 || pthread_join(thread, NULL) != 0) {
        fail("a thread");
    }
    pthread_attr_destroy(&attributes);
    return turn;
}

/* The bytes that a call writes to, below its caller's frame; the stack is painted again. */
static size_t written(struct turn *turn, tickbound_answer (*call)(void)) {
    *turn = called(call, 0);
    size_t first = 0, count = STACK / sizeof *stack;
    while (first < count && stack[first] == PAINT) {
        first++;
    }
    uintptr_t lowest = (uintptr_t)(stack + first);
    for (; first < count; first++) {
        stack[first] = PAINT;
    }
    return turn->top - lowest;
}

/* Whether a call gives the same answer with so much stack; in a program of its own, since one that needs more is ended. */
static bool is_enough(const struct turn *turn, size_t room) {
    pid_t child = fork();
    if (child < 0) {
        fail("fork");
    }
    if (child == 0) {
        _exit(called(turn->call, room).answer.word == turn->answer.word ? 0 : 1);
    }
    int status;
    return waitpid(child, &status, 0) == child && WIFEXITED(status) && WEXITSTATUS(status) == 0;
}

/* All functions on the input as it stands; a call that takes most so far is made once more with what is asked for. */
static void measure(void) {
    for (size_t i = 0; i < FUNCTIONS; i++) {
        struct turn turn;
        size_t bytes = written(&turn, functions[i].call);
        functions[i].inputs++;
        if (bytes > functions[i].written) {
            functions[i].written = bytes;
            functions[i].broken += !is_enough(&turn, functions[i].asked);
        }
    }
}

/* The first instruction of the code, for a preview that changes nothing; the words of the code. */
static void put_others(void) {
    static const char names[] = "\nAT OP ARG\n";
    char *code, *at;
    text[text_length] = 0;
    code = strstr((char *)text, names);
    if (code != NULL) {
        address = (uint32_t)strtoul(code + strlen(names), &at, 10);
        instruction_length = strcspn(at, "\n");
        instruction_length -= instruction_length > 0;
        memcpy(instruction, at + 1, instruction_length);
    }
    tickbound_answer answer = tickbound_export(text, text_length, words, sizeof words);
    words_length = tickbound_is_refused(answer) ? 0 : tickbound_length(answer);
}

/* So many code lines of an instruction, with the address of the next or of the last line as its argument or none, and STOP; and
 * the trace of a run through all of them. */
static void put_lines(unsigned count, const char *operation, const char *cells, bool is_to_last) {
    bool jumps = strcmp(operation, "BRANCHIF") == 0;
    int at = snprintf((char *)text, sizeof text,
                      "BUDGET TICK\n1000000 1000000\n%s STOP\n1 1\n0 0\n0 0\n-\n-\n-\nACCU S0\n%s 5\n-\n-\nAT OP ARG\n", operation, cells);
    int line = snprintf((char *)trace, sizeof trace, "AT CYCLES\n");
    for (unsigned i = 0; i < count; i++) {
        unsigned target = is_to_last ? count : i + 1;
        size_t room = sizeof text - (size_t)at;
        at += jumps ? snprintf((char *)text + at, room, "%u %s %u\n", i, operation, target)
                    : snprintf((char *)text + at, room, "%u %s -\n", i, operation);
        line += snprintf((char *)trace + line, sizeof trace - (size_t)line, "%u 1\n", i);
    }
    at += snprintf((char *)text + at, sizeof text - (size_t)at, "%u STOP -\n", count);
    text_length = (size_t)at;
    trace_length = (size_t)line;
    put_others();
}

static void put_file(const char *name) {
    FILE *file = fopen(name, "rb");
    if (file == NULL) {
        fail(name);
    }
    text_length = fread(text, 1, sizeof text - 1, file);
    fclose(file);
    put_others();
}

/* The file of a seed. */
static void put_seed(uint32_t number) {
    seed = number;
    tickbound_answer answer = tickbound_generate(seed, text, sizeof text - 1);
    text_length = tickbound_is_refused(answer) ? 0 : tickbound_length(answer);
    put_others();
}

static void measure_all(int count, char **files) {
    seed = 1;
    put_lines(32, "BRANCHIF", "?", true);
    measure();
    put_lines(33, "BRANCHIF", "?", true);
    measure();
    put_lines(LINES - 1, "BRANCHIF", "?", false);
    measure();
    put_lines(LINES - 1, "CONST1", "0", false);
    measure();
    put_lines(64, "PUSH", "0", false);
    measure();
    for (int i = 0; i < count; i++) {
        put_file(files[i]);
        measure();
    }
    for (uint32_t i = 1; i <= SEEDS; i++) {
        put_seed(i);
        measure();
    }
}

int main(int argc, char **argv) {
    unsigned passed = 0, failed = 0;
    void *memory = mmap(NULL, STACK, PROT_READ | PROT_WRITE, MAP_PRIVATE | MAP_ANONYMOUS, -1, 0);
    if (memory == MAP_FAILED) {
        fail("mmap");
    }
    stack = (uint64_t *)memory;
    for (size_t i = 0; i < STACK / sizeof *stack; i++) {
        stack[i] = PAINT;
    }
    measure_all(argc - 1, argv + 1);
    for (size_t i = 0; i < FUNCTIONS; i++) {
        bool is_right = functions[i].written != 0 && functions[i].written <= functions[i].asked && functions[i].broken == 0;
        printf("%s: %zu KB written, %zu asked for, on %u inputs%s\n", functions[i].name, (functions[i].written + 1023) / 1024,
               functions[i].asked / 1024, functions[i].inputs, is_right ? "" : ": NOT ENOUGH");
        *(is_right ? &passed : &failed) += 1;
    }
    printf("%u passed, %u failed\n", passed, failed);
    return failed == 0 ? 0 : 1;
}
