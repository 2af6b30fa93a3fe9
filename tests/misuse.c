/* Ways to take an answer for something else. With MISUSE 0 this file is accepted by compilers of C and of C++; with each
 * other number it must be refused, and from FIRST_WARNED on it must be warned of (.ci/users-c). With PLAIN the functions
 * answer numbers, as they did before version 2: then every misuse but those warned of is accepted, so that it is refused
 * for the answer's type and for nothing else in it.
 *
 *   cc -I include -c -o /dev/null -DMISUSE=1 tests/misuse.c */
#include <stdio.h>

#include "tickbound.h"

#define FIRST_WARNED 19
#define MISUSES 20

#ifndef MISUSE
#define MISUSE 0
#endif

#ifdef PLAIN
uint64_t plain(const uint8_t *text, size_t text_length, uint8_t *report, size_t report_length);
bool plain_is_refused(uint64_t answer);
size_t plain_length(uint64_t answer);
bool plain_figures(uint64_t answer, const uint8_t *report, struct tickbound_figures *figures);
#define tickbound_answer uint64_t
#define tickbound_bound plain
#define tickbound_merge plain
#define tickbound_run plain
#define tickbound_decide plain
#define tickbound_is_refused plain_is_refused
#define tickbound_length plain_length
#define tickbound_decide_figures plain_figures
#endif

int misuse(const uint8_t *text, size_t length);

int misuse(const uint8_t *text, size_t length) {
    uint8_t report[TICKBOUND_REPORT_MEMORY];
    struct tickbound_figures figures;
    tickbound_answer answer = tickbound_decide(text, length, report, sizeof report);
    tickbound_decide_figures(answer, report, &figures);
#if MISUSE == 1
    int taken = tickbound_bound(text, length, report, sizeof report);
    return taken >= 0;
#elif MISUSE == 2
    if (tickbound_bound(text, length, report, sizeof report)) {
        return 0;
    }
#elif MISUSE == 3
    uint64_t taken = tickbound_bound(text, length, report, sizeof report);
    return taken != 0;
#elif MISUSE == 4
    size_t taken;
    taken = tickbound_merge(text, length, report, sizeof report);
    return taken != 0;
#elif MISUSE == 5
    if (tickbound_decide(text, length, report, sizeof report) >= 0) {
        return 0;
    }
#elif MISUSE == 6
    if (tickbound_decide(text, length, report, sizeof report) == 0) {
        return 0;
    }
#elif MISUSE == 7
    if (!tickbound_decide(text, length, report, sizeof report)) {
        return 0;
    }
#elif MISUSE == 8
    return (int)tickbound_decide(text, length, report, sizeof report);
#elif MISUSE == 9
    return tickbound_decide(text, length, report, sizeof report);
#elif MISUSE == 10
    return tickbound_run(text, length, report, sizeof report) ? 0 : 1;
#elif MISUSE == 11
    switch (answer) {
    default:
        return 0;
    }
#elif MISUSE == 12
    while (answer) {
        return 0;
    }
#elif MISUSE == 13
    return answer && length != 0;
#elif MISUSE == 14
    bool taken = answer;
    return taken;
#elif MISUSE == 15
    return tickbound_is_refused(21) ? 1 : 0;
#elif MISUSE == 16
    return tickbound_length(length) == 0;
#elif MISUSE == 17
    if (tickbound_decide_figures(answer, report, &figures)) {
        return 0;
    }
#elif MISUSE == 18
    return tickbound_read_report(report, answer, NULL) ? 0 : 1;
#elif MISUSE == 19
    tickbound_bound(text, length, report, sizeof report);
#elif MISUSE == 20
    printf("%d\n", answer);
#endif
    return figures.decision == TICKBOUND_FITS ? 0 : 1;
}
