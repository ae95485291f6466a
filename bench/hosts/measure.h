/* What a call costs: nanoseconds of the thread's processor time, the least of 60 rounds; and under callgrind the machine instructions,
 * which are dumped under the row's name. A row is its name, the nanoseconds and the calls of a round, parted by tabs; its name is an engine
 * and what it does, parted by a colon. */
#ifndef MEASURE_H
#define MEASURE_H

#include <stdio.h>
#include <time.h>

#if __has_include(<valgrind/callgrind.h>)
#include <valgrind/callgrind.h>
#else
#define CALLGRIND_TOGGLE_COLLECT
#define CALLGRIND_DUMP_STATS_AT(name)
#define RUNNING_ON_VALGRIND 0
#endif

static double now(void) {
    struct timespec t;
    clock_gettime(CLOCK_THREAD_CPUTIME_ID, &t);
    return (double)t.tv_sec * 1e9 + (double)t.tv_nsec;
}

static void measure(const char *what, void (*once)(void), int many) {
    double best = 1e18;
    once();
    for (int round = 0; round < (RUNNING_ON_VALGRIND ? 1 : 60); round++) {
        double start = now();
        CALLGRIND_TOGGLE_COLLECT;
        for (int i = 0; i < many; i++) once();
        CALLGRIND_TOGGLE_COLLECT;
        double took = (now() - start) / many;
        if (took < best) best = took;
    }
    CALLGRIND_DUMP_STATS_AT(what);
    printf("%s\t%.1f\t%d\n", what, best, many);
}

#endif
