/* Thirty sets of sources on one cast: one call of quetz_solve_many beside thirty of quetz_solve, through the built library, in processor time.
 *
 *     cc -O2 -Iinclude bench/many.c target/library/libquetzalcup.a -o target/many && target/many [RUNS]
 *
 * prints a row for each cast: both times in ms (the least of RUNS runs, 7 if not said), what a call spends once for the cast (checks of the labels, distances,
 * levels, lists, clearing: the difference of the two, divided by the 29 calls saved), and its share of a single call. */
#define _POSIX_C_SOURCE 199309L
#include <inttypes.h>
#include <stdio.h>
#include <stdlib.h>
#include <string.h>
#include <time.h>

#include "quetzalcup.h"

enum { SETS = 30, MOST = 32 * 32 * 32 };

static uint8_t labels[MOST];
static int32_t values[SETS * MOST];
static int64_t pressures[SETS * MOST], one[MOST], answers[SETS * QUETZ_FIELDS];
static uint8_t bytes[2 * MOST + 16];
static double floats[8 * MOST + 64];
static uint32_t words[2 * MOST];

static double now(void) {
    struct timespec t;
    clock_gettime(CLOCK_PROCESS_CPUTIME_ID, &t);
    return (double)t.tv_sec * 1e3 + (double)t.tv_nsec / 1e6;
}

static uint32_t seed = 1;

static uint32_t next(uint32_t below) {
    seed = seed * 1664525u + 1013904223u;
    return (seed >> 8) % below;
}

/* An open room: openings on one face, all else air. A winding throat: floors of wall with a gap at alternate ends. */
static void make_cast(uint32_t side, int winding) {
    uint32_t n = side * side * side;
    for (uint32_t c = 0; c < n; c++) {
        uint32_t i = c % side, k = c / side / side;
        labels[c] = k == 0 ? 1 : 0;
        if (winding && k % 4 == 3 && (k / 4 % 2 == 0 ? i + 2 < side : i > 1)) {
            labels[c] = 2;
        }
    }
    for (uint32_t v = 0; v < SETS * n; v++) {
        values[v] = labels[v % n] == 2 ? 0 : labels[v % n] == 1 ? (int32_t)next(200001) - 100000 : (int32_t)next(2001) - 1000;
    }
}

static void measure(const char *name, uint32_t side, int winding, int runs) {
    size_t n = (size_t)side * side * side;
    quetz_task task = {{side, side, side}, {6, 6, 1000}};
    double together = 1e9, apart = 1e9;
    int accepted = 0, same = 1;
    make_cast(side, winding);
    for (int run = 0; run < runs; run++) {
        double from = now();
        quetz_answer a = quetz_solve_many(task, SETS, labels, n, values, SETS * n, pressures, SETS * n, answers, SETS * QUETZ_FIELDS,
                                          bytes, 2 * n + 16, floats, 8 * n + 64, words, 2 * n);
        double took = now() - from;
        together = took < together ? took : together;
        double singly = 0;
        accepted = a.number != 0 ? -1 : 0;
        for (size_t s = 0; s < SETS; s++) {
            from = now();
            quetz_answer b = quetz_solve(task, labels, n, values + s * n, n, one, n, bytes, 2 * n + 16, floats, 8 * n + 64, words, 2 * n);
            singly += now() - from;
            accepted += b.number == 0;
            same = same && answers[s * QUETZ_FIELDS] == b.number && (b.number != 0 || memcmp(one, pressures + s * n, n * sizeof one[0]) == 0);
        }
        apart = singly < apart ? singly : apart;
    }
    double once = (apart - together) / (SETS - 1);
    printf("| %s %" PRIu32 "³ | %d of %d | %.2f | %.2f | %.2f | %.3f | %.1f %% |%s\n", name, side, accepted, SETS, together, apart, apart / together, once,
           100 * once / (apart / SETS), same ? "" : " DIFFER");
}

int main(int count, char **words_given) {
    int runs = count > 1 ? atoi(words_given[1]) : 7;
    puts("| cast | accepted | one call, ms | thirty calls, ms | ratio | once for the cast, ms | share of a single call |\n|---|---|---|---|---|---|---|");
    for (uint32_t side = 8; side <= 32; side *= 2) {
        measure("open room", side, 0, runs);
        measure("winding throat", side, 1, runs);
    }
    return 0;
}
