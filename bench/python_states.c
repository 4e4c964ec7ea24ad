/* python_states POINTS ROUNDS: the library's own time for the points that bench/python times from Python: a file of doubles, T, p and rho of one
   state after the other. The best of the rounds, in us a state, on one core. Link with the library. */
#define _GNU_SOURCE
#include <stdio.h>
#include <stdlib.h>
#include <time.h>
#include "../include/makhroeng.h"

#define MOST 100000
static double read[3 * MOST], T[MOST], P[MOST], R[MOST], figures[10 * MOST];
static uint32_t answers[MOST];
static size_t n;

static double now(void) { struct timespec t; clock_gettime(CLOCK_THREAD_CPUTIME_ID, &t); return t.tv_sec * 1e6 + t.tv_nsec / 1e3; }

static void by_pressure(void) { for (size_t i = 0; i < n; i++) answers[i] = makhroeng_state_from_pressure(T[i], P[i], figures + 10 * i, 10); }
static void by_density(void) { for (size_t i = 0; i < n; i++) answers[i] = makhroeng_state_from_density(T[i], R[i], figures + 10 * i, 10); }
static void at_once(void) { if (makhroeng_states_from_pressure(T, n, P, n, answers, n, figures, 10 * n) != MAKHROENG_WORKED) exit(1); }

static void timed(const char *name, void work(void), int rounds) {
    double best = 1e18;
    for (int k = 0; k < rounds; k++) {
        double began = now();
        work();
        double took = (now() - began) / (double)n;
        if (took < best) best = took;
    }
    for (size_t i = 0; i < n; i++) if (answers[i] < MAKHROENG_VAPOUR) exit(1);
    printf("%s\t%.3f\n", name, best);
}

int main(int argc, char **argv) {
    FILE *points = argc == 3 ? fopen(argv[1], "rb") : NULL;
    if (!points) return 2;
    n = fread(read, 3 * sizeof(double), MOST, points);
    for (size_t i = 0; i < n; i++) { T[i] = read[3 * i]; P[i] = read[3 * i + 1]; R[i] = read[3 * i + 2]; }
    timed("state(T, p)", by_pressure, atoi(argv[2]));
    timed("state(T, rho)", by_density, atoi(argv[2]));
    timed("states(T, p) of arrays", at_once, atoi(argv[2]));
    return 0;
}
