/* writing [rounds]: numbers and reports as they were written before, as they are now, in plain C and by snprintf. Compares first,
   byte for byte, then times; the best of the rounds, on one core. snprintf works no report's length first, and lays no marks
   out. bench/writing builds and links it. */
#define _GNU_SOURCE
#include <inttypes.h>
#include <stdio.h>
#include <stdlib.h>
#include <string.h>
#include <time.h>
#include "writing.h"

#define N 256
enum { CALL, BEFORE, AFTER, PLAIN, PRINTED, WAYS };
static const char *const NAMES[WAYS] = { "a call", "before", "after", "C", "snprintf" };
static uint64_t numbers[N];
static uint8_t out[2048];
static volatile size_t sink;

static uint64_t seed = 88172645463325252ull;
static uint64_t random64(void) { seed ^= seed << 13; seed ^= seed >> 7; seed ^= seed << 17; return seed; }
static double now(void) { struct timespec t; clock_gettime(CLOCK_MONOTONIC, &t); return t.tv_sec * 1e9 + t.tv_nsec; }

/* What a call takes that does nothing. */
static __attribute__((noipa)) size_t called_len(uint64_t n) { return n > 0; }
static __attribute__((noipa)) size_t called_number(uint8_t *to, size_t room, uint64_t n) { (void)to; return room > n; }
static __attribute__((noipa)) size_t called_report(uint8_t *to, size_t room, uint64_t mg, uint64_t total) { (void)to; (void)total; return room > mg; }

static size_t printed_len(uint64_t n) { return (size_t)snprintf(NULL, 0, "%" PRIu64, n); }
static size_t printed_number(uint8_t *to, size_t room, uint64_t n) { return (size_t)snprintf((char *)to, room, "%" PRIu64, n); }
static size_t printed_report(uint8_t *to, size_t room, uint64_t mg, uint64_t total) {
    size_t at = 0;
    for (int i = 1; i <= 32; i++) at += (size_t)snprintf((char *)to + at, room - at, "L %d M %" PRIu64 "\n", i, mg);
    return at + (size_t)snprintf((char *)to + at, room - at, "TOTAL %" PRIu64 " COVERED\n", total);
}

static len_of *const LENS[WAYS] = { called_len, before_len, after_len, plain_len, printed_len };
static number_to *const PUTS[WAYS] = { called_number, before_number, after_number, plain_number, printed_number };
static report_to *const REPORTS[WAYS] = { called_report, before_report, after_report, plain_report, printed_report };

/* The smallest and the largest number of d digits. */
static uint64_t least(int d) { uint64_t n = 1; for (; d > 1; d--) n *= 10; return n == 1 ? 0 : n; }
static uint64_t most(int d) { return d == 20 ? UINT64_MAX : least(d + 1) - 1; }
static void draw(int d) { for (int i = 0; i < N; i++) numbers[i] = least(d) + random64() % (most(d) - least(d) + 1); }

static long compared;
static void differs(const char *what, int way, uint64_t n) { printf("%s: %s differs at %" PRIu64 "\n", what, NAMES[way], n); exit(1); }

/* Each way writes what snprintf does and changes no other byte, where it just fits and where there is room. */
static void compare_number(uint64_t n) {
    uint8_t want[40], got[40];
    memset(want, '#', sizeof want);
    size_t len = (size_t)sprintf((char *)want, "%" PRIu64, n);
    want[len] = '#';
    for (int w = BEFORE; w <= PLAIN; w++) {
        if (LENS[w](n) != len) differs("the length", w, n);
        for (int roomy = 0; roomy < 2; roomy++) {
            memset(got, '#', sizeof got);
            if (PUTS[w](got, roomy ? sizeof got : len, n) != len || memcmp(got, want, sizeof got)) differs("the number", w, n);
        }
        compared += 3;
    }
}

/* The same of a report; and one that does not fit changes nothing. */
static void compare_report(uint64_t mg, uint64_t total) {
    static uint8_t want[2048], got[2048], none[2048];
    memset(want, '#', sizeof want);
    memset(none, '#', sizeof none);
    size_t len = printed_report(want, sizeof want, mg, total);
    want[len] = '#';
    for (int w = BEFORE; w <= PLAIN; w++) {
        for (int roomy = 0; roomy < 2; roomy++) {
            memset(got, '#', sizeof got);
            if (REPORTS[w](got, roomy ? sizeof got : len, mg, total) != len || memcmp(got, want, sizeof got)) differs("the report", w, mg);
        }
        memset(got, '#', sizeof got);
        if (REPORTS[w](got, len - 1, mg, total) != 0 || memcmp(got, none, sizeof got)) differs("the report that does not fit", w, mg);
        compared += 3;
    }
}

/* One round over the numbers, in ns a call: one loop for all the ways, so that none lies better than another. */
static __attribute__((noipa)) double len_round(len_of *len) {
    size_t s = 0;
    double a = now();
    for (int i = 0; i < N; i++) s += len(numbers[i]);
    double b = now();
    sink = s;
    return (b - a) / N;
}
static __attribute__((noipa)) double number_round(number_to *put) {
    size_t s = 0;
    double a = now();
    for (int i = 0; i < N; i++) s += put(out, sizeof out, numbers[i]);
    double b = now();
    sink = s;
    return (b - a) / N;
}
static __attribute__((noipa)) double report_round(report_to *put) {
    size_t s = 0;
    double a = now();
    for (int i = 0; i < N; i++) s += put(out, sizeof out, numbers[i], numbers[i] * 32);
    double b = now();
    sink = s;
    return (b - a) / N;
}

/* The best of the rounds for each way; the ways take turns. */
static double t[WAYS];
#define TIMED(rounds, round) do { \
        for (int w = 0; w < WAYS; w++) t[w] = 1e18; \
        for (int k = 0; k < (rounds); k++) \
            for (int w = 0; w < WAYS; w++) { double took = (round); if (took < t[w]) t[w] = took; } \
    } while (0)

static void row(const char *name) {
    printf("%-26s", name);
    for (int w = 0; w < WAYS; w++) printf(" %8.1f", t[w]);
    printf("   %5.2f %5.2f %6.2f\n", t[BEFORE] / t[AFTER], t[PLAIN] / t[AFTER], t[PRINTED] / t[AFTER]);
}

int main(int argc, char **argv) {
    int rounds = argc > 1 ? atoi(argv[1]) : 2000;
    for (int d = 1; d <= 20; d++) {
        for (int i = -2; i <= 2; i++) { compare_number(least(d) + (uint64_t)i); compare_number(most(d) + (uint64_t)i); }
        for (int k = 0; k < 200; k++) { draw(d); for (int i = 0; i < N; i++) compare_number(numbers[i]); }
    }
    for (uint64_t n = 0; n < 100000; n++) compare_number(n);
    for (int d = 1; d <= 20; d++) { draw(d); for (int i = 0; i < N; i++) compare_report(numbers[i], numbers[N - 1 - i]); }
    printf("%ld compared with snprintf, 0 differ\n\n", compared);

    char name[32];
    printf("%-26s", "ns");
    for (int w = 0; w < WAYS; w++) printf(" %8s", NAMES[w]);
    printf("   %5s %5s %6s\n", "bef.", "C", "snpr.");
    for (int d = 1; d <= 20; d++) {
        draw(d);
        TIMED(rounds, number_round(PUTS[w]));
        sprintf(name, "a number of %d digit%s", d, d == 1 ? "" : "s");
        row(name);
    }
    for (int d = 1; d <= 20; d += d == 1 ? 7 : 12) {
        draw(d);
        TIMED(rounds, len_round(LENS[w]));
        sprintf(name, "how long one of %d is", d);
        row(name);
    }
    for (int d = 1; d <= 8; d += 7) {
        draw(d);
        TIMED(rounds / 10 + 1, report_round(REPORTS[w]));
        sprintf(name, "a report of 32, %d digit%s", d, d == 1 ? "" : "s");
        row(name);
    }
    return 0;
}
