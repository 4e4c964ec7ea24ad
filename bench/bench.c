/* bench [rounds]: the library beside twin.c and its libm peer, in one run. Compares first, then times; the best of the
   rounds, on one core. Link with twin.o, peer.o and the library. */
#define _GNU_SOURCE
#include <math.h>
#include <stdio.h>
#include <stdlib.h>
#include <string.h>
#include <time.h>
#include "../include/makhroeng.h"
#include "twin.h"

#define N 64
#define COMPARED 4000
static double T[N], P[N], R[N];
static volatile double sink;

static uint64_t seed = 88172645463325252ull;
static double uniform(void) {
    seed ^= seed << 13; seed ^= seed >> 7; seed ^= seed << 17;
    return (double)(seed >> 11) / 9007199254740992.0;
}
static double now(void) { struct timespec t; clock_gettime(CLOCK_THREAD_CPUTIME_ID, &t); return t.tv_sec * 1e9 + t.tv_nsec; }

typedef uint32_t door(double, double, double *);
static uint32_t lib_pressure(double t, double p, double *f) { return makhroeng_from_pressure(t, p, f, 8); }
static uint32_t lib_density(double t, double r, double *f) { return makhroeng_from_density(t, r, f, 8); }

/* The same with the conductivity, in the tenth place; of C the ninth, the count, is not compared. */
static uint32_t lib_conducting(double t, double r, double *f) {
    uint32_t a = makhroeng_state_from_density(t, r, f, 10);
    f[8] = 0;
    return a;
}
static uint32_t with_conductivity(uint32_t a, double *f, double conductivity(double, double)) {
    if (a >= 256) f[9] = conductivity(f[0], f[2]);
    return a;
}
static uint32_t twin_conducting(double t, double r, double *f) { return with_conductivity(twin_from_density(t, r, f), f, twin_conductivity); }
static uint32_t peer_conducting(double t, double r, double *f) { return with_conductivity(peer_from_density(t, r, f), f, peer_conductivity); }

/* The best time of a state, in ns, over the answered points. */
static double states(door *d, const double *second, int rounds) {
    double best = 1e18;
    for (int k = 0; k < rounds; k++) {
        double f[10], s = 0, a = now();
        for (int i = 0; i < N; i++) { d(T[i], second[i], f); s += f[7]; }
        double t = (now() - a) / N;
        sink = s;
        if (t < best) best = t;
    }
    return best;
}

static uint8_t text[65536], out[2048];

/* The best time of a report, in ns. */
static double reports(size_t len, int rounds, int repeat) {
    double best = 1e18;
    for (int k = 0; k < rounds; k++) {
        uint64_t s = 0;
        double a = now();
        for (int i = 0; i < repeat; i++) s += makhroeng_report(text, len, out, sizeof out);
        double t = (now() - a) / repeat;
        sink = (double)s;
        if (t < best) best = t;
    }
    return best;
}

/* A sheet of n lines by the pressure door. */
static size_t sheet(int n) {
    size_t len = (size_t)sprintf((char *)text, "N 45000000\n");
    for (int i = 0; i < n; i++) len += (size_t)sprintf((char *)text + len, "C %d %.0f P %.0f 40000\n", i + 1, T[i] * 10000, P[i]);
    return len;
}

static void compare(const char *name, door *lib, door *twin, double low, double high) {
    long differ = 0, given[32] = {0}, answered = 0;
    for (int i = 0; i < COMPARED; i++) {
        double t = 216 + 308 * uniform(), x = low + (high - low) * uniform() * (i % 2 ? 1 : uniform());
        if (i % 8 == 0) t = 302 + 4 * uniform();
        double f[10] = {0}, g[10] = {0};
        uint32_t a = lib(t, x, f), b = twin(t, x, g);
        if (a != b || memcmp(f, g, sizeof f)) { if (differ++ < 5) printf("differs at %.17g %.17g: %u %u\n", t, x, a, b); }
        if (a < 32) given[a]++; else answered++;
    }
    printf("%s: %d compared with C, %ld differ; %ld answered", name, COMPARED, differ, answered);
    for (int i = 0; i < 32; i++) if (given[i]) printf(", %ld refused by %d", given[i], i);
    printf("\n");
    if (differ) exit(1);
}

int main(int argc, char **argv) {
    int rounds = argc > 1 ? atoi(argv[1]) : 100;
    compare("pressure door", lib_pressure, twin_from_pressure, 9000, 30100000);
    compare("density door", lib_density, twin_from_density, 0.09, 1310);
    double f[8], g[8], far = 0;
    for (int i = 0; i < N;) {
        T[i] = floor((217 + 306 * uniform()) * 10000) / 10000;
        P[i] = floor(10000 + 29990000 * uniform() * (i % 2 ? 1 : uniform()));
        if (makhroeng_from_pressure(T[i], P[i], f, 8) < 256) continue;
        R[i] = f[2];
        if (makhroeng_from_density(T[i], R[i], g, 8) < 256) continue;
        peer_from_pressure(T[i], P[i], g);
        if (fabs(g[2] / f[2] - 1) > far) far = fabs(g[2] / f[2] - 1);
        i++;
    }
    compare("with the conductivity", lib_conducting, twin_conducting, 0.09, 1310);
    printf("the peer's densities are within %.1e of the library's\n\n", far);
    twin_worked = peer_worked = 0;
    states(twin_from_pressure, P, 1); states(peer_from_pressure, P, 1);
    double probes = (double)twin_worked / N, steps = (double)peer_worked / N;
    printf("%-28s %10s %10s %6s %10s %6s\n", "ns", "library", "C", "ratio", "libm", "ratio");
    double a = states(lib_pressure, P, rounds), b = states(twin_from_pressure, P, rounds), c = states(peer_from_pressure, P, rounds);
    printf("%-28s %10.0f %10.0f %6.2f %10.0f %6.2f\n", "a state by the pressure door", a, b, a / b, c, a / c);
    double d = states(lib_density, R, rounds), e = states(twin_from_density, R, rounds), h = states(peer_from_density, R, rounds);
    printf("%-28s %10.0f %10.0f %6.2f %10.0f %6.2f\n", "a state by the density door", d, e, d / e, h, d / h);
    double l = states(lib_conducting, R, rounds), m = states(twin_conducting, R, rounds), n = states(peer_conducting, R, rounds);
    printf("%-28s %10.0f %10.0f %6.2f %10.0f %6.2f\n", "the same with conductivity", l, m, l / m, n, l / n);
    printf("(a search works %.1f pressures; the peer's %.1f, with their slopes)\n\n", probes, steps);

    printf("%-28s %10s %10s\n", "a sheet by lines", "us", "us a line");
    for (int n = 1; n <= 32; n *= 2) { double t = reports(sheet(n), rounds / 4 + 1, 4) / 1000; printf("%-28d %10.1f %10.2f\n", n, t, t / n); }

    size_t len = (size_t)sprintf((char *)text, "N 1\n");   /* 65,536 bytes in the form: read whole, then sent back by 11 */
    while (len < sizeof text) { memcpy(text + len, "C 1 1 P 1 1\n", 12); len += 12; }
    double read = reports(len, rounds, 1);
    printf("\n%-28s %10.0f MB/s (65,536 bytes, %.0f ns)\n", "reading", 1000 * (double)len / read, read);
    len = (size_t)sprintf((char *)text, "N 1\n");           /* 32 lines refused by 1: nothing is worked */
    for (int i = 0; i < 32; i++) len += (size_t)sprintf((char *)text + len, "C - - P - -\n");
    double both = reports(len, rounds, 100);
    uint64_t wrote = makhroeng_report(text, len, out, sizeof out);
    text[0] = 'N'; memmove(text + 2, "-", 1);                /* the need blank: read, and sent back by 12 */
    double alone = reports(len, rounds, 100);
    printf("%-28s %10.0f MB/s (%lu bytes, %.0f ns, the reading of %.0f taken off)\n", "writing", 1000 * (double)wrote / (both - alone), (unsigned long)wrote, both - alone, alone);
    return 0;
}
