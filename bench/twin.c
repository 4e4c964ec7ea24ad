/* Span and Wagner 1996 and the two doors in plain C, every operation in the order of RULES 4 and 5 (docs/RULES.md) and
   of docs/ARRANGEMENT.md: the twin that the proved library is timed against and compared with bit by bit. Compile with
   -O2 or -O3 and -ffp-contract=off.
   With -DLIBM the same formulas, with exp and pow of the C library and a Newton search, as a property package has them:
   the peer, whose answers are near and not the same.
   A working that fails is NaN. What hangs on the temperature is worked once (struct isotherm), powers once, and a row's
   term once for its five brackets; rows 40 and 41 share all but the last root. */
#include <math.h>
#include <stdint.h>
#include <string.h>
#include "twin.h"

#ifdef LIBM
#define NAME(x) peer_##x
#else
#define NAME(x) twin_##x
#endif

#define TC 304.1282
#define RHOC 467.6
#define GAS 188.9241
#define TOP 0x4130000000000000ull   /* the bits of 2^20 */

static inline uint64_t bits(double x) { uint64_t b; memcpy(&b, &x, 8); return b; }
static inline double of_bits(uint64_t b) { double x; memcpy(&x, &b, 8); return x; }
static inline int finite_(double x) { return x < INFINITY && -INFINITY < x; }

/* ---- RULES 4: how a number is worked */

static inline double power(double x, int n) {
    if (n == 0) return 1.0;
    double p = x;
    for (int i = 1; i < n; i++) p = p * x;
    return p;
}

#ifdef LIBM

#define expo exp
static inline double root(double x, int m, int k) { return pow(x, (double)m / (double)k); }

#else

static inline double falling(double x) {
    double y = -x / 1024.0, s = 1.0;
    for (int k = 14; k > 0; k--) s = 1.0 - (y / (double)k) * s;
    for (int n = 0; n < 10; n++) s = s * s;
    return s;
}

static inline double expo(double x) {
    if (!finite_(x)) return NAN;
    if (x < -700.0) return 0.0;
    if (x > 700.0) return NAN;
    if (x <= 0.0) return falling(x);
    return 1.0 / falling(-x);
}

/* The guess of crates/num_roots/src/root.rt, and its search: the guess and its neighbours side by side, then outward. */
static inline uint64_t guess(double x, int m, int k, double t) {
    uint64_t b = bits(x);
    double z = of_bits((b & 0x000fffffffffffffull) + 0x3ff0000000000000ull);
    double w = (z - 1.4142135623730951) / (z + 1.4142135623730951);
    double v = w * w, vv = v * v;
    double high = 0.5770780163555853 + v * 0.4121985831111324 + vv * (0.3205988979753252 + v * 0.2623081892525388);
    double series = 2.8853900817779268 + v * 0.9617966939259756 + vv * high;
    double exponent = of_bits((b >> 52) % 2048 + 0x4330000000000000ull) - 4503599627371519.0;
    double l = (exponent + 0.5 + w * series) * ((double)m / (double)k);
    double n = l + 6755399441055744.0;
    if (n < 9007199254740992.0) {
        double f = l - (n - 6755399441055744.0);
        double ff = f * f;
        double high = 0.0013333558146428441 + f * 0.00015403530393381606
            + ff * (0.000015252733804059838 + f * 0.0000013215486790144305 + ff * 0.00000010178086009239696);
        double part = 1.0 + f * 0.6931471805599453 + ff * (0.2402265069591007 + f * 0.05550410866482158)
            + ff * ff * (0.009618129107628477 + f * high);
        uint64_t e = (bits(n) % 4096 + 1023) % 4096 % 2047;
        double y = of_bits(e << 52) * part;
        double p = 1.0, square = y;
        for (int left = k; left > 0; left /= 2) { if (left % 2 == 1) p = p * square; square = square * square; }
        double g = y + y * ((t - p) * (1.0 / (t * (double)k)));
        if (g > 0.0 && bits(g) <= TOP) return bits(g);
    }
    return 0;
}

static inline double root(double x, int m, int k) {
    if (!finite_(x) || x < 0.0) return NAN;
    if (x == 0.0) return 0.0;
    double t = power(x, m);
    if (!finite_(t)) return NAN;
    uint64_t at = guess(x, m, k, t), lo = 0, hi = TOP, width = 1;
    if (0 < at && at < TOP) {
        double x0 = of_bits(at - 1), x1 = of_bits(at), x2 = of_bits(at + 1), a = x0, b = x1, c = x2;
        for (int i = 1; i < k; i++) { a = a * x0; b = b * x1; c = c * x2; }
        if (t < b) { if (a <= t) return x0; } else if (t < c) return x1;
    }
    while (lo + 1 < hi) {
        uint64_t mid = lo + (hi - lo) / 2;
        if (lo < at && at < hi) mid = at;
        else if (width <= 64) {
            uint64_t step = width - width / 2;
            if (step < hi - lo) mid = at <= lo ? lo + step : hi - step;
        }
        if (width < 0x1000000000000000ull) width *= 2;
        if (t < power(of_bits(mid), k)) hi = mid; else lo = mid;
    }
    if (hi == TOP && !(t < power(of_bits(hi), k))) return NAN;
    return of_bits(lo);
}

#endif

/* ---- Table 31 */

static const struct { double n, d; int di; double t, t1; } POLY[7] = {
#define P(n, d, q) { n, d, d, q / 4.0, (q / 4.0) * (q / 4.0 - 1.0) }
    P(0.38856823203161e0, 1, 0), P(0.29385475942740e1, 1, 3), P(-0.55867188534934e1, 1, 4), P(-0.76753199592477e0, 1, 8),
    P(0.31729005580416e0, 2, 3), P(0.54803315897767e0, 2, 8), P(0.12279411220335e0, 3, 3)
};
static const struct { double n, d, c; int di, ci; double t, t1; } EXPS[27] = {
#define E(n, d, q, c) { n, d, c, d, c, q / 4.0, (q / 4.0) * (q / 4.0 - 1.0) }
    E(0.21658961543220e1, 1, 6, 1), E(0.15841735109724e1, 2, 6, 1), E(-0.23132705405503e0, 4, 10, 1),
    E(0.58116916431436e-1, 5, 0, 1), E(-0.55369137205382e0, 5, 6, 1), E(0.48946615909422e0, 5, 8, 1),
    E(-0.24275739843501e-1, 6, 0, 1), E(0.62494790501678e-1, 6, 4, 1), E(-0.12175860225246e0, 6, 8, 1),
    E(-0.37055685270086e0, 1, 12, 2), E(-0.16775879700426e-1, 1, 24, 2), E(-0.11960736637987e0, 4, 12, 2),
    E(-0.45619362508778e-1, 4, 24, 2), E(0.35612789270346e-1, 4, 32, 2), E(-0.74427727132052e-2, 7, 24, 2),
    E(-0.17395704902432e-2, 8, 0, 2), E(-0.21810121289527e-1, 2, 28, 3), E(0.24332166559236e-1, 3, 48, 3),
    E(-0.37440133423463e-1, 3, 64, 3), E(0.14338715756878e0, 5, 88, 4), E(-0.13491969083286e0, 5, 96, 4),
    E(-0.23151225053480e-1, 6, 64, 4), E(0.12363125492901e-1, 7, 96, 4), E(0.21058321972940e-2, 8, 32, 4),
    E(-0.33958519026368e-3, 10, 8, 4), E(0.55993651771592e-2, 4, 112, 5), E(-0.30335118055646e-3, 8, 56, 6)
};
static const struct { double n, d; int di; double t, alpha, beta, gamma; } GAUSS[5] = {   /* epsilon is 1 */
#define G(n, d, q, a, b, g) { n, d, d, q / 4.0, a, b, g }
    G(-0.21365488688320e3, 2, 4, 25, 325, 1.16), G(0.26641569149272e5, 2, 0, 25, 300, 1.19),
    G(-0.24027212204557e5, 2, 4, 25, 300, 1.19), G(-0.28341603423999e3, 3, 12, 15, 275, 1.25),
    G(0.21247284400179e3, 3, 12, 20, 275, 1.22)
};
static const unsigned char QUARTERS[39] = {
    0, 3, 4, 8, 3, 8, 3, 6, 6, 10, 0, 6, 8, 0, 4, 8, 12, 24, 12, 24, 32, 24, 0, 28, 48, 64, 88, 96, 64, 96, 32, 8, 112,
    56, 4, 0, 4, 12, 12
};

/* ---- What hangs on the temperature */

/* Rows 36 and 37 have one bell: its spread stands at 1, those of rows 38 and 39 at 2 and 3. */
typedef struct { double tau, powers[39], spread[4], cold; } isotherm;

static inline void at_temperature(double tau, double q, isotherm *iso) {
    double t[29], p[4];
    t[0] = 1.0; t[1] = tau;
    for (int i = 2; i < 29; i++) t[i] = t[i - 1] * tau;
    p[0] = 1.0; p[1] = q; p[2] = q * q; p[3] = p[2] * q;
    for (int i = 0; i < 39; i++) iso->powers[i] = t[QUARTERS[i] / 4] * p[QUARTERS[i] % 4];
    for (int i = 0; i < 4; i++) {
        int r = i < 2 ? i : i + 1;
        iso->spread[i] = GAUSS[r].beta * ((tau - GAUSS[r].gamma) * (tau - GAUSS[r].gamma));
    }
    double f = tau - 1.0;
    iso->tau = tau;
    iso->cold = 275.0 * (f * f);
}

static inline int isotherm_at(double t, isotherm *iso) {
    double tau = TC / t;
    if (!finite_(tau)) return 0;
    double q = root(root(tau, 1, 2), 1, 2);
    if (!finite_(q)) return 0;
    at_temperature(tau, q, iso);
    return 1;
}

/* ---- What hangs on the density */

typedef struct { double powers[11], decays[7], bells[5]; } point;

static inline void at_density(const isotherm *iso, double delta, point *p) {
    p->powers[0] = 1.0; p->powers[1] = delta;
    for (int i = 2; i < 11; i++) p->powers[i] = p->powers[i - 1] * delta;
    double x = delta - 1.0, xx = x * x;
    for (int c = 1; c < 7; c++) p->decays[c] = expo(-p->powers[c]);
    for (int i = 0; i < 4; i++) {
        int r = i < 2 ? i : i + 1;
        p->bells[r] = expo(-(GAUSS[r].alpha * xx + iso->spread[i]));
    }
    p->bells[2] = p->bells[1];
}

/* Rows 40 to 42: what the three share, what 40 and 41 share, and each row's P0. */
typedef struct { double e, x, v, theta, delta[2], psi[2], low[2], p0[3]; } critical;

static inline void at_critical(const isotherm *iso, double delta, critical *c) {
    double e = delta - 1.0, x = e * e, size = e < 0.0 ? -e : e;
    double r = root(x, 5, 3), v = root(x, 2, 3);
    double x2 = x * x, x3 = x2 * x;
    double theta = (1.0 - iso->tau) + 0.7 * r;
    c->e = e; c->x = x; c->v = v; c->theta = theta;
    c->low[0] = x2 * size; c->low[1] = x2;
    c->delta[0] = theta * theta + 0.3 * (x3 * size);
    c->delta[1] = theta * theta + 1.0 * x3;
    c->psi[0] = expo(-(10.0 * x + iso->cold));
    c->psi[1] = expo(-(12.5 * x + iso->cold));
    c->p0[0] = root(c->delta[0], 7, 8);
    c->p0[1] = root(c->delta[0], 37, 40);
    c->p0[2] = root(c->delta[1], 7, 8);
}

static const struct { double n, a, b, kb, kc; int i; } NON[3] = {   /* A is 0.7, D is 275; i: of which Delta and Psi */
    { -0.66642276540751e0, 3.5, 0.875, 0.3, 10.0, 0 },
    { 0.72608632349897e0, 3.5, 0.925, 0.3, 10.0, 0 },
    { 0.55068668612842e-1, 3.0, 0.875, 1.0, 12.5, 1 }
};
#define KA 0.7
#define KD 275.0

/* ---- docs/ARRANGEMENT.md, section 7: the sums */

static inline double slope(const isotherm *iso, double delta) {
    critical c; point p;
    at_critical(iso, delta, &c);
    at_density(iso, delta, &p);
    double s = POLY[0].n * delta * iso->powers[0] * 1.0;
    for (int i = 1; i < 7; i++) s = s + POLY[i].n * p.powers[POLY[i].di] * iso->powers[i] * POLY[i].d;
    for (int i = 0; i < 27; i++) {
        double g = EXPS[i].c * p.powers[EXPS[i].ci];
        s = s + EXPS[i].n * p.powers[EXPS[i].di] * iso->powers[7 + i] * p.decays[EXPS[i].ci] * (EXPS[i].d - g);
    }
    for (int i = 0; i < 5; i++)
        s = s + GAUSS[i].n * p.powers[GAUSS[i].di] * iso->powers[34 + i] * p.bells[i]
            * (GAUSS[i].d - 2.0 * GAUSS[i].alpha * delta * (delta - 1.0));
    for (int i = 0; i < 3; i++) {
        int w = NON[i].i;
        double p1 = c.p0[i] / c.delta[w];
        double m = KA * c.theta * (20.0 / 3.0) * c.v + 2.0 * NON[i].kb * NON[i].a * c.low[w];
        double l = delta * (NON[i].b * p1 * (c.e * m));
        double k = delta * -(2.0 * NON[i].kc * c.e);
        s = s + NON[i].n * delta * c.psi[w] * (c.p0[i] * (1.0 + k) + l);
    }
    return s;
}

typedef struct { double d, dd, t, tt, dt; } sums;

static inline void five(const isotherm *iso, double delta, sums *out) {
    critical c; point p;
    at_critical(iso, delta, &c);
    at_density(iso, delta, &p);
    double tau = iso->tau, d2 = p.powers[2], t2 = tau * tau;
    double term = POLY[0].n * delta * iso->powers[0];
    double s1 = term * 1.0, s2 = term * 0.0, s3 = term * 0.0, s4 = term * 0.0, s5 = term * 0.0;
    for (int i = 1; i < 7; i++) {
        double d = POLY[i].d, t = POLY[i].t;
        term = POLY[i].n * p.powers[POLY[i].di] * iso->powers[i];
        s1 = s1 + term * d;
        s2 = s2 + term * (d * (d - 1.0));
        s3 = s3 + term * t;
        s4 = s4 + term * POLY[i].t1;
        s5 = s5 + term * (t * d);
    }
    for (int i = 0; i < 27; i++) {
        double d = EXPS[i].d, t = EXPS[i].t, cc = EXPS[i].c;
        double g = cc * p.powers[EXPS[i].ci], b = d - g;
        term = EXPS[i].n * p.powers[EXPS[i].di] * iso->powers[7 + i] * p.decays[EXPS[i].ci];
        s1 = s1 + term * b;
        s2 = s2 + term * (b * ((d - 1.0) - g) - cc * g);
        s3 = s3 + term * t;
        s4 = s4 + term * EXPS[i].t1;
        s5 = s5 + term * (t * b);
    }
    for (int i = 0; i < 5; i++) {
        double d = GAUSS[i].d, t = GAUSS[i].t, a2 = 2.0 * GAUSS[i].alpha, b2 = 2.0 * GAUSS[i].beta;
        double b = d - a2 * delta * (delta - 1.0), s = t - b2 * tau * (tau - GAUSS[i].gamma);
        term = GAUSS[i].n * p.powers[GAUSS[i].di] * iso->powers[34 + i] * p.bells[i];
        s1 = s1 + term * b;
        s2 = s2 + term * (((b * b) - d) - a2 * d2);
        s3 = s3 + term * s;
        s4 = s4 + term * (((s * s) - t) - b2 * t2);
        s5 = s5 + term * (b * s);
    }
    double f = tau - 1.0, e = c.e, v = c.v, theta = c.theta;
    double psi_t = -((2.0 * KD) * f), psi_tt = ((2.0 * KD) * (f * f) - 1.0) * (2.0 * KD);
    for (int i = 0; i < 3; i++) {
        int w = NON[i].i;
        double a = NON[i].a, b = NON[i].b, kb = NON[i].kb, kc2 = 2.0 * NON[i].kc, b1 = b - 1.0, bb1 = b * b1;
        double p0 = c.p0[i], p1 = p0 / c.delta[w], p2 = p1 / c.delta[w], low = c.low[w];
        double m = KA * theta * (20.0 / 3.0) * v + 2.0 * kb * a * low;
        double dd = e * m;
        double ddd = ((m + (4.0 * kb * a) * (a - 1.0) * low) + ((2.0 * (KA * KA)) * (100.0 / 9.0) * c.x) * (v * v))
            + KA * theta * (40.0 / 3.0) * (2.0 / 3.0) * v;
        double pd = b * p1 * dd, pdd = b * (p1 * ddd + b1 * p2 * (dd * dd));
        double pt = -(2.0 * theta * b * p1);
        double ptt = 2.0 * b * p1 + 4.0 * (theta * theta) * bb1 * p2;
        double pdt = -(KA * b * (20.0 / 3.0) * p1 * e * v) - 2.0 * theta * bb1 * p2 * dd;
        double psi_d = -(kc2 * e), psi_dd = (kc2 * c.x - 1.0) * kc2;
        double k = delta * psi_d, g = 1.0 + k, l = delta * pd;
        term = NON[i].n * delta * c.psi[w];
        s1 = s1 + term * (p0 * g + l);
        s2 = s2 + term * ((p0 * (2.0 * k + d2 * psi_dd) + 2.0 * l * g) + d2 * pdd);
        s3 = s3 + term * (tau * (pt + p0 * psi_t));
        s4 = s4 + term * (t2 * ((ptt + 2.0 * pt * psi_t) + p0 * psi_tt));
        s5 = s5 + term * (tau * (((p0 * psi_t * g + l * psi_t) + pt * g) + delta * pdt));
    }
    out->d = s1; out->dd = s2; out->t = s3; out->tt = s4; out->dt = s5;
}

/* ---- docs/ARRANGEMENT.md, section 8: the ideal part */

static inline void ideal(double tau, double *i1, double *i2) {
    static const double A[5] = { 1.99427042, 0.62105248, 0.41195293, 1.04028922, 0.08327678 };
    static const double THETA[5] = { 3.15163, 6.11190, 6.77708, 11.32384, 27.08792 };
    double first = -3.70454304 + 2.5 / tau, second = -(2.5 / (tau * tau));
    for (int i = 0; i < 5; i++) {
        double e = expo(-(THETA[i] * tau)), o = 1.0 - e;
        first = first + A[i] * THETA[i] * (1.0 / o - 1.0);
        second = second - A[i] * (THETA[i] * THETA[i]) * e / (o * o);
    }
    *i1 = tau * first;
    *i2 = tau * tau * second;
}

/* ---- docs/ARRANGEMENT.md, section 9: pressure and state */

static inline double pressure_on(double t, const isotherm *iso, double rho) {
    double delta = rho / RHOC;
    if (!finite_(delta)) return NAN;
    return rho * GAS * t * (1.0 + slope(iso, delta));
}

/* T, p, rho, u, h, cv, cp, w; 0 where the working fails. */
static int state_on(double t, const isotherm *iso, double rho, double out[8]) {
    sums s; double i1, i2;
    double delta = rho / RHOC;
    if (!finite_(delta)) return 0;
    five(iso, delta, &s);
    ideal(iso->tau, &i1, &i2);
    double slant = i1 + s.t, z = i2 + s.tt, g = (1.0 + s.d) - s.dt, k = (1.0 + 2.0 * s.d) + s.dd;
    double got[8] = {
        t, rho * GAS * t * (1.0 + s.d), rho, GAS * t * slant, GAS * t * ((1.0 + slant) + s.d), GAS * -z,
        GAS * (-z + g * g / k), root(GAS * t * (k - g * g / z), 1, 2)
    };
    for (int i = 1; i < 8; i++) if (!finite_(got[i])) return 0;
    memcpy(out, got, sizeof got);
    return 1;
}

/* ---- docs/ARRANGEMENT.md, section 10: saturation */

static double vapour_pressure(double t) {
    double tau = TC / t, x = 1.0 - t / TC;
    double s = -7.0602087 * x + 1.9391218 * root(x, 3, 2) + -1.6463597 * power(x, 2) + -3.2995634 * power(x, 4);
    return 7377300.0 * expo(tau * s);
}

static double liquid_density(double t) {
    double x = 1.0 - t / TC;
    return RHOC * expo(1.9245108 * root(x, 17, 50) + -0.62385555 * root(x, 1, 2) + -0.32731127 * root(x, 5, 3) + 0.39245142 * root(x, 11, 6));
}

static double vapour_density(double t) {
    double x = 1.0 - t / TC;
    return RHOC * expo(-1.7074879 * root(x, 17, 50) + -0.82274670 * root(x, 1, 2) + -4.6008549 * x
        + -10.111178 * (power(x, 2) * root(x, 1, 3)) + -29.742252 * (power(x, 4) * root(x, 2, 3)));
}

/* ---- ARRANGEMENT.md, section 11: melting */

static double melting_pressure(double t) {
    double y = t / 216.592 - 1.0;
    return 517950.0 * (1.0 + 1955.5390 * y + 2055.4593 * power(y, 2));
}

/* ---- ARRANGEMENT.md, section 13: the thermal conductivity, in W/(m K) */

double NAME(conductivity)(double t, double rho) {
    static const double B1[6] = { 1.00128e-2, 5.60488e-2, -8.11620e-2, 6.24337e-2, -2.06336e-2, 2.53248e-3 };
    static const double B2[6] = { 4.30829e-3, -3.58563e-2, 6.71480e-2, -5.22855e-2, 1.74571e-2, -1.96414e-3 };
    double r = t / TC, delta = rho / RHOC, r2 = r * r;
    double dilute = root(r, 1, 2) / (1.51874307e-2 + 2.80674040e-2 / r + 2.28564190e-2 / r2 + -7.41624210e-3 / (r2 * r));
    double p = delta, residual = (B1[0] + B2[0] * r) * p;
    for (int i = 1; i < 6; i++) { p = p * delta; residual = residual + (B1[i] + B2[i] * r) * p; }
    double a = r - 1.0, d = delta - 1.0, d2 = d * d;
    double e = expo(8.865 * a + 4.16 * d2 + 2.302 * a * d - d2 * d);
    double enhancement = (-17.47 - 44.88 * a) / (0.8563 - e - 0.4503 * d - 7.197 * a);
    return dilute / 1000.0 + residual + enhancement / 1000.0;
}

/* ---- RULES 3.3 and 5: the doors, with what the library's functions for C return where eight figures are lent */

static uint32_t in_range(double t, double x, double low, double high) {
    if (!finite_(t) || !finite_(x)) return 3;
    if (t < 216.592 || 523.0 < t) return 4;
    return x < low || high < x ? 5 : 0;
}

static uint32_t not_solid(double t, double p) {
    double m = melting_pressure(t);
    if (!finite_(m)) return 7;
    return m < p ? 19 : 0;
}

static uint32_t out_of_box(double t, double x, double low, double high) {
    return !(t < 303.1282 || 305.1282 < t) && !(x < low || high < x) ? 6 : 0;
}

long NAME(worked);   /* how many pressures the searches worked */

#ifdef LIBM

/* Newton, kept within a bracket, to a part in 10^12 of the pressure. */
static uint32_t search(double t, const isotherm *iso, double p, double from, double to, double *rho) {
    double x = p / (GAS * t);
    if (x < from || to < x) x = from > 1.0 ? from : to;
    for (int i = 0; i < 100; i++) {
        sums s;
        five(iso, x / RHOC, &s);
        NAME(worked)++;
        double q = x * GAS * t * (1.0 + s.d), slope = GAS * t * (1.0 + 2.0 * s.d + s.dd);
        if (fabs(q - p) <= 1e-12 * p) break;
        if (q > p) to = x; else from = x;
        double next = x - (q - p) / slope;
        x = slope > 0.0 && from < next && next < to ? next : 0.5 * (from + to);
    }
    *rho = x;
    return 0;
}

#else

static uint32_t search(double t, const isotherm *iso, double p, double from, double to, double *rho) {
    uint64_t lo = bits(from), hi = bits(to);
    if (hi <= lo) return 9;
    double a = pressure_on(t, iso, from), b = pressure_on(t, iso, to);
    NAME(worked) += 2;
    if (!finite_(a) || !finite_(b)) return 7;
    if (p < a || !(p < b)) return 9;
    while (lo + 1 < hi) {
        uint64_t mid = lo + (hi - lo) / 2;
        double x = pressure_on(t, iso, of_bits(mid));
        NAME(worked)++;
        if (!finite_(x)) return 7;
        if (p < x) hi = mid; else lo = mid;
    }
    *rho = of_bits(lo);
    return 0;
}

#endif

uint32_t NAME(from_pressure)(double t, double p, double figures[8]) {
    uint32_t no = in_range(t, p, 10000.0, 30000000.0), phase = 258;
    if (!no) no = not_solid(t, p);
    if (!no) no = out_of_box(t, p, 7000000.0, 8000000.0);
    if (no) return no;
    double from = 0.05, to = 1400.0, rho;
    if (t < TC) {
        double s = vapour_pressure(t), d;
        if (!finite_(s)) return 7;
        if (p == s) return 8;
        d = p < s ? 1.01 * vapour_density(t) : 0.99 * liquid_density(t);
        if (!(0.0 < d && d < INFINITY)) return 7;
        if (p < s) { to = d; phase = 256; } else { from = d; phase = 257; }
    }
    isotherm iso;
    if (!isotherm_at(t, &iso)) return 7;
    no = search(t, &iso, p, from, to, &rho);
    if (no) return no;
    return state_on(t, &iso, rho, figures) ? phase : 7;
}

uint32_t NAME(from_density)(double t, double rho, double figures[8]) {
    uint32_t no = in_range(t, rho, 0.1, 1300.0), phase = 258;
    if (!no) no = out_of_box(t, rho, 350.7, 584.5);
    if (no) return no;
    if (t < TC) {
        double v = vapour_density(t), l = liquid_density(t);
        if (!(0.0 < v && v < INFINITY) || !(0.0 < l && l < INFINITY)) return 7;
        if (v < rho && rho < l) return 8;
        phase = v < rho ? 257 : 256;
    }
    isotherm iso;
    if (!isotherm_at(t, &iso)) return 7;
    double p = pressure_on(t, &iso, rho);
    if (!finite_(p)) return 7;
    if (p < 10000.0 || 30000000.0 < p) return 5;
    no = not_solid(t, p);
    if (no) return no;
    return state_on(t, &iso, rho, figures) ? phase : 7;
}
