/* docs/plane.svg: the plane of temperature and pressure as the pressure door sees it, by the door's own answers.
 *     (cd crates/interface && rt lib) && cc -Iinclude examples/plane.c crates/interface/out/libinterface.a -lm -o plane && ./plane >docs/plane.svg
 */
#include <math.h>
#include <stdio.h>
#include "makhroeng.h"

/* A little more than the ranges on each side; pressures by their logarithm. */
#define COLUMNS 330
#define ROWS 180
#define CELL 2.0
static double kelvin(double column) { return 205.0 + column; }
static double pascal(double row) { return 5e3 * pow(1e4, 1.0 - row / ROWS); }
static double x_of(double t) { return 70.0 + CELL * (t - 205.0); }
static double y_of(double p) { return 20.0 + CELL * ROWS * (1.0 - log10(p / 5e3) / 4.0); }

static uint32_t ask(double t, double p) {
    double figures[8];
    return makhroeng_from_pressure(t, p, figures, 8);
}

static const char *colour(uint32_t answer) {
    switch (answer) {
    case MAKHROENG_VAPOUR: return "#bfe3f2";
    case MAKHROENG_LIQUID: return "#5b9bd5";
    case MAKHROENG_SUPERCRITICAL: return "#f6d9a8";
    case MAKHROENG_TEMPERATURE_OUT: return "#d9d9d9";
    case MAKHROENG_VALUE_OUT: return "#efefef";
    case MAKHROENG_CRITICAL_BOX: return "#d9534f";
    case MAKHROENG_SOLID: return "#9aa7b8";
    default: return "#000000";
    }
}

static void text(double x, double y, const char *anchor, const char *words) {
    printf("<text x=\"%.1f\" y=\"%.1f\" text-anchor=\"%s\">%s</text>\n", x, y, anchor, words);
}

/* The last pressure at a temperature that is still below a line, by the door's own answers. */
static double line_at(double t, int below(uint32_t answer)) {
    double low = 1e4, high = 3e7;
    for (int i = 0; i < 60; i++) {
        double mid = 0.5 * (low + high);
        if (below(ask(t, mid))) low = mid; else high = mid;
    }
    return low;
}
static int is_vapour(uint32_t answer) { return answer == MAKHROENG_VAPOUR; }
static int is_fluid(uint32_t answer) { return answer != MAKHROENG_SOLID; }

/* A line from one temperature to another. */
static void draw(double from, double to, double step, int below(uint32_t answer)) {
    printf("<polyline fill=\"none\" stroke=\"black\" stroke-width=\"1.5\" points=\"");
    for (double t = from; t < to; t += step) printf("%.1f,%.1f ", x_of(t), y_of(line_at(t, below)));
    printf("\"/>\n");
}

int main(void) {
    double right = x_of(kelvin(COLUMNS)), foot = 20.0 + CELL * ROWS;
    printf("<svg xmlns=\"http://www.w3.org/2000/svg\" viewBox=\"0 0 %.0f %.0f\" font-family=\"sans-serif\" font-size=\"13\">\n", right + 20, foot + 50);
    printf("<rect width=\"100%%\" height=\"100%%\" fill=\"white\"/>\n");
    for (int row = 0; row < ROWS; row++) {
        for (int column = 0; column < COLUMNS;) {
            int start = column;
            uint32_t answer = ask(kelvin(start + 0.5), pascal(row + 0.5));
            while (column < COLUMNS && ask(kelvin(column + 0.5), pascal(row + 0.5)) == answer) column++;
            printf("<rect x=\"%.1f\" y=\"%.1f\" width=\"%.1f\" height=\"%.1f\" fill=\"%s\"/>\n", x_of(kelvin(start)), 20.0 + CELL * row,
                   CELL * (column - start) + 0.3, CELL + 0.3, colour(answer));
        }
    }
    draw(216.592, 303.1282, 0.5, is_vapour);
    draw(216.592, 222.8, 0.1, is_fluid);
    for (int t = 220; t <= 520; t += 50) {
        char words[16];
        snprintf(words, sizeof words, "%d K", t);
        text(x_of(t), foot + 18, "middle", words);
    }
    static const struct { double p; const char *words; } marks[] = { { 1e4, "10 kPa" }, { 1e5, "100 kPa" }, { 1e6, "1 MPa" }, { 1e7, "10 MPa" }, { 3e7, "30 MPa" } };
    for (int i = 0; i < 5; i++) text(62, y_of(marks[i].p) + 4, "end", marks[i].words);
    text(x_of(255), y_of(2e5), "middle", "vapour");
    text(x_of(245), y_of(1e7), "middle", "liquid");
    text(x_of(420), y_of(2e6), "middle", "supercritical");
    text(x_of(314), y_of(7.2e6), "start", "critical box: 6");
    text(x_of(262), y_of(1.1e6), "start", "saturation line: 8");
    text(x_of(225), y_of(2.2e7), "start", "melting line, solid: 19");
    text(x_of(210.5), y_of(8e5), "middle", "4");
    text(x_of(529), y_of(8e5), "middle", "4");
    text(x_of(370), y_of(7e3) + 4, "middle", "5");
    text(x_of(370), y_of(3.8e7) + 4, "middle", "5");
    text(70, foot + 40, "start", "Numbers are refusals: 4 temperature, 5 pressure out of range, 19 solid, 6 and 8 as marked.");
    printf("</svg>\n");
    return 0;
}
