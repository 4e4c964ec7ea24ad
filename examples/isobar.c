/* isobar [BAR]: carbon dioxide at an absolute pressure, 60 bar where none is named, from -60 to 60 degrees Celsius, by one call for
 * all, as a Markdown table. After ./install PREFIX:
 *     cc -IPREFIX/include examples/isobar.c PREFIX/lib/libmakhroeng.a -o isobar
 */
#include <stdio.h>
#include <stdlib.h>
#include "makhroeng.h"

enum { COUNT = 13, FIGURES = 10 };

static void row(double celsius, uint32_t answer, const double *figures) {
    static const char *const phases[] = { "vapour", "liquid", "supercritical" };
    if (answer >= MAKHROENG_VAPOUR) {
        printf("| %g | %s | %.1f | %.1f | %.4f |\n", celsius, phases[answer - MAKHROENG_VAPOUR], figures[MAKHROENG_DENSITY],
               figures[MAKHROENG_SOUND], figures[MAKHROENG_CONDUCTIVITY]);
    } else {
        uint8_t words[512];
        uint64_t length = makhroeng_words(answer, words, sizeof words);
        printf("| %g | %.*s |\n", celsius, (int)length, (const char *)words);
    }
}

int main(int count, char **words) {
    double temperatures[COUNT], pressures[COUNT], figures[COUNT * FIGURES];
    uint32_t answers[COUNT];
    for (int i = 0; i < COUNT; i++) {
        temperatures[i] = -60 + 10 * i + 273.15;
        pressures[i] = (count > 1 ? atof(words[1]) : 60) * 1e5;
    }
    if (makhroeng_states_from_pressure(temperatures, COUNT, pressures, COUNT, answers, COUNT, figures, COUNT * FIGURES) != MAKHROENG_WORKED)
        return 1;
    printf("| °C | phase | kg/m³ | m/s | W/(m K) |\n|---|---|---|---|---|\n");
    for (int i = 0; i < COUNT; i++) row(-60 + 10 * i, answers[i], figures + FIGURES * i);
    return 0;
}
