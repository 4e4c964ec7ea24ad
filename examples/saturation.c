/* saturation [CELSIUS..]: what a cylinder that holds liquid and vapour together shows, and what each of the two weighs, as a
 * Markdown table; of 0 to 29 degrees Celsius where none is named. After ./install PREFIX:
 *     cc -IPREFIX/include examples/saturation.c PREFIX/lib/libmakhroeng.a -o saturation
 */
#include <stdio.h>
#include <stdlib.h>
#include "makhroeng.h"

static void row(double celsius) {
    double figures[3];
    uint32_t answer = makhroeng_saturation(celsius + 273.15, figures, 3);
    if (answer == MAKHROENG_SATURATED) {
        printf("| %g | %.2f | %.1f | %.1f |\n", celsius, figures[MAKHROENG_VAPOUR_PRESSURE] / 1e5,
               figures[MAKHROENG_SATURATED_VAPOUR], figures[MAKHROENG_SATURATED_LIQUID]);
    } else {
        uint8_t words[512];
        uint64_t length = makhroeng_words(answer, words, sizeof words);
        printf("| %g | %.*s |\n", celsius, (int)length, (const char *)words);
    }
}

int main(int count, char **words) {
    static const double usual[] = { 0, 5, 10, 15, 20, 25, 29 };
    printf("| °C | vapour pressure, bar absolute | saturated vapour, kg/m³ | saturated liquid, kg/m³ |\n|---|---|---|---|\n");
    if (count > 1) for (int i = 1; i < count; i++) row(atof(words[i]));
    else for (size_t i = 0; i < sizeof usual / sizeof usual[0]; i++) row(usual[i]);
    return 0;
}
