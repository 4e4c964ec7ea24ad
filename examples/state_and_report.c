/* A state, and a sheet's report. On x86-64:
 *     (cd crates/interface && rt lib) && cc -Iinclude examples/state_and_report.c crates/interface/out/libinterface.a -o state_and_report
 */
#include <stdio.h>
#include <string.h>
#include "makhroeng.h"

int main(void) {
    double figures[8];
    uint32_t answer = makhroeng_from_pressure(313.15, 10e6, figures, 8);
    if (answer < MAKHROENG_VAPOUR) {
        printf("refused by %u\n", answer);
        return 1;
    }
    printf("313.15 K and 10 MPa: %s, %.6f kg/m3, %.3f m/s\n",
           answer == MAKHROENG_VAPOUR ? "vapour" : answer == MAKHROENG_LIQUID ? "liquid" : "supercritical",
           figures[MAKHROENG_DENSITY], figures[MAKHROENG_SOUND]);

    /* deep in the liquid, with all that a state carries */
    double carried[9];
    if (makhroeng_state_from_pressure(220.0, 10e6, carried, 9) == MAKHROENG_LIQUID)
        printf("220 K and 10 MPa: liquid, %.6f kg/m3, %.0f of the equation's 42 terms fell away\n",
               carried[MAKHROENG_DENSITY], carried[MAKHROENG_FALLEN]);

    /* liquid agent at -20 C and 25 bar absolute: lending ten figures asks for the thermal conductivity too */
    double heating[10];
    if (makhroeng_state_from_pressure(253.15, 2.5e6, heating, 10) == MAKHROENG_LIQUID)
        printf("253.15 K and 2.5 MPa: liquid, %.6f W/(m K)\n", heating[MAKHROENG_CONDUCTIVITY]);

    const char *sheet = "N 120000000\n"
                        "C 1 3131500 P 10600000 67500\n"
                        "C 2 3151500 P 11200000 67500\n"
                        "C 3 3146500 D 667000 67500\n";
    uint8_t report[1512];
    uint64_t length = makhroeng_report((const uint8_t *)sheet, strlen(sheet), report, sizeof report);
    fwrite(report, 1, length, stdout);
    return 0;
}
