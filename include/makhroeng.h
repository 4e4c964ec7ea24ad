/* Makhroeng: the state of carbon dioxide by Span and Wagner (1996), its thermal conductivity by Huber and others (2016),
 * and the scorer of cylinder banks.
 *
 * Nothing is kept between calls: there is no global, so any number of threads may call at once, as long as no two lend
 * the same output. No function allocates or prints. No pointer may be null, even where its length is 0. The processor has to
 * round to nearest and to keep what is below the normal range, as a C program finds it at its start (RULES 4.1).
 * RULES 3.1 is section 3.1 of docs/RULES.md. */
#ifndef MAKHROENG_H
#define MAKHROENG_H

#include <stddef.h>
#include <stdint.h>

#ifdef __cplusplus
extern "C" {
#endif

/* This header's version, 1.7.0: 10,000 times the first number, 100 times the second, and the third. A program that is
 * linked with a shared library may compare it with makhroeng_version(). */
#define MAKHROENG_VERSION 10700

/* What a door returns where it answers, what saturation does, and what many states at once do. Every refusal number is
 * below these. */
enum {
    MAKHROENG_VAPOUR = 256,
    MAKHROENG_LIQUID = 257,
    MAKHROENG_SUPERCRITICAL = 258,
    MAKHROENG_SATURATED = 259,
    MAKHROENG_WORKED = 260
};

/* What a door, saturation, or many states at once return where they refuse (RULES 3.1). makhroeng_words has the words of
 * each. */
enum {
    MAKHROENG_NOT_FINITE = 3,      /* the temperature, or the pressure or density, is infinite or not a number */
    MAKHROENG_TEMPERATURE_OUT = 4, /* not 216.592 to 523 K; for saturation, not 216.592 to below 304.1282 K */
    MAKHROENG_VALUE_OUT = 5,       /* not 10,000 to 30,000,000 Pa, as asked or as worked, or not 0.1 to 1,300 kg/m3 */
    MAKHROENG_CRITICAL_BOX = 6,    /* 303.1282 to 305.1282 K with 7 to 8 MPa, or with 350.7 to 584.5 kg/m3 */
    MAKHROENG_FAILED = 7,          /* a working failed (RULES 4.2), or a saturated density is not above 0 (RULES 5) */
    MAKHROENG_SATURATION = 8,      /* on the saturation line, or strictly between the saturated densities */
    MAKHROENG_NO_CROSSING = 9,     /* the search finds no crossing in its range of densities */
    MAKHROENG_TOO_SHORT = 15,      /* fewer than eight figures are lent; for saturation, fewer than three; for many
                                      states, any length that doesn't fit */
    MAKHROENG_SOLID = 19           /* the pressure, asked or worked, is above the melting pressure: dry ice (RULES 5.4) */
};

/* The places in `figures`: the eight numbers, and after them what else a state carries. */
enum {
    MAKHROENG_TEMPERATURE, /* K */
    MAKHROENG_PRESSURE,    /* Pa, as worked at this temperature and density */
    MAKHROENG_DENSITY,     /* kg/m3 */
    MAKHROENG_ENERGY,      /* J/kg */
    MAKHROENG_ENTHALPY,    /* J/kg */
    MAKHROENG_CV,          /* J/(kg K) */
    MAKHROENG_CP,          /* J/(kg K) */
    MAKHROENG_SOUND,       /* m/s */
    MAKHROENG_FALLEN,      /* how many of the equation's 42 terms fell away: their exponential's argument is below -36 */
    MAKHROENG_CONDUCTIVITY /* W/(m K), the thermal conductivity: the state_ functions work it where ten are lent, states_ always */
};

/* The places in `figures` of saturation. */
enum {
    MAKHROENG_VAPOUR_PRESSURE,  /* Pa */
    MAKHROENG_SATURATED_VAPOUR, /* kg/m3 */
    MAKHROENG_SATURATED_LIQUID  /* kg/m3 */
};

/* The state at a temperature in K and a pressure in Pa, whatever two doubles these are, infinities and NaN included.
 * Returns the phase, with the eight numbers in figures[0] to figures[7]; or the refusal's number, 3 to 9 or 19, with
 * every figure as it was. Where len is below 8: 15, whatever the door would say, with every figure as it was.
 * Figures after the eighth are never touched. `figures` points to len doubles. */
uint32_t makhroeng_from_pressure(double temperature, double pressure, double *figures, size_t len);

/* The same from a temperature in K and a density in kg/m3. */
uint32_t makhroeng_from_density(double temperature, double density, double *figures, size_t len);

/* The state with all that it carries, as far as figures are lent: the eight numbers of makhroeng_from_pressure, bit for
 * bit, in figures[0] to figures[7]; where len is at least 9 the count of the terms that fell away, a whole number from
 * 0 to 35, in figures[8]; and where len is at least 10, which asks for it, the thermal conductivity in figures[9], in
 * W/(m K) (RULES 5.5). It returns the same, but 7 where len is at least 10 and the conductivity's working fails; no such
 * state is known. Where it refuses, every figure is as it was; where len is below 8: 15.
 * Figures after the last that a state carries are never touched. A later version may carry more, in figures[10] and on.
 * The correlation's critical enhancement is not vouched for within 10 K of the critical point (README). */
uint32_t makhroeng_state_from_pressure(double temperature, double pressure, double *figures, size_t len);

/* The same from a temperature in K and a density in kg/m3. */
uint32_t makhroeng_state_from_density(double temperature, double density, double *figures, size_t len);

/* Many states at once, each with all that it carries. Where every length fits, that is where pressures_len and answers_len
 * are temperatures_len and figures_len is ten times that, it returns MAKHROENG_WORKED, and for each place i
 *     answers[i] = makhroeng_state_from_pressure(temperatures[i], pressures[i], figures + 10 * i, 10)
 * was done: a state's ten figures stand in figures[10 * i] to figures[10 * i + 9], and where answers[i] is below 256, a
 * refusal's number but never 15, these ten are as they were. Where a length doesn't fit, be it too small or too large: 15,
 * with every answer and every figure as it was. No places at all fit too, and want pointers that aren't null all the same.
 * `answers` and `figures` must overlap nothing else that is lent, and each array is aligned as C aligns it.
 * Since version 1.7.0. */
uint32_t makhroeng_states_from_pressure(const double *temperatures, size_t temperatures_len, const double *pressures,
                                        size_t pressures_len, uint32_t *answers, size_t answers_len, double *figures,
                                        size_t figures_len);

/* Where liquid and vapour stand together at a temperature in K, whatever double this is: returns MAKHROENG_SATURATED, with
 * the vapour pressure, the saturated vapour density and the saturated liquid density in figures[0] to figures[2]; or the
 * refusal's number, 3, 4 or 7, with every figure as it was. Where len is below 3: 15, whatever the temperature is, with
 * every figure as it was. Figures after the third are never touched. A cylinder that holds both shows this pressure,
 * however much it holds. */
uint32_t makhroeng_saturation(double temperature, double *figures, size_t len);

/* Scores the sheet in text[0] to text[text_len - 1], whatever bytes these are, and writes its report to `out`.
 * Returns the report's length, 13 to 1,512 bytes; bytes of `out` after it are as they were. Where the report is longer
 * than out_len: 0, and every byte of `out` is as it was. 1,512 bytes are enough for any sheet.
 * Since version 1.5.0 a line that lacks no field and whose cylinder number stands on a line above it is refused by 30
 * (RULES 6.6). Since version 1.6.0 a line may have `W` and the grams of agent that were weighed, and needs no temperature
 * then; one of 0 grams is refused by 23 (RULES 6.7). Before, such a text was not in the form.
 * `text` and `out` must not overlap. */
uint64_t makhroeng_report(const uint8_t *text, size_t text_len, uint8_t *out, size_t out_len);

/* The words of a refusal, what it says and what to do, in ASCII with no 0 and no line end after them: writes them to `out`
 * and returns their length; bytes of `out` after them are as they were. 0, with every byte of `out` as it was, where they
 * are longer than len, or where there is no such refusal. 512 bytes are enough for any. */
uint64_t makhroeng_words(uint32_t number, uint8_t *out, size_t len);

/* The library's version, as MAKHROENG_VERSION is this header's. */
uint32_t makhroeng_version(void);

#ifdef __cplusplus
}
#endif
#endif
