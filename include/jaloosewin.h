/* Jaloosewin: flammability figures. Numbers are whole; an answer is one struct.

   In each answer refusal.number is 0 (JLW_NOT_REFUSED) where it was answered. Otherwise it is one of the numbers below, refusal.place says where, as each
   function tells, 0 if it does not; every other number of the answer is 0, but for a refused adding or joining, which returns the blend as it was given.

   A text is its bytes and their number, which does not count a 0 behind them ("CH4" has 3): the pointer points to at least that many readable bytes, out to at
   least out_len writable ones. Where the number is 0 nothing is read or written, and the pointer may be NULL. Apart from that every function takes anything.
   No function keeps a pointer, allocates, or changes anything but the bytes that it is said to write; they may be called from several threads at once.
   For C11 or C++11 and later; libjaloosewin.a is for x86-64. */
#ifndef JALOOSEWIN_H
#define JALOOSEWIN_H

#include <stddef.h>
#include <stdint.h>

#ifdef __cplusplus
extern "C" {
#define JLW_STATIC_ASSERT static_assert
#else
#define JLW_STATIC_ASSERT _Static_assert
#endif

/* The refusal numbers, and when each is given; 5, 6, 7, 11 to 16 and 18 by no function of this header. */
enum {
    JLW_NOT_REFUSED = 0,
    JLW_NO_FORMULA = 1,               /* the text is no formula, or all counts to be written are 0 */
    JLW_COUNT_TOO_LARGE = 2,          /* more than 200 atoms of an element, or bonds of a kind */
    JLW_ELEMENT_NOT_ADMITTED = 3,     /* an element that is not admitted, or carbon missing */
    JLW_OXYGEN_TOO_LOW = 4,           /* the oxygen coefficient is below 1/2 */
    JLW_HYDROGEN_DIFFERS = 5,         /* hydrogen atoms and hydrogen bonds differ */
    JLW_NO_COEFFICIENT = 6,           /* a bond that has no coefficient */
    JLW_BOILING_POINT_OUTSIDE = 7,    /* boiling point outside -200.00 to 600.00 */
    JLW_TOTAL_TOO_LARGE = 8,          /* the total of a blend would exceed 1,000,000 */
    JLW_BLEND_EMPTY = 9,              /* limits of a blend with total 0 */
    JLW_GAS_TEMPERATURE_OUTSIDE = 10, /* gas temperature outside 0.00 to 200.00 */
    JLW_BAD_CURVE = 11,               /* a bad vapour curve */
    JLW_TRUE_AT_FIRST = 12,           /* a condition that holds at the curve's first point */
    JLW_FALSE_AT_LAST = 13,           /* a condition that does not hold at its last point */
    JLW_BAD_READING = 14,             /* a bad analyser method or reading */
    JLW_BAD_SHEET = 15,               /* a bad sheet */
    JLW_UNKNOWN_METHOD = 16,          /* a method or class number that is not known */
    JLW_NO_ROOM = 17,                 /* the text is longer than out */
    JLW_DIFFUSION_OUTSIDE = 18,       /* diffusion coefficient outside 1 to 20,000 */
    JLW_BLEND_OUT_OF_BOUNDS = 28      /* numbers outside the bounds below */
};

/* The marks: what rounding did to a figure. A figure is rounded once, a half away from zero, and its mark compares its size with that of the exact value that
   was rounded. With a refusal a mark is 0, which then says nothing. */
enum {
    JLW_EXACT = 0,  /* the figure is the exact value */
    JLW_RAISED = 1, /* its size exceeds that of the exact value */
    JLW_LOWERED = 2 /* its size is below that of the exact value */
};

/* No text of jlw_write_formula is longer: out_len of this is always enough. */
enum { JLW_LONGEST_FORMULA = 43 };

/* In hundredths of a degree Celsius: 25 degrees, at which the limits' formulas were fitted, and 20 degrees, which are meant where no temperature is named. */
enum { JLW_FIT_TEMPERATURE = 2500, JLW_USUAL_TEMPERATURE = 2000 };

typedef struct { uint64_t number, place; } jlw_refusal;
typedef struct { uint64_t count[10]; } jlw_atoms; /* C H O N S P F Cl Br Si */
typedef struct { jlw_refusal refusal; jlw_atoms atoms; } jlw_formula;
typedef struct { jlw_refusal refusal; uint64_t length; } jlw_written;
typedef struct { jlw_refusal refusal; uint64_t value; } jlw_figure;
typedef struct { jlw_refusal refusal; uint64_t value, mark; } jlw_rounded;
typedef struct { jlw_refusal refusal; uint64_t lower, upper, lower_mark, upper_mark; } jlw_limits;
/* Total parts, and the sums of parts times (a*beta + b): lower in thousandths, upper in two-thousandths. */
typedef struct { uint64_t total, lower, upper; } jlw_blend;
typedef struct { jlw_refusal refusal; jlw_blend blend; } jlw_blended;

JLW_STATIC_ASSERT(sizeof(jlw_refusal) == 16 && offsetof(jlw_refusal, place) == 8, "jlw_refusal");
JLW_STATIC_ASSERT(sizeof(jlw_atoms) == 80, "jlw_atoms");
JLW_STATIC_ASSERT(sizeof(jlw_formula) == 96 && offsetof(jlw_formula, atoms) == 16, "jlw_formula");
JLW_STATIC_ASSERT(sizeof(jlw_written) == 24 && offsetof(jlw_written, length) == 16, "jlw_written");
JLW_STATIC_ASSERT(sizeof(jlw_figure) == 24 && offsetof(jlw_figure, value) == 16, "jlw_figure");
JLW_STATIC_ASSERT(sizeof(jlw_rounded) == 32 && offsetof(jlw_rounded, value) == 16 && offsetof(jlw_rounded, mark) == 24, "jlw_rounded");
JLW_STATIC_ASSERT(sizeof(jlw_limits) == 48 && offsetof(jlw_limits, lower) == 16 && offsetof(jlw_limits, upper) == 24, "jlw_limits");
JLW_STATIC_ASSERT(offsetof(jlw_limits, lower_mark) == 32 && offsetof(jlw_limits, upper_mark) == 40, "jlw_limits, marks");
JLW_STATIC_ASSERT(sizeof(jlw_blend) == 24 && offsetof(jlw_blend, lower) == 8 && offsetof(jlw_blend, upper) == 16, "jlw_blend");
JLW_STATIC_ASSERT(sizeof(jlw_blended) == 40 && offsetof(jlw_blended, blend) == 16, "jlw_blended");

/* The atom counts of a formula text, as "CH3CH(OH)CH3".
   Refusals: 1, no formula: place 256 for more than 256 bytes, otherwise the length of the longest beginning that begins some formula;
   2, more than 200 atoms of an element: place the lowest such element, 1 to 10. */
jlw_formula jlw_read_formula(const uint8_t *text, size_t text_len);

/* Writes atom counts in Hill order at the start of out and answers the text's length, at most JLW_LONGEST_FORMULA; no 0 is put behind it, and the bytes of out
   behind the text stay as they were.
   Refusals, which leave every byte of out as it was: 1, all counts are 0; 2, a count above 200: place the lowest such element; 17, out is too short. */
jlw_written jlw_write_formula(uint64_t c, uint64_t h, uint64_t o, uint64_t n, uint64_t s, uint64_t p, uint64_t f, uint64_t cl, uint64_t br, uint64_t si,
                              uint8_t *out, size_t out_len);

/* A fuel is its formula text. Its refusals, in this order, wherever one is given: 1 and 2 of the reader; 3, an element that is not admitted, or
   carbon missing: place the lowest element at fault; 4, beta below 1/2. Temperatures are hundredths of a degree Celsius. */

/* The oxygen coefficient beta in quarters, which is never rounded: CH4 8. Admitted: carbon present, no Si. */
jlw_figure jlw_oxygen_coefficient(const uint8_t *text, size_t text_len);

/* The stoichiometric fraction in 0.01 %: CH4 936, lowered from 936.33; refusals as for beta. */
jlw_rounded jlw_stoichiometric_fraction(const uint8_t *text, size_t text_len);

/* Both flammability limits of a fuel in 0.01 volume percent, each at most 10000 and with a mark of its own. No temperature is named, 20.00 is meant:
   CH4 455 and 2715, both lowered. Admitted: carbon present, only C, H, O, N and at most one Cl. */
jlw_limits jlw_fuel_limits(const uint8_t *text, size_t text_len);

/* The same at a temperature: CH4 at JLW_FIT_TEMPERATURE 454, raised, and 2732, lowered. Refusal 10 outside 0.00 to 200.00, after the fuel's. */
jlw_limits jlw_fuel_limits_at(const uint8_t *text, size_t text_len, int64_t temperature);

/* The mass concentrations of a fuel at both limits in 0.01 g/m3. CH4 at 134.00: 1983, raised, and 14841, lowered. Refusals as for limits at a temperature.
   They are worked from the limits as answered, and the marks speak of this last rounding only, as if those limits were exact. */
jlw_limits jlw_mass_concentration(const uint8_t *text, size_t text_len, int64_t temperature);

/* Blends. A blend goes in as its three numbers and comes back as a struct; with a refusal it comes back as it was given (of a joining, the first).
   Refusal 28 comes before all others (of a joining, place 1 if only the second blend is out of bounds): total above 1,000,000, lower outside 9021 * total to
   2175679 * total, or upper outside 2670 * total to 397108 * total, which are the extremes of admitted fuels.
   A blend that began empty and went through these functions alone is never out of bounds.

       jlw_blend b = jlw_empty_blend();
       b = jlw_add_fuel(b.total, b.lower, b.upper, (const uint8_t *)"C3H8", 4, 300000).blend;
       b = jlw_add_fuel(b.total, b.lower, b.upper, (const uint8_t *)"C2H6", 4, 700000).blend;
       jlw_limits l = jlw_blend_limits(b.total, b.lower, b.upper);     258, raised, and 1487, lowered */

/* A blend that took in nothing: three zeros. */
jlw_blend jlw_empty_blend(void);

/* Adds whole parts of a fuel; 0 parts change nothing. Refusals: 28, those of the fuel as for limits, 8 where the total would exceed 1,000,000. */
jlw_blended jlw_add_fuel(uint64_t total, uint64_t lower, uint64_t upper, const uint8_t *text, size_t text_len, uint64_t parts);

/* Joins a second blend into a first. Refusals: 28, 8. */
jlw_blended jlw_join_blends(uint64_t total, uint64_t lower, uint64_t upper, uint64_t other_total, uint64_t other_lower, uint64_t other_upper);

/* Both limits of a blend by Le Chatelier's rule over all that it took in, in 0.01 volume percent, each at most 10000 and with a mark of its own.
   No temperature is named, 20.00 is meant. Refusals: 28, 9 where the total is 0. */
jlw_limits jlw_blend_limits(uint64_t total, uint64_t lower, uint64_t upper);

/* The same at a temperature; at JLW_FIT_TEMPERATURE no correction is applied. Refusals: 28, 9, 10 outside 0.00 to 200.00. */
jlw_limits jlw_blend_limits_at(uint64_t total, uint64_t lower, uint64_t upper, int64_t temperature);

#ifdef __cplusplus
}
#endif

#endif
