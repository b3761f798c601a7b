/* What tests call from outside, beside the interface of jaloosewin.h. Temperatures are hundredths of a degree, pressures Pa. */
#ifndef JALOOSEWIN_TESTING_H
#define JALOOSEWIN_TESTING_H

#include "../include/jaloosewin.h"

#ifdef __cplusplus
extern "C" {
#endif

/* Bond counts, indexed by kind less one. */
typedef struct { uint64_t count[22]; } jlt_bonds;

/* A temperature on a curve, which is not rounded, or a refusal and 0. */
typedef struct { jlw_refusal refusal; int64_t value; } jlt_temperature;

/* A rounded temperature and its mark, or a refusal and zeros. The mark of one below 0 is by its size: -15.44 for -15.43705 is raised. */
typedef struct { jlw_refusal refusal; int64_t value; uint64_t mark; } jlt_rounded_temperature;

/* A quotient and its remainder. */
typedef struct { uint64_t quotient, remainder; } jlt_quotient;

JLW_STATIC_ASSERT(sizeof(jlt_bonds) == 176, "jlt_bonds");
JLW_STATIC_ASSERT(sizeof(jlt_temperature) == 24 && offsetof(jlt_temperature, value) == 16, "jlt_temperature");
JLW_STATIC_ASSERT(sizeof(jlt_rounded_temperature) == 32 && offsetof(jlt_rounded_temperature, value) == 16, "jlt_rounded_temperature");
JLW_STATIC_ASSERT(offsetof(jlt_rounded_temperature, mark) == 24, "jlt_rounded_temperature, mark");
JLW_STATIC_ASSERT(sizeof(jlt_quotient) == 16 && offsetof(jlt_quotient, remainder) == 8, "jlt_quotient");

/* n / d and n % d, by shifts, compares and subtractions. By 0 the quotient is 0 and the remainder n. */
jlt_quotient jlt_divide(uint64_t n, uint64_t d);

/* Formula (33): method 1 closed cup, 2 open cup, 3 fire point. Refusals 16, 2, 5, 6, 7. */
jlt_rounded_temperature jlt_flash_by_bonds(uint64_t method, jlw_atoms atoms, jlt_bonds bonds, int64_t boiling);

/* Formula (34): classes 1 to 10. Refusals 16, 7. */
jlt_rounded_temperature jlt_flash_by_class(uint64_t class_number, int64_t boiling);

/* Formula (35), the diffusion coefficient in units of 0.0001 cm2/s. Refusals 16, 2, 3, 4, 18, 11, 12, 13. */
jlt_temperature jlt_flash_by_curve(uint64_t method, jlw_atoms fuel, uint64_t diffusion, const int64_t *t, size_t t_len, const uint64_t *p, size_t p_len);

/* Refusals 2, 3, 4, 11, 12, 13. */
jlt_temperature jlt_lower_temperature_limit(jlw_atoms fuel, const int64_t *t, size_t t_len, const uint64_t *p, size_t p_len);

/* The whole parts per million of an analyser's reading; detection limit and ceiling in the reading's unit, for an overload in parts per million.
   The mark speaks of the exact value of the double: 4.54 % is 45400, lowered. Below the detection limit 0 parts, exact; from it on a reading above 0 that
   rounds to 0 is lowered. Refusal 14: place 0 for the method, 1 for the reading. */
jlw_rounded jlt_parts_of_percent(double limit, double ceiling, double reading);
jlw_rounded jlt_parts_of_ppm(double limit, double ceiling, double reading);
jlw_rounded jlt_parts_of_overload(double limit, double ceiling);

/* Adds whole parts of a fuel given by its atom counts. Refusals 28, 2, 3, 4, 8. */
jlw_blended jlt_add_fuel(jlw_blend blend, jlw_atoms fuel, uint64_t parts);

/* Both limits of a fuel given by its atom counts, in 0.01 volume percent. Refusals 2, 3, 4, 10. */
jlw_limits jlt_fuel_limits_at(jlw_atoms fuel, int64_t temperature);

/* The oxygen coefficient in quarters, of atom counts. Refusals 2, 3, 4. */
jlw_figure jlt_oxygen_coefficient(jlw_atoms fuel);

/* Both limits of the mixture that a sheet lists, with no temperature named, so at 20.00. Refusals 15 (place: record, 0 for the header or a longer sheet), then
   1, 2, 3, 4, 8 with the record as their place, then 9. */
jlw_limits jlt_sheet_answer(const uint8_t *sheet, size_t sheet_len);

/* A sheet's answer as text, without its marks: two lines, CRLF after each. Answers the text's length, at most 76; bytes behind it stay.
   Refusal 17 where out is too short, and all of it stays. */
jlw_written jlt_write_sheet_answer(jlw_refusal refusal, uint64_t lower, uint64_t upper, uint8_t *out, size_t out_len);

#ifdef __cplusplus
}
#endif

#endif
