/* Calls every function of include/jaloosewin.h and tests/testing.h: the figures of document 01 with their marks, refusals, lent buffers. */
#define _DEFAULT_SOURCE
#include "../testing.h"

#include <math.h>
#include <stdbool.h>
#include <stdio.h>
#include <stdlib.h>
#include <string.h>
#include <sys/mman.h>

static int checks, failures;

#define CHECK(condition)                                                           \
    do {                                                                           \
        checks++;                                                                  \
        if (!(condition)) {                                                        \
            failures++;                                                            \
            fprintf(stderr, "%s:%d: not so: %s\n", __FILE__, __LINE__, #condition); \
        }                                                                          \
    } while (0)

enum { ROOM = 1 << 17 };

/* Memory whose last byte stands before a page that may not be touched: a read past a lent slice ends the test. */
static uint8_t *fence_end(void)
{
    static uint8_t *end;
    if (!end) {
        uint8_t *base = mmap(NULL, ROOM + 4096, PROT_READ | PROT_WRITE, MAP_PRIVATE | MAP_ANONYMOUS, -1, 0);
        if (base == MAP_FAILED || mprotect(base + ROOM, 4096, PROT_NONE) != 0) {
            perror("mmap");
            exit(1);
        }
        end = base + ROOM;
    }
    return end;
}

static const uint8_t *lent(const char *text)
{
    size_t length = strlen(text);
    return memcpy(fence_end() - length, text, length);
}

/* The text of a call: a pointer and a length. */
#define TEXT(text) lent(text), strlen(text)
#define NO_TEXT NULL, 0

static bool is(jlw_refusal refusal, uint64_t number, uint64_t place)
{
    return refusal.number == number && refusal.place == place;
}

static bool answered(jlw_refusal refusal)
{
    return is(refusal, 0, 0);
}

static bool atoms_are(jlw_atoms atoms, uint64_t c, uint64_t h, uint64_t o, uint64_t n, uint64_t cl)
{
    jlw_atoms wanted = {{c, h, o, n, 0, 0, 0, cl, 0, 0}};
    return memcmp(&atoms, &wanted, sizeof atoms) == 0;
}

static bool formula_is(jlw_formula formula, uint64_t number, uint64_t place)
{
    return is(formula.refusal, number, place) && atoms_are(formula.atoms, 0, 0, 0, 0, 0);
}

static bool figure_is(jlw_figure figure, uint64_t value)
{
    return answered(figure.refusal) && figure.value == value;
}

static bool figure_refused(jlw_figure figure, uint64_t number, uint64_t place)
{
    return is(figure.refusal, number, place) && figure.value == 0;
}

static bool rounded_is(jlw_rounded rounded, uint64_t value, uint64_t mark)
{
    return answered(rounded.refusal) && rounded.value == value && rounded.mark == mark;
}

static bool rounded_refused(jlw_rounded rounded, uint64_t number, uint64_t place)
{
    return is(rounded.refusal, number, place) && rounded.value == 0 && rounded.mark == 0;
}

static bool limits_are(jlw_limits limits, uint64_t lower, uint64_t upper, uint64_t lower_mark, uint64_t upper_mark)
{
    return answered(limits.refusal) && limits.lower == lower && limits.upper == upper && limits.lower_mark == lower_mark && limits.upper_mark == upper_mark;
}

static bool same_limits(jlw_limits a, jlw_limits b)
{
    return answered(a.refusal) && limits_are(b, a.lower, a.upper, a.lower_mark, a.upper_mark);
}

static bool limits_refused(jlw_limits limits, uint64_t number, uint64_t place)
{
    return is(limits.refusal, number, place) && limits.lower == 0 && limits.upper == 0 && limits.lower_mark == 0 && limits.upper_mark == 0;
}

static bool same_blend(jlw_blend a, jlw_blend b)
{
    return a.total == b.total && a.lower == b.lower && a.upper == b.upper;
}

static bool blend_refused(jlw_blended blended, uint64_t number, uint64_t place, jlw_blend given)
{
    return is(blended.refusal, number, place) && same_blend(blended.blend, given);
}

static bool temperature_is(jlt_temperature temperature, int64_t value)
{
    return answered(temperature.refusal) && temperature.value == value;
}

static bool temperature_refused(jlt_temperature temperature, uint64_t number, uint64_t place)
{
    return is(temperature.refusal, number, place) && temperature.value == 0;
}

static bool flash_is(jlt_rounded_temperature flash, int64_t value, uint64_t mark)
{
    return answered(flash.refusal) && flash.value == value && flash.mark == mark;
}

static bool flash_refused(jlt_rounded_temperature flash, uint64_t number, uint64_t place)
{
    return is(flash.refusal, number, place) && flash.value == 0 && flash.mark == 0;
}

static void test_read(void)
{
    jlw_formula propanol = jlw_read_formula(TEXT("CH3CH(OH)CH3"));
    CHECK(answered(propanol.refusal) && atoms_are(propanol.atoms, 3, 8, 1, 0, 0));
    jlw_formula chloride = jlw_read_formula(TEXT("CCl"));
    CHECK(answered(chloride.refusal) && atoms_are(chloride.atoms, 1, 0, 0, 0, 1));
    jlw_formula all = jlw_read_formula(TEXT("CH2O3N4S5P6F7Cl8Br9Si10"));
    for (uint64_t element = 0; element < 10; element++)
        CHECK(all.atoms.count[element] == element + 1);

    CHECK(formula_is(jlw_read_formula(TEXT("C10((")), 1, 5));
    CHECK(formula_is(jlw_read_formula(TEXT("c")), 1, 0));
    CHECK(formula_is(jlw_read_formula(NO_TEXT), 1, 0));
    CHECK(formula_is(jlw_read_formula(TEXT("C0")), 1, 1));
    CHECK(formula_is(jlw_read_formula(TEXT("C01")), 1, 1));
    CHECK(formula_is(jlw_read_formula(TEXT("C1000")), 1, 4));
    CHECK(formula_is(jlw_read_formula(TEXT("CB")), 1, 2));
    CHECK(formula_is(jlw_read_formula(TEXT("CBx")), 1, 2));
    CHECK(formula_is(jlw_read_formula(TEXT("C)")), 1, 1));
    CHECK(formula_is(jlw_read_formula(TEXT("()")), 1, 1));
    CHECK(formula_is(jlw_read_formula(TEXT("(((((((((C)))))))))")), 1, 8));
    CHECK(answered(jlw_read_formula(TEXT("((((((((C))))))))")).refusal));
    CHECK(formula_is(jlw_read_formula((const uint8_t *)"C\0H", 3), 1, 1));
    CHECK(formula_is(jlw_read_formula(TEXT("C\xff")), 1, 1));

    CHECK(answered(jlw_read_formula(TEXT("C200")).refusal));
    CHECK(formula_is(jlw_read_formula(TEXT("C201")), 2, 1));
    CHECK(formula_is(jlw_read_formula(TEXT("Si999H201")), 2, 2));
    CHECK(formula_is(jlw_read_formula(TEXT("((((((((Si999)999)999)999)999)999)999)999)999")), 2, 10));
}

static void test_read_lengths(void)
{
    uint8_t text[258];
    memset(text, 'F', sizeof text);
    CHECK(formula_is(jlw_read_formula(text, 256), 2, 7));
    CHECK(formula_is(jlw_read_formula(text, 257), 1, 256));
    text[0] = 'x';
    CHECK(formula_is(jlw_read_formula(text, 256), 1, 0));
    CHECK(formula_is(jlw_read_formula(text, 257), 1, 256));
}

/* Writes C3H8O and the like into rooms of every size, between guard bytes. */
static void test_write_rooms(void)
{
    static const char text[] = "C3H8O";
    for (size_t room = 0; room <= 8; room++) {
        uint8_t buffer[16];
        memset(buffer, 0xa5, sizeof buffer);
        jlw_written written = jlw_write_formula(3, 8, 1, 0, 0, 0, 0, 0, 0, 0, buffer + 4, room);
        bool fits = room >= 5;
        CHECK(fits ? answered(written.refusal) && written.length == 5 : is(written.refusal, 17, 0) && written.length == 0);
        CHECK(!fits || memcmp(buffer + 4, text, 5) == 0);
        for (size_t at = 0; at < sizeof buffer; at++)
            CHECK((fits && at >= 4 && at < 9) || buffer[at] == 0xa5);
    }
}

static void test_write(void)
{
    uint8_t enough[JLW_LONGEST_FORMULA];
    jlw_written most = jlw_write_formula(200, 200, 200, 200, 200, 200, 200, 200, 200, 200, enough, sizeof enough);
    CHECK(answered(most.refusal) && most.length == JLW_LONGEST_FORMULA);
    CHECK(memcmp(enough, "C200H200Br200Cl200F200N200O200P200S200Si200", sizeof enough) == 0);
    CHECK(is(jlw_write_formula(200, 200, 200, 200, 200, 200, 200, 200, 200, 200, enough, sizeof enough - 1).refusal, JLW_NO_ROOM, 0));

    uint8_t out[64];
    memset(out, '.', sizeof out);
    jlw_written bare = jlw_write_formula(0, 2, 1, 3, 4, 5, 6, 7, 8, 9, out, sizeof out);
    CHECK(answered(bare.refusal) && bare.length == 20 && memcmp(out, "Br8Cl7F6H2N3OP5S4Si9", 20) == 0);

    memset(out, '.', sizeof out);
    CHECK(is(jlw_write_formula(0, 0, 0, 0, 0, 0, 0, 0, 0, 0, out, sizeof out).refusal, JLW_NO_FORMULA, 0));
    CHECK(is(jlw_write_formula(1, 201, 0, 0, 0, 0, 0, 0, 0, UINT64_MAX, out, sizeof out).refusal, JLW_COUNT_TOO_LARGE, 2));
    CHECK(is(jlw_write_formula(0, 0, 0, 0, 0, 0, 0, 0, 0, UINT64_MAX, NULL, 0).refusal, JLW_COUNT_TOO_LARGE, 10));
    CHECK(is(jlw_write_formula(1, 0, 0, 0, 0, 0, 0, 0, 0, 0, NULL, 0).refusal, JLW_NO_ROOM, 0));
    for (size_t at = 0; at < sizeof out; at++)
        CHECK(out[at] == '.');
}

static void test_oxygen(void)
{
    CHECK(figure_is(jlw_oxygen_coefficient(TEXT("CH4")), 8));
    CHECK(figure_is(jlw_oxygen_coefficient(TEXT("C6H6")), 30));
    CHECK(figure_is(jlw_oxygen_coefficient(TEXT("CO")), 2));
    CHECK(figure_is(jlw_oxygen_coefficient(TEXT("CSPF3Cl2Br")), 12));
    CHECK(figure_refused(jlw_oxygen_coefficient(NO_TEXT), 1, 0));
    CHECK(figure_refused(jlw_oxygen_coefficient(TEXT("C2H201")), 2, 2));
    CHECK(figure_refused(jlw_oxygen_coefficient(TEXT("CH3SiH3")), 3, 10));
    CHECK(figure_refused(jlw_oxygen_coefficient(TEXT("SiH4")), 3, 1));
    CHECK(figure_refused(jlw_oxygen_coefficient(TEXT("CO2")), 4, 0));
}

static void test_fraction(void)
{
    CHECK(rounded_is(jlw_stoichiometric_fraction(TEXT("CH4")), 936, JLW_LOWERED));
    CHECK(rounded_is(jlw_stoichiometric_fraction(TEXT("C3H8")), 397, JLW_RAISED));
    CHECK(rounded_is(jlw_stoichiometric_fraction(TEXT("C5H5N")), 320, JLW_EXACT));
    CHECK(rounded_refused(jlw_stoichiometric_fraction(TEXT("CF4")), 4, 0));
    CHECK(rounded_refused(jlw_stoichiometric_fraction(NO_TEXT), 1, 0));
}

static void test_limits(void)
{
    CHECK(limits_are(jlw_fuel_limits_at(TEXT("CH4"), JLW_FIT_TEMPERATURE), 454, 2732, JLW_RAISED, JLW_LOWERED));
    CHECK(limits_are(jlw_fuel_limits(TEXT("CH4")), 455, 2715, JLW_LOWERED, JLW_LOWERED));
    CHECK(same_limits(jlw_fuel_limits(TEXT("CH4")), jlw_fuel_limits_at(TEXT("CH4"), JLW_USUAL_TEMPERATURE)));
    CHECK(limits_are(jlw_fuel_limits_at(TEXT("C6H6"), JLW_FIT_TEMPERATURE), 143, 821, JLW_LOWERED, JLW_RAISED));
    CHECK(limits_are(jlw_fuel_limits(TEXT("C6H6")), 144, 816, JLW_RAISED, JLW_RAISED));
    CHECK(limits_are(jlw_fuel_limits(TEXT("C2H6")), 286, 1661, JLW_LOWERED, JLW_RAISED));
    CHECK(limits_are(jlw_fuel_limits_at(TEXT("C7H8"), JLW_FIT_TEMPERATURE), 121, 743, JLW_RAISED, JLW_RAISED));
    CHECK(limits_refused(jlw_fuel_limits(TEXT("CO2")), 4, 0));
    CHECK(limits_refused(jlw_fuel_limits(TEXT("CHCl3")), 3, 8));
    CHECK(limits_refused(jlw_fuel_limits(TEXT("CS2Cl2")), 3, 5));
    CHECK(limits_refused(jlw_fuel_limits(NO_TEXT), 1, 0));
    CHECK(limits_are(jlw_fuel_limits_at(TEXT("CH4"), 13400), 414, 3099, JLW_LOWERED, JLW_LOWERED));
    CHECK(limits_are(jlw_fuel_limits_at(TEXT("CH3Cl"), 18530), 492, 4150, JLW_LOWERED, JLW_LOWERED));
    CHECK(answered(jlw_fuel_limits_at(TEXT("CH4"), 0).refusal) && answered(jlw_fuel_limits_at(TEXT("CH4"), 20000).refusal));
    CHECK(limits_refused(jlw_fuel_limits_at(TEXT("CH4"), -1), 10, 0));
    CHECK(limits_refused(jlw_fuel_limits_at(TEXT("CH4"), 20001), 10, 0));
    CHECK(limits_refused(jlw_fuel_limits_at(TEXT("CO2"), INT64_MIN), 4, 0));
    CHECK(limits_refused(jlw_fuel_limits_at(NO_TEXT, INT64_MAX), 1, 0));
}

/* An upper limit of exactly 50.00, a lower one of exactly 0.30, and one of 3.125. */
static void test_exact_limits(void)
{
    CHECK(limits_are(jlw_fuel_limits_at(TEXT("CH2O"), 6966), 722, 5000, JLW_RAISED, JLW_EXACT));
    CHECK(limits_are(jlw_fuel_limits_at(TEXT("C25H51N"), 2813), 30, 282, JLW_EXACT, JLW_LOWERED));
    CHECK(limits_are(jlw_fuel_limits_at(TEXT("C2H3N"), 15959), 313, 2417, JLW_RAISED, JLW_LOWERED));
}

/* The limits of the last fuel are rounded, 9 is lowered and 93 raised, but its mass concentrations at them are exact. */
static void test_mass(void)
{
    CHECK(limits_are(jlw_mass_concentration(TEXT("CH4"), 13400), 1983, 14841, JLW_RAISED, JLW_LOWERED));
    CHECK(limits_are(jlw_mass_concentration(TEXT("CH3Cl"), 2000), 11903, 72322, JLW_LOWERED, JLW_LOWERED));
    CHECK(limits_are(jlw_mass_concentration(TEXT("CH4"), 20000), 1607, 13686, JLW_LOWERED, JLW_RAISED));
    CHECK(limits_refused(jlw_mass_concentration(TEXT("CH4"), INT64_MIN), 10, 0));
    CHECK(limits_refused(jlw_mass_concentration(TEXT("C201"), 0), 2, 1));
    CHECK(limits_are(jlw_fuel_limits_at(TEXT("C200H12O150N54Cl"), 0), 9, 93, JLW_LOWERED, JLW_RAISED));
    CHECK(limits_are(jlw_mass_concentration(TEXT("C200H12O150N54Cl"), 0), 22500, 232500, JLW_EXACT, JLW_EXACT));
}

static jlw_blended add(jlw_blend blend, const char *text, uint64_t parts)
{
    return jlw_add_fuel(blend.total, blend.lower, blend.upper, TEXT(text), parts);
}

static jlw_blended join(jlw_blend a, jlw_blend b)
{
    return jlw_join_blends(a.total, a.lower, a.upper, b.total, b.lower, b.upper);
}

static jlw_limits limits_of(jlw_blend b)
{
    return jlw_blend_limits(b.total, b.lower, b.upper);
}

static jlw_limits limits_of_at(jlw_blend b, int64_t temperature)
{
    return jlw_blend_limits_at(b.total, b.lower, b.upper, temperature);
}

static void test_blends(void)
{
    jlw_blend empty = jlw_empty_blend();
    CHECK(empty.total == 0 && empty.lower == 0 && empty.upper == 0);
    CHECK(limits_refused(jlw_blend_limits(0, 0, 0), 9, 0));
    CHECK(limits_refused(jlw_blend_limits_at(0, 0, 0, -1), 9, 0));

    jlw_blended propane = add(empty, "C3H8", 300000), ethane = add(empty, "C2H6", 700000);
    CHECK(answered(propane.refusal) && propane.blend.total == 300000);
    CHECK(propane.blend.lower == 300000 * UINT64_C(48099) && propane.blend.upper == 300000 * UINT64_C(16620));
    jlw_blended both = join(propane.blend, ethane.blend);
    CHECK(answered(both.refusal) && both.blend.total == 1000000);
    CHECK(same_blend(both.blend, add(propane.blend, "C2H6", 700000).blend));
    CHECK(limits_are(limits_of(both.blend), 258, 1487, JLW_RAISED, JLW_LOWERED));
    CHECK(same_limits(limits_of(both.blend), limits_of_at(both.blend, JLW_USUAL_TEMPERATURE)));
    CHECK(limits_are(limits_of_at(both.blend, JLW_FIT_TEMPERATURE), 257, 1496, JLW_RAISED, JLW_LOWERED));
    CHECK(limits_refused(limits_of_at(both.blend, 20001), 10, 0));
    CHECK(same_limits(limits_of(both.blend), limits_of(add(add(empty, "C2H6", 7).blend, "C3H8", 3).blend)));

    CHECK(blend_refused(add(both.blend, "CH4", 1), 8, 0, both.blend));
    CHECK(same_blend(add(both.blend, "CH4", 0).blend, both.blend));
    CHECK(blend_refused(add(empty, "CH4", 1000001), 8, 0, empty));
    CHECK(blend_refused(add(empty, "CH4", UINT64_MAX), 8, 0, empty));
    CHECK(blend_refused(add(both.blend, "CO2", 1), 4, 0, both.blend));
    CHECK(blend_refused(add(empty, "CH3OHx", 1), 1, 5, empty));
    CHECK(blend_refused(jlw_add_fuel(0, 0, 0, NO_TEXT, 1), 1, 0, empty));
    CHECK(blend_refused(join(both.blend, propane.blend), 8, 0, both.blend));
    CHECK(blend_refused(join(ethane.blend, ethane.blend), 8, 0, ethane.blend));
    CHECK(answered(join(propane.blend, propane.blend).refusal));
}

/* Blends of which one limit is exact. */
static void test_exact_blends(void)
{
    jlw_blend empty = jlw_empty_blend();
    jlw_blend lower = add(add(empty, "C3H4", 446418).blend, "C3H5N", 233105).blend, upper = add(add(empty, "CH4", 5857).blend, "CH5N", 25608).blend;
    CHECK(limits_are(limits_of(lower), 250, 1442, JLW_EXACT, JLW_RAISED));
    CHECK(limits_are(limits_of(upper), 422, 2500, JLW_RAISED, JLW_EXACT));
    CHECK(same_limits(limits_of(join(upper, upper).blend), limits_of(upper)));
    CHECK(limits_are(limits_of_at(add(empty, "CH2O", 1000000).blend, 6966), 722, 5000, JLW_RAISED, JLW_EXACT));
    CHECK(limits_are(limits_of_at(add(empty, "C25H51N", 1).blend, 2813), 30, 282, JLW_EXACT, JLW_LOWERED));
    CHECK(limits_are(limits_of_at(add(empty, "C6H6", 1).blend, JLW_FIT_TEMPERATURE), 143, 821, JLW_LOWERED, JLW_RAISED));
    CHECK(limits_are(limits_of(add(empty, "C2H6", 1).blend), 286, 1661, JLW_LOWERED, JLW_RAISED));
}

static void test_out_of_bounds(void)
{
    jlw_blend good = {1, 9021, 2670}, most = {1000000, UINT64_C(2175679000000), UINT64_C(397108000000)};
    jlw_blend bad[] = {{1000001, UINT64_C(10000000000), 2670002670}, {1, 9020, 2670}, {1, 2175680, 2670}, {1, 9021, 2669}, {1, 9021, 397109},
                       {0, 1, 0}, {0, 0, 1}, {UINT64_MAX, UINT64_MAX, UINT64_MAX}};
    CHECK(answered(limits_of(good).refusal) && answered(limits_of(most).refusal));
    for (size_t i = 0; i < sizeof bad / sizeof *bad; i++) {
        jlw_blend b = bad[i];
        CHECK(blend_refused(add(b, "c", UINT64_MAX), 28, 0, b));
        CHECK(blend_refused(join(b, good), 28, 0, b));
        CHECK(blend_refused(join(good, b), 28, 1, good));
        CHECK(blend_refused(join(b, b), 28, 0, b));
        CHECK(limits_refused(limits_of(b), 28, 0));
        CHECK(limits_refused(limits_of_at(b, -1), 28, 0));
    }
}

static const jlw_atoms ethanol = {{2, 6, 1}}, benzene = {{6, 6}}, methane = {{1, 4}}, ethane = {{2, 6}}, propane = {{3, 8}};

static void test_division(void)
{
    static const uint64_t numbers[] = {0, 1, 2, 3, 7, 10, 99, 100, 1000, UINT32_MAX, UINT64_C(1) << 32, UINT64_C(1) << 63, UINT64_MAX - 1, UINT64_MAX};
    enum { COUNT = sizeof numbers / sizeof *numbers };
    for (size_t i = 0; i < COUNT; i++)
        for (size_t j = 0; j < COUNT; j++) {
            uint64_t n = numbers[i], d = numbers[j];
            jlt_quotient found = jlt_divide(n, d);
            CHECK(found.quotient == (d ? n / d : 0) && found.remainder == (d ? n % d : n));
        }
}

static void test_bonds(void)
{
    jlt_bonds bonds = {{0}};
    bonds.count[0] = bonds.count[4] = bonds.count[17] = 1;
    bonds.count[3] = 5;
    CHECK(flash_is(jlt_flash_by_bonds(1, ethanol, bonds, 7840), 839, JLW_LOWERED));
    CHECK(flash_is(jlt_flash_by_bonds(1, ethanol, bonds, 7500), 615, JLW_EXACT));
    CHECK(flash_is(jlt_flash_by_bonds(2, ethanol, bonds, 7840), 1336, JLW_RAISED));
    CHECK(flash_is(jlt_flash_by_bonds(3, ethanol, bonds, 7840), 1891, JLW_LOWERED));
    CHECK(flash_refused(jlt_flash_by_bonds(0, ethanol, bonds, 7840), 16, 0));
    CHECK(flash_refused(jlt_flash_by_bonds(4, ethanol, bonds, INT64_MAX), 16, 0));
    CHECK(flash_refused(jlt_flash_by_bonds(1, methane, bonds, 7840), 5, 0));
    CHECK(flash_refused(jlt_flash_by_bonds(1, ethanol, bonds, -20001), 7, 0));
    CHECK(flash_refused(jlt_flash_by_bonds(1, ethanol, bonds, 60001), 7, 0));
    bonds.count[21] = 1;
    CHECK(flash_refused(jlt_flash_by_bonds(1, ethanol, bonds, 60001), 6, 22));
    bonds.count[7] = 201;
    CHECK(flash_refused(jlt_flash_by_bonds(3, ethanol, bonds, 7840), 2, 18));
    jlw_atoms many = {{0, 0, 0, 0, 0, 0, 0, 0, 0, 201}};
    CHECK(flash_refused(jlt_flash_by_bonds(3, many, bonds, 7840), 2, 10));
    jlt_bonds ring = {{0, 6, 0, 6}};
    CHECK(flash_is(jlt_flash_by_bonds(1, benzene, ring, 8010), -1540, JLW_LOWERED));
    CHECK(flash_is(jlt_flash_by_bonds(1, benzene, ring, 8005), -1544, JLW_RAISED));
}

static void test_classes(void)
{
    CHECK(flash_is(jlt_flash_by_class(2, 7840), 943, JLW_RAISED));
    CHECK(flash_is(jlt_flash_by_class(1, -20000), -21182, JLW_EXACT));
    CHECK(flash_is(jlt_flash_by_class(10, 60000), 32290, JLW_EXACT));
    CHECK(flash_is(jlt_flash_by_class(1, 0), -7322, JLW_EXACT));
    CHECK(flash_is(jlt_flash_by_class(1, 500), -6976, JLW_RAISED)); /* a half */
    CHECK(flash_is(jlt_flash_by_class(1, 10565), 0, JLW_LOWERED));  /* -0.00455 */
    CHECK(flash_refused(jlt_flash_by_class(0, 0), 16, 0));
    CHECK(flash_refused(jlt_flash_by_class(11, INT64_MIN), 16, 0));
    CHECK(flash_refused(jlt_flash_by_class(1, 60001), 7, 0));
}

static void test_curves(void)
{
    static const int64_t t[] = {0, 1000, 2000};
    static const uint64_t p[] = {1000, 2000, 4000};
    CHECK(temperature_is(jlt_lower_temperature_limit(ethane, t, 3, p, 3), 1444));
    CHECK(temperature_is(jlt_lower_temperature_limit(propane, t, 3, p, 3), 1054));
    CHECK(temperature_refused(jlt_lower_temperature_limit(methane, t, 3, p, 3), 13, 0));
    jlw_atoms wax = {{40, 82}}, none = {{0}};
    CHECK(temperature_refused(jlt_lower_temperature_limit(wax, t, 3, p, 3), 12, 0));
    CHECK(temperature_refused(jlt_lower_temperature_limit(none, t, 3, p, 3), 3, 1));
    CHECK(temperature_refused(jlt_lower_temperature_limit(ethane, NULL, 0, NULL, 0), 11, 0));
    CHECK(temperature_refused(jlt_lower_temperature_limit(ethane, t, 3, p, 2), 11, 0));
    CHECK(temperature_refused(jlt_lower_temperature_limit(ethane, t, 1, p, 1), 11, 0));

    CHECK(temperature_is(jlt_flash_by_curve(1, benzene, 800, t, 3, p, 3), 669));
    CHECK(temperature_refused(jlt_flash_by_curve(4, benzene, 0, NULL, 0, NULL, 0), 16, 0));
    CHECK(temperature_refused(jlt_flash_by_curve(1, benzene, 0, NULL, 0, NULL, 0), 18, 0));
    CHECK(temperature_refused(jlt_flash_by_curve(1, benzene, 20001, t, 3, p, 3), 18, 0));
    CHECK(temperature_refused(jlt_flash_by_curve(1, benzene, 1, t, 3, p, 3), 13, 0));
    CHECK(temperature_refused(jlt_flash_by_curve(1, benzene, 20000, t, 3, p, 3), 12, 0));
    jlw_atoms thiol = {{2, 6, 0, 0, 1}}, silane = {{1, 6, 0, 0, 0, 0, 0, 0, 0, 1}};
    CHECK(answered(jlt_flash_by_curve(2, thiol, 1000, t, 3, p, 3).refusal));
    CHECK(temperature_refused(jlt_flash_by_curve(3, thiol, 1000, t, 3, p, 3), 3, 5));
    CHECK(temperature_refused(jlt_flash_by_curve(1, silane, 1000, t, 3, p, 3), 3, 10));
}

static void test_bad_curves(void)
{
    static const int64_t t[] = {-20000, 0, 60000}, cold[] = {-20001, 0, 1}, hot[] = {0, 1, 60001}, flat[] = {0, 1, 1};
    static const uint64_t p[] = {1, 2, 250000}, zero[] = {0, 1, 2}, high[] = {1, 2, 250001}, level[] = {1, 1, 2};
    CHECK(answered(jlt_lower_temperature_limit(ethane, t, 3, p, 3).refusal));
    CHECK(temperature_refused(jlt_lower_temperature_limit(ethane, cold, 3, p, 3), 11, 0));
    CHECK(temperature_refused(jlt_lower_temperature_limit(ethane, hot, 3, p, 3), 11, 2));
    CHECK(temperature_refused(jlt_lower_temperature_limit(ethane, flat, 3, p, 3), 11, 2));
    CHECK(temperature_refused(jlt_lower_temperature_limit(ethane, t, 3, zero, 3), 11, 0));
    CHECK(temperature_refused(jlt_lower_temperature_limit(ethane, t, 3, high, 3), 11, 2));
    CHECK(temperature_refused(jlt_lower_temperature_limit(ethane, t, 3, level, 3), 11, 1));
}

static void test_longest_curve(void)
{
    enum { POINTS = 4097 };
    static int64_t t[POINTS];
    static uint64_t p[POINTS];
    for (int i = 0; i < POINTS; i++) {
        t[i] = i - 2000;
        p[i] = (uint64_t)i + 1;
    }
    /* 2.85 % of 101,300 Pa is 2887.05 Pa: the first pressure from there is 2888, at -20.00 + 28.87 */
    CHECK(temperature_is(jlt_lower_temperature_limit(ethane, t, 4096, p, 4096), 887));
    CHECK(temperature_refused(jlt_lower_temperature_limit(ethane, t, 4097, p, 4097), 11, 0));
    t[4095] = t[4094];
    CHECK(temperature_refused(jlt_lower_temperature_limit(ethane, t, 4096, p, 4096), 11, 4095));
}

static void test_readings(void)
{
    CHECK(rounded_is(jlt_parts_of_percent(0, 100, 100), 1000000, JLW_EXACT));
    CHECK(rounded_is(jlt_parts_of_percent(0, 100, 1.0 / 32), 313, JLW_RAISED));
    CHECK(rounded_is(jlt_parts_of_percent(0.5, 100, 0.25), 0, JLW_EXACT));
    CHECK(rounded_is(jlt_parts_of_percent(0.5, 100, 0.5), 5000, JLW_EXACT));
    CHECK(rounded_is(jlt_parts_of_percent(-0.0, 0, -0.0), 0, JLW_EXACT));
    CHECK(rounded_is(jlt_parts_of_percent(0, 100, 5e-324), 0, JLW_LOWERED));
    CHECK(rounded_is(jlt_parts_of_percent(0, 100, 4.54), 45400, JLW_LOWERED)); /* the double lies above 4.54 */
    CHECK(rounded_refused(jlt_parts_of_percent(0, 100, nextafter(100, 200)), 14, 1));
    CHECK(rounded_refused(jlt_parts_of_percent(0, nextafter(100, 200), 1), 14, 0));
    CHECK(rounded_refused(jlt_parts_of_percent(1, 100, -5e-324), 14, 1));
    CHECK(rounded_is(jlt_parts_of_ppm(0, 1000000, 1000000), 1000000, JLW_EXACT));
    CHECK(rounded_is(jlt_parts_of_ppm(0, 1000000, 0.5), 1, JLW_RAISED));
    CHECK(rounded_is(jlt_parts_of_ppm(0, 1000000, nextafter(0.5, 0)), 0, JLW_LOWERED));
    CHECK(rounded_is(jlt_parts_of_ppm(0, 1000000, 5e-324), 0, JLW_LOWERED));
    CHECK(rounded_is(jlt_parts_of_ppm(0, 1000000, 1e-300), 0, JLW_LOWERED));
    CHECK(rounded_is(jlt_parts_of_ppm(0, 1000000, 0.0), 0, JLW_EXACT));
    CHECK(rounded_is(jlt_parts_of_ppm(0, 1000000, -0.0), 0, JLW_EXACT));
    CHECK(rounded_is(jlt_parts_of_ppm(0.4, 1000000, 0.4), 0, JLW_LOWERED));
    CHECK(rounded_is(jlt_parts_of_ppm(0.4, 1000000, nextafter(0.4, 0)), 0, JLW_EXACT));
    CHECK(rounded_is(jlt_parts_of_ppm(0.4, 1000000, 5e-324), 0, JLW_EXACT));
    CHECK(rounded_refused(jlt_parts_of_ppm(0, 1000000, (double)NAN), 14, 1));
    CHECK(rounded_refused(jlt_parts_of_ppm(0, 1000000, (double)INFINITY), 14, 1));
    CHECK(rounded_refused(jlt_parts_of_ppm((double)NAN, 1000000, 1), 14, 0));
    CHECK(rounded_refused(jlt_parts_of_ppm(2, 1, 1), 14, 0));
    CHECK(rounded_refused(jlt_parts_of_overload(0, 1000000), 14, 1));
    CHECK(rounded_refused(jlt_parts_of_overload(0, 1000001), 14, 0));
}

static void test_counts(void)
{
    jlw_blend empty = jlw_empty_blend(), bad = {1, 0, 0};
    jlw_atoms dioxide = {{1, 0, 2}}, formaldehyde = {{1, 2, 1}}, amine = {{25, 51, 0, 1}}, many = {{1, 201}}, none = {{0}};
    CHECK(same_blend(jlt_add_fuel(empty, propane, 7).blend, add(empty, "C3H8", 7).blend));
    CHECK(blend_refused(jlt_add_fuel(empty, many, 7), 2, 2, empty));
    CHECK(blend_refused(jlt_add_fuel(empty, none, 7), 3, 1, empty));
    CHECK(blend_refused(jlt_add_fuel(empty, dioxide, 7), 4, 0, empty));
    CHECK(blend_refused(jlt_add_fuel(empty, propane, 1000001), 8, 0, empty));
    CHECK(blend_refused(jlt_add_fuel(bad, none, 1000001), 28, 0, bad));
    CHECK(limits_are(jlt_fuel_limits_at(methane, 13400), 414, 3099, JLW_LOWERED, JLW_LOWERED));
    CHECK(limits_are(jlt_fuel_limits_at(formaldehyde, 6966), 722, 5000, JLW_RAISED, JLW_EXACT));
    CHECK(limits_are(jlt_fuel_limits_at(amine, 2813), 30, 282, JLW_EXACT, JLW_LOWERED));
    CHECK(limits_are(jlt_fuel_limits_at(benzene, JLW_FIT_TEMPERATURE), 143, 821, JLW_LOWERED, JLW_RAISED));
    CHECK(limits_refused(jlt_fuel_limits_at(methane, 20001), 10, 0));
    CHECK(limits_refused(jlt_fuel_limits_at(dioxide, 20001), 4, 0));
    CHECK(figure_is(jlt_oxygen_coefficient(benzene), 30));
    CHECK(figure_refused(jlt_oxygen_coefficient(dioxide), 4, 0));
}

static void test_sheets(void)
{
#define SHEET "formula,parts\r\nC3H8,300000\r\nC2H6,700000"
    CHECK(limits_are(jlt_sheet_answer(TEXT(SHEET)), 258, 1487, JLW_RAISED, JLW_LOWERED));
    CHECK(limits_are(jlt_sheet_answer(TEXT(SHEET "\r\n")), 258, 1487, JLW_RAISED, JLW_LOWERED));
    CHECK(limits_are(jlt_sheet_answer(TEXT("formula,parts\r\nC2H6,1")), 286, 1661, JLW_LOWERED, JLW_RAISED));
    CHECK(limits_are(jlt_sheet_answer(TEXT("formula,parts\r\nC3H4,446418\r\nC3H5N,233105")), 250, 1442, JLW_EXACT, JLW_RAISED));
    CHECK(limits_are(jlt_sheet_answer(TEXT("formula,parts\r\nCH4,5857\r\nCH5N,25608")), 422, 2500, JLW_RAISED, JLW_EXACT));
    CHECK(limits_refused(jlt_sheet_answer(NO_TEXT), 15, 0));
    CHECK(limits_refused(jlt_sheet_answer(TEXT("formula,parts")), 9, 0));
    CHECK(limits_refused(jlt_sheet_answer(TEXT("formula,parts\r\n")), 9, 0));
    CHECK(limits_refused(jlt_sheet_answer(TEXT("\xef\xbb\xbf" SHEET)), 15, 0));
    CHECK(limits_refused(jlt_sheet_answer(TEXT(SHEET "\r\n\r\n")), 15, 3));
    CHECK(limits_refused(jlt_sheet_answer(TEXT(SHEET "\r")), 15, 2));
    CHECK(limits_refused(jlt_sheet_answer(TEXT(SHEET "\nCH4,1")), 15, 2));
    CHECK(limits_refused(jlt_sheet_answer(TEXT(SHEET "\r\nCH4,1")), 8, 3));
    CHECK(limits_refused(jlt_sheet_answer(TEXT(SHEET "\r\nCH4,00")), 15, 3));
    CHECK(limits_refused(jlt_sheet_answer(TEXT(SHEET "\r\n\"CH4\",1")), 15, 3));
    CHECK(limits_refused(jlt_sheet_answer(TEXT(SHEET "\r\nCH4,1,")), 15, 3));
    CHECK(limits_refused(jlt_sheet_answer(TEXT("formula,parts\r\nCH4,0\r\nC\xff,1")), 1, 2));
    CHECK(limits_refused(jlt_sheet_answer(TEXT("formula,parts\r\nC201,1")), 2, 1));
    CHECK(limits_refused(jlt_sheet_answer(TEXT("formula,parts\r\nH2,1")), 3, 1));
    CHECK(limits_refused(jlt_sheet_answer(TEXT("formula,parts\r\nCO2,0")), 4, 1));
    CHECK(limits_refused(jlt_sheet_answer(TEXT("formula,parts\r\nCH4,0")), 9, 0));
}

/* The text of an answer into a room one byte too small, exact, and larger. */
static void check_answer(jlw_refusal refusal, uint64_t lower, uint64_t upper, const char *line)
{
    char text[128];
    size_t length = (size_t)snprintf(text, sizeof text, "answer,record,lower,upper\r\n%s\r\n", line);
    for (size_t room = length - 1; room <= length + 1; room++) {
        uint8_t out[128];
        memset(out, '#', sizeof out);
        jlw_written written = jlt_write_sheet_answer(refusal, lower, upper, out, room);
        size_t size = room < length ? 0 : length;
        CHECK(is(written.refusal, size ? 0 : 17, 0) && written.length == size);
        CHECK(memcmp(out, text, size) == 0);
        for (size_t at = size; at < sizeof out; at++)
            CHECK(out[at] == '#');
    }
    CHECK(is(jlt_write_sheet_answer(refusal, lower, upper, NULL, 0).refusal, 17, 0));
}

static void test_sheet_answers(void)
{
    jlw_refusal none = {0, 0}, form = {15, 12}, large = {UINT64_MAX, UINT64_MAX};
    check_answer(none, 258, 1487, "0,0,2.58,14.87");
    check_answer(none, 5, 0, "0,0,0.05,0.00");
    check_answer(none, UINT64_MAX, 100, "0,0,184467440737095516.15,1.00");
    check_answer(form, 0, 0, "15,12,,");
    check_answer(form, 258, 1487, "15,12,,");
    check_answer(large, 0, 0, "18446744073709551615,18446744073709551615,,");
}

int main(void)
{
    test_read();
    test_read_lengths();
    test_write_rooms();
    test_write();
    test_oxygen();
    test_fraction();
    test_limits();
    test_exact_limits();
    test_mass();
    test_blends();
    test_exact_blends();
    test_out_of_bounds();
    test_division();
    test_bonds();
    test_classes();
    test_curves();
    test_bad_curves();
    test_longest_curve();
    test_readings();
    test_counts();
    test_sheets();
    test_sheet_answers();
    printf("C: %d checks, %d failed\n", checks, failures);
    return failures != 0;
}
