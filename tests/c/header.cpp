// Both headers are usable from C++.
#include "../testing.h"

int main()
{
    const unsigned char text[] = {'C', 'H', '4'};
    jlw_limits limits = jlw_fuel_limits_at(text, sizeof text, 13400);
    jlw_rounded fraction = jlw_stoichiometric_fraction(text, sizeof text);
    jlt_rounded_temperature alcohol = jlt_flash_by_class(2, 7840);
    bool values = limits.lower == 414 && limits.upper == 3099 && fraction.value == 936 && alcohol.value == 943;
    bool marks = limits.lower_mark == JLW_LOWERED && limits.upper_mark == JLW_LOWERED && fraction.mark == JLW_LOWERED && alcohol.mark == JLW_RAISED;
    return values && marks ? 0 : 1;
}
