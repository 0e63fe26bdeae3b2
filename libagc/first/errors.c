#include "agc.h"

#include <stdio.h>

/* Which row of costs is the first wrong one, from 0 on. The other lists go the same way. */
static unsigned wrong_cost(AgcTimetable times) {
    size_t all = times.cost_count;
    for (times.cost_count = 1; times.cost_count < all; times.cost_count++)
        if (agc_clock_check(&times) != AGC_OK) break;
    return (unsigned)times.cost_count - 1;
}

int main(void) {
    AgcRow rows[] = {{02000, 5, {{AGC_ROUSE, 04000, 0, 0}}}, {02000, 5, {{AGC_ROUSE, 04100, 0, 0}}}};
    AgcPlan plan = {rows, 2, NULL, 0};
    AgcCost costs[] = {{04000, 1700, 0, 0, 0, 0}, {04000, 1200, 0, 0, 0, 0}};
    AgcTimetable times = {6000, NULL, 0, costs, 2, NULL, 0, NULL, 0};
    uint16_t words[AGC_WORDS];
    char rule[AGC_LINE];

    uint32_t code = agc_plan_check(&plan);
    if (code != AGC_OK)
        printf("rows[%u]: %s\n", (unsigned)agc_plan_first(&plan), agc_code_text(code));
    code = agc_clock_check(&times);
    if (code != AGC_OK) printf("costs[%u]: %s\n", wrong_cost(times), agc_code_text(code));

    if (agc_clear(words, 7) != AGC_OK) return 1;
    words[AGC_PHASE_PLACE + 3] = 5;
    AgcFinding told = agc_explain(words, 7);
    AgcNumber length = agc_write_rule(told.rule, rule, sizeof rule);
    if (told.code != AGC_OK && length.code == AGC_OK)
        printf("%s %u is %05o: %.*s\n", agc_place_name(told.place), agc_place_number(told.place),
               told.found, (int)length.number, rule);
    if (told.wanted != AGC_ANY) printf("It should be %05o.\n", told.wanted);
    return 0;
}
