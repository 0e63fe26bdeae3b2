#include "agc.h"

#include <stdio.h>

int main(void) {
    AgcRow rows[] = {{02000, 5, {{AGC_FINDVAC, 020, 04000, 7}, {AGC_LIST, 200, 02000, 5}}},
                     {02100, 5, {{AGC_NOVAC, 030, 05000, 7}, {AGC_LIST, 100, 02100, 5}}}};
    AgcPhaseEntry entries[] = {{5, 1, AGC_FINDVAC, 020, 04000, 7, 200, 02000, 5}};
    AgcPlan plan = {rows, 2, entries, 1};
    AgcStolen stolen[] = {{.from = 0, .to = 8640000, .percent = 15}};
    AgcCost costs[] = {{.at = 04000, .hundredths = 17000}, {.at = 05000, .hundredths = 1200}};
    AgcRequest asks[] = {{AGC_PHASE, 5, 1, 0}, {AGC_LIST, 1, 02000, 5}, {AGC_LIST, 1, 02100, 5}};
    AgcEvent events[] = {{.at = 0, .first = 0, .count = 2}, {.at = 49, .first = 2, .count = 1}};
    AgcTimetable times = {60000, stolen, 1, costs, 2, events, 2, asks, 3};
    uint16_t words[AGC_WORDS], moment[AGC_WORDS];
    AgcFired fired[AGC_FIRED];
    AgcClock clock = {0};
    AgcRequest request;
    unsigned served = 0;

    if (agc_clear(words, 7) != AGC_OK) return 1;
    AgcNumber who = agc_clock_next(words, 7, &times, &clock, &request);
    while (who.number) {
        AgcStep step = agc_step(words, 7, &plan, &request, fired, moment);
        served++;
        if (step.reply == AGC_ALARMED || step.reply == AGC_TICK_ALARMED)
            printf("%.2f s, request %u: alarm %o\n", clock.time / 100.0, served, step.number);
        if (agc_clock_served(words, 7, &step, &clock) != AGC_OK) return 1;
        who = agc_clock_next(words, 7, &times, &clock, &request);
    }
    if (who.code != AGC_OK) return puts(agc_code_text(who.code)), 1;
    printf("%.2f s, request %u: the end\n", clock.time / 100.0, served);
    return 0;
}
