#include "agc.h"

#include <stdio.h>

int main(void) {
    uint16_t words[AGC_WORDS], moment[AGC_WORDS];
    AgcFired fired[AGC_FIRED];
    AgcPhaseEntry entries[] = {{4, 5, AGC_FINDVAC, 025, 06000, 7, 10, 06100, 7}};
    AgcPlan plan = {NULL, 0, entries, 1};
    AgcRequest phase = {AGC_PHASE, 4, 5, 0}, job = {AGC_FINDVAC, 030, 02100, 5};
    AgcRequest tick = {AGC_TICK, 0, 0, 0};
    AgcScene scene;

    if (agc_clear(words, 7) != AGC_OK) return 1;
    AgcStep step = agc_step(words, 7, &plan, &phase, fired, moment);
    while (step.reply != AGC_ALARMED)
        step = agc_step(words, 7, &plan, &job, fired, moment);
    if (agc_scene(words, 7, &scene) != AGC_OK) return 1;
    printf("alarm %o, then job %u runs at %05o\n", step.number, scene.running, scene.sets[0].at);
    while (step.fired == 0)
        step = agc_step(words, 7, &plan, &tick, fired, moment);
    printf("tick %05o/%05o\n", fired[0].at, fired[0].bank);
    return 0;
}
