#include "agc.h"

#include <stdio.h>

int main(void) {
    uint16_t words[AGC_WORDS];
    AgcScene scene;
    AgcRequest job = {AGC_NOVAC, 020, 02000, 5}, other = {AGC_FINDVAC, 030, 02100, 5}, change = {AGC_CHANGE, 0, 0, 0};
    AgcRequest list = {AGC_LIST, 2, 04000, 7}, tick = {AGC_TICK, 0, 0, 0}, phase = {AGC_PHASE, 4, 5, 0};
    AgcPhaseEntry plan[] = {{4, 5, AGC_FINDVAC, 025, 06000, 7, 10, 06100, 7}};

    if (agc_clear(words, 7) != AGC_OK) return 1;
    printf("job %u\n", agc_call(words, 7, &job).number);
    printf("job %u\n", agc_call(words, 7, &other).number);
    AgcReply reply = agc_call(words, 7, &change);
    if (agc_scene(words, 7, &scene) != AGC_OK) return 1;
    printf("runs %u, at %05o\n", reply.number, scene.sets[0].at);

    reply = agc_call(words, 7, &list);
    for (int k = 1; k <= 2; k++) {
        if (agc_call(words, 7, &tick).code != AGC_OK) return 1;
        for (AgcTask task; (task = agc_dispatch(words, 7)).code == AGC_OK;)
            printf("tick %d fires %05o\n", k, task.at);
    }

    reply = agc_call(words, 7, &phase);
    while (reply.reply != AGC_ALARMED)
        reply = agc_call(words, 7, &other);
    if (agc_begin(words, 7, reply.number, plan, 1) != AGC_OK || agc_scene(words, 7, &scene) != AGC_OK) return 1;
    printf("alarm %o, then job %u, at %05o\n", reply.number, scene.running, scene.sets[0].at);

    job.first = 32;
    printf("priority 32: code %u\n", agc_call(words, 7, &job).code);
    return 0;
}
