/* So many calls of agc_check on an image with seven jobs, nine tasks and six phases; or, where a number of rows is named,
   of agc_step_trusted by a plan of as many, in turn a phase, a tick in which nothing fires, a job and its end. For a tool
   that counts instructions. */
#include "agc.h"

#include <stdlib.h>

enum { MOST = 640 };

static uint32_t call(uint16_t *words, uint32_t kind, uint32_t first, uint32_t second, uint32_t third) {
    AgcRequest request = {kind, first, second, third};
    return agc_call(words, 7, &request).code;
}

static uint32_t check(long calls) {
    static uint16_t words[AGC_WORDS];
    uint32_t k, code = agc_clear(words, 7);
    for (k = 0; k < 5; k++) code |= call(words, AGC_FINDVAC, 1 + k, 02000, 5);
    for (k = 0; k < 2; k++) code |= call(words, AGC_NOVAC, 3, 02000, 5);
    for (k = 0; k < 9; k++) code |= call(words, AGC_LIST, 100 + k * 3 % 7, 04000, 7);
    for (k = 1; k <= 6; k++) code |= call(words, AGC_PHASE, k, k, 0);
    while (calls-- > 0) code |= agc_check(words, 7).code;
    return code;
}

static uint32_t step(long calls, size_t count) {
    static const AgcRequest requests[] = {{AGC_PHASE, 1, 3, 0}, {AGC_TICK, 0, 0, 0}, {AGC_NOVAC, 020, 04000, 5}, {AGC_END, 0, 0, 0}};
    static uint16_t words[AGC_WORDS], moment[AGC_WORDS];
    static AgcRow rows[MOST];
    AgcPlan plan = {rows, count, NULL, 0};
    AgcFired fired[AGC_FIRED];
    uint32_t code = agc_clear(words, 7);
    size_t k;
    for (k = 0; k < MOST; k++) {
        rows[k].at = 02000 + (uint32_t)k;
        rows[k].actions[0] = requests[2];
    }
    for (k = 0; k < (size_t)calls; k++)
        code |= agc_step_trusted(words, 7, &plan, &requests[k % 4], fired, moment).code;
    return code;
}

int main(int argc, char **argv) {
    long calls = argc > 1 ? atol(argv[1]) : 0, rows = argc > 2 ? atol(argv[2]) : 0;
    return (int)(rows > 0 ? step(calls, (size_t)rows) : check(calls));
}
