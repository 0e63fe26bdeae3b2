/* Each code from each call, and that the array is as it was where a call wasn't served. */
#define AGC_IGNORE_ANSWERS
#include "agc.h"

#include <stdio.h>
#include <stdlib.h>
#include <string.h>

static uint16_t image[AGC_WORDS];
static int failed;

static void check(bool held, const char *what, uint32_t sets, uint32_t wanted) {
    if (!held) {
        printf("codes: %s with %u sets: not code %u, or not as it was\n", what, sets, wanted);
        failed = 1;
    }
}

static AgcReply call(uint16_t *words, uint32_t sets, uint32_t kind, uint32_t first, uint32_t second, uint32_t third) {
    AgcRequest request = {kind, first, second, third};
    return agc_call(words, sets, &request);
}

/* CALL answers a code, on `w` and `s`. First an image that isn't one; then the call's own numbers. */
#define BROKEN(NAME, CODE_OF)                                                               \
    do {                                                                                    \
        uint16_t w[AGC_WORDS] = {0}, was[AGC_WORDS];                                        \
        for (uint32_t s = 7; s <= 8; s++) {                                                 \
            agc_clear(w, s);                                                                \
            memcpy(was, w, sizeof w);                                                       \
            { uint32_t s = 6; check(CODE_OF == 1 && !memcmp(w, was, sizeof w), NAME, s, 1); } \
            { uint32_t s = 9; check(CODE_OF == 1 && !memcmp(w, was, sizeof w), NAME, s, 1); } \
            uint32_t last = s == 7 ? 131 : 143;                                             \
            w[last] = was[last] = 32768;                                                    \
            check(CODE_OF == 2 && !memcmp(w, was, sizeof w), NAME, s, 2);                   \
            agc_clear(w, s);                                                                \
            w[89] = 12;                                                                     \
            memcpy(was, w, sizeof w);                                                       \
            check(CODE_OF == 3 && !memcmp(w, was, sizeof w), NAME, s, 3);                   \
        }                                                                                   \
    } while (0)

#define IS(NAME, CODE, CODE_OF)                                                             \
    do {                                                                                    \
        uint16_t w[AGC_WORDS], was[AGC_WORDS];                                              \
        uint32_t s = 7;                                                                     \
        memcpy(w, image, sizeof w);                                                         \
        memcpy(was, image, sizeof w);                                                       \
        check(CODE_OF == CODE && (CODE == 0 || !memcmp(w, was, sizeof w)), NAME, s, CODE);  \
    } while (0)

static void images(void) {
    BROKEN("agc_check", agc_check(w, s).code);
    BROKEN("AGC_RESTART", call(w, s, AGC_RESTART, 0, 0, 0).code);
    BROKEN("AGC_NOVAC", call(w, s, AGC_NOVAC, 1, 1, 0).code);
    BROKEN("AGC_FINDVAC", call(w, s, AGC_FINDVAC, 1, 1, 0).code);
    BROKEN("AGC_END", call(w, s, AGC_END, 0, 0, 0).code);
    BROKEN("AGC_SLEEP", call(w, s, AGC_SLEEP, 1, 0, 0).code);
    BROKEN("AGC_ROUSE", call(w, s, AGC_ROUSE, 1, 0, 0).code);
    BROKEN("AGC_PRIO", call(w, s, AGC_PRIO, 1, 0, 0).code);
    BROKEN("AGC_CHANGE", call(w, s, AGC_CHANGE, 0, 0, 0).code);
    BROKEN("AGC_STORE", call(w, s, AGC_STORE, 1, 0, 0).code);
    BROKEN("AGC_LIST", call(w, s, AGC_LIST, 1, 1, 0).code);
    BROKEN("AGC_TICK", call(w, s, AGC_TICK, 0, 0, 0).code);
    BROKEN("agc_dispatch", agc_dispatch(w, s).code);
    BROKEN("AGC_PHASE", call(w, s, AGC_PHASE, 1, 0, 0).code);
    BROKEN("agc_record_alarm", agc_record_alarm(w, s, AGC_ALARM_1107));
    IS("agc_check", 0, (agc_clear(w, 8), w[143] = 0, agc_check(w, 7).code));
    IS("agc_check", 0, (agc_clear(w, 8), w[143] = 0100000, agc_check(w, 7).code));
    IS("agc_clear", 1, agc_clear(w, 6));
    IS("agc_clear", 1, agc_clear(w, 4294967295u));
    IS("agc_clear", 0, agc_clear(w, s));
    IS("agc_migrate", 2, (w[131] = was[131] = 40000, agc_migrate(w)));
    IS("agc_migrate", 3, (w[89] = was[89] = 12, agc_migrate(w)));
    IS("agc_migrate", 0, agc_migrate(w));
}

static void numbers(void) {
    uint32_t most = 4294967295u;
    IS("AGC_NOVAC", 4, call(w, s, AGC_NOVAC, 0, 1, 0).code);
    IS("AGC_NOVAC", 4, call(w, s, AGC_NOVAC, 32, 1, 0).code);
    IS("AGC_NOVAC", 4, call(w, s, AGC_NOVAC, 257, 1, 0).code);
    IS("AGC_NOVAC", 4, call(w, s, AGC_NOVAC, 1, 0, most).code);
    IS("AGC_NOVAC", 4, call(w, s, AGC_NOVAC, 1, 16384, 0).code);
    IS("AGC_NOVAC", 5, call(w, s, AGC_NOVAC, 1, 16383, 32768).code);
    IS("AGC_NOVAC", 0, call(w, s, AGC_NOVAC, 31, 16383, 32767).code);
    IS("AGC_FINDVAC", 4, call(w, s, AGC_FINDVAC, 32, 1, 0).code);
    IS("AGC_FINDVAC", 4, call(w, s, AGC_FINDVAC, 1, 65537, 0).code);
    IS("AGC_FINDVAC", 5, call(w, s, AGC_FINDVAC, 1, 1, most).code);
    IS("AGC_FINDVAC", 0, call(w, s, AGC_FINDVAC, 1, 1, 0).code);
    IS("AGC_END", 0, call(w, s, AGC_END, 0, 0, 0).code);
    IS("AGC_SLEEP", 4, call(w, s, AGC_SLEEP, 0, 0, 0).code);
    IS("AGC_SLEEP", 4, call(w, s, AGC_SLEEP, 16384, 0, 0).code);
    IS("AGC_SLEEP", 0, call(w, s, AGC_SLEEP, 1, 0, 0).code);
    IS("AGC_ROUSE", 4, call(w, s, AGC_ROUSE, 0, 0, 0).code);
    IS("AGC_ROUSE", 0, call(w, s, AGC_ROUSE, 1, 0, 0).code);
    IS("AGC_PRIO", 4, call(w, s, AGC_PRIO, 32, 0, 0).code);
    IS("AGC_PRIO", 0, call(w, s, AGC_PRIO, 31, 0, 0).code);
    IS("AGC_CHANGE", 0, call(w, s, AGC_CHANGE, 0, 0, 0).code);
    IS("AGC_STORE", 4, call(w, s, AGC_STORE, 0, 0, 0).code);
    IS("AGC_STORE", 4, call(w, s, AGC_STORE, 7, most, 0).code);
    IS("AGC_STORE", 5, call(w, s, AGC_STORE, 6, 32768, 0).code);
    IS("AGC_STORE", 0, call(w, s, AGC_STORE, 6, 32767, 0).code);
    IS("AGC_LIST", 4, call(w, s, AGC_LIST, 0, 1, 0).code);
    IS("AGC_LIST", 4, call(w, s, AGC_LIST, 16251, 1, 0).code);
    IS("AGC_LIST", 4, call(w, s, AGC_LIST, 1, 16384, 0).code);
    IS("AGC_LIST", 5, call(w, s, AGC_LIST, 1, 1, 32768).code);
    IS("AGC_LIST", 0, call(w, s, AGC_LIST, 16250, 16383, 32767).code);
    IS("AGC_TICK", 0, call(w, s, AGC_TICK, 0, 0, 0).code);
    IS("agc_dispatch", 6, agc_dispatch(w, s).code);
    IS("AGC_PHASE", 4, call(w, s, AGC_PHASE, 0, 0, 0).code);
    IS("AGC_PHASE", 4, call(w, s, AGC_PHASE, 7, 0, 0).code);
    IS("AGC_PHASE", 4, call(w, s, AGC_PHASE, 1, 128, 0).code);
    IS("AGC_PHASE", 0, call(w, s, AGC_PHASE, 6, 127, 0).code);
    IS("agc_record_alarm", 4, agc_record_alarm(w, s, 1201));
    IS("agc_record_alarm", 0, agc_record_alarm(w, s, AGC_ALARM_1203));
}

static void eras(void) {
    AgcPhaseEntry job = {6, 127, AGC_NOVAC, 31, 16383, 32767, 0, 0, 0}, task = {6, 127, 0, 0, 0, 0, 16250, 16383, 32767};
    AgcPhaseEntry six[6], of_phase_0 = {1, 0, 3, 0, 0, 0, 0, 0, 0};
    BROKEN("agc_begin", agc_begin(w, s, 0, NULL, 0));
    IS("agc_begin", 1, agc_begin(w, 4294967295u, 0, NULL, 0));
    IS("agc_begin", 4, agc_begin(w, s, 1201, NULL, 0));
    IS("agc_begin", 0, agc_begin(w, s, AGC_ALARM_1107, NULL, 0));
    IS("agc_begin of phase 0", 9, agc_begin(w, s, 0, &of_phase_0, 1));
#define ONE(ENTRY, CHANGE, CODE)                                                             \
    do {                                                                                     \
        AgcPhaseEntry e = ENTRY;                                                                  \
        e.CHANGE;                                                                            \
        IS("agc_begin, " #ENTRY " " #CHANGE, CODE,                                           \
           (call(w, s, AGC_PHASE, 6, 127, 0), memcpy(was, w, sizeof w), agc_begin(w, s, AGC_ALARM_1202, &e, 1))); \
    } while (0)
    ONE(job, job = 3, 9);
    ONE(job, priority = 0, 9);
    ONE(job, priority = 32, 9);
    ONE(job, job_at = 0, 9);
    ONE(job, job_at = 16384, 9);
    ONE(job, job_bank = 32768, 9);
    ONE(job, delay = 1, 9);
    ONE(job, delay = 0, 0);
    ONE(task, delay = 16251, 9);
    ONE(task, task_at = 0, 9);
    ONE(task, task_bank = 32768, 9);
    ONE(task, group = 0, 9);
    ONE(task, group = 7, 9);
    ONE(task, group = 5, 0);
    ONE(task, phase = 0, 9);
    ONE(task, phase = 128, 9);
    for (uint32_t k = 0; k < 6; k++) {
        AgcPhaseEntry it = {k + 1, 1, AGC_FINDVAC, 1, 1, 0, 0, 0, 0};
        six[k] = it;
        call(image, 7, AGC_PHASE, k + 1, 1, 0);
    }
    IS("agc_begin, six areas", 12, agc_begin(w, s, AGC_ALARM_1201, six, 6));
    six[5] = six[0];
    IS("agc_begin, one phase twice", 11, agc_begin(w, s, AGC_ALARM_1201, six, 6));
    IS("agc_begin, five areas", 0, agc_begin(w, s, AGC_ALARM_1201, six + 1, 5));
    agc_clear(image, 7);
}

/* agc_step on `w` and `s`, with this plan. The moment is filled whatever the code, and nothing else is changed with another. */
static uint32_t step(uint16_t *w, uint32_t s, const AgcRow *rows, size_t n, const AgcPhaseEntry *entries, size_t m, AgcRequest asked) {
    AgcFired fired[AGC_FIRED], was[AGC_FIRED];
    uint16_t moment[AGC_WORDS], before[AGC_WORDS];
    memset(fired, 7, sizeof fired);
    memset(was, 7, sizeof was);
    memset(moment, 7, sizeof moment);
    memcpy(before, w, sizeof before);
    AgcPlan plan = {rows, n, entries, m};
    AgcStep it = agc_step(w, s, &plan, &asked, fired, moment);
    check(it.code == 0 || !memcmp(fired, was, sizeof was), "places for tasks", s, it.code);
    check(it.code == 0 || (it.reply | it.number | it.fired | it.action) == 0, "the rest of agc_step", s, it.code);
    check(it.code == 0 || !memcmp(moment, before, (s == 8 ? 144 : 132) * sizeof *moment), "a moment", s, it.code);
    return it.code;
}

static void steps(void) {
    AgcRequest change = {AGC_CHANGE, 9, 9, 9}, none = {AGC_NOTHING, 0, 0, 0}, beyond = {14, 0, 0, 0};
    AgcRequest novac = {AGC_NOVAC, 32, 1, 0}, store = {AGC_STORE, 1, 32768, 0}, phase = {AGC_PHASE, 7, 0, 0};
    AgcRow rows[2] = {{1, 0, {{AGC_LIST, 1, 1, 0}}}, {1, 0, {{AGC_NOTHING, 9, 9, 9}}}}, row = rows[0];
    BROKEN("agc_step", step(w, s, NULL, 0, NULL, 0, change));
    IS("agc_step", 0, step(w, s, NULL, 0, NULL, 0, change));
    IS("agc_step of no kind", 4, step(w, s, NULL, 0, NULL, 0, none));
    IS("agc_step of no kind", 4, step(w, s, NULL, 0, NULL, 0, beyond));
    IS("agc_step", 4, step(w, s, NULL, 0, NULL, 0, novac));
    IS("agc_step", 4, step(w, s, NULL, 0, NULL, 0, phase));
    IS("agc_step", 5, step(w, s, NULL, 0, NULL, 0, store));
    IS("agc_step in a tick", 6, (call(w, s, AGC_LIST, 1, 1, 0), call(w, s, AGC_TICK, 0, 0, 0), memcpy(was, w, sizeof w),
                                 step(w, s, NULL, 0, NULL, 0, change)));
    IS("agc_step, MODE", 8, (call(w, s, AGC_NOVAC, 1, 1, 0), w[7] = 1, memcpy(was, w, sizeof w), step(w, s, NULL, 0, NULL, 0, change)));
    IS("agc_step, PUSHLOC", 8, (call(w, s, AGC_NOVAC, 1, 1, 0), w[10] = 1, memcpy(was, w, sizeof w), step(w, s, NULL, 0, NULL, 0, change)));
    IS("agc_step, a gap", 8, (call(w, s, AGC_LIST, 1, 1, 0), call(w, s, AGC_LIST, 2, 1, 0), w[91] = 077777, memcpy(was, w, sizeof w),
                              step(w, s, NULL, 0, NULL, 0, change)));
    IS("agc_step, a row twice", 10, step(w, s, rows, 2, NULL, 0, change));
    AgcPlan plan = {rows, 2, NULL, 0};
    check(agc_plan_check(&plan) == 10, "agc_plan_check, a row twice", 7, 10);
    plan.row_count = 1;
    check(agc_plan_check(&plan) == 0, "agc_plan_check", 7, 0);
    plan.rows = &row;
#define ROW(CHANGE)                                                                         \
    do {                                                                                    \
        row = rows[0];                                                                      \
        row.CHANGE;                                                                         \
        check(agc_plan_check(&plan) == 9, "agc_plan_check " #CHANGE, 7, 9);                \
        IS("agc_step, " #CHANGE, 9, step(w, s, &row, 1, NULL, 0, change));                  \
    } while (0)
    /* More rows than there are marks, by which rows are compared: none is twice, then the first and the last are one. */
    static AgcRow many[200];
    for (uint32_t k = 0; k < 200; k++) many[k].at = 1 + k / 2, many[k].bank = k % 2;
    IS("agc_step, 200 rows", 0, step(w, s, many, 200, NULL, 0, change));
    many[199] = many[0];
    IS("agc_step, a row twice of 200", 10, step(w, s, many, 200, NULL, 0, change));
    AgcPhaseEntry six[6];
    for (uint32_t k = 0; k < 6; k++) {
        AgcPhaseEntry it = {k + 1, 1, AGC_FINDVAC, 1, 1, 0, 0, 0, 0};
        six[k] = it;
    }
    IS("agc_step, six areas", 12, step(w, s, NULL, 0, six, 6, change));
    IS("agc_step, five areas", 0, step(w, s, NULL, 0, six, 5, change));
    six[5] = six[0];
    IS("agc_step, a phase twice", 11, step(w, s, rows, 1, six, 6, change));
    six[5].phase = 0;
    IS("agc_step, phase 0", 9, step(w, s, NULL, 0, six, 6, change));
    ROW(at = 0);
    ROW(at = 16384);
    ROW(bank = 32768);
    ROW(actions[3].kind = AGC_END);
    ROW(actions[3].kind = AGC_TICK);
    ROW(actions[3].kind = AGC_NOVAC);
    ROW(actions[3].kind = AGC_ROUSE);
    ROW(actions[0].first = 16251);
    ROW(actions[0].second = 0);
    ROW(actions[0].third = 32768);
}

static void clocks(void) {
    AgcClock clock;
    AgcRequest it;
    AgcTimetable tick = {1, NULL, 0, NULL, 0, NULL, 0, NULL, 0};
    AgcStep step = {AGC_OK, AGC_TICKED, 0, 0, 0};
    memset(&clock, 0, sizeof clock);
    BROKEN("agc_clock_next", agc_clock_next(w, s, &tick, &clock, &it).code);
    BROKEN("agc_clock_served", agc_clock_served(w, s, &step, &clock));
    check(clock.time == 0, "a clock of no image", 7, 0);
    IS("agc_clock_next", 0, agc_clock_next(w, s, &tick, &clock, &it).code);
    check(clock.time == 1 && it.kind == AGC_TICK, "the time is over after a tick", 7, 0);
    IS("agc_clock_served", 0, agc_clock_served(w, s, &step, &clock));
}

/* Whether a request is served with these counts before it, and what pulses ask for. */
static void asking(void) {
    AgcRequest change = {AGC_CHANGE, 0, 0, 0}, restart = {AGC_RESTART, 0, 0, 0}, fresh = {AGC_FRESH, 0, 0, 0};
    AgcRequest none = {AGC_NOTHING, 0, 0, 0}, store = {AGC_STORE, 1, 32768, 0}, novac = {AGC_NOVAC, 31, 16383, 32767};
    AgcRequest list = {AGC_LIST, 2, 1024, 5}, tick = {AGC_TICK, 0, 0, 0}, five[5], found[AGC_ACTIONS], was[AGC_ACTIONS];
    AgcBounds bounds = {9, 10, 4, 5}, all = {UINT64_MAX - 1, UINT64_MAX, 0, 1};
    check(agc_refusal(&change, &bounds) == 0 && agc_refusal(&change, &all) == 0, "a request within its bounds", 7, 0);
    check(agc_refusal(&none, &bounds) == 4 && agc_refusal(&store, &bounds) == 5, "numbers that are no request", 7, 4);
    bounds.logged = 5;
    check(agc_refusal(&change, &bounds) == 20 && agc_refusal(&tick, &bounds) == 20, "a full log", 7, 20);
    check(agc_refusal(&restart, &bounds) == 0 && agc_refusal(&fresh, &bounds) == 0, "what starts over a full log", 7, 0);
    bounds.served = 10;
    check(agc_refusal(&change, &bounds) == 19 && agc_refusal(&restart, &bounds) == 19, "a used allowance", 7, 19);
    check(agc_refusal(&none, &bounds) == 4, "no request beyond the allowance", 7, 4);
    bounds.served = 11;
    check(agc_refusal(&fresh, &bounds) == 19, "more than the allowance", 7, 19);
    AgcBounds nothing = {0, 0, 0, 0};
    check(agc_refusal(&tick, &nothing) == 19, "an allowance of nothing", 7, 19);

    memset(was, 7, sizeof was);
    memcpy(found, was, sizeof was);
    AgcNumber it = agc_pulse(AGC_TIMER, NULL, 0, NULL, 0, found);
    check(it.code == 0 && it.number == 1 && !memcmp(found, &tick, sizeof tick) && !memcmp(found + 1, was + 1, sizeof was - sizeof *was), "the timer", 7, 0);
    AgcAction key[AGC_ACTIONS] = {{AGC_NOTHING, 9, 9, 9}, novac, {AGC_NOTHING, 0, 0, 0}, list};
    memcpy(found, was, sizeof was);
    it = agc_pulse(AGC_KEY, key, AGC_ACTIONS, NULL, 0, found);
    check(it.code == 0 && it.number == 2 && !memcmp(found, &novac, sizeof novac) && !memcmp(found + 1, &list, sizeof list) &&
          !memcmp(found + 2, was + 2, 2 * sizeof *was), "two of four actions", 7, 0);
    memcpy(found, was, sizeof was);
    it = agc_pulse(AGC_RADAR, key, AGC_ACTIONS, NULL, 0, found);
    check(it.code == 0 && it.number == 0 && !memcmp(found, was, sizeof was), "a radar of nothing", 7, 0);
    it = agc_pulse(3, key, AGC_ACTIONS, NULL, 0, found);
    check(it.code == 4 && it.number == 0 && !memcmp(found, was, sizeof was), "no line", 7, 4);
    for (int k = 0; k < 5; k++) five[k] = list;
    check(agc_pulse(AGC_RADAR, NULL, 0, five, 4, found).number == 4, "four actions", 7, 0);
    memcpy(found, was, sizeof was);
    check(agc_pulse(AGC_KEY, five, 5, NULL, 0, found).code == 9 && agc_pulse(AGC_TIMER, NULL, 0, five, 5, found).code == 9, "five actions", 7, 9);
    check(agc_pulse(AGC_KEY, &tick, 1, NULL, 0, found).code == 9 && agc_pulse(AGC_TIMER, NULL, 0, &store, 1, found).code == 9, "no action", 7, 9);
    five[3].first = 16251;
    check(agc_pulse(AGC_KEY, five, 4, NULL, 0, found).code == 9 && !memcmp(found, was, sizeof was), "an action out of range", 7, 9);
}

/* An event that comes again may have its last time before its first: then it never comes. */
static void never(void) {
    AgcRequest change = {AGC_CHANGE, 0, 0, 0}, it = change;
    AgcEvent event = {5, 2, 4, 0, 1, 0};
    AgcTimetable table = {20, NULL, 0, NULL, 0, &event, 1, &change, 1};
    AgcClock clock;
    uint16_t words[AGC_WORDS];
    memset(&clock, 0, sizeof clock);
    check(agc_clock_check(&table) == 0, "an event that never comes", 7, 0);
    agc_clear(words, 7);
    for (int k = 0; k < 20; k++) {
        AgcStep step = {AGC_OK, AGC_TICKED, 0, 0, 0};
        check(agc_clock_next(words, 7, &table, &clock, &it).number == 1, "a tick, and no event", 7, 0);
        check(agc_clock_served(words, 7, &step, &clock) == 0, "a tick", 7, 0);
    }
    check(agc_clock_next(words, 7, &table, &clock, &it).number == 0, "the time is over", 7, 0);
    event.until = 8640001;
    check(agc_clock_check(&table) == 15, "an event beyond a day", 7, 15);
}

static void power(void) {
    AgcPhaseEntry entries[2] = {{6, 127, AGC_NOVAC, 31, 16383, 32767, 0, 0, 0}, {6, 127, 0, 0, 0, 0, 0, 0, 0}};
    uint16_t phases[AGC_PHASE_WORDS] = {077777, 0, 077777, 0, 077777, 0, 077777, 0, 077777, 0, 077600, 0177};
    IS("agc_power_up", 1, agc_power_up(w, 6, entries, 1, phases).code);
    IS("agc_power_up", 11, agc_power_up(w, s, entries, 2, phases).code);
    IS("agc_power_up", 0, agc_power_up(w, s, entries, 1, phases).code);
    entries[0].job_at = 0;
    IS("agc_power_up", 9, agc_power_up(w, s, entries, 1, phases).code);
    phases[11] = 32768;
    IS("agc_power_up", 2, agc_power_up(w, s, NULL, 0, phases).code);
    phases[11] = 0176;
    IS("agc_power_up of words that don't agree", 0, agc_power_up(w, s, NULL, 0, phases).code);
}

static void lines(void) {
    const char *wrong[] = {"", "end ", " end", "END", "novac 20 2000 00005", "novac 00 02000 00005", "list 0 02000 00005",
                           "list 01 02000 00005", "list 16251 02000 00005", "phase 7 1", "phase 1 128", "store 0 00000",
                           "sleep 00000", "rouse 40000", "prio 40", "novac 20 02000 00005 ", "novac 20 02000 100000", "tick\n", "nothing"};
    AgcRequest it = {1, 2, 3, 4}, was = it;
    for (size_t k = 0; k < sizeof wrong / sizeof *wrong; k++) {
        char *own = malloc(strlen(wrong[k]) + 1);
        memcpy(own, wrong[k], strlen(wrong[k]));
        check(agc_read_request(own, strlen(wrong[k]), &it) == 13 && !memcmp(&it, &was, sizeof it), wrong[k], 7, 13);
        free(own);
    }
    check(agc_read_request("tick\0", 5, &it) == 13 && agc_read_request("tick", 3, &it) == 13, "a part of tick", 7, 13);
    check(agc_read_request("tick", 4, &it) == 0 && it.kind == AGC_TICK && it.first + it.second + it.third == 0, "tick", 7, 0);
    check(agc_read_request("store 6 77777", 13, &it) == 0 && it.kind == AGC_STORE && it.first == 6 && it.second == 077777, "store", 7, 0);
    check(agc_read_action("nothing", 7, &it) == 0 && it.kind == AGC_NOTHING, "nothing", 7, 0);
    check(agc_read_action("list 16250 37777 77777", 22, &it) == 0 && it.kind == AGC_LIST && it.first == 16250 && it.second == 037777 &&
          it.third == 077777, "list", 7, 0);
    was = it;
    check(agc_read_action("tick", 4, &it) == 13 && agc_read_action("end", 3, &it) == 13 && !memcmp(&it, &was, sizeof it), "no action", 7, 13);
}

/* The code of the line of a step with this reply and number, in which so many tasks fired: 14 if there is a line. */
static uint32_t said(uint32_t reply, uint32_t number, uint32_t count, const AgcFired *fired) {
    AgcStep step = {AGC_OK, reply, number, count, 0};
    return agc_write_reply(&step, fired, NULL, 0).code;
}

static void numbers_of_replies(void) {
    const uint32_t of_a_job[] = {AGC_ESTABLISHED, AGC_LEFT, AGC_ROUSED, AGC_RUNS}, of_an_alarm[] = {AGC_ALARMED, AGC_TICK_ALARMED};
    const uint32_t no_job[] = {0, 9, 257}, no_alarm[] = {0, 01107, 01200, 01204, 65536 + 01201};
    const AgcFired no_task[] = {{0, 0}, {16384, 0}, {1, 32768}};
    AgcFired fired[AGC_FIRED] = {{1, 0}, {16383, 32767}};
    for (size_t kind = 0; kind < sizeof of_a_job / sizeof *of_a_job; kind++) {
        check(said(of_a_job[kind], 1, 0, fired) == 14 && said(of_a_job[kind], 8, 0, fired) == 14, "a job", 7, 14);
        for (size_t k = 0; k < sizeof no_job / sizeof *no_job; k++)
            check(said(of_a_job[kind], no_job[k], 0, fired) == 4, "no job", 7, 4);
    }
    for (size_t kind = 0; kind < sizeof of_an_alarm / sizeof *of_an_alarm; kind++) {
        for (uint32_t code = 01201; code <= 01203; code++) check(said(of_an_alarm[kind], code, 0, fired) == 14, "an alarm", 7, 14);
        for (size_t k = 0; k < sizeof no_alarm / sizeof *no_alarm; k++)
            check(said(of_an_alarm[kind], no_alarm[k], 0, fired) == 4, "no alarm", 7, 4);
    }
    check(said(AGC_TICKED, 0, 2, fired) == 14, "two tasks", 7, 14);
    for (size_t k = 0; k < sizeof no_task / sizeof *no_task; k++) {
        fired[1] = no_task[k];
        check(said(AGC_TICKED, 0, 1, fired) == 14 && said(AGC_TICKED, 0, 2, fired) == 4, "no task", 7, 4);
    }
    for (size_t k = 0; k < AGC_FIRED; k++) fired[k] = (AgcFired){1, 0};
    check(said(AGC_TICKED, 0, AGC_FIRED, fired) == 14, "nine tasks", 7, 14);
    check(said(AGC_TICKED, 0, AGC_FIRED + 1, fired) == 4 && said(AGC_TICKED, 0, UINT32_MAX, fired) == 4, "more than nine tasks", 7, 4);
}

static void replies(void) {
    AgcFired fired[AGC_FIRED] = {{0, 0}};
    AgcStep step = {AGC_OK, AGC_TICKED, 0, 10, 0};
    check(agc_write_reply(&step, fired, NULL, 0).code == 4, "a reply of ten tasks", 7, 4);
    step.fired = 0;
    check(agc_write_reply(&step, fired, NULL, 0).code == 14 && agc_write_reply(&step, fired, NULL, 0).number == 5, "no room", 7, 14);
    step.reply = 15;
    check(agc_write_reply(&step, fired, NULL, 0).code == 4, "a reply of no kind", 7, 4);
    step.reply = 0;
    check(agc_write_reply(&step, fired, NULL, 0).code == 4, "a reply of no kind", 7, 4);
}

static void rules(void) {
    char text[AGC_LINE] = "";
    AgcNumber told = agc_write_rule(AGC_RULE_CODE, text, sizeof text);
    check(told.code == 0 && told.number == strlen(text) && strstr(text, "FAILREG") == text, "a rule", 7, 0);
    text[0] = 0;
    check(agc_write_rule(AGC_RULE_WORD, text, 30).code == 14 && agc_write_rule(AGC_RULE_WORD, text, 31).code == 0, "no room", 7, 14);
    text[0] = 0;
    check(agc_write_rule(0, text, sizeof text).code == 4 && agc_write_rule(AGC_RULE_TIDY_GAP + 1, text, sizeof text).code == 4 && text[0] == 0,
          "no rule", 7, 4);
}

static void scenes(void) {
    AgcScene scene = {0}, was;
    BROKEN("agc_scene", agc_scene(w, s, &scene));
    check(agc_scene(image, 7, &scene) == 0, "a scene", 7, 0);
    for (uint32_t k = 0; k < AGC_MOST_SETS; k++) check(scene.sets[k].number == 0, "no job", 7, 0);
    AgcRequest asks[] = {{AGC_NOVAC, 020, 02000, 5}, {AGC_FINDVAC, 030, 02100, 7}, {AGC_CHANGE, 0, 0, 0}, {AGC_STORE, 6, 077, 0}, {AGC_LIST, 5, 03000, 1}, {AGC_PHASE, 6, 127, 0}};
    for (size_t k = 0; k < sizeof asks / sizeof *asks; k++) agc_call(image, 7, &asks[k]);
    agc_record_alarm(image, 7, AGC_ALARM_1203);
    check(agc_scene(image, 7, &scene) == 0 && scene.running == 2 && scene.next == 0, "who runs", 7, 0);
    check(scene.sets[0].at == 02100 && scene.sets[0].bank == 7 && scene.sets[0].area == 1 && scene.sets[0].work[5] == 077, "its set", 7, 0);
    check(scene.sets[1].number == 1 && scene.sets[1].priority == 020 && !scene.sets[1].asleep && scene.sets[7].number == 0, "the other", 7, 0);
    check(scene.areas[0] == 2 && scene.areas[4] == 0 && scene.failreg[0] == AGC_ALARM_1203 && scene.failreg[1] == 0, "areas and codes", 7, 0);
    check(scene.tasks[0].at == 03000 && scene.tasks[0].left == 5 && scene.tasks[1].at == 0 && scene.phases[5] == 127, "tasks and phases", 7, 0);
    agc_clear(image, 7);
    was = scene;
    check(agc_scene(image, 9, &scene) == 1 && !memcmp(&was, &scene, sizeof was), "it stays", 9, 1);
}

static void reports(void) {
    AgcTotals most = {UINT64_MAX, UINT64_MAX, UINT64_MAX, UINT64_MAX, UINT64_MAX};
    char text[AGC_REPORT];
    BROKEN("agc_write_report", agc_write_report(w, s, &most, text, sizeof text).code);
    check(agc_write_report(image, 7, &most, text, sizeof text).code == 0, "the greatest counts", 7, 0);
    text[AGC_REPORT - 1] = 0;
    check(strstr(text, "SERVED 18446744073709551615\nALARMS 18446744073709551615 ") != NULL, "the greatest counts", 7, 0);
}

static void ticks(void) {
    call(image, 7, AGC_LIST, 1, 1, 0);
    call(image, 7, AGC_TICK, 0, 0, 0);
    IS("AGC_TICK", 6, call(w, s, AGC_TICK, 0, 0, 0).code);
    IS("agc_dispatch", 0, agc_dispatch(w, s).code);
    IS("agc_migrate", 6, agc_migrate(w));
    IS("agc_begin in a tick", 0, agc_begin(w, s, AGC_ALARM_1202, NULL, 0));
    IS("agc_check", 0, agc_check(w, s).code);
    check(!agc_check(image, 7).truth, "agc_check in a tick", 7, 0);
    check(agc_dispatch(image, 7).at == 1 && agc_check(image, 7).truth, "agc_check after it", 7, 0);
}

static void pointers(void) {
    check(agc_pointer(NULL) == AGC_NULL && agc_pointer(image) == AGC_OK, "agc_pointer", 7, 7);
    check(agc_pointer((const uint16_t *)(const void *)((const char *)image + 1)) == AGC_NULL, "a pointer that is not aligned", 7, 7);
}

static void texts(void) {
    check(!strcmp(agc_code_text(AGC_OK), "the call was served"), "agc_code_text", 7, 0);
    check(!strcmp(agc_code_text(4), "a number of the call is out of its range"), "agc_code_text", 7, 4);
    check(!strcmp(agc_code_text(13), "the line spells no request"), "agc_code_text", 7, 13);
    check(!strcmp(agc_code_text(17), "one address has two costs"), "agc_code_text", 7, 17);
    check(!strcmp(agc_code_text(20), "the log is full, which only a restart or a fresh start empties"), "agc_code_text", 7, 20);
    check(!strcmp(agc_code_text(21), "no call answers this code"), "agc_code_text", 7, 21);
    check(!strcmp(agc_reply_text(AGC_NO_SLEEPER), "no job sleeps at that address"), "agc_reply_text", 7, 0);
    check(!strcmp(agc_reply_text(0), "no reply is of this kind"), "agc_reply_text", 7, 0);
}

/* Which row or entry of a plan is told as the first. */
static void firsts(void) {
    AgcRow rows[5];
    AgcPhaseEntry entries[3];
    AgcPlan plan;
    memset(rows, 0, sizeof rows);
    memset(entries, 0, sizeof entries);
    for (int k = 0; k < 5; k++) rows[k].at = (uint32_t)(k + 1);
    for (int k = 0; k < 3; k++) entries[k].group = (uint32_t)(k + 1), entries[k].phase = 1;
    plan.rows = rows, plan.row_count = 5, plan.entries = entries, plan.entry_count = 3;
    check(agc_plan_first(&plan) == 8, "agc_plan_first of a plan", 7, 0);
    entries[2].group = 1;
    check(agc_plan_first(&plan) == 7, "agc_plan_first of a phase twice", 7, 11);
    rows[3].at = 2;
    check(agc_plan_first(&plan) == 3, "agc_plan_first of a task twice", 7, 10);
    entries[1].phase = 128;
    check(agc_plan_first(&plan) == 6, "agc_plan_first of a phase", 7, 9);
    rows[4].bank = 32768;
    check(agc_plan_first(&plan) == 4, "agc_plan_first of a bank", 7, 9);
    rows[0].at = 0;
    check(agc_plan_first(&plan) == 0, "agc_plan_first of the first", 7, 9);
}

int main(void) {
    agc_clear(image, 7);
    images();
    numbers();
    eras();
    steps();
    clocks();
    asking();
    never();
    power();
    lines();
    numbers_of_replies();
    replies();
    scenes();
    rules();
    reports();
    ticks();
    pointers();
    texts();
    firsts();
    return failed;
}
