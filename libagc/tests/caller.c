/* Asks the library what lines say, which caller.py describes, and writes what came of it. Of `scene` it writes nothing, and of
   `moment` a report. After the words, the tasks that fired and each text there is a mark, which no call may change. Tries what
   a clock refuses, too.

       caller checked|trusted|single

   by agc_step, by agc_step_trusted, or by agc_call. */
#define AGC_IGNORE_ANSWERS
#include "agc.h"

#include <stdio.h>
#include <stdlib.h>
#include <string.h>

enum { MOST = 256, MARK = 0x7a };

static uint16_t words[AGC_WORDS], moment[AGC_WORDS];
static uint32_t sets, lasts;
static bool is_trusted, is_single, is_bench;
static AgcTotals totals;
static AgcRow rows[MOST];
static AgcPhaseEntry entries[MOST];
static AgcStolen stolen[MOST];
static AgcCost costs[MOST];
static AgcEvent events[MOST];
static AgcRequest requests[MOST];
static size_t row_count, entry_count, stolen_count, cost_count, event_count, request_count;
static AgcClock timer;

static void want(bool holds, const char *what) {
    if (!holds) {
        fprintf(stderr, "caller: it doesn't hold: %s\n", what);
        exit(1);
    }
}

/* A reply's line by its numbers alone. */
static void spell(const AgcStep *it, const AgcFired *fired, char *to) {
    const char *texts[] = {"", "job", "left", "left idle", "roused", "no sleeper", "no job", "runs", "stored", "listed", "alarm",
                           "phased", "tick", "tick", "restarted"};
    to += sprintf(to, "%s", texts[it->reply]);
    for (uint32_t k = 0; k < it->fired; k++) to += sprintf(to, " %05o/%05o", fired[k].at, fired[k].bank);
    switch (it->reply) {
    case AGC_ESTABLISHED: case AGC_LEFT: case AGC_ROUSED: case AGC_RUNS: sprintf(to, " %u", it->number); break;
    case AGC_ALARMED: sprintf(to, " %o", it->number); break;
    case AGC_TICK_ALARMED: sprintf(to, " alarm %o", it->number); break;
    default: want(it->number == 0, "no number");
    }
}

/* Writes a reply's line, first with one byte too few. */
static void say(const AgcStep *it, const AgcFired *fired) {
    char text[AGC_LINE + 1], own[AGC_LINE + 1], was[AGC_LINE + 1];
    memset(text, MARK, sizeof text);
    memset(was, MARK, sizeof was);
    spell(it, fired, own);
    AgcNumber length = agc_write_reply(it, fired, NULL, 0);
    want(length.code == AGC_NO_ROOM && length.number == strlen(own) + 1, "a reply's length");
    want(agc_write_reply(it, fired, text, length.number - 1).code == AGC_NO_ROOM && !memcmp(text, was, sizeof was), "no room");
    AgcNumber written = agc_write_reply(it, fired, text, length.number);
    want(written.code == AGC_OK && written.number == length.number && text[written.number] == MARK, "a reply's room");
    want(text[written.number - 1] == '\n' && !memcmp(text, own, strlen(own)), "a reply's text");
    fwrite(text, 1, written.number, stdout);
}

static void report(const uint16_t *of, const AgcTotals *counts) {
    static char text[AGC_REPORT + 1];
    AgcNumber length = agc_write_report(of, sets, counts, NULL, 0);
    want(length.code == AGC_NO_ROOM, "a report's length");
    memset(text, MARK, sizeof text);
    want(agc_write_report(of, sets, counts, text, length.number - 1).code == AGC_NO_ROOM && text[0] == MARK, "no room");
    AgcNumber written = agc_write_report(of, sets, counts, text, length.number);
    want(written.code == AGC_OK && written.number == length.number && text[written.number] == MARK, "a report's room");
    fwrite(text, 1, written.number, stdout);
}

static AgcRequest read(const char *line, bool is_action) {
    AgcRequest it = {0, 0, 0, 0};
    want((is_action ? agc_read_action : agc_read_request)(line, strlen(line), &it) == AGC_OK, line);
    return it;
}

/* A tick: each task that is due fires, and what the plan has for it is done, up to an alarm. */
static void tick(AgcStep *step, AgcFired *fired) {
    AgcRequest counted = {AGC_TICK, 0, 0, 0};
    step->reply = AGC_TICKED;
    want(agc_call(words, sets, &counted).code == AGC_OK, "a tick");
    want(agc_check(words, sets).truth || agc_call(words, sets, &counted).code == AGC_NOT_NOW, "a second tick");
    while (step->number == 0 && !agc_check(words, sets).truth) {
        AgcTask task = agc_dispatch(words, sets);
        want(task.code == AGC_OK, "a task that is due");
        AgcFired found = {task.at, task.bank};
        fired[step->fired++] = found;
        for (size_t k = 0; k < row_count; k++) {
            if (rows[k].at != task.at || rows[k].bank != task.bank) continue;
            for (uint32_t j = 0; j < AGC_ACTIONS && step->number == 0; j++) {
                if (rows[k].actions[j].kind == AGC_NOTHING) continue;
                AgcReply reply = agc_call(words, sets, &rows[k].actions[j]);
                want(reply.code == AGC_OK, "an action");
                if (reply.reply == AGC_ALARMED) step->reply = AGC_TICK_ALARMED, step->number = reply.number, step->action = j + 1;
            }
        }
    }
}

/* A step by agc_call. An era begins after an alarm, and by a restart or a fresh start. */
static AgcStep by_single_calls(const AgcRequest *it, AgcFired *fired) {
    AgcStep step = {AGC_OK, AGC_RESTARTED, 0, 0, 0};
    if (it->kind == AGC_TICK) {
        tick(&step, fired);
    } else if (it->kind != AGC_RESTART) {
        AgcReply reply = agc_call(words, sets, it);
        step.code = reply.code, step.reply = reply.reply, step.number = reply.number;
    }
    if (it->kind == AGC_FRESH) return step;
    if (step.reply == AGC_RESTARTED || step.reply == AGC_ALARMED || step.reply == AGC_TICK_ALARMED)
        step.code = agc_begin(words, sets, step.number, entries, entry_count);
    return step;
}

static AgcStep ask(const AgcRequest *request, AgcFired fired[AGC_FIRED + 1]) {
    AgcFired was[AGC_FIRED + 1];
    memset(fired, MARK, sizeof was);
    memset(was, MARK, sizeof was);
    memset(moment, MARK, sizeof moment);
    AgcPlan plan = {row_count ? rows : NULL, row_count, entry_count ? entries : NULL, entry_count};
    AgcStep it = is_single ? by_single_calls(request, fired)
                           : (is_trusted ? agc_step_trusted : agc_step)(words, sets, &plan, request, fired, moment);
    want(it.code == AGC_OK, "a step");
    want(!memcmp(fired + it.fired, was + it.fired, sizeof was - it.fired * sizeof *was), "places after those that fired");
    want((it.action > 0) == (it.reply == AGC_TICK_ALARMED) && it.action <= AGC_ACTIONS, "an action's number");
    bool alarmed = it.reply == AGC_ALARMED || it.reply == AGC_TICK_ALARMED;
    totals.served++;
    totals.restarts += alarmed || it.reply == AGC_RESTARTED;
    totals.alarms_1201 += alarmed && it.number == AGC_ALARM_1201;
    totals.alarms_1202 += alarmed && it.number == AGC_ALARM_1202;
    totals.alarms_1203 += alarmed && it.number == AGC_ALARM_1203;
    return it;
}

/* Asks, tells the clock, and writes a line. */
static void pass(uint32_t source, AgcRequest it) {
    AgcFired fired[AGC_FIRED + 1];
    AgcStep step = ask(&it, fired);
    want((is_trusted ? agc_clock_served_trusted : agc_clock_served)(words, sets, &step, &timer) == AGC_OK, "served");
    for (size_t k = 0; k < event_count; k++) agc_clock_told(&step, &timer, &events[k]);
    printf("%u %u %u %u %u %u ", timer.time, source, it.kind, it.first, it.second, it.third);
    say(&step, fired);
}

static void run(uint32_t centiseconds) {
    AgcRequest it = {0, 0, 0, 0};
    uint32_t end = timer.time + centiseconds < lasts ? timer.time + centiseconds : lasts;
    AgcTimetable table = {end, stolen, stolen_count, costs, cost_count, events, event_count, requests, request_count};
    for (;;) {
        AgcNumber asked = (is_trusted ? agc_clock_next_trusted : agc_clock_next)(words, sets, &table, &timer, &it);
        want(asked.code == AGC_OK, "the next request");
        if (asked.number == 0) return;
        pass(asked.number, it);
    }
}

static void power_up(const char *texts) {
    uint16_t found[AGC_PHASE_WORDS];
    char *rest;
    for (int k = 0; k < AGC_PHASE_WORDS; k++, texts = rest) found[k] = (uint16_t)strtoul(texts, &rest, 8);
    AgcNumber told = agc_power_up(words, sets, entries, entry_count, found);
    want(told.code == AGC_OK && (told.number == 0 || told.number == AGC_ALARM_1107), "power comes back");
}

static void end(void) {
    AgcPlan plan = {rows, row_count, entries, entry_count};
    want(agc_plan_check(&plan) == AGC_OK && agc_check(words, sets).truth, "the plan and the words");
    for (int place = 132; sets == 7 && place < AGC_WORDS; place++) want(words[place] == 0xffff, "the words after them");
    if (is_bench) report(words, &totals);
}

static void start(char *line) {
    uint32_t seed = 0;
    is_bench = line[0] == 'b';
    if (!is_bench) puts(line);
    want(sscanf(strchr(line, ' '), "%u %u %u", &sets, &lasts, &seed) >= 1, line);
    lasts *= 100;
    memset(&timer, 0, sizeof timer);
    timer.lot = seed;
    memset(entries, 0, sizeof entries);
    memset(rows, 0, sizeof rows);
    memset(&totals, 0, sizeof totals);
    row_count = entry_count = stolen_count = cost_count = event_count = request_count = 0;
    memset(words, 0xff, sizeof words);
    want(agc_clear(words, sets) == AGC_OK, "a fresh start");
}

/* The parts of a line between bars, each with its own end. */
static char *part(char **rest) {
    char *from = *rest, *bar = strchr(from, '|');
    *rest = bar ? bar + 1 : from + strlen(from);
    if (bar) *bar = 0;
    return from;
}

/* Puts the requests of a line's rest to the others, up to the last of a job. Returns how many they are. */
static uint32_t more(char **rest, bool is_of_job) {
    size_t first = request_count;
    while (is_of_job ? strchr(*rest, '|') != NULL : **rest != 0) requests[request_count++] = read(part(rest), false);
    return (uint32_t)(request_count - first);
}

static void take(char *line) {
    char *rest = strchr(line, ' ');
    const char *all = line;
    rest = rest ? rest + 1 : line + strlen(line);
    if (!strncmp(line, "task ", 5)) {
        AgcRow *row = &rows[row_count++];
        want(sscanf(part(&rest), "%o %o", &row->at, &row->bank) == 2, all);
        for (int k = 0; *rest; k++) row->actions[k] = read(part(&rest), true);
    } else if (!strncmp(line, "phase ", 6) && strchr(line, '|')) {
        AgcPhaseEntry *it = &entries[entry_count++];
        want(sscanf(part(&rest), "%u %u", &it->group, &it->phase) == 2, all);
        char *job = part(&rest);
        AgcRequest found = {0, 0, 0, 0}, task = found;
        if (*job) found = read(job, true);
        if (*rest) task = read(rest, true);
        it->job = found.kind, it->priority = found.first, it->job_at = found.second, it->job_bank = found.third;
        it->delay = task.first, it->task_at = task.second, it->task_bank = task.third;
    } else if (!strncmp(line, "power ", 6)) {
        power_up(rest);
    } else if (!strncmp(line, "steal ", 6)) {
        AgcStolen *it = &stolen[stolen_count++];
        want(sscanf(rest, "%u %u %u %u %u", &it->from, &it->to, &it->percent, &it->every, &it->until) == 5, all);
    } else if (!strncmp(line, "job ", 4)) {
        AgcCost *it = &costs[cost_count++];
        uint32_t least;
        want(sscanf(part(&rest), "%o %u %u", &it->at, &least, &it->hundredths) == 3, all);
        it->hundredths *= 100;
        it->spread = it->hundredths - 100 * least;
        it->first = (uint32_t)request_count;
        it->count = more(&rest, true);
        it->then = read(rest, false).first;
    } else if (!strncmp(line, "event ", 6)) {
        AgcEvent *it = &events[event_count++];
        want(sscanf(part(&rest), "%u %u %u %o", &it->at, &it->every, &it->until, &it->after) == 4, all);
        it->first = (uint32_t)request_count;
        it->count = more(&rest, false);
    } else if (!strncmp(line, "run ", 4)) {
        run((uint32_t)strtoul(rest, NULL, 10));
    } else if (!strncmp(line, "hand ", 5)) {
        pass(0, read(rest, false));
    } else if (!strcmp(line, "moment")) {
        AgcTotals none = {0, 0, 0, 0, 0};
        report(moment, &none);
    } else if (strcmp(line, "scene")) {
        AgcRequest request = read(line, false);
        AgcFired fired[AGC_FIRED + 1];
        AgcStep it = ask(&request, fired);
        say(&it, fired);
    }
}

/* Whatever a call lacks, clock and request stay. */
static void refuses(void) {
    AgcClock clock = {7, 1, 2, true, 50, {1, 2, 3, 4, 5, 6, 7, 8}, 9}, was;
    AgcRequest it = {1, 2, 3, 4}, same = it;
    AgcStep step = {0, AGC_TICKED, 0, 0, 0};
    AgcStolen twice[2] = {{0, 10, 5, 0, 0}, {9, 20, 5, 0, 0}}, beat[2] = {{9, 20, 5, 10, 99}, {9, 20, 5, 11, 99}};
    AgcCost cost[2] = {{1, 1, 0, 0, 0, 0}, {1, 2, 0, 0, 0, 0}}, bad = {1, 1, 16384, 0, 0, 0}, asks = {1, 1, 0, 0, 7, 0};
    AgcCost lot = {1, 9, 0, 0, 0, 8}, wide = {1, 9, 0, 0, 0, 9};
    AgcRequest steps[9] = {{AGC_PRIO, 7, 0, 0}, {AGC_PHASE, 1, 1, 0}, {AGC_STORE, 1, 2, 0}, {AGC_NOVAC, 7, 1024, 5},
        {AGC_FINDVAC, 7, 1024, 5}, {AGC_LIST, 7, 1024, 5}, {AGC_PRIO, 7, 0, 0}, {AGC_PRIO, 7, 0, 0}, {AGC_TICK, 0, 0, 0}};
    AgcEvent event = {0, 0, 0, 1, 1, 0};
    memcpy(&was, &clock, sizeof clock);
    agc_clear(words, 7);
    want(agc_clock_next(words, 6, &(AgcTimetable){10, NULL, 0, NULL, 0, NULL, 0, NULL, 0}, &clock, &it).code == AGC_NO_SUCH_SETS, "6 sets");
    want(agc_clock_next(words, 7, &(AgcTimetable){10, twice, 2, NULL, 0, NULL, 0, NULL, 0}, &clock, &it).code == AGC_STEAL_TWICE, "two rows");
    want(agc_clock_next(words, 7, &(AgcTimetable){10, beat, 2, NULL, 0, NULL, 0, NULL, 0}, &clock, &it).code == AGC_TIME_RANGE, "a beat too quick");
    want(agc_clock_next(words, 7, &(AgcTimetable){10, NULL, 0, cost, 2, NULL, 0, NULL, 0}, &clock, &it).code == AGC_COST_TWICE, "two costs");
    want(agc_clock_next(words, 7, &(AgcTimetable){10, NULL, 0, &bad, 1, NULL, 0, NULL, 0}, &clock, &it).code == AGC_TIME_RANGE, "a bad cost");
    want(agc_clock_next(words, 7, &(AgcTimetable){10, NULL, 0, NULL, 0, &event, 1, &it, 1}, &clock, &it).code == AGC_TIME_RANGE, "a bad event");
    want(agc_clock_check(&(AgcTimetable){0, NULL, 0, &asks, 1, NULL, 0, steps, 7}) == AGC_OK, "seven requests");
    want(agc_clock_check(&(AgcTimetable){0, NULL, 0, &asks, 1, NULL, 0, steps, 6}) == AGC_TIME_RANGE, "fewer than a job asks for");
    asks.count = 8;
    want(agc_clock_check(&(AgcTimetable){0, NULL, 0, &asks, 1, NULL, 0, steps, 9}) == AGC_TIME_RANGE, "eight requests");
    asks.first = 8, asks.count = 1;
    want(agc_clock_check(&(AgcTimetable){0, NULL, 0, &asks, 1, NULL, 0, steps, 9}) == AGC_TIME_RANGE, "a tick");
    want(agc_clock_check(&(AgcTimetable){0, NULL, 0, &lot, 1, NULL, 0, NULL, 0}) == AGC_OK, "a cost from 1 to 9");
    want(agc_clock_check(&(AgcTimetable){0, NULL, 0, &wide, 1, NULL, 0, NULL, 0}) == AGC_TIME_RANGE, "a cost from 0 on");
    words[AGC_NEWJOB] = 12;
    want(agc_clock_next(words, 7, &(AgcTimetable){10, NULL, 0, NULL, 0, NULL, 0, NULL, 0}, &clock, &it).code == AGC_UNLAWFUL, "no image");
    want(agc_clock_served(words, 7, &step, &clock) == AGC_UNLAWFUL, "no image");
    want(!memcmp(&was, &clock, sizeof clock) && !memcmp(&same, &it, sizeof it), "a refusal changes nothing");
    want(agc_clock_check(&(AgcTimetable){0, NULL, 0, NULL, 0, NULL, 0, NULL, 0}) == AGC_OK, "a timetable of nothing");
    want(agc_clock_check(&(AgcTimetable){0, beat + 1, 1, NULL, 0, NULL, 0, NULL, 0}) == AGC_OK, "a beat without rest");
}

static void all_told(const AgcStep *step, const AgcClock *clock, AgcEvent its[4]) {
    for (int k = 0; k < 4; k++) want(agc_clock_told(step, clock, &its[k]) == its[k].after, "for what it waits");
}

/* An event that counts from an alarm gets its times by the first of its code alone. */
static void tells(void) {
    AgcClock clock = {300, 0, 0, false, 0, {0}, 0};
    AgcRequest it = {AGC_CHANGE, 0, 0, 0};
    AgcStep tick = {0, AGC_TICKED, 0, 0, 0}, job = {0, AGC_ESTABLISHED, 1, 0, 0}, alarm = {0, AGC_ALARMED, 01201, 0, 0};
    AgcStep ticked = {0, AGC_TICK_ALARMED, 01203, 1, 1}, other = {0, AGC_ALARMED, 01202, 0, 0};
    AgcEvent its[4] = {{50, 7, 90, 0, 1, 01201}, {0, 0, 0, 0, 1, 01203}, {5, 0, 0, 0, 1, 0}, {8640000, 2, 8640000, 0, 1, 01201}}, was[4];
    memcpy(was, its, sizeof its);
    want(agc_clock_check(&(AgcTimetable){0, NULL, 0, NULL, 0, its, 4, &it, 1}) == AGC_OK, "events that wait");
    all_told(&tick, &clock, its);
    all_told(&job, &clock, its);
    all_told(&other, &clock, its);
    want(!memcmp(was, its, sizeof its), "no alarm of theirs");
    all_told(&alarm, &clock, its);
    want(its[0].at == 350 && its[0].every == 7 && its[0].until == 390 && its[0].count == 1 && !its[0].after, "the first 1201");
    want(!memcmp(was + 1, its + 1, 2 * sizeof *its) && its[3].until < its[3].at && !its[3].after, "the other its");
    clock.time = 310;
    all_told(&ticked, &clock, its);
    want(its[1].at == 311 && its[1].until == 311 && !its[1].after, "the first 1203");
    memcpy(was, its, sizeof its);
    all_told(&alarm, &clock, its);
    want(!memcmp(was, its, sizeof its), "the second 1201");
    want(agc_clock_check(&(AgcTimetable){0, NULL, 0, NULL, 0, its, 4, &it, 1}) == AGC_OK, "events with their times");
    its[2].after = 01200;
    want(agc_clock_check(&(AgcTimetable){0, NULL, 0, NULL, 0, its, 4, &it, 1}) == AGC_TIME_RANGE, "no such alarm");
    its[2].after = 01204;
    want(agc_clock_check(&(AgcTimetable){0, NULL, 0, NULL, 0, its, 4, &it, 1}) == AGC_TIME_RANGE, "nor this");
}

int main(int argc, char **argv) {
    char line[1024];
    bool is_first = true;
    is_trusted = argc > 1 && !strcmp(argv[1], "trusted");
    is_single = argc > 1 && !strcmp(argv[1], "single");
    refuses();
    tells();
    while (fgets(line, sizeof line, stdin)) {
        line[strcspn(line, "\n")] = 0;
        if (strncmp(line, "bench ", 6) && strncmp(line, "scenario ", 9)) {
            take(line);
            continue;
        }
        if (!is_first) end();
        is_first = false;
        start(line);
    }
    end();
    return 0;
}
