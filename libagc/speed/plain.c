/* Times calls of libagc beside the same operations written plainly in C, in one run: medians of 199 turns, in nanoseconds
   a call. A turn is so short that other work seldom interrupts it. The plain ones look at the call's numbers, as the
   library's do, and at no image; both are checked to leave the same words. */
#define AGC_IGNORE_ANSWERS
#include "agc.h"

#include <stdio.h>
#include <stdlib.h>
#include <string.h>
#include <time.h>

#define APART __attribute__((noinline))
enum { FREE = 077777, SIGN = 040000, TURNS = 199, COUNT = 3500 };

static uint16_t *set_of(uint16_t *w, uint32_t k) { return w + (k < 7 ? 12 * k : 132); }

static void exchange(uint16_t *w, uint32_t k) {
    if (k == 0) return;
    uint16_t *s = set_of(w, k), kept[12];
    memcpy(kept, w, sizeof kept);
    memcpy(w, s, sizeof kept);
    memcpy(s, kept, sizeof kept);
}

/* The best awake job's set, or `sets` where nobody is awake. */
static uint32_t best(uint16_t *w, uint32_t sets) {
    uint32_t found = sets;
    for (uint32_t k = 0; k < sets; k++) {
        uint16_t *s = set_of(w, k);
        if (s[11] >= SIGN) continue;
        if (found == sets) { found = k; continue; }
        uint16_t *b = set_of(w, found);
        if (s[11] / 512 > b[11] / 512 || (s[11] / 512 == b[11] / 512 && s[0] < b[0])) found = k;
    }
    return found;
}

static AgcReply establish(uint16_t *w, uint32_t sets, uint32_t priority, uint32_t at, uint32_t bank, uint32_t area) {
    uint32_t used = 0, free = sets, number = 1;
    for (uint32_t k = 0; k < sets; k++) {
        uint16_t *s = set_of(w, k);
        if (s[11] == FREE) { if (free == sets) free = k; }
        else used |= 1u << s[0];
    }
    while (number <= sets && (used >> number & 1)) number++;
    if (number > sets) return (AgcReply){0, AGC_ALARMED, AGC_ALARM_1202};
    bool ran = w[11] < SIGN;
    uint16_t *s = set_of(w, free);
    memset(s, 0, 24);
    s[0] = (uint16_t)number;
    s[8] = (uint16_t)at;
    s[9] = (uint16_t)bank;
    s[11] = (uint16_t)(512 * priority + (area ? 0300 + 054 * (area - 1) : 0));
    if (area) w[83 + area] = 0;
    if (!ran) { exchange(w, free); w[89] = 0; }
    else {
        uint32_t j = w[89] / 12u;
        uint16_t *o = set_of(w, j);
        uint32_t other = o[11] / 512u;
        if (priority > other || (priority == other && j != 0 && number < o[0])) w[89] = (uint16_t)(12 * free);
    }
    return (AgcReply){0, AGC_ESTABLISHED, number};
}

APART static AgcReply plain_novac(uint16_t *w, uint32_t sets, uint32_t priority, uint32_t at, uint32_t bank) {
    if (priority - 1 > 30 || at - 1 > 16382) return (AgcReply){4, 0, 0};
    if (bank > 32767) return (AgcReply){5, 0, 0};
    return establish(w, sets, priority, at, bank, 0);
}

APART static AgcReply plain_findvac(uint16_t *w, uint32_t sets, uint32_t priority, uint32_t at, uint32_t bank) {
    if (priority - 1 > 30 || at - 1 > 16382) return (AgcReply){4, 0, 0};
    if (bank > 32767) return (AgcReply){5, 0, 0};
    for (uint32_t area = 1; area <= 5; area++)
        if (w[83 + area] != 0) return establish(w, sets, priority, at, bank, area);
    return (AgcReply){0, AGC_ALARMED, AGC_ALARM_1201};
}

APART static AgcReply plain_end(uint16_t *w, uint32_t sets) {
    if (w[11] >= SIGN) return (AgcReply){0, AGC_NO_JOB, 0};
    uint32_t address = w[11] % 512u;
    w[11] = FREE;
    if (address) w[84 + (address - 0300) / 054] = (uint16_t)address;
    uint32_t k = best(w, sets);
    if (k == sets) { w[89] = FREE; return (AgcReply){0, AGC_IDLE, 0}; }
    exchange(w, k);
    w[89] = 0;
    return (AgcReply){0, AGC_LEFT, w[0]};
}

APART static AgcReply plain_list(uint16_t *w, uint32_t sets, uint32_t delay, uint32_t at, uint32_t bank) {
    (void)sets;
    if (delay - 1 > 16249 || at - 1 > 16382) return (AgcReply){4, 0, 0};
    if (bank > 32767) return (AgcReply){5, 0, 0};
    uint16_t *lst1 = w + 91, *lst2 = w + 99;
    if (lst2[16]) return (AgcReply){0, AGC_ALARMED, AGC_ALARM_1203};
    uint32_t count = 0, place = 0, before = 0, after = 0;
    while (count < 9 && lst2[2 * count]) count++;
    for (uint32_t due = w[90] ? 16384u - w[90] : 0; place < count; place++) {
        after = due;
        if (due > delay) break;
        before = due;
        due += lst1[place] < 16384 ? 1u - lst1[place] : 32768u - lst1[place];
    }
    for (uint32_t k = count; k > place; k--) memcpy(lst2 + 2 * k, lst2 + 2 * k - 2, 4);
    lst2[2 * place] = (uint16_t)at;
    lst2[2 * place + 1] = (uint16_t)bank;
#define GAP(N) (uint16_t)((N) == 0 ? 1 : (N) == 1 ? 0 : 32768u - (N))
    if (place < count) {
        for (uint32_t k = count - 1; k > place; k--) lst1[k] = lst1[k - 1];
        lst1[place] = GAP(after - delay);
    }
    if (place == 0) w[90] = (uint16_t)(16384 - delay);
    else lst1[place - 1] = GAP(delay - before);
    return (AgcReply){0, AGC_LISTED, 0};
}

APART static AgcTruth plain_count(uint16_t *w, uint32_t sets) {
    (void)sets;
    if (w[99] == 0) return (AgcTruth){0, false};
    if (w[90] == 0) return (AgcTruth){6, false};
    w[90] = w[90] == 037777 ? 0 : (uint16_t)(w[90] + 1);
    return (AgcTruth){0, w[90] == 0};
}

APART static uint32_t plain_phase(uint16_t *w, uint32_t sets, uint32_t group, uint32_t phase) {
    (void)sets;
    if (group - 1 > 5 || phase > 127) return 4;
    w[115 + 2 * group] = (uint16_t)(32767 - phase);
    w[116 + 2 * group] = (uint16_t)phase;
    return 0;
}

static double now(void) {
    struct timespec t;
    clock_gettime(CLOCK_MONOTONIC, &t);
    return 1e9 * (double)t.tv_sec + (double)t.tv_nsec;
}

static int by_size(const void *a, const void *b) {
    return (*(const double *)a > *(const double *)b) - (*(const double *)a < *(const double *)b);
}

static uint16_t start[AGC_WORDS], left[2][AGC_WORDS];
static uint32_t sum;

/* The number of core sets, of which the compiler knows nothing: the plain calls are made for any, as the library's are. */
static volatile uint32_t seven = 7;

/* EACH is one call, on `w`, the array, and `i`; every seventh time the words begin again. */
#define TIMED(WHICH, TIMES, EACH)                                        \
    do {                                                                 \
        uint16_t w[AGC_WORDS];                                           \
        uint32_t s = seven;                                              \
        double from = now();                                             \
        for (uint32_t i = 0; i < COUNT; i++) {                           \
            if (i % 7 == 0) memcpy(w, start, sizeof w);                  \
            EACH;                                                        \
        }                                                                \
        TIMES[turn] = (now() - from) / COUNT;                            \
        memcpy(left[WHICH], w, sizeof w);                                \
    } while (0)

#define MEASURE(NAME, PLAIN, CALL, FIELD, ...)                                                       \
    do {                                                                                             \
        double checked[TURNS], plain[TURNS];                                                         \
        for (int turn = 0; turn < TURNS; turn++) {                                                   \
            TIMED(0, checked, sum += CALL(w, s __VA_ARGS__) FIELD);                                  \
            TIMED(1, plain, sum += PLAIN(w, s __VA_ARGS__) FIELD);                                   \
        }                                                                                            \
        if (memcmp(left[0], left[1], sizeof left[0])) {                                              \
            printf("%s: not the same words\n", NAME);                                                \
            return 1;                                                                                \
        }                                                                                            \
        qsort(checked, TURNS, sizeof *checked, by_size);                                             \
        qsort(plain, TURNS, sizeof *plain, by_size);                                                 \
        printf("%-12s %6.1f ns, plain C %5.1f: %4.2f times\n", NAME, checked[TURNS / 2],             \
               plain[TURNS / 2], checked[TURNS / 2] / plain[TURNS / 2]);                             \
    } while (0)

static AgcReply call(uint16_t *words, uint32_t sets, uint32_t kind, uint32_t first, uint32_t second, uint32_t third) {
    AgcRequest request = {kind, first, second, third};
    return agc_call(words, sets, &request);
}
#define CALL_NOVAC(W, S, PRIORITY, AT, BANK) call(W, S, AGC_NOVAC, PRIORITY, AT, BANK)
#define CALL_FINDVAC(W, S, PRIORITY, AT, BANK) call(W, S, AGC_FINDVAC, PRIORITY, AT, BANK)
#define CALL_LIST(W, S, DELAY, AT, BANK) call(W, S, AGC_LIST, DELAY, AT, BANK)
#define CALL_END(W, S) call(W, S, AGC_END, 0, 0, 0)
#define CALL_TICK(W, S) call(W, S, AGC_TICK, 0, 0, 0)
#define CALL_PHASE(W, S, GROUP, NUMBER) call(W, S, AGC_PHASE, GROUP, NUMBER, 0).code

int main(void) {
    agc_clear(start, 7);
    MEASURE("novac", plain_novac, CALL_NOVAC, .number, , 1 + i % 31, 02000, 5);
    MEASURE("findvac", plain_findvac, CALL_FINDVAC, .number, , 1 + i % 31, 02000, 5);
    MEASURE("list", plain_list, CALL_LIST, .reply, , 1 + i * 5 % 40, 04000, 7);
    for (uint32_t k = 0; k < 7; k++) call(start, 7, AGC_FINDVAC, 1 + k * 3 % 7, 02000, 5);
    for (uint32_t k = 0; k < 2; k++) call(start, 7, AGC_NOVAC, 3, 02000, 5);
    for (uint32_t k = 0; k < 9; k++) call(start, 7, AGC_LIST, 100 + k * 3 % 7, 04000, 7);
    MEASURE("end of job", plain_end, CALL_END, .number, );
    MEASURE("tick", plain_count, CALL_TICK, .code, );
    MEASURE("phase", plain_phase, CALL_PHASE, , , 1 + i % 6, i % 128);
    printf("(%u)\n", sum);
    return 0;
}
