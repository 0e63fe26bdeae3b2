/*
 * agc.h: the job tables of the Apollo Guidance Computer, Block II, on an array of your own.
 *
 * agc_step does one request, with all that follows from it, by a plan of your own: tasks fire, and
 * after an alarm the era begins anew. agc_call does one request on the tables alone, for those who
 * write the machine around them. Each call is proved to do what it says. docs/embedding/C.md has a
 * first program, docs/MODEL.md what each call means.
 *
 * THE IMAGE. `words` is an array of AGC_WORDS numbers that you own: the words of the tables, each
 * of fifteen bits in ones' complement. With seven core sets the first 132 are used, with eight all
 * 144; no call reads those behind, and agc_migrate alone writes them. crates/agc_word/README.md has
 * the places.
 *
 * OWNERSHIP. A call keeps no pointer: it is done with the array as it returns. The library takes no
 * memory, has no global state, opens nothing and calls back nothing.
 *
 * POINTERS. `words` must point to AGC_WORDS numbers of uint16_t, aligned as uint16_t is, and not be null: agc_pointer tells. No other array may share them. A list of
 * a plan, a timetable or a pulse may be null where its count is 0; every other pointer must point to
 * what its type says, aligned as that is.
 *
 * THREADS. Each call may be made on any thread. During a call no other thread may read or write its
 * array, but for those that take it as const, at which others may read. Two arrays know nothing of
 * each other.
 *
 * CODES. Each call answers a code. AGC_OK: it was served. Any other: what the call lacks, in the
 * order of the codes, and then the array is as it was and the rest of the answer is 0, except where
 * agc_explain tells why, and AGC_NO_ROOM how many bytes are wanted. agc_code_text says a code in
 * words, agc_reply_text a kind of reply.
 *
 * ANSWERS. Compilers of GNU's and LLVM's kind warn where an answer isn't used, since its code says
 * whether anything was done. AGC_IGNORE_ANSWERS, defined before this header, turns that off.
 *
 * VERSIONS. AGC_VERSION is the header's, agc_version() the library's. The first number grows where
 * programs have to be compiled anew, and libagc.so.1 is named by it; the second where calls come in;
 * the third where neither changes. No call, code or number of this header changes its meaning while
 * the first number stays, and no struct its size.
 *
 * TRUSTED. agc_NAME looks at the whole image before it does anything, which takes longer than a step
 * itself. agc_NAME_trusted, which steps and clocks have, doesn't. Its condition: the array is as an
 * earlier call with this number of sets left it. That is one of: agc_clear, agc_call or any other call on a `words` that
 * isn't const, with AGC_OK; agc_check with AGC_OK; agc_migrate with AGC_OK, for 8 sets. And nobody
 * wrote to the array since, nor changed the number of sets. It is proved that this suffices: after
 * AGC_OK the array has a lawful image again. Where the condition isn't met, anything may happen.
 * Numbers of the call are looked at by both forms. agc_step_trusted wants a little more: that earlier
 * call was agc_clear, agc_begin, agc_power_up or agc_step. After others ask agc_step once.
 */
#ifndef AGC_H
#define AGC_H

#include <stdbool.h>
#include <stddef.h>
#include <stdint.h>

#ifdef __cplusplus
extern "C" {
#endif

/* The release that this header is of, as a text and by its numbers. */
#define AGC_VERSION "1.0.0"
#define AGC_VERSION_MAJOR 1
#define AGC_VERSION_MINOR 0
#define AGC_VERSION_PATCH 0

/* Where the words are. A core set has twelve, from agc_set_place on: MPAC, which holds the job's number,
   six work words, MODE, LOC, BANKSET, PUSHLOC and PRIORITY. LST2 has nine pairs, an address and a bank's
   word; the phase words are six pairs, -PHASE1 and PHASE1 to -PHASE6 and PHASE6. */
enum {
    AGC_MPAC = 0,
    AGC_MODE = 7,
    AGC_LOC = 8,
    AGC_BANKSET = 9,
    AGC_PUSHLOC = 10,
    AGC_PRIORITY = 11,
    AGC_SET_SIZE = 12,
    AGC_USE_WORDS = 84,
    AGC_NEWJOB = 89,
    AGC_TIME3 = 90,
    AGC_LST1 = 91,
    AGC_LST2 = 99,
    AGC_FAILREG = 129,
    AGC_LAST_SET = 132
};

/* How many numbers an array has, how many phase words there are, and the place of -PHASE1, their first. */
enum { AGC_WORDS = 144, AGC_PHASE_WORDS = 12, AGC_PHASE_PLACE = 117 };

/* How many tasks fire in a step at most, and how many actions a row of a plan has. */
enum { AGC_FIRED = 9, AGC_ACTIONS = 4 };

/* How many core sets there are at most, how many tasks wait at most, how many VAC areas, restart groups and
   words of FAILREG there are, and how many work words a job has. */
enum { AGC_MOST_SETS = 8, AGC_TASKS = 9, AGC_AREAS = 5, AGC_GROUPS = 6, AGC_CODES = 3, AGC_WORK = 6 };

/* Room for each line of agc_write_reply and agc_write_rule, and for each report of agc_write_report. */
enum { AGC_LINE = 128, AGC_REPORT = 2048 };

/* The codes. A call answers the first that applies. */
enum {
    AGC_OK = 0,           /* the call was served */
    AGC_NO_SUCH_SETS = 1, /* the number of core sets is neither 7 nor 8 */
    AGC_NOT_WORDS = 2,    /* a number of the image is above 077777 */
    AGC_UNLAWFUL = 3,     /* the image isn't lawful */
    AGC_OUT_OF_RANGE = 4, /* a number of the call is out of its range */
    AGC_NOT_A_WORD = 5,   /* a word of the call is above 077777 */
    AGC_NOT_NOW = 6,      /* a task is due, or at agc_dispatch none is */
    AGC_NULL = 7,         /* agc_pointer alone: the pointer is null or not aligned */
    AGC_UNTIDY = 8,       /* the image is lawful, and no step leaves it so: MODE or PUSHLOC of a job
                             isn't 0, or a gap of LST1 is 077777, which would have to be 0 */
    AGC_PLAN_RANGE = 9,   /* a number of the plan is out of its range */
    AGC_TASK_TWICE = 10,  /* one task, of one address and bank, has two rows of the plan */
    AGC_PHASE_TWICE = 11, /* one group and phase has two entries of the plan */
    AGC_TOO_MANY_AREAS = 12, /* each of the six groups has an entry with a job of AGC_FINDVAC, and
                                there are five VAC areas */
    AGC_NOT_SPELLED = 13, /* a line spells no request, or no action */
    AGC_NO_ROOM = 14,     /* a text doesn't fit: the number says how many bytes it wants */
    AGC_TIME_RANGE = 15,  /* a number of the timetable is out of its range */
    AGC_STEAL_TWICE = 16, /* two rows of stolen time hold at one time */
    AGC_COST_TWICE = 17,  /* one address has two costs */
    AGC_SPENT = 19,       /* as many requests were served as the allowance says */
    AGC_LOG_FULL = 20     /* as many requests were served since the last era began as the limit says */
};

/* The kinds of replies, and what the reply's number then is. */
enum {
    AGC_ESTABLISHED = 1, /* a job was established: its number */
    AGC_LEFT = 2,        /* the running job ended or sleeps: who runs now */
    AGC_IDLE = 3,        /* the running job ended or sleeps, and no job is running now */
    AGC_ROUSED = 4,      /* a sleeper was awakened: its number */
    AGC_NO_SLEEPER = 5,  /* no job sleeps at that address */
    AGC_NO_JOB = 6,      /* no job is running, so there is none to act on */
    AGC_RUNS = 7,        /* who runs now */
    AGC_STORED = 8,      /* a work word was set */
    AGC_LISTED = 9,      /* a task was listed */
    AGC_ALARMED = 10,    /* a table is full: the alarm, as below. A single call changed nothing, and
                            with a step an era began */
    AGC_PHASED = 11,     /* a phase was set */
    AGC_TICKED = 12,     /* a tick passed */
    AGC_TICK_ALARMED = 13, /* an action raised this alarm in a tick, and an era began */
    AGC_RESTARTED = 14   /* a restart or a fresh start, with which an era began */
};

/* The kinds of requests, and their numbers, in the order of a script's line. An action of a plan is
   one of AGC_NOTHING, AGC_NOVAC, AGC_FINDVAC, AGC_ROUSE and AGC_LIST. The job of a plan's entry is
   established by AGC_NOVAC or AGC_FINDVAC; 0 where it has none. */
enum {
    AGC_NOTHING = 0,  /* of a plan alone: nothing is done */
    AGC_NOVAC = 1,    /* a priority, 1 to 31, an address, 1 to 16383, a bank's word */
    AGC_FINDVAC = 2,  /* the same */
    AGC_END = 3,      /* end of job */
    AGC_SLEEP = 4,    /* an address */
    AGC_ROUSE = 5,    /* an address */
    AGC_PRIO = 6,     /* a priority */
    AGC_CHANGE = 7,   /* change of job */
    AGC_STORE = 8,    /* a work word's place, 1 to 6, and the word */
    AGC_LIST = 9,     /* a delay, 1 to 16250, an address, a bank's word */
    AGC_TICK = 10,    /* a centisecond passes */
    AGC_PHASE = 11,   /* a group, 1 to 6, and its phase, 0 to 127 */
    AGC_RESTART = 12, /* a software restart */
    AGC_FRESH = 13    /* a fresh start */
};

/* Alarms, as FAILREG has them. */
enum {
    AGC_ALARM_1107 = 01107, /* the phase words don't agree */
    AGC_ALARM_1201 = 01201, /* no VAC area is free */
    AGC_ALARM_1202 = 01202, /* no core set is free */
    AGC_ALARM_1203 = 01203  /* nine tasks wait */
};

/* The lines of devices, of which agc_pulse takes one. */
enum { AGC_TIMER = 0, AGC_KEY = 1, AGC_RADAR = 2 };

/* The rules that words keep between requests, of which lawful words keep the first nineteen. agc_explain
   tells the first that is broken, agc_write_rule writes each as a sentence. */
enum {
    AGC_RULE_WORD = 1,          /* a word has at most fifteen bits */
    AGC_RULE_NUMBER = 2,        /* a job's number is 1 to the number of core sets */
    AGC_RULE_NUMBER_TWICE = 3,  /* no two jobs have one number */
    AGC_RULE_LOC = 4,           /* LOC of a job is an address, 1 to 037777 */
    AGC_RULE_PRIORITY = 5,      /* PRIORITY of a job has a priority, 1 to 31 */
    AGC_RULE_AREA = 6,          /* its lower nine bits are a VAC area's address, or 0 */
    AGC_RULE_AREA_TWICE = 7,    /* no two jobs own one VAC area */
    AGC_RULE_FRONT = 8,         /* where a job is awake, the job in core set 0 is */
    AGC_RULE_USE = 9,           /* a use word is 0 where a job owns the area, else its address */
    AGC_RULE_NEWJOB = 10,       /* NEWJOB names the best job's core set */
    AGC_RULE_TIME3 = 11,        /* TIME3 isn't negative, and is 0 where no task waits */
    AGC_RULE_FAR = 12,          /* no task is more than 16250 centiseconds away */
    AGC_RULE_TASK = 13,         /* a task's address is 1 to 037777 */
    AGC_RULE_GAP = 14,          /* LST1 between two tasks is 1 or 0, or negative */
    AGC_RULE_NO_GAP = 15,       /* LST1 behind the last task is 057777 */
    AGC_RULE_NO_TASK = 16,      /* LST2 behind the last task is 0 */
    AGC_RULE_PHASE = 17,        /* a phase is at most 127 */
    AGC_RULE_PAIR = 18,         /* -PHASE is the complement of PHASE */
    AGC_RULE_CODE = 19,         /* FAILREG has codes of alarms, the first, the second and the latest */
    AGC_RULE_DUE = 20,          /* between requests no task is due */
    AGC_RULE_TIDY_JOB = 21,     /* a step leaves 0 in MODE and PUSHLOC of a job */
    AGC_RULE_TIDY_GAP = 22      /* a step leaves no 077777 in LST1 */
};

/* A function of this header itself, and a type that has a bool. C90 has neither `inline` nor
   `bool`, and GNU's compilers have words by which they take both there. */
#if defined __cplusplus || (defined __STDC_VERSION__ && __STDC_VERSION__ >= 199901L)
#define AGC_INLINE static inline
#define AGC_TYPE typedef
#elif defined __GNUC__
#define AGC_INLINE static __inline__
#define AGC_TYPE __extension__ typedef
#else
#define AGC_INLINE static
#define AGC_TYPE typedef
#endif

/* Where a pointer points, as a number. */
#ifdef __cplusplus
#define AGC_PLACE(pointer) reinterpret_cast<uintptr_t>(pointer)
#else
#define AGC_PLACE(pointer) ((uintptr_t)(pointer))
#endif

/* An answer that has to be used. */
#if defined __GNUC__ && !defined AGC_IGNORE_ANSWERS
#define AGC_USED __attribute__((warn_unused_result))
#else
#define AGC_USED
#endif

/* What a request is answered: the kind of the reply, and its number, or 0. */
typedef struct { uint32_t code, reply, number; } AgcReply;

/* A number. */
typedef struct { uint32_t code, number; } AgcNumber;

/* Yes or no. */
AGC_TYPE struct { uint32_t code; bool truth; } AgcTruth;

/* A task of the Waitlist: its address, and the word for its bank. */
typedef struct { uint32_t code, at, bank; } AgcTask;

/* A job in a core set: its number, 0 where the set is free; its priority; where it begins, or at which
   address it sleeps; the word for its bank; its VAC area, 1 to 5, or 0; whether it sleeps; and its six
   work words. */
AGC_TYPE struct { uint32_t number, priority, at, bank, area; bool asleep; uint16_t work[6]; } AgcJob;

/* A task that waits, and the centiseconds that are left to it. Its address is 0 where there is none. */
typedef struct { uint32_t at, bank, left; } AgcWaiting;

/* All that the tables hold: the numbers of the job that runs and of that which NEWJOB names, 0 for none;
   the jobs in the core sets, no job beyond the last set; the numbers of the jobs that own VAC areas 1 to
   5; the tasks that wait, as they come due, no task after the last; FAILREG; and the phases of groups 1
   to 6. */
typedef struct {
    uint32_t running, next;
    AgcJob sets[8];
    uint32_t areas[5];
    AgcWaiting tasks[9];
    uint32_t failreg[3];
    uint8_t phases[6];
} AgcScene;

/* Why no step is asked on words: the rule that is broken first, at which place of the array, what stands
   there, and what would have to, or AGC_ANY where the other words leave more than one choice. */
typedef struct { uint32_t code, rule, place, found, wanted; } AgcFinding;
enum { AGC_ANY = 65535 };

/* A request: its kind, and its numbers. Those that its kind doesn't have aren't looked at. */
typedef struct { uint32_t kind, first, second, third; } AgcRequest;

/* What a plan has done: a request of one of five kinds. */
typedef AgcRequest AgcAction;

/* A row of a plan: a task, and what is done when it fires, in order, up to the first that raises an
   alarm. */
typedef struct { uint32_t at, bank; AgcAction actions[AGC_ACTIONS]; } AgcRow;

/* A task that fired. */
typedef struct { uint32_t at, bank; } AgcFired;

/* What a step answers: the kind of the reply, and its number, or 0; how many tasks fired; and which
   action, 1 to 4, of the last of these raised the alarm, 0 where none did. An era began where the
   reply is AGC_ALARMED, AGC_TICK_ALARMED or AGC_RESTARTED. */
typedef struct { uint32_t code, reply, number, fired, action; } AgcStep;

/* Counts of the requests that were served, which you keep: all, those that raised each alarm, by
   themselves or in a tick, and those with which an era began. */
typedef struct { uint64_t served, alarms_1201, alarms_1202, alarms_1203, restarts; } AgcTotals;

/* How many requests were served, and how many are at most; how many were since the last era began, and
   how many are at most. You keep the counts. */
typedef struct { uint64_t served, allowance; uint32_t logged, limit; } AgcBounds;

/* An entry of a plan: what begins again while a restart group, 1 to 6, stands in a phase, 1 to 127.
   A job, where `job` isn't 0, and a task, where `delay` isn't 0; their numbers are those of the
   requests. */
typedef struct {
    uint32_t group, phase;
    uint32_t job, priority, job_at, job_bank;
    uint32_t delay, task_at, task_bank;
} AgcPhaseEntry;

/* A plan: its rows and its entries. */
typedef struct {
    const AgcRow *rows;
    size_t row_count;
    const AgcPhaseEntry *entries;
    size_t entry_count;
} AgcPlan;

/* Stolen time: from centisecond `from` until just before `to`, something else takes `percent`, 0 to
   100, of each centisecond. If `every` isn't 0, this repeats at that interval, for the same length
   each time; it last begins at `until` or earlier, and if `until` is before `from` it never begins.
   `every` is 0, or at least `to` less `from`. Two rows with `every` 0 must not overlap; if other
   rows do, the first one counts. */
typedef struct { uint32_t from, to, percent, every, until; } AgcStolen;

/* What a job costs that stands at an address, in hundredths of a centisecond of computing, 1 to
   100,000,000. Each time a job begins it may cost less, by up to `spread`, as a lot says: its cost is
   `hundredths - spread`, plus the next lot modulo `spread + 1`. `spread` is less than `hundredths`; where it
   is 0 no lot is drawn. With the last of these it asks for the first of `count` requests, 0 to 7, of those that are
   handed to the call, from number `first` on; with each hundredth more for the next; and at last it ends,
   where `then` is 0, or sleeps at that address. A request is AGC_NOVAC, AGC_FINDVAC, AGC_PRIO, AGC_STORE,
   AGC_LIST or AGC_PHASE. Where these are left out, as in {04000, 17000, 0}, it asks for nothing before. */
typedef struct { uint32_t at, hundredths, then, first, count, spread; } AgcCost;

/* An event: it comes at a centisecond, 0 to 8,640,000, and where `every` isn't 0 again each so many
   centiseconds, at last at `until`: never, where that is before the first. Each time it asks for `count` requests, 1 to 16, of those that are
   handed to the call, from number `first` on, which counts from 0. Where `after` is 0, its times count from
   the start. Where it is 01201, 01202 or 01203, they are distances from the first alarm of this code (a
   distance of 0 counts as 1), and it doesn't come before agc_clock_told was told of that. */
typedef struct { uint32_t at, every, until, first, count, after; } AgcEvent;

/* A timetable: how many centiseconds it lasts, and its rows and requests. */
typedef struct {
    uint32_t lasts;
    const AgcStolen *stolen;
    size_t stolen_count;
    const AgcCost *costs;
    size_t cost_count;
    const AgcEvent *events;
    size_t event_count;
    const AgcRequest *requests;
    size_t request_count;
} AgcTimetable;

/* A clock: its centisecond, what of that is done, the hundredths that jobs 1 to 8 were given since they
   were established or roused (what a lot spared a job counts as given), and the lot that was drawn last,
   where the next is 48271 times that modulo 2147483647. All zeros is a clock at its start, whose lots are
   all 0, so that costs are least; for others set `lot` to a seed, 1 to 2147483646. Any other clock is as a
   call left it. */
AGC_TYPE struct { uint32_t time; size_t event, asked; bool looks; uint32_t left; uint32_t given[8]; uint32_t lot; } AgcClock;

/* What a code says: a constant text, never null, whatever the number. */
AGC_INLINE const char *agc_code_text(uint32_t code) {
    switch (code) {
    case AGC_OK: return "the call was served";
    case AGC_NO_SUCH_SETS: return "the number of core sets is neither 7 nor 8";
    case AGC_NOT_WORDS: return "a number of the image is above 077777";
    case AGC_UNLAWFUL: return "the image isn't lawful";
    case AGC_OUT_OF_RANGE: return "a number of the call is out of its range";
    case AGC_NOT_A_WORD: return "a word of the call is above 077777";
    case AGC_NOT_NOW: return "a task is due, or none is where one has to be";
    case AGC_NULL: return "the pointer is null or not aligned";
    case AGC_UNTIDY: return "the image is lawful, and no step leaves it so";
    case AGC_PLAN_RANGE: return "a number of the plan is out of its range";
    case AGC_TASK_TWICE: return "a task has two rows of the plan";
    case AGC_PHASE_TWICE: return "a group's phase has two entries of the plan";
    case AGC_TOO_MANY_AREAS: return "each of six groups wants a VAC area, and there are five";
    case AGC_NOT_SPELLED: return "the line spells no request";
    case AGC_NO_ROOM: return "the text doesn't fit into the room that is lent";
    case AGC_TIME_RANGE: return "a number of the timetable is out of its range";
    case AGC_STEAL_TWICE: return "two rows of stolen time hold at one time";
    case AGC_COST_TWICE: return "one address has two costs";
    case AGC_SPENT: return "as many requests were served as the allowance says";
    case AGC_LOG_FULL: return "the log is full, which only a restart or a fresh start empties";
    default: return "no call answers this code";
    }
}

/* What a kind of reply says: the same. */
AGC_INLINE const char *agc_reply_text(uint32_t reply) {
    switch (reply) {
    case AGC_ESTABLISHED: return "a job was established";
    case AGC_LEFT: return "the running job ended or sleeps, and another runs";
    case AGC_IDLE: return "the running job ended or sleeps, and no job is running";
    case AGC_ROUSED: return "a sleeper was awakened";
    case AGC_NO_SLEEPER: return "no job sleeps at that address";
    case AGC_NO_JOB: return "no job is running, so there is none to act on";
    case AGC_RUNS: return "a job runs";
    case AGC_STORED: return "a work word was set";
    case AGC_LISTED: return "a task was listed";
    case AGC_ALARMED: return "a table is full: an alarm";
    case AGC_PHASED: return "a phase was set";
    case AGC_TICKED: return "a tick passed";
    case AGC_TICK_ALARMED: return "an action raised an alarm in a tick, and an era began";
    case AGC_RESTARTED: return "an era began by a restart or a fresh start";
    default: return "no reply is of this kind";
    }
}

/* The first place of a core set, 0 to 7. */
AGC_INLINE uint32_t agc_set_place(uint32_t set) {
    if (set >= 7) return AGC_LAST_SET;
    return AGC_SET_SIZE * set;
}

/* What a place of the array is called, as "LOC", and which of these it is: of a core set its number,
   of the use words and the phases 1 and on, of others 0 and on. */
AGC_INLINE const char *agc_place_name(uint32_t place) {
    static const char *const of_a_set[] = {"MPAC", "MPAC+1", "MPAC+2", "MPAC+3", "MPAC+4", "MPAC+5",
                                           "MPAC+6", "MODE", "LOC", "BANKSET", "PUSHLOC", "PRIORITY"};
    if (place >= AGC_WORDS) return "no place";
    if (place < AGC_USE_WORDS || place >= AGC_LAST_SET) return of_a_set[place % AGC_SET_SIZE];
    if (place < AGC_NEWJOB) return "VAC";
    if (place == AGC_NEWJOB) return "NEWJOB";
    if (place == AGC_TIME3) return "TIME3";
    if (place < AGC_LST2) return "LST1";
    if (place < AGC_PHASE_PLACE) return (place - AGC_LST2) % 2 ? "LST2 bank" : "LST2";
    if (place < AGC_FAILREG) return (place - AGC_PHASE_PLACE) % 2 ? "PHASE" : "-PHASE";
    return "FAILREG";
}
AGC_INLINE uint32_t agc_place_number(uint32_t place) {
    if (place >= AGC_LAST_SET) return 7;
    if (place < AGC_USE_WORDS) return place / AGC_SET_SIZE;
    if (place < AGC_NEWJOB) return place - AGC_USE_WORDS + 1;
    if (place < AGC_LST1) return 0;
    if (place < AGC_LST2) return place - AGC_LST1;
    if (place < AGC_PHASE_PLACE) return (place - AGC_LST2) / 2;
    if (place < AGC_FAILREG) return (place - AGC_PHASE_PLACE) / 2 + 1;
    return place - AGC_FAILREG;
}

/* Whether a pointer may be passed: AGC_OK, or AGC_NULL where it is null or not aligned. */
AGC_INLINE uint32_t agc_pointer(const uint16_t *words) {
    if (words && AGC_PLACE(words) % sizeof *words == 0) return AGC_OK;
    return AGC_NULL;
}

/* Whether rows and entries make a plan: AGC_OK, and then no era of it begins with an alarm; or the
   first of AGC_PLAN_RANGE, AGC_TASK_TWICE, AGC_PHASE_TWICE and AGC_TOO_MANY_AREAS. */
AGC_USED uint32_t agc_plan_check(const AgcPlan *plan);

/* Which row or entry is the first with which a plan lacks what agc_plan_check says: its place among the
   rows, or how many rows there are and its place among the entries; the number of both where it lacks
   nothing. */
AGC_INLINE size_t agc_plan_first(const AgcPlan *plan) {
    uint32_t code = agc_plan_check(plan);
    AgcPlan part = *plan;
    size_t low = 0, high = plan->row_count + plan->entry_count;
    if (code == AGC_OK) return high;
    /* more rows never lack less */
    while (low + 1 < high) {
        size_t count = (low + high) / 2;
        part.row_count = count < plan->row_count ? count : plan->row_count;
        part.entry_count = count - part.row_count;
        if (agc_plan_check(&part) == code) high = count;
        else low = count;
    }
    return low;
}

/* One request, with all that follows from it: in a tick each task that is due fires, and the actions
   of its row are done; after an alarm, and at a restart or fresh start, an era begins by the plan's
   entries. `fired` gets the tasks that fired, in order, in its first places; the others stay.
   `moment` is always filled: with the words as they were when the request was answered, before an era
   began with it, and where the code isn't AGC_OK with the words as they are. Codes, the first that
   applies: those of the image; AGC_OUT_OF_RANGE and AGC_NOT_A_WORD for the request; AGC_NOT_NOW where
   a task is due; AGC_UNTIDY; those of agc_plan_check. The trusted form looks at the request alone; a
   number of the plan that is out of range then does nothing, and of two rows or entries the first
   counts. */
AGC_USED AgcStep agc_step(uint16_t words[AGC_WORDS], uint32_t sets, const AgcPlan *plan, const AgcRequest *request,
                 AgcFired fired[AGC_FIRED], uint16_t moment[AGC_WORDS]);
AGC_USED AgcStep agc_step_trusted(uint16_t words[AGC_WORDS], uint32_t sets, const AgcPlan *plan,
                         const AgcRequest *request, AgcFired fired[AGC_FIRED], uint16_t moment[AGC_WORDS]);

/* An era begins, as after an alarm: its code is recorded, all jobs and tasks are gone, and then for
   groups 1 to 6 in order the plan's entry for the group's phase begins, its job and then its task.
   `alarm` is one of the four, or 0 where none is recorded, as at a restart by request. A group of
   phase 0, or of one that has no entry, begins nothing. AGC_OUT_OF_RANGE is that of the alarm; the
   codes of agc_plan_check are those of the entries. */
AGC_USED uint32_t agc_begin(uint16_t words[AGC_WORDS], uint32_t sets, uint32_t alarm, const AgcPhaseEntry *entries,
                   size_t entry_count);

/* Power comes back with these phase words, -PHASE1 first, whatever stood in the array: an era begins
   with the phases that they tell and no codes, and the number is 0. Where they don't agree it is a
   fresh start with code 01107, and the number is AGC_ALARM_1107. AGC_NO_SUCH_SETS; AGC_NOT_WORDS where
   a phase word is above 077777; the codes of agc_plan_check for the entries. */
AGC_USED AgcNumber agc_power_up(uint16_t words[AGC_WORDS], uint32_t sets, const AgcPhaseEntry *entries, size_t entry_count,
                       const uint16_t phase_words[AGC_PHASE_WORDS]);

/* The request that a line of a script spells, of so many bytes, without the line's end: AGC_OK, or
   AGC_NOT_SPELLED, and then *request stays. Numbers that the kind doesn't have become 0.
   agc_read_action: `nothing`, or the line of a novac, findvac, rouse or list. */
AGC_USED uint32_t agc_read_request(const char *text, size_t length, AgcRequest *request);
AGC_USED uint32_t agc_read_action(const char *text, size_t length, AgcAction *action);

/* The line that `agc` writes for a step's reply, with its end and no zero byte: AGC_OK, and the number
   is how many bytes were written; AGC_NO_ROOM, and then nothing was; AGC_OUT_OF_RANGE where it is of no
   kind, or names no job or alarm though its kind does, where more than nine tasks fired, or where one
   that fired is none. */
AGC_USED AgcNumber agc_write_reply(const AgcStep *step, const AgcFired fired[AGC_FIRED], char *text, size_t room);

/* Writes the rule that has this number as a sentence of at most AGC_LINE bytes, in the same way;
   AGC_OUT_OF_RANGE for a number that no rule has. */
AGC_USED AgcNumber agc_write_rule(uint32_t rule, char *text, size_t room);

/* The report that `agc` writes of these words and counts, in the same way; codes also those of the
   image. */
AGC_USED AgcNumber agc_write_report(const uint16_t words[AGC_WORDS], uint32_t sets, const AgcTotals *totals, char *text,
                           size_t room);

/* Whether a request is served, with these counts before it, by the rule of `agc`: AGC_OK;
   AGC_OUT_OF_RANGE and AGC_NOT_A_WORD for the request; AGC_SPENT; AGC_LOG_FULL, which neither AGC_RESTART
   nor AGC_FRESH is answered. agc_step asks nobody: it serves what is lawful. */
AGC_USED uint32_t agc_refusal(const AgcRequest *request, const AgcBounds *bounds);

/* What a pulse of a device's line asks for: of AGC_TIMER a tick, of AGC_KEY and AGC_RADAR what the plan has
   done for it, at most AGC_ACTIONS actions each, of which AGC_NOTHING asks for nothing. The requests come in
   order in the first places of `requests`, the others stay, and the number says how many they are.
   AGC_OUT_OF_RANGE for the line; AGC_PLAN_RANGE where there are more actions, or one is none. */
AGC_USED AgcNumber agc_pulse(uint32_t line, const AgcAction *key, size_t key_count, const AgcAction *radar,
                    size_t radar_count, AgcRequest requests[AGC_ACTIONS]);

/* Whether rows make a timetable: AGC_OK, or the first of AGC_TIME_RANGE, AGC_STEAL_TWICE and
   AGC_COST_TWICE. The first row that is wrong is found by looking at fewer: docs/embedding/C.md. */
AGC_USED uint32_t agc_clock_check(const AgcTimetable *table);

/* The next request of a clock for a machine with these words. docs/TIME.md says how time passes. The number tells who asks: 1 the clock, 2 and more an event, the
   first being 2; and then *request is to be asked, and agc_clock_served to be told of it. It is 0 where
   the time is over, and *request stays. Codes: those of the image, then those of agc_clock_check. The
   trusted form looks at neither, and has the condition of other calls: an address that is out of its
   range then counts as 037777, numbers that are no request as AGC_CHANGE, a job's requests end before the
   first that it can't ask for, and of two rows for one time or address the first counts. */
AGC_USED AgcNumber agc_clock_next(const uint16_t words[AGC_WORDS], uint32_t sets, const AgcTimetable *table,
                         AgcClock *clock, AgcRequest *request);
AGC_USED AgcNumber agc_clock_next_trusted(const uint16_t words[AGC_WORDS], uint32_t sets, const AgcTimetable *table,
                                 AgcClock *clock, AgcRequest *request);

/* A clock takes what came of a request, also of one that it didn't ask for: the words as the step left
   them, and what agc_step answered. Codes of the image. */
AGC_USED uint32_t agc_clock_served(const uint16_t words[AGC_WORDS], uint32_t sets, const AgcStep *step, AgcClock *clock);
AGC_USED uint32_t agc_clock_served_trusted(const uint16_t words[AGC_WORDS], uint32_t sets, const AgcStep *step, AgcClock *clock);

/* An event takes what came of a request, also of one that no clock asked for: where the step has an alarm,
   and the event's `after` is its code, it counts from the clock's centisecond on: its times are then those
   since the start, and `after` is 0, so that only the first alarm of a code counts. Any other event stays.
   The answer is the alarm for which it still waits, 0 for none. Call it for each event that waits, with each
   step with which agc_clock_served is called. */
uint32_t agc_clock_told(const AgcStep *step, const AgcClock *clock, AgcEvent *event);

/* The image of a fresh start, whatever stood there: no jobs, no tasks, six phases 0, no codes. */
AGC_USED uint32_t agc_clear(uint16_t words[AGC_WORDS], uint32_t sets);

/* Whether the array has a lawful image: AGC_OK, or the first of AGC_NO_SUCH_SETS, AGC_NOT_WORDS and
   AGC_UNLAWFUL. True between requests, false inside a tick, where a task is due. */
AGC_USED AgcTruth agc_check(const uint16_t words[AGC_WORDS], uint32_t sets);

/* Why agc_step serves no request on the array: the code that it answers of the array, one of those of the
   image, AGC_NOT_NOW and AGC_UNTIDY; and but for AGC_OK and AGC_NO_SUCH_SETS the first rule that is broken,
   where, what stands there and what would have to. */
AGC_USED AgcFinding agc_explain(const uint16_t words[AGC_WORDS], uint32_t sets);

/* All that the tables hold. Answers the code; *scene stays if it isn't AGC_OK. */
AGC_USED uint32_t agc_scene(const uint16_t words[AGC_WORDS], uint32_t sets, AgcScene *scene);

/* The library's release: 10000 times its first number, 100 times its second, and its third. */
AGC_USED uint32_t agc_version(void);

/* An image of seven core sets becomes one of eight. AGC_NOT_NOW where a task is due. The words don't
   tell whether they are of eight already: then the job in core set 7 is lost. */
AGC_USED uint32_t agc_migrate(uint16_t words[AGC_WORDS]);

/* One request on the tables alone: at an alarm the tables stay as they are, and no era begins. Code and
   reply are as of a step, except: AGC_TICK counts TIME3, AGC_NOT_NOW is for it alone, where a task is due
   before it, and a tick is this call and then agc_dispatch until that answers AGC_NOT_NOW; AGC_RESTART
   takes out all jobs and tasks, and phases and codes stay; AGC_FRESH takes these out, too. */
AGC_USED AgcReply agc_call(uint16_t words[AGC_WORDS], uint32_t sets, const AgcRequest *request);

/* Takes out a task that is due: of these the earliest arrival. AGC_NOT_NOW where none is due. */
AGC_USED AgcTask agc_dispatch(uint16_t words[AGC_WORDS], uint32_t sets);

/* Adds one of the four alarms to FAILREG. */
AGC_USED uint32_t agc_record_alarm(uint16_t words[AGC_WORDS], uint32_t sets, uint32_t alarm);

#undef AGC_INLINE
#undef AGC_TYPE
#undef AGC_PLACE
#undef AGC_USED

#ifdef __cplusplus
}
#endif

#endif
