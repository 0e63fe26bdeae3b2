//! The library as agc.h has it: its calls take an array that the caller owns. tools/bindings wrote this from agc.h, the tables of keys and the forms of lines.

use std::marker::PhantomData;

pub const MPAC: usize = 0;
pub const MODE: usize = 7;
pub const LOC: usize = 8;
pub const BANKSET: usize = 9;
pub const PUSHLOC: usize = 10;
pub const PRIORITY: usize = 11;
pub const SET_SIZE: usize = 12;
pub const USE_WORDS: usize = 84;
pub const NEWJOB: usize = 89;
pub const TIME3: usize = 90;
pub const LST1: usize = 91;
pub const LST2: usize = 99;
pub const FAILREG: usize = 129;
pub const LAST_SET: usize = 132;
pub const WORDS: usize = 144;
pub const PHASE_WORDS: usize = 12;
pub const PHASE_PLACE: usize = 117;
pub const FIRED: usize = 9;
pub const ACTIONS: usize = 4;
pub const MOST_SETS: u32 = 8;
pub const TASKS: usize = 9;
pub const AREAS: usize = 5;
pub const GROUPS: usize = 6;
pub const CODES: usize = 3;
pub const WORK: usize = 6;
pub const LINE: usize = 128;
pub const REPORT: usize = 2048;
pub const ANY: u32 = 65535;

/// The words of the tables: 132 with seven core sets, 144 with eight.
pub type Words = [u16; WORDS];

/// The twelve phase words, -PHASE1 first.
pub type PhaseWords = [u16; PHASE_WORDS];

/// What a plan has done: a request of five kinds.
pub type AgcAction = AgcRequest;

/// What a call lacked: the first that applies.
#[derive(Clone, Copy, Debug, Default, PartialEq, Eq, Hash)]
#[non_exhaustive]
#[repr(u32)]
pub enum Code {
    /// The call was served.
    #[default] Ok = 0,
    /// The number of core sets is neither 7 nor 8.
    NoSuchSets = 1,
    /// A number of the image is above 077777.
    NotWords = 2,
    /// The image isn't lawful.
    Unlawful = 3,
    /// A number of the call is out of its range.
    OutOfRange = 4,
    /// A word of the call is above 077777.
    NotAWord = 5,
    /// A task is due, or at agc_dispatch none is.
    NotNow = 6,
    /// The image is lawful, and no step leaves it so: MODE or PUSHLOC of a job isn't 0, or a gap
    /// of LST1 is 077777, which would have to be 0.
    Untidy = 8,
    /// A number of the plan is out of its range.
    PlanRange = 9,
    /// One task, of one address and bank, has two rows of the plan.
    TaskTwice = 10,
    /// One group and phase has two entries of the plan.
    PhaseTwice = 11,
    /// Each of the six groups has an entry with a job of FINDVAC, and there are five VAC areas.
    TooManyAreas = 12,
    /// A line spells no request, or no action.
    NotSpelled = 13,
    /// A text doesn't fit: the number says how many bytes it wants.
    NoRoom = 14,
    /// A number of the timetable is out of its range.
    TimeRange = 15,
    /// Two rows of stolen time hold at one time.
    StealTwice = 16,
    /// One address has two costs.
    CostTwice = 17,
    /// As many requests were served as the allowance says.
    Spent = 19,
    /// As many requests were served since the last era began as the limit says.
    LogFull = 20,
}

impl Code {
    /// As a text.
    pub const fn text(self) -> &'static str {
        match self {
            Code::Ok => "the call was served",
            Code::NoSuchSets => "the number of core sets is neither 7 nor 8",
            Code::NotWords => "a number of the image is above 077777",
            Code::Unlawful => "the image isn't lawful",
            Code::OutOfRange => "a number of the call is out of its range",
            Code::NotAWord => "a word of the call is above 077777",
            Code::NotNow => "a task is due, or none is where one has to be",
            Code::Untidy => "the image is lawful, and no step leaves it so",
            Code::PlanRange => "a number of the plan is out of its range",
            Code::TaskTwice => "a task has two rows of the plan",
            Code::PhaseTwice => "a group's phase has two entries of the plan",
            Code::TooManyAreas => "each of six groups wants a VAC area, and there are five",
            Code::NotSpelled => "the line spells no request",
            Code::NoRoom => "the text doesn't fit into the room that is lent",
            Code::TimeRange => "a number of the timetable is out of its range",
            Code::StealTwice => "two rows of stolen time hold at one time",
            Code::CostTwice => "one address has two costs",
            Code::Spent => "as many requests were served as the allowance says",
            Code::LogFull => "the log is full, which only a restart or a fresh start empties",
        }
    }
}

/// The kinds of replies.
#[derive(Clone, Copy, Debug, Default, PartialEq, Eq, Hash)]
#[non_exhaustive]
#[repr(u32)]
pub enum Kind {
    /// There is no reply: the call lacked something.
    #[default] Nothing = 0,
    /// A job was established: its number.
    Established = 1,
    /// The running job ended or sleeps: who runs now.
    Left = 2,
    /// The running job ended or sleeps, and no job is running now.
    Idle = 3,
    /// A sleeper was awakened: its number.
    Roused = 4,
    /// No job sleeps at that address.
    NoSleeper = 5,
    /// No job is running, so there is none to act on.
    NoJob = 6,
    /// Who runs now.
    Runs = 7,
    /// A work word was set.
    Stored = 8,
    /// A task was listed.
    Listed = 9,
    /// A table is full: the alarm, as below. A single call changed nothing, and with a step an
    /// era began.
    Alarmed = 10,
    /// A phase was set.
    Phased = 11,
    /// A tick passed.
    Ticked = 12,
    /// An action raised this alarm in a tick, and an era began.
    TickAlarmed = 13,
    /// A restart or a fresh start, with which an era began.
    Restarted = 14,
}

impl Kind {
    /// As a text.
    pub const fn text(self) -> &'static str {
        match self {
            Kind::Nothing => "there is no reply",
            Kind::Established => "a job was established",
            Kind::Left => "the running job ended or sleeps, and another runs",
            Kind::Idle => "the running job ended or sleeps, and no job is running",
            Kind::Roused => "a sleeper was awakened",
            Kind::NoSleeper => "no job sleeps at that address",
            Kind::NoJob => "no job is running, so there is none to act on",
            Kind::Runs => "a job runs",
            Kind::Stored => "a work word was set",
            Kind::Listed => "a task was listed",
            Kind::Alarmed => "a table is full: an alarm",
            Kind::Phased => "a phase was set",
            Kind::Ticked => "a tick passed",
            Kind::TickAlarmed => "an action raised an alarm in a tick, and an era began",
            Kind::Restarted => "an era began by a restart or a fresh start",
        }
    }
}

/// The kinds of requests.
#[derive(Clone, Copy, Debug, Default, PartialEq, Eq, Hash)]
#[non_exhaustive]
#[repr(u32)]
pub enum RequestKind {
    /// Of a plan alone: nothing is done.
    #[default] Nothing = 0,
    /// A priority, 1 to 31, an address, 1 to 16383, a bank's word.
    Novac = 1,
    /// The same.
    Findvac = 2,
    /// End of job.
    End = 3,
    /// An address.
    Sleep = 4,
    /// An address.
    Rouse = 5,
    /// A priority.
    Prio = 6,
    /// Change of job.
    Change = 7,
    /// A work word's place, 1 to 6, and the word.
    Store = 8,
    /// A delay, 1 to 16250, an address, a bank's word.
    List = 9,
    /// A centisecond passes.
    Tick = 10,
    /// A group, 1 to 6, and its phase, 0 to 127.
    Phase = 11,
    /// A software restart.
    Restart = 12,
    /// A fresh start.
    Fresh = 13,
}

/// The lines of devices.
#[derive(Clone, Copy, Debug, Default, PartialEq, Eq, Hash)]
#[non_exhaustive]
#[repr(u32)]
pub enum Device {
    #[default] Timer = 0,
    Key = 1,
    Radar = 2,
}

/// What each place of the words is called.
pub const PLACES: [&str; 144] = [
    "MPAC of core set 0", "MPAC+1 of core set 0", "MPAC+2 of core set 0", "MPAC+3 of core set 0",
    "MPAC+4 of core set 0", "MPAC+5 of core set 0", "MPAC+6 of core set 0", "MODE of core set 0",
    "LOC of core set 0", "BANKSET of core set 0", "PUSHLOC of core set 0",
    "PRIORITY of core set 0", "MPAC of core set 1", "MPAC+1 of core set 1",
    "MPAC+2 of core set 1", "MPAC+3 of core set 1", "MPAC+4 of core set 1",
    "MPAC+5 of core set 1", "MPAC+6 of core set 1", "MODE of core set 1", "LOC of core set 1",
    "BANKSET of core set 1", "PUSHLOC of core set 1", "PRIORITY of core set 1",
    "MPAC of core set 2", "MPAC+1 of core set 2", "MPAC+2 of core set 2", "MPAC+3 of core set 2",
    "MPAC+4 of core set 2", "MPAC+5 of core set 2", "MPAC+6 of core set 2", "MODE of core set 2",
    "LOC of core set 2", "BANKSET of core set 2", "PUSHLOC of core set 2",
    "PRIORITY of core set 2", "MPAC of core set 3", "MPAC+1 of core set 3",
    "MPAC+2 of core set 3", "MPAC+3 of core set 3", "MPAC+4 of core set 3",
    "MPAC+5 of core set 3", "MPAC+6 of core set 3", "MODE of core set 3", "LOC of core set 3",
    "BANKSET of core set 3", "PUSHLOC of core set 3", "PRIORITY of core set 3",
    "MPAC of core set 4", "MPAC+1 of core set 4", "MPAC+2 of core set 4", "MPAC+3 of core set 4",
    "MPAC+4 of core set 4", "MPAC+5 of core set 4", "MPAC+6 of core set 4", "MODE of core set 4",
    "LOC of core set 4", "BANKSET of core set 4", "PUSHLOC of core set 4",
    "PRIORITY of core set 4", "MPAC of core set 5", "MPAC+1 of core set 5",
    "MPAC+2 of core set 5", "MPAC+3 of core set 5", "MPAC+4 of core set 5",
    "MPAC+5 of core set 5", "MPAC+6 of core set 5", "MODE of core set 5", "LOC of core set 5",
    "BANKSET of core set 5", "PUSHLOC of core set 5", "PRIORITY of core set 5",
    "MPAC of core set 6", "MPAC+1 of core set 6", "MPAC+2 of core set 6", "MPAC+3 of core set 6",
    "MPAC+4 of core set 6", "MPAC+5 of core set 6", "MPAC+6 of core set 6", "MODE of core set 6",
    "LOC of core set 6", "BANKSET of core set 6", "PUSHLOC of core set 6",
    "PRIORITY of core set 6", "VAC 1", "VAC 2", "VAC 3", "VAC 4", "VAC 5", "NEWJOB", "TIME3",
    "LST1 0", "LST1 1", "LST1 2", "LST1 3", "LST1 4", "LST1 5", "LST1 6", "LST1 7",
    "LST2 0, the address", "LST2 0, the bank", "LST2 1, the address", "LST2 1, the bank",
    "LST2 2, the address", "LST2 2, the bank", "LST2 3, the address", "LST2 3, the bank",
    "LST2 4, the address", "LST2 4, the bank", "LST2 5, the address", "LST2 5, the bank",
    "LST2 6, the address", "LST2 6, the bank", "LST2 7, the address", "LST2 7, the bank",
    "LST2 8, the address", "LST2 8, the bank", "-PHASE of group 1", "PHASE of group 1",
    "-PHASE of group 2", "PHASE of group 2", "-PHASE of group 3", "PHASE of group 3",
    "-PHASE of group 4", "PHASE of group 4", "-PHASE of group 5", "PHASE of group 5",
    "-PHASE of group 6", "PHASE of group 6", "FAILREG 0", "FAILREG 1", "FAILREG 2",
    "MPAC of core set 7", "MPAC+1 of core set 7", "MPAC+2 of core set 7", "MPAC+3 of core set 7",
    "MPAC+4 of core set 7", "MPAC+5 of core set 7", "MPAC+6 of core set 7", "MODE of core set 7",
    "LOC of core set 7", "BANKSET of core set 7", "PUSHLOC of core set 7",
    "PRIORITY of core set 7",
];

/// A number of a line: what it is, a sentence of it, its octal digits, 0 where it is decimal, its least and its most.
#[derive(Clone, Copy, Debug)]
pub struct Part {
    pub letter: char,
    pub name: &'static str,
    pub sentence: &'static str,
    pub digits: usize,
    pub low: u32,
    pub high: u32,
}

const PARTS: [Part; 7] = [
    Part { letter: 'P', name: "priority", sentence: "a priority is octal, 01 to 37", digits: 2, low: 1, high: 31 },
    Part { letter: 'A', name: "address", sentence: "an address is five octal digits, 00001 to 37777", digits: 5, low: 1, high: 16383 },
    Part { letter: 'W', name: "word", sentence: "a word is five octal digits, 00000 to 77777", digits: 5, low: 0, high: 32767 },
    Part { letter: 'D', name: "delay", sentence: "a delay is decimal, 1 to 16250", digits: 0, low: 1, high: 16250 },
    Part { letter: 'K', name: "place", sentence: "a work word's place is 1 to 6", digits: 0, low: 1, high: 6 },
    Part { letter: 'G', name: "group", sentence: "a group is 1 to 6", digits: 0, low: 1, high: 6 },
    Part { letter: 'N', name: "phase", sentence: "a phase is decimal, 0 to 127", digits: 0, low: 0, high: 127 },
];

/// Each kind of request, from `NOTHING` on: its name, and its numbers.
pub const FORMS: [(&str, &[Part]); 14] = [
    ("nothing", &[]),
    ("novac", &[PARTS[0], PARTS[1], PARTS[2]]),
    ("findvac", &[PARTS[0], PARTS[1], PARTS[2]]),
    ("end", &[]),
    ("sleep", &[PARTS[1]]),
    ("rouse", &[PARTS[1]]),
    ("prio", &[PARTS[0]]),
    ("change", &[]),
    ("store", &[PARTS[4], PARTS[2]]),
    ("list", &[PARTS[3], PARTS[1], PARTS[2]]),
    ("tick", &[]),
    ("phase", &[PARTS[5], PARTS[6]]),
    ("restart", &[]),
    ("fresh", &[]),
];

/// The last centisecond of a timetable.
pub const LAST_TIME: u32 = 8640000;

/// The numbers of tables: table, key, least and most, and the octal digits that a message has, 0 where it is decimal.
pub const KEYS: [(&str, &str, u32, u32, usize); 29] = [
    ("bench", "sets", 7, 8, 0),
    ("bench", "limit", 1, 1000000, 0),
    ("bench", "attends", 0, 1000, 0),
    ("bench", "power", 0, 32767, 5),
    ("bench", "worker", 0, 32, 0),
    ("bench", "device", 0, 32, 0),
    ("task", "at", 1, 16383, 5),
    ("task", "bank", 0, 32767, 5),
    ("phase", "group", 1, 6, 0),
    ("phase", "phase", 1, 127, 0),
    ("scenario", "seconds", 1, 86400, 0),
    ("scenario", "seed", 1, 2147483646, 0),
    ("scenario", "sets", 7, 8, 0),
    ("scenario", "limit", 1, 1000000, 0),
    ("scenario", "power", 0, 32767, 5),
    ("scenario", "steal", 0, 100, 0),
    ("scenario", "job", 0, 100, 0),
    ("scenario", "event", 0, 1000, 0),
    ("steal", "from", 0, 8640000, 0),
    ("steal", "to", 0, 8640000, 0),
    ("steal", "percent", 0, 100, 0),
    ("steal", "every", 1, 8640000, 0),
    ("steal", "until", 0, 8640000, 0),
    ("job", "at", 1, 16383, 5),
    ("job", "cost", 1, 1000000, 0),
    ("job", "deadline", 1, 8640000, 0),
    ("event", "at", 0, 8640000, 0),
    ("event", "every", 1, 8640000, 0),
    ("event", "until", 0, 8640000, 0),
];

/// A list of requests, and what is wrong with a line that begins as none of them does.
#[derive(Clone, Copy, Debug)]
pub struct Kinds {
    pub names: &'static [&'static str],
    pub otherwise: &'static str,
}

pub const REQUEST_KINDS: Kinds = Kinds {
    names: &["novac", "findvac", "end", "sleep", "rouse", "prio", "change", "store", "list", "tick", "phase", "restart", "fresh"],
    otherwise: "its first word is unknown: a request begins with novac, findvac, end, sleep, rouse, prio, change, store, list, tick, phase, restart or fresh",
};
pub const ACTION_KINDS: Kinds = Kinds {
    names: &["nothing", "novac", "findvac", "rouse", "list"],
    otherwise: "an action is nothing, or begins with novac, findvac, rouse or list",
};
pub const JOB_KINDS: Kinds = Kinds {
    names: &["novac", "findvac"],
    otherwise: "a job begins with novac or findvac",
};
pub const LEAVING_KINDS: Kinds = Kinds {
    names: &["end", "sleep"],
    otherwise: "a job leaves by end or sleep",
};
pub const STEP_KINDS: Kinds = Kinds {
    names: &["novac", "findvac", "prio", "store", "list", "phase"],
    otherwise: "before its last line a job makes requests novac, findvac, prio, store, list or phase",
};
pub const LISTING_KINDS: Kinds = Kinds {
    names: &["list"],
    otherwise: "a task begins with list",
};

/// What a request is answered: the kind of the reply, and its number, or 0.
#[repr(C)]
#[derive(Clone, Copy, Debug, Default, PartialEq, Eq)]
pub struct AgcReply {
    pub code: Code,
    pub reply: Kind,
    pub number: u32,
}

/// A number.
#[repr(C)]
#[derive(Clone, Copy, Debug, Default, PartialEq, Eq)]
pub struct AgcNumber {
    pub code: Code,
    pub number: u32,
}

/// Yes or no.
#[repr(C)]
#[derive(Clone, Copy, Debug, Default, PartialEq, Eq)]
pub struct AgcTruth {
    pub code: Code,
    pub truth: bool,
}

/// A task of the Waitlist: its address, and the word for its bank.
#[repr(C)]
#[derive(Clone, Copy, Debug, Default, PartialEq, Eq)]
pub struct AgcTask {
    pub code: Code,
    pub at: u32,
    pub bank: u32,
}

/// A job in a core set: its number, 0 where the set is free; its priority; where it begins, or at
/// which address it sleeps; the word for its bank; its VAC area, 1 to 5, or 0; whether it sleeps;
/// and its six work words.
#[repr(C)]
#[derive(Clone, Copy, Debug, Default, PartialEq, Eq)]
pub struct AgcJob {
    pub number: u32,
    pub priority: u32,
    pub at: u32,
    pub bank: u32,
    pub area: u32,
    pub asleep: bool,
    pub work: [u16; 6],
}

/// A task that waits, and the centiseconds that are left to it. Its address is 0 where there is
/// none.
#[repr(C)]
#[derive(Clone, Copy, Debug, Default, PartialEq, Eq)]
pub struct AgcWaiting {
    pub at: u32,
    pub bank: u32,
    pub left: u32,
}

/// All that the tables hold: the numbers of the job that runs and of that which NEWJOB names, 0
/// for none; the jobs in the core sets, no job beyond the last set; the numbers of the jobs that
/// own VAC areas 1 to 5; the tasks that wait, as they come due, no task after the last; FAILREG;
/// and the phases of groups 1 to 6.
#[repr(C)]
#[derive(Clone, Copy, Debug, Default, PartialEq, Eq)]
pub struct AgcScene {
    pub running: u32,
    pub next: u32,
    pub sets: [AgcJob; 8],
    pub areas: [u32; 5],
    pub tasks: [AgcWaiting; 9],
    pub failreg: [u32; 3],
    pub phases: [u8; 6],
}

/// Why no step is asked on words: the rule that is broken first, at which place of the array,
/// what stands there, and what would have to, or ANY where the other words leave more than one
/// choice.
#[repr(C)]
#[derive(Clone, Copy, Debug, Default, PartialEq, Eq)]
pub struct AgcFinding {
    pub code: Code,
    pub rule: u32,
    pub place: u32,
    pub found: u32,
    pub wanted: u32,
}

/// A request: its kind, and its numbers. Those that its kind doesn't have aren't looked at.
#[repr(C)]
#[derive(Clone, Copy, Debug, Default, PartialEq, Eq)]
pub struct AgcRequest {
    pub kind: RequestKind,
    pub first: u32,
    pub second: u32,
    pub third: u32,
}

/// A row of a plan: a task, and what is done when it fires, in order, up to the first that raises
/// an alarm.
#[repr(C)]
#[derive(Clone, Copy, Debug, Default, PartialEq, Eq)]
pub struct AgcRow {
    pub at: u32,
    pub bank: u32,
    pub actions: [AgcRequest; 4],
}

/// A task that fired.
#[repr(C)]
#[derive(Clone, Copy, Debug, Default, PartialEq, Eq)]
pub struct AgcFired {
    pub at: u32,
    pub bank: u32,
}

/// What a step answers: the kind of the reply, and its number, or 0; how many tasks fired; and
/// which action, 1 to 4, of the last of these raised the alarm, 0 where none did. An era began
/// where the reply is ALARMED, TICK_ALARMED or RESTARTED.
#[repr(C)]
#[derive(Clone, Copy, Debug, Default, PartialEq, Eq)]
pub struct AgcStep {
    pub code: Code,
    pub reply: Kind,
    pub number: u32,
    pub fired: u32,
    pub action: u32,
}

/// Counts of the requests that were served, which you keep: all, those that raised each alarm, by
/// themselves or in a tick, and those with which an era began.
#[repr(C)]
#[derive(Clone, Copy, Debug, Default, PartialEq, Eq)]
pub struct AgcTotals {
    pub served: u64,
    pub alarms_1201: u64,
    pub alarms_1202: u64,
    pub alarms_1203: u64,
    pub restarts: u64,
}

/// How many requests were served, and how many are at most; how many were since the last era
/// began, and how many are at most. You keep the counts.
#[repr(C)]
#[derive(Clone, Copy, Debug, Default, PartialEq, Eq)]
pub struct AgcBounds {
    pub served: u64,
    pub allowance: u64,
    pub logged: u32,
    pub limit: u32,
}

/// An entry of a plan: what begins again while a restart group, 1 to 6, stands in a phase, 1 to
/// 127. A job, where `job` isn't 0, and a task, where `delay` isn't 0; their numbers are those of
/// the requests.
#[repr(C)]
#[derive(Clone, Copy, Debug, Default, PartialEq, Eq)]
pub struct AgcPhaseEntry {
    pub group: u32,
    pub phase: u32,
    pub job: RequestKind,
    pub priority: u32,
    pub job_at: u32,
    pub job_bank: u32,
    pub delay: u32,
    pub task_at: u32,
    pub task_bank: u32,
}

/// A plan: its rows and its entries.
#[repr(C)]
#[derive(Clone, Copy, Debug)]
pub struct AgcPlan<'a> {
    rows: *const AgcRow,
    row_count: usize,
    entries: *const AgcPhaseEntry,
    entry_count: usize,
    lent: PhantomData<&'a ()>,
}

impl<'a> AgcPlan<'a> {
    /// Of these slices.
    pub const fn new(rows: &'a [AgcRow], entries: &'a [AgcPhaseEntry]) -> AgcPlan<'a> {
        AgcPlan { rows: rows.as_ptr(), row_count: rows.len(), entries: entries.as_ptr(), entry_count: entries.len(), lent: PhantomData }
    }
}

/// Stolen time: from centisecond `from` until just before `to`, something else takes `percent`, 0
/// to 100, of each centisecond. If `every` isn't 0, this repeats at that interval, for the same
/// length each time; it last begins at `until` or earlier, and if `until` is before `from` it
/// never begins. `every` is 0, or at least `to` less `from`. Two rows with `every` 0 must not
/// overlap; if other rows do, the first one counts.
#[repr(C)]
#[derive(Clone, Copy, Debug, Default, PartialEq, Eq)]
pub struct AgcStolen {
    pub from: u32,
    pub to: u32,
    pub percent: u32,
    pub every: u32,
    pub until: u32,
}

/// What a job costs that stands at an address, in hundredths of a centisecond of computing, 1 to
/// 100,000,000. Each time a job begins it may cost less, by up to `spread`, as a lot says: its
/// cost is `hundredths - spread`, plus the next lot modulo `spread + 1`. `spread` is less than
/// `hundredths`; where it is 0 no lot is drawn. With the last of these it asks for the first of
/// `count` requests, 0 to 7, of those that are handed to the call, from number `first` on; with
/// each hundredth more for the next; and at last it ends, where `then` is 0, or sleeps at that
/// address. A request is NOVAC, FINDVAC, PRIO, STORE, LIST or PHASE. Where these are left out, as
/// in {04000, 17000, 0}, it asks for nothing before.
#[repr(C)]
#[derive(Clone, Copy, Debug, Default, PartialEq, Eq)]
pub struct AgcCost {
    pub at: u32,
    pub hundredths: u32,
    pub then: u32,
    pub first: u32,
    pub count: u32,
    pub spread: u32,
}

/// An event: it comes at a centisecond, 0 to 8,640,000, and where `every` isn't 0 again each so
/// many centiseconds, at last at `until`: never, where that is before the first. Each time it
/// asks for `count` requests, 1 to 16, of those that are handed to the call, from number `first`
/// on, which counts from 0. Where `after` is 0, its times count from the start. Where it is
/// 01201, 01202 or 01203, they are distances from the first alarm of this code (a distance of 0
/// counts as 1), and it doesn't come before agc_clock_told was told of that.
#[repr(C)]
#[derive(Clone, Copy, Debug, Default, PartialEq, Eq)]
pub struct AgcEvent {
    pub at: u32,
    pub every: u32,
    pub until: u32,
    pub first: u32,
    pub count: u32,
    pub after: u32,
}

/// A timetable: how many centiseconds it lasts, and its rows and requests.
#[repr(C)]
#[derive(Clone, Copy, Debug)]
pub struct AgcTimetable<'a> {
    lasts: u32,
    stolen: *const AgcStolen,
    stolen_count: usize,
    costs: *const AgcCost,
    cost_count: usize,
    events: *const AgcEvent,
    event_count: usize,
    requests: *const AgcRequest,
    request_count: usize,
    lent: PhantomData<&'a ()>,
}

impl<'a> AgcTimetable<'a> {
    /// Of these slices.
    pub const fn new(lasts: u32, stolen: &'a [AgcStolen], costs: &'a [AgcCost], events: &'a [AgcEvent], requests: &'a [AgcRequest]) -> AgcTimetable<'a> {
        AgcTimetable { lasts, stolen: stolen.as_ptr(), stolen_count: stolen.len(), costs: costs.as_ptr(), cost_count: costs.len(), events: events.as_ptr(), event_count: events.len(), requests: requests.as_ptr(), request_count: requests.len(), lent: PhantomData }
    }
}

/// A clock: its centisecond, what of that is done, the hundredths that jobs 1 to 8 were given
/// since they were established or roused (what a lot spared a job counts as given), and the lot
/// that was drawn last, where the next is 48271 times that modulo 2147483647. All zeros is a
/// clock at its start, whose lots are all 0, so that costs are least; for others set `lot` to a
/// seed, 1 to 2147483646. Any other clock is as a call left it.
#[repr(C)]
#[derive(Clone, Copy, Debug, Default, PartialEq, Eq)]
pub struct AgcClock {
    pub time: u32,
    pub event: usize,
    pub asked: usize,
    pub looks: bool,
    pub left: u32,
    pub given: [u32; 8],
    pub lot: u32,
}

/// An era begins, as after an alarm: its code is recorded, all jobs and tasks are gone, and then
/// for groups 1 to 6 in order the plan's entry for the group's phase begins, its job and then its
/// task. `alarm` is one of the four, or 0 where none is recorded, as at a restart by request. A
/// group of phase 0, or of one that has no entry, begins nothing. OUT_OF_RANGE is that of the
/// alarm; the codes of agc_plan_check are those of the entries.
pub fn agc_begin(words: &mut [u16; WORDS], sets: u32, alarm: u32, entries: &[AgcPhaseEntry]) -> Code {
    // SAFETY: what is lent outlives the call, which is told how much it is.
    unsafe { raw::agc_begin(words, sets, alarm, entries.as_ptr(), entries.len()) }
}

/// Power comes back with these phase words, -PHASE1 first, whatever stood in the array: an era
/// begins with the phases that they tell and no codes, and the number is 0. Where they don't
/// agree it is a fresh start with code 01107, and the number is ALARM_1107. NO_SUCH_SETS;
/// NOT_WORDS where a phase word is above 077777; the codes of agc_plan_check for the entries.
pub fn agc_power_up(words: &mut [u16; WORDS], sets: u32, entries: &[AgcPhaseEntry], phase_words: &[u16; PHASE_WORDS]) -> AgcNumber {
    // SAFETY: what is lent outlives the call, which is told how much it is.
    unsafe { raw::agc_power_up(words, sets, entries.as_ptr(), entries.len(), phase_words) }
}

/// The request that a line of a script spells, of so many bytes, without the line's end: OK, or
/// NOT_SPELLED, and then *request stays. Numbers that the kind doesn't have become 0.
/// agc_read_action: `nothing`, or the line of a novac, findvac, rouse or list.
pub fn agc_read_request(text: &[u8], request: &mut AgcRequest) -> Code {
    // SAFETY: what is lent outlives the call, which is told how much it is.
    unsafe { raw::agc_read_request(text.as_ptr(), text.len(), request) }
}

/// .
pub fn agc_read_action(text: &[u8], action: &mut AgcRequest) -> Code {
    // SAFETY: what is lent outlives the call, which is told how much it is.
    unsafe { raw::agc_read_action(text.as_ptr(), text.len(), action) }
}

/// The line that `agc` writes for a step's reply, with its end and no zero byte: OK, and the
/// number is how many bytes were written; NO_ROOM, and then nothing was; OUT_OF_RANGE where it is
/// of no kind, or names no job or alarm though its kind does, where more than nine tasks fired,
/// or where one that fired is none.
pub fn agc_write_reply(step: &AgcStep, fired: &[AgcFired; FIRED], text: &mut [u8]) -> AgcNumber {
    // SAFETY: what is lent outlives the call, which is told how much it is.
    unsafe { raw::agc_write_reply(step, fired, text.as_mut_ptr(), text.len()) }
}

/// Writes the rule that has this number as a sentence of at most LINE bytes, in the same way;
/// OUT_OF_RANGE for a number that no rule has.
pub fn agc_write_rule(rule: u32, text: &mut [u8]) -> AgcNumber {
    // SAFETY: what is lent outlives the call, which is told how much it is.
    unsafe { raw::agc_write_rule(rule, text.as_mut_ptr(), text.len()) }
}

/// The report that `agc` writes of these words and counts, in the same way; codes also those of
/// the image.
pub fn agc_write_report(words: &[u16; WORDS], sets: u32, totals: &AgcTotals, text: &mut [u8]) -> AgcNumber {
    // SAFETY: what is lent outlives the call, which is told how much it is.
    unsafe { raw::agc_write_report(words, sets, totals, text.as_mut_ptr(), text.len()) }
}

/// What a pulse of a device's line asks for: of TIMER a tick, of KEY and RADAR what the plan has
/// done for it, at most ACTIONS actions each, of which NOTHING asks for nothing. The requests
/// come in order in the first places of `requests`, the others stay, and the number says how many
/// they are. OUT_OF_RANGE for the line; PLAN_RANGE where there are more actions, or one is none.
pub fn agc_pulse(line: Device, key: &[AgcRequest], radar: &[AgcRequest], requests: &mut [AgcRequest; ACTIONS]) -> AgcNumber {
    // SAFETY: what is lent outlives the call, which is told how much it is.
    unsafe { raw::agc_pulse(line, key.as_ptr(), key.len(), radar.as_ptr(), radar.len(), requests) }
}

/// The calls that take pointers and lengths.
pub mod raw {
    use super::*;

    #[link(name = "agc", kind = "static")]
    unsafe extern "C" {
        pub fn agc_begin(words: &mut [u16; WORDS], sets: u32, alarm: u32, entries: *const AgcPhaseEntry, entry_count: usize) -> Code;
        pub fn agc_power_up(words: &mut [u16; WORDS], sets: u32, entries: *const AgcPhaseEntry, entry_count: usize, phase_words: &[u16; PHASE_WORDS]) -> AgcNumber;
        pub fn agc_read_request(text: *const u8, length: usize, request: &mut AgcRequest) -> Code;
        pub fn agc_read_action(text: *const u8, length: usize, action: &mut AgcRequest) -> Code;
        pub fn agc_write_reply(step: &AgcStep, fired: &[AgcFired; FIRED], text: *mut u8, room: usize) -> AgcNumber;
        pub fn agc_write_rule(rule: u32, text: *mut u8, room: usize) -> AgcNumber;
        pub fn agc_write_report(words: &[u16; WORDS], sets: u32, totals: &AgcTotals, text: *mut u8, room: usize) -> AgcNumber;
        pub fn agc_pulse(line: Device, key: *const AgcRequest, key_count: usize, radar: *const AgcRequest, radar_count: usize, requests: &mut [AgcRequest; ACTIONS]) -> AgcNumber;
    }
}

#[link(name = "agc", kind = "static")]
unsafe extern "C" {
    /// Whether rows and entries make a plan: OK, and then no era of it begins with an alarm; or
    /// the first of PLAN_RANGE, TASK_TWICE, PHASE_TWICE and TOO_MANY_AREAS.
    pub safe fn agc_plan_check(plan: &AgcPlan) -> Code;
    /// One request, with all that follows from it: in a tick each task that is due fires, and the
    /// actions of its row are done; after an alarm, and at a restart or fresh start, an era
    /// begins by the plan's entries. `fired` gets the tasks that fired, in order, in its first
    /// places; the others stay. `moment` is always filled: with the words as they were when the
    /// request was answered, before an era began with it, and where the code isn't OK with the
    /// words as they are. Codes, the first that applies: those of the image; OUT_OF_RANGE and
    /// NOT_A_WORD for the request; NOT_NOW where a task is due; UNTIDY; those of agc_plan_check.
    /// The trusted form looks at the request alone; a number of the plan that is out of range
    /// then does nothing, and of two rows or entries the first counts.
    pub safe fn agc_step(words: &mut [u16; WORDS], sets: u32, plan: &AgcPlan, request: &AgcRequest, fired: &mut [AgcFired; FIRED], moment: &mut [u16; WORDS]) -> AgcStep;
    /// As `agc_step`, of an array that an earlier call left so.
    ///
    /// # Safety
    ///
    /// The array is as an earlier call with this number of core sets left it: agc.h has more.
    pub fn agc_step_trusted(words: &mut [u16; WORDS], sets: u32, plan: &AgcPlan, request: &AgcRequest, fired: &mut [AgcFired; FIRED], moment: &mut [u16; WORDS]) -> AgcStep;
    /// Whether a request is served, with these counts before it, by the rule of `agc`: OK;
    /// OUT_OF_RANGE and NOT_A_WORD for the request; SPENT; LOG_FULL, which neither RESTART nor
    /// FRESH is answered. agc_step asks nobody: it serves what is lawful.
    pub safe fn agc_refusal(request: &AgcRequest, bounds: &AgcBounds) -> Code;
    /// Whether rows make a timetable: OK, or the first of TIME_RANGE, STEAL_TWICE and COST_TWICE.
    /// The first row that is wrong is found by looking at fewer: docs/embedding/C.md.
    pub safe fn agc_clock_check(table: &AgcTimetable) -> Code;
    /// The next request of a clock for a machine with these words. docs/TIME.md says how time
    /// passes. The number tells who asks: 1 the clock, 2 and more an event, the first being 2;
    /// and then *request is to be asked, and agc_clock_served to be told of it. It is 0 where the
    /// time is over, and *request stays. Codes: those of the image, then those of
    /// agc_clock_check. The trusted form looks at neither, and has the condition of other calls:
    /// an address that is out of its range then counts as 037777, numbers that are no request as
    /// CHANGE, a job's requests end before the first that it can't ask for, and of two rows for
    /// one time or address the first counts.
    pub safe fn agc_clock_next(words: &[u16; WORDS], sets: u32, table: &AgcTimetable, clock: &mut AgcClock, request: &mut AgcRequest) -> AgcNumber;
    /// As `agc_clock_next`, of an array that an earlier call left so.
    ///
    /// # Safety
    ///
    /// The array is as an earlier call with this number of core sets left it: agc.h has more.
    pub fn agc_clock_next_trusted(words: &[u16; WORDS], sets: u32, table: &AgcTimetable, clock: &mut AgcClock, request: &mut AgcRequest) -> AgcNumber;
    /// A clock takes what came of a request, also of one that it didn't ask for: the words as the
    /// step left them, and what agc_step answered. Codes of the image.
    pub safe fn agc_clock_served(words: &[u16; WORDS], sets: u32, step: &AgcStep, clock: &mut AgcClock) -> Code;
    /// As `agc_clock_served`, of an array that an earlier call left so.
    ///
    /// # Safety
    ///
    /// The array is as an earlier call with this number of core sets left it: agc.h has more.
    pub fn agc_clock_served_trusted(words: &[u16; WORDS], sets: u32, step: &AgcStep, clock: &mut AgcClock) -> Code;
    /// An event takes what came of a request, also of one that no clock asked for: where the step
    /// has an alarm, and the event's `after` is its code, it counts from the clock's centisecond
    /// on: its times are then those since the start, and `after` is 0, so that only the first
    /// alarm of a code counts. Any other event stays. The answer is the alarm for which it still
    /// waits, 0 for none. Call it for each event that waits, with each step with which
    /// agc_clock_served is called.
    pub safe fn agc_clock_told(step: &AgcStep, clock: &AgcClock, event: &mut AgcEvent) -> u32;
    /// The image of a fresh start, whatever stood there: no jobs, no tasks, six phases 0, no
    /// codes.
    pub safe fn agc_clear(words: &mut [u16; WORDS], sets: u32) -> Code;
    /// Whether the array has a lawful image: OK, or the first of NO_SUCH_SETS, NOT_WORDS and
    /// UNLAWFUL. True between requests, false inside a tick, where a task is due.
    pub safe fn agc_check(words: &[u16; WORDS], sets: u32) -> AgcTruth;
    /// Why agc_step serves no request on the array: the code that it answers of the array, one of
    /// those of the image, NOT_NOW and UNTIDY; and but for OK and NO_SUCH_SETS the first rule
    /// that is broken, where, what stands there and what would have to.
    pub safe fn agc_explain(words: &[u16; WORDS], sets: u32) -> AgcFinding;
    /// All that the tables hold. Answers the code; *scene stays if it isn't OK.
    pub safe fn agc_scene(words: &[u16; WORDS], sets: u32, scene: &mut AgcScene) -> Code;
    /// The library's release: 10000 times its first number, 100 times its second, and its third.
    pub safe fn agc_version() -> u32;
    /// An image of seven core sets becomes one of eight. NOT_NOW where a task is due. The words
    /// don't tell whether they are of eight already: then the job in core set 7 is lost.
    pub safe fn agc_migrate(words: &mut [u16; WORDS]) -> Code;
    /// One request on the tables alone: at an alarm the tables stay as they are, and no era
    /// begins. Code and reply are as of a step, except: TICK counts TIME3, NOT_NOW is for it
    /// alone, where a task is due before it, and a tick is this call and then agc_dispatch until
    /// that answers NOT_NOW; RESTART takes out all jobs and tasks, and phases and codes stay;
    /// FRESH takes these out, too.
    pub safe fn agc_call(words: &mut [u16; WORDS], sets: u32, request: &AgcRequest) -> AgcReply;
    /// Takes out a task that is due: of these the earliest arrival. NOT_NOW where none is due.
    pub safe fn agc_dispatch(words: &mut [u16; WORDS], sets: u32) -> AgcTask;
    /// Adds one of the four alarms to FAILREG.
    pub safe fn agc_record_alarm(words: &mut [u16; WORDS], sets: u32, alarm: u32) -> Code;
}
