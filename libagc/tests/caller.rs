//! Asks a `Machine` and its `Clock` what lines say, which caller.py describes, and writes what came of it. Tries what safe
//! calls must hold, too.

#[path = "../rust/agc.rs"]
mod agc;

use agc::*;
use std::fmt::Write;
use std::io::Read;

fn number(text: &str, radix: u32) -> u32 {
    u32::from_str_radix(text, radix).unwrap()
}

fn numbers(text: &str) -> Vec<u32> {
    text.split(' ').map(|it| number(it, 10)).collect()
}

/// A reply's line by its numbers alone.
fn spelled(step: &Step) -> String {
    let n = step.number;
    let fired: String = step.fired.iter().map(|it| format!(" {:05o}/{:05o}", it.at, it.bank)).collect();
    match step.kind {
        Kind::Established => format!("job {n}"),
        Kind::Left => format!("left {n}"),
        Kind::Idle => "left idle".to_string(),
        Kind::Roused => format!("roused {n}"),
        Kind::NoSleeper => "no sleeper".to_string(),
        Kind::NoJob => "no job".to_string(),
        Kind::Runs => format!("runs {n}"),
        Kind::Stored => "stored".to_string(),
        Kind::Listed => "listed".to_string(),
        Kind::Alarmed => format!("alarm {n:o}"),
        Kind::Phased => "phased".to_string(),
        Kind::Ticked => format!("tick{fired}"),
        Kind::TickAlarmed => format!("tick{fired} alarm {n:o}"),
        Kind::Restarted => "restarted".to_string(),
        Kind::Nothing => panic!("no reply"),
    }
}

/// A scene as arrays alone.
fn told(scene: &Scene) -> String {
    let job = |it: &Option<AgcJob>| match it {
        None => "null".to_string(),
        Some(AgcJob { number, priority, at, bank, asleep, area, work, .. }) => {
            format!("[{number},{priority},{at},{bank},{asleep},{area},{work:?}]")
        }
    };
    let sets: Vec<String> = scene.sets.iter().map(job).collect();
    let tasks: Vec<[u32; 3]> = scene.tasks.iter().map(|it| [it.at, it.bank, it.left]).collect();
    let Scene { running, next, areas, phases, codes, .. } = scene;
    let sets = sets.join(",");
    format!("[{running},{next},[{sets}],{areas:?},{tasks:?},{phases:?},{codes:?}]").replace(' ', "")
}

/// A bench or a scenario. What it says is made with the first request, when its plan is whole.
struct Caller {
    is_bench: bool,
    sets: u32,
    plan: Plan,
    power: Option<PhaseWords>,
    timetable: Timetable,
    is_changed: bool,
    going: Option<(Machine, Clock)>,
    fault: Option<AgcError>,
}

impl Caller {
    fn new(name: &str, sets: u32) -> Caller {
        let (plan, timetable) = (Plan::new(), Timetable::new(86400));
        Caller { is_bench: name == "bench", sets, plan, power: None, timetable, is_changed: false, going: None, fault: None }
    }

    fn begin(&mut self, seconds: u32, seed: u32) -> Result<(), AgcError> {
        (self.timetable, self.is_changed) = (Timetable::new(seconds), true);
        if seed != 0 {
            self.timetable = self.timetable.clone().seed(seed)?;
        }
        Ok(())
    }

    fn going(&mut self) -> Result<(&mut Machine, &mut Clock), AgcError> {
        if let Some((_, clock)) = self.going.as_mut().filter(|_| self.is_changed) {
            clock.change(self.timetable.clone())?;
        }
        self.is_changed = false;
        if self.going.is_none() {
            let machine = match &self.power {
                Some(found) => Machine::power_up(self.sets, self.plan.clone(), found)?,
                None => Machine::new(self.sets, self.plan.clone())?,
            };
            self.going = Some((machine, Clock::new(self.timetable.clone())?));
        }
        Ok(self.going.as_mut().map(|(machine, clock)| (machine, clock)).unwrap())
    }

    /// A row of the plan or of the timetable.
    fn add(&mut self, name: &str, first: &str, parts: &[&str]) -> Result<(), AgcError> {
        let (plan, all) = (self.plan.clone(), self.timetable.clone());
        match name {
            "task" => self.plan = plan.task(number(&first[..5], 8), number(&first[6..], 8), parts)?,
            "phase" => {
                let it = numbers(first);
                self.plan = plan.phase(it[0], it[1], parts[0], parts[1])?;
            }
            "steal" => {
                let it = numbers(first);
                let every = (it[3] > 0).then_some(it[3]);
                self.timetable = all.steal_every(it[0], it[1], it[2], every, every.map(|_| it[4]))?;
            }
            "job" => {
                let cost = numbers(&first[6..]);
                self.timetable = all.job(number(&first[..5], 8), cost[1], parts)?.at_least(cost[0])?;
            }
            _ => {
                let (rest, after) = first.rsplit_once(' ').unwrap();
                let it = numbers(rest);
                let every = (it[1] > 0).then_some(it[1]);
                let all = all.event(it[0], every, every.map(|_| it[2]), parts)?;
                self.timetable = if after == "0" { all } else { all.after(number(after, 8))? };
            }
        }
        Ok(())
    }

    /// Asks for a line, and of a copy for its numbers.
    fn ask(&mut self, line: &str) -> Result<String, AgcError> {
        let machine = self.going()?.0;
        let (mut other, restarts) = (machine.clone(), machine.totals().restarts);
        let step = machine.ask(line)?;
        assert_eq!(other.ask(AgcRequest::try_from(line)?)?, step);
        assert_eq!((other.words(), other.moment(), other.totals()), (machine.words(), machine.moment(), machine.totals()));
        assert_eq!((step.action > 0, step.to_string()), (step.kind == Kind::TickAlarmed, spelled(&step)));
        assert_eq!(step.begins_era(), other.totals().restarts > restarts);
        Ok(step.to_string())
    }

    /// Lets time pass by `run`, and of copies request by request, which has to leave the same.
    fn run(&mut self, centiseconds: u32) -> Result<Vec<(u32, Asked, Step)>, AgcError> {
        let (machine, clock) = self.going()?;
        let (mut other, mut copy, mut found) = (machine.clone(), clock.clone(), Vec::new());
        for (asked, step) in machine.run(clock, centiseconds)? {
            assert_eq!(copy.next(&other)?, Some(asked));
            assert_eq!(other.ask(asked.request)?, step);
            assert_eq!(asked.request.to_string().parse::<AgcRequest>()?, asked.request);
            copy.served(&other, &step);
            found.push((copy.time(), asked, step));
        }
        assert_eq!((copy.time(), other.words()), (clock.time(), machine.words()));
        Ok(found)
    }

    fn words(&mut self, place: usize, bits: u16) -> Result<(), AgcError> {
        let mut words = self.going()?.0.words().to_vec();
        words[place] = bits;
        let finding = finding_of(&words)?;
        let made = Machine::from_words(&words, Plan::new()).inspect_err(|error| {
            assert_eq!((error.finding, error.to_string()), (finding, format!("words: {}", finding.unwrap())));
        })?;
        assert_eq!((finding, made.words(), made.moment(), made.totals()), (None, &words[..], &words[..], AgcTotals::default()));
        Ok(())
    }

    fn kept(&mut self) -> Result<(), AgcError> {
        let (plan, timetable) = (self.plan.clone(), self.timetable.clone());
        let (machine, clock) = self.going()?;
        let again = (Machine::of_state(&machine.state(), plan)?, Clock::of_state(&clock.state(), timetable)?);
        assert_eq!((again.0.state(), again.1.state()), (machine.state(), clock.state()));
        (*machine, *clock) = again;
        Ok(())
    }

    /// Does what a line says.
    fn serve(&mut self, name: &str, rest: &str, line: &str, out: &mut String) -> Result<(), AgcError> {
        let mut row = |time: u32, source: u32, it: &AgcRequest, step: &Step| {
            let (kind, third) = (it.kind as u32, it.third);
            writeln!(out, "{time} {source} {kind} {} {} {third} {step}", it.first, it.second).unwrap();
        };
        match name {
            "run" => {
                for (time, asked, step) in self.run(number(rest, 10))? {
                    row(time, asked.event.map_or(1, |it| it + 2), &asked.request, &step);
                }
            }
            "hand" => {
                let (machine, clock) = self.going()?;
                let step = machine.ask(rest)?;
                clock.served(machine, &step);
                row(clock.time(), 0, &rest.parse()?, &step);
            }
            "asks" => {
                let found = self.run(number(rest, 10))?;
                let found = found.iter().filter(|it| it.1.request.kind != RequestKind::Tick);
                let texts: Vec<String> = found.map(|(time, asked, _)| format!("{time} {}", asked.request)).collect();
                writeln!(out, "asks {}", texts.join(", ")).unwrap();
            }
            "keeps" => {
                let (mut texts, end) = (Vec::new(), self.going()?.1.time() + number(rest, 10));
                loop {
                    let (machine, clock) = self.going()?;
                    let Some(asked) = clock.next(machine)?.filter(|_| clock.time() <= end) else { break };
                    let step = machine.ask(asked.request)?;
                    clock.served(machine, &step);
                    if asked.request.kind != RequestKind::Tick {
                        texts.push(format!("{} {}", clock.time(), asked.request));
                    }
                    self.kept()?;
                }
                writeln!(out, "keeps {}", texts.join(", ")).unwrap();
            }
            "given" => {
                let clock = self.going()?.1;
                let given = clock.given().map(|it| it.to_string()).join(" ");
                writeln!(out, "given {given} {}", clock.state().clock.lot).unwrap();
            }
            "kept" => self.kept()?,
            "words" => {
                let (place, bits) = rest.split_once(' ').unwrap();
                self.words(number(place, 10) as usize, number(bits, 8) as u16)?;
            }
            "scene" => writeln!(out, "scene {}", told(&self.going()?.0.scene())).unwrap(),
            "moment" => writeln!(out, "moment {}", told(&scene_of(self.going()?.0.moment())?)).unwrap(),
            _ => writeln!(out, "{}", self.ask(line)?).unwrap(),
        }
        Ok(())
    }

    fn take(&mut self, line: &str, out: &mut String) {
        let (name, rest) = line.split_once(' ').unwrap_or((line, ""));
        let (first, parts) = rest.split_once('|').unwrap_or((rest, ""));
        let served = match name {
            "timetable" => self.begin(numbers(rest)[0], numbers(rest)[1]),
            "power" => {
                let found: Vec<u16> = rest.split(' ').map(|it| number(it, 8) as u16).collect();
                self.power = found.try_into().ok();
                Ok(())
            }
            "refused" => {
                let made = self.going().err();
                let fault = made.or(self.fault.take()).map_or("nothing".to_string(), |it| {
                    let (row, key) = (it.row.as_deref().unwrap_or(""), it.key.as_deref().unwrap_or(""));
                    format!("{}|{row}|{key}|{it}", it.code as u32)
                });
                writeln!(out, "refused {fault}").unwrap();
                Ok(())
            }
            _ if rest.contains('|') || name == "steal" => self.add(name, first, &parts.split('|').collect::<Vec<_>>()),
            _ => self.serve(name, rest, line, out),
        };
        self.fault = served.err().or(self.fault.take());
    }
}

/// What safe calls hold whatever they are handed, which no line says.
fn holds() -> Result<(), AgcError> {
    let mut words: Words = [65535; WORDS];
    assert_eq!((agc_check(&words, 7).code, agc_clear(&mut words, 9), words), (Code::NotWords, Code::NoSuchSets, [65535; WORDS]));
    assert_eq!(agc_clear(&mut words, 7), Code::Ok);
    assert_eq!(words[LAST_SET..], [65535; 12]);
    let entry = AgcPhaseEntry { group: 1, ..AgcPhaseEntry::default() };
    let was = words;
    assert_eq!(agc_begin(&mut words, 7, 0, &[entry]), Code::PlanRange);
    // What is too long for its room isn't written.
    let step = AgcStep { reply: Kind::Established, number: 3, ..AgcStep::default() };
    let (fired, mut text) = ([AgcFired::default(); FIRED], [7; LINE]);
    assert_eq!(agc_write_reply(&step, &fired, &mut text[..5]), AgcNumber { code: Code::NoRoom, number: 6 });
    assert_eq!(agc_write_report(&words, 7, &AgcTotals::default(), &mut text[..5]).code, Code::NoRoom);
    assert_eq!((text, words), ([7; LINE], was));
    assert_eq!(agc_write_reply(&step, &fired, &mut text[..6]), AgcNumber { code: Code::Ok, number: 6 });
    assert_eq!(text[..7], *b"job 3\n\x07");
    // A pulse asks for a tick, or for what the plan has done; and a request is refused by the rule of `agc`.
    let lines = |found: Vec<AgcRequest>| found.iter().map(AgcRequest::to_string).collect::<Vec<_>>();
    assert_eq!(lines(pulse_of(Device::Key, &["nothing", "rouse 02100"], &[])?), ["rouse 02100"]);
    assert_eq!((lines(pulse_of(Device::Timer, &[], &[])?), pulse_of(Device::Radar, &["rouse 02100"], &[])?), (vec!["tick".into()], vec![]));
    let of = |served, logged| AgcBounds { served, allowance: 10, logged, limit: 5 };
    assert_eq!((refusal_of("tick", &of(9, 5))?, refusal_of("restart", &of(9, 5))?), (Code::LogFull, Code::Ok));
    assert_eq!((refusal_of("tick", &of(9, 4))?, refusal_of("fresh", &of(10, 5))?), (Code::Ok, Code::Spent));
    assert_eq!((Code::NotAWord.text(), Kind::Stored.text()), ("a word of the call is above 077777", "a work word was set"));
    Ok(())
}

/// What is wrong, as a sentence, of what no line says.
fn messages() -> Result<(), AgcError> {
    let (none, job) = (|| Timetable::new(1), Timetable::new(1).job(0o4000, 3, &["end"])?);
    let event = none().event(1, None, None, &["tick"])?;
    for (made, told) in [
        // 2^32 hundredths and four aren't cut to four.
        (none().job(0o4000, 42_949_673, &["end"]), "job 1: cost is 42949673, but must be 1 to 1000000"),
        (job.clone().job(0, 1, &["end"]), "job 2: at is 0 (octal), but must be 1 to 37777"),
        (none().seed(u32::MAX), "a timetable: seed is 4294967295, but must be 1 to 2147483646"),
        (none().at_least(1), "at_least is about the job before it, and there is none"),
        (job.clone().at_least(4), "job 1: at_least is 4, but must be 1 to 3"),
        (job.clone().after(0o1201), "after is about the event before it, and there is none"),
        (event.clone().after(5), "event 1: after is 5 (octal), but must be 1201 to 1203"),
        (none().event(1, Some(0), None, &["tick"]), "event 1: every is 0, but must be 1 to 8640000"),
        (none().event(1, None, None, &[]), "event 1: do must have 1 to 16 lines, but has 0"),
        (none().event(1, None, None, &["tick\n"]), r#"event 1: do 1: "tick\n": it has a line's end; give the line without it"#),
        ((0..1001).try_fold(none(), |made, _| made.event(1, None, None, &["tick"])), "a timetable: event must have at most 1000 tables, but has 1001"),
    ] {
        assert_eq!(made.unwrap_err().to_string(), told);
    }
    let mut machine = Machine::new(7, Plan::new())?;
    let mut said = |kind, first, second, third| machine.ask(AgcRequest { kind, first, second, third }).unwrap_err().to_string();
    assert_eq!(said(RequestKind::Novac, 0o40, 0o2000, 5), "priority is 40 (octal), but must be 1 to 37");
    assert_eq!(said(RequestKind::Findvac, 1, 1, 32768), "word is 100000 (octal), but must be 0 to 77777");
    assert_eq!(said(RequestKind::List, 16251, 1, 1), "delay is 16251, but must be 1 to 16250");
    assert_eq!(said(RequestKind::Nothing, 0, 0, 0), "nothing is no request, but an action of a plan");
    let fault = |made: Result<Machine, AgcError>| made.unwrap_err().to_string();
    assert_eq!(fault(Machine::from_words(&[0; 131], Plan::new())), "words: there must be 132 or 144, but there are 131");
    let told = "a machine: power 4 is 100000 (octal), but must be 0 to 77777";
    assert_eq!(fault(Machine::power_up(7, Plan::new(), &[0, 0, 0, 32768, 0, 0, 0, 0, 0, 0, 0, 0])), told);
    let state = ClockState { clock: AgcClock::default(), alarms: vec![(0o1202, 8_640_001)] };
    assert_eq!(Clock::of_state(&state, none()).unwrap_err().to_string(), "alarms: 1202 is 8640001, but must be 0 to 8640000");
    let told = pulse_of(Device::Key, &[], &["nothing", "end"]).unwrap_err().to_string();
    assert_eq!(told, r#"a pulse: radar 2: "end": an action is nothing, or begins with novac, findvac, rouse or list"#);
    // A clock is told of what it gave before it gives another.
    let mut clock = Clock::new(job)?;
    let asked = clock.next(&machine)?.expect("a tick");
    let told = "the clock was asked again, and not told by `served` what came of its request";
    assert_eq!((clock.next(&machine).unwrap_err().to_string(), clock.clone().next(&machine).is_err()), (told.into(), true));
    let step = machine.ask(asked.request)?;
    clock.served(&machine, &step);
    assert_eq!(format!("{step:?}"), "Step { kind: Ticked, number: 0, fired: [], action: 0 }");
    assert_eq!(format!("{clock:?}"), "<Clock: 1 of 100 centiseconds; jobs: 1, events: 0>");
    // Counts stay at their most.
    let most = AgcTotals { served: u64::MAX, alarms_1201: u64::MAX, restarts: u64::MAX, ..AgcTotals::default() };
    let mut full = Machine::of_state(&MachineState { totals: most, ..machine.state() }, Plan::new())?;
    for _ in 0..6 {
        full.ask("findvac 01 00001 00000")?;
    }
    assert_eq!((full.totals(), format!("{full:?}")), (most, "<Machine: no job is running; jobs: 0, tasks: 0, alarms: 18446744073709551615>".into()));
    Ok(())
}

fn main() -> Result<(), AgcError> {
    holds()?;
    messages()?;
    let (mut text, mut out, mut caller) = (String::new(), String::new(), None::<Caller>);
    std::io::stdin().read_to_string(&mut text).unwrap();
    for line in text.lines().chain(["bench 7"]) {
        let words: Vec<&str> = line.split(' ').collect();
        if !matches!(words[0], "bench" | "scenario") {
            caller.as_mut().expect("a bench or a scenario").take(line, &mut out);
            continue;
        }
        if let Some(it) = caller.as_mut().filter(|it| it.is_bench) {
            out.push_str(&it.going()?.0.report());
        }
        let mut next = Caller::new(words[0], number(words[1], 10));
        if !next.is_bench {
            writeln!(out, "{line}").unwrap();
            next.fault = next.begin(number(words[2], 10), number(words[3], 10)).err();
        }
        caller = Some(next);
    }
    print!("{out}");
    Ok(())
}
