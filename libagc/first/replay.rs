#[path = "../rust/agc.rs"]
mod agc;
use agc::*;

fn main() -> Result<(), AgcError> {
    let plan = Plan::new()
        .task(0o2000, 5, &["findvac 20 04000 00007", "list 200 02000 00005"])?
        .task(0o2100, 5, &["novac 30 05000 00007", "list 100 02100 00005"])?
        .phase(5, 1, "findvac 20 04000 00007", "list 200 02000 00005")?;
    let timetable = Timetable::new(600)
        .steal(0, 8_640_000, 15)?
        .job(0o4000, 170, &["end"])?
        .job(0o5000, 12, &["end"])?
        .event(0, None, None, &["phase 5 1", "list 1 02000 00005"])?
        .event(49, None, None, &["list 1 02100 00005"])?;
    let (mut machine, mut clock) = (Machine::new(7, plan)?, Clock::new(timetable)?);
    while let Some(asked) = clock.next(&machine)? {
        let step = machine.ask(asked.request)?;
        clock.served(&machine, &step);
        if let Some(alarm) = step.alarm() {
            tell(&machine, &clock, &format!("alarm {alarm:o}"));
        }
    }
    tell(&machine, &clock, "the end");
    Ok(())
}

fn tell(machine: &Machine, clock: &Clock, what: &str) {
    let seconds = f64::from(clock.time()) / 100.0;
    println!("{seconds:.2} s, request {}: {what}", machine.totals().served);
}
