#[path = "../rust/agc.rs"]
mod agc;
use agc::*;

fn main() -> Result<(), AgcError> {
    let plan = Plan::new().phase(4, 5, "findvac 25 06000 00007", "list 10 06100 00007")?;
    let mut machine = Machine::new(7, plan)?;
    let mut step = machine.ask("phase 4 5")?;
    while step.alarm().is_none() {
        step = machine.ask("findvac 30 02100 00005")?;
    }
    let job = machine.scene().sets[0].expect("it runs");
    println!("{step}, then job {} runs at {:05o}", job.number, job.at);
    while step.fired.is_empty() {
        step = machine.ask("tick")?;
    }
    println!("{step}");
    Ok(())
}
