#[path = "../rust/agc.rs"]
mod agc;
use agc::*;

fn main() {
    let mut words: Words = [0; WORDS];
    let call = |words: &mut Words, kind, first, second, third| agc_call(words, 7, &AgcRequest { kind, first, second, third });

    agc_clear(&mut words, 7);
    println!("job {}", call(&mut words, RequestKind::Novac, 0o20, 0o2000, 5).number);
    println!("job {}", call(&mut words, RequestKind::Findvac, 0o30, 0o2100, 5).number);
    let reply = call(&mut words, RequestKind::Change, 0, 0, 0);
    println!("runs {}, at {:05o}", reply.number, words[8]);

    call(&mut words, RequestKind::List, 2, 0o4000, 7);
    for tick in 1..=2 {
        call(&mut words, RequestKind::Tick, 0, 0, 0);
        while let AgcTask { code: Code::Ok, at, .. } = agc_dispatch(&mut words, 7) {
            println!("tick {tick} fires {at:05o}");
        }
    }

    let job = AgcPhaseEntry { group: 4, phase: 5, job: RequestKind::Findvac, priority: 0o25, job_at: 0o6000, job_bank: 7, ..AgcPhaseEntry::default() };
    let plan = [AgcPhaseEntry { delay: 10, task_at: 0o6100, task_bank: 7, ..job }];
    let mut reply = call(&mut words, RequestKind::Phase, 4, 5, 0);
    while reply.reply != Kind::Alarmed {
        reply = call(&mut words, RequestKind::Findvac, 0o30, 0o2100, 5);
    }
    agc_begin(&mut words, 7, reply.number, &plan);
    println!("alarm {:o}, then job {}, at {:05o}", reply.number, words[0], words[8]);

    let reply = call(&mut words, RequestKind::Novac, 32, 0o2000, 5);
    println!("priority 32: code {}", reply.code as u32);
}
