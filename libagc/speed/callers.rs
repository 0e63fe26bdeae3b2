//! Times one call, NOVAC on seven core sets, from Rust: medians of nine turns.
#[path = "../rust/agc.rs"]
mod agc;
use agc::*;

const COUNT: u32 = 400_000;

fn timed(name: &str, call: fn(&mut Words, u32) -> AgcReply) {
    let mut start: Words = [0; WORDS];
    agc_clear(&mut start, 7);
    let mut times: Vec<f64> = Vec::new();
    let mut sum = 0u32;
    for _ in 0..9 {
        let mut words = start;
        let from = std::time::Instant::now();
        for i in 0..COUNT {
            if i % 7 == 0 {
                words = start;
            }
            sum = sum.wrapping_add(call(&mut words, 1 + i % 31).number);
        }
        times.push(from.elapsed().as_nanos() as f64 / f64::from(COUNT));
    }
    times.sort_by(f64::total_cmp);
    println!("Rust, {name}: {:.1} ns ({sum})", times[4]);
}

fn main() {
    timed("agc_call", |words, priority| agc_call(words, 7, &AgcRequest { kind: RequestKind::Novac, first: priority, second: 0o2000, third: 5 }));
}
