//! The library against an independent implementation: equal answers on many inputs, and times.
//!
//!     bench [SEED] [INPUTS OF EACH CALL]       compares, then times
mod compare;
mod inputs;
mod marked;
mod plain;
mod timing;

use std::process::exit;
use std::time::Instant;

fn main() {
    let mut words = std::env::args().skip(1).map(|word| word.parse::<u64>().expect("a number"));
    let seed = words.next().unwrap_or(1);
    let each = words.next().unwrap_or(100_000) as usize;
    let wrong = marked::run();
    println!("worked examples: {wrong} wrong");
    let start = Instant::now();
    let tally = compare::run(seed, each);
    let reached = tally.print();
    println!(
        "comparison: {} inputs from seed {seed}, {} differences, {} s",
        tally.inputs(),
        tally.differences,
        start.elapsed().as_secs()
    );
    if wrong != 0 || tally.differences != 0 || !reached {
        println!("FAILED");
        exit(1);
    }
    timing::run();
}
