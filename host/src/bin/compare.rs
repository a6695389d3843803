//! `compare N [SEED]`: at least N random calls to library and model, everything compared after each.

use cuongphemi_host::compare::{Comparison, SEED};
use std::process::ExitCode;

/// With so many calls everything that can happen should have happened.
const ENOUGH: u64 = 1_000_000;

fn main() -> ExitCode {
    let given: Option<Vec<u64>> = std::env::args().skip(1).map(|word| word.parse().ok()).collect();
    let (calls, seed) = match given.as_deref() {
        Some([calls]) => (*calls, SEED),
        Some([calls, seed]) => (*calls, *seed),
        _ => {
            eprintln!("compare N [SEED]: two numbers in decimal");
            return ExitCode::from(2);
        }
    };
    println!("seed {seed}");
    let mut comparison = Comparison::new(seed);
    comparison.run(calls);
    print!("{}", comparison.tally);
    let missing = comparison.tally.missing();
    missing.iter().for_each(|line| println!("{line}"));
    println!("{} calls, no difference", comparison.tally.calls);
    ExitCode::from(u8::from(calls >= ENOUGH && !missing.is_empty()))
}
