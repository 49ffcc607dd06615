//! `hostile SEED COUNT [FIRST] [bare]`: the exported functions under hostile use, COUNT calls from the call FIRST (0) of a seed.
//!
//! Each call lends listings or texts that are generated, damaged, random or at the limits, and outputs and working space of lengths around every bound, each
//! between guard words. Wanted is what the oracle says: the refusal by its questions, else the original's answer; after 1 to 5 no lent word is written,
//! after 6 to 10 every lent word is 0, an answer is followed by zeros, and the working space is 0. Inputs and guards stay as they were, and the counts that
//! go back through references are 0 on refusal.
//!
//! `bare` leaves the guards out, so that each slice is an allocation of its own for valgrind to watch. Slices that overlap are not lent: the safe wrapper
//! cannot lend them, and include/javrenzu.h forbids them.
//!
//! Prints how often each function answered what, the first faults with the number of their call, last `N calls, M faults`; exit status 0 only for 0 faults.

mod calls;
mod inputs;
mod lent;

use std::collections::BTreeMap;
use std::error::Error;
use std::process::ExitCode;

use oracle::random::Random;

/// So many faults are shown.
const SHOWN: usize = 20;

fn main() -> Result<ExitCode, Box<dyn Error>> {
    let args: Vec<String> = std::env::args().skip(1).collect();
    let (numbers, guard) = match args.as_slice() {
        [numbers @ .., word] if word == "bare" => (numbers, 0),
        numbers => (numbers, lent::GUARD),
    };
    let numbers = numbers.iter().map(|n| n.parse()).collect::<Result<Vec<u64>, _>>()?;
    let (seed, count, first) = match *numbers.as_slice() {
        [seed, count] => (seed, count, 0),
        [seed, count, first] => (seed, count, first),
        _ => return Err("usage: hostile SEED COUNT [FIRST] [bare]".into()),
    };
    let (mut faults, mut answered) = (0, BTreeMap::new());
    for index in first..first + count {
        let mut r = Random::new(seed, index);
        let (name, call) = calls::CALLS[r.below(calls::CALLS.len())];
        let outcome = call(&mut r, guard);
        answered.entry(name).or_insert([0; 11])[usize::from(outcome.refusal)] += 1;
        if !outcome.faults.is_empty() {
            faults += 1;
        }
        if faults <= SHOWN {
            outcome.faults.iter().for_each(|fault| println!("call {index}, {name}: {fault}"));
        }
    }
    println!("{:<28}{:>9}{}", "function", "accepted", (1..=10).map(|n| format!("{n:>9}")).collect::<String>());
    for (name, counts) in answered {
        println!("{name:<28}{}", counts.map(|n| format!("{n:>9}")).concat());
    }
    println!("{count} calls, {faults} faults");
    Ok(ExitCode::from(u8::from(faults != 0)))
}
