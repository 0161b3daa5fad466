//! Safety under load: damaged and random inputs through every export, with all lent memory between fences.
//! An input is made from the seed and its number alone, so that any of them can be asked for again.

mod calls;
mod fence;
mod inputs;
#[cfg(test)]
mod tests;
mod watch;

use crate::port::exports::{NAMES, PORT};
use calls::Caller;
use inputs::Inputs;

/// How many inputs where nothing else is said.
pub const MANY: u64 = 10_000_000;
/// So many seconds a call may take.
const LIMIT: u64 = 20;
/// After so many inputs the number is printed.
const STEP: u64 = 500_000;

/// The last refusal that an export gives.
const LAST: usize = 50;

/// All that is told of a run is told in the last line.
pub fn short(inputs: u64, seed: u64) {
    let tally = put_all(inputs, seed, 0);
    println!("load: {} inputs, {} calls, no byte changed", inputs, tally.calls.iter().sum::<u64>());
}

pub fn run(inputs: u64, seed: u64, from: u64) {
    println!(
        "seed {seed}, {inputs} inputs from number {from} on; the present one stands in {}",
        watch::AT
    );
    put_all(inputs, seed, from).print();
    println!(
        "seed {seed}: every call came back, every answer is one that may be given, no byte changed"
    );
}

fn put_all(inputs: u64, seed: u64, from: u64) -> Tally {
    watch::start(seed, LIMIT);
    let mut made = Inputs::new(seed);
    let mut caller = Caller::new(PORT);
    for number in from..from + inputs {
        if number % STEP == 0 && number > from {
            println!("input {number}");
        }
        let input = made.input(number);
        watch::now(number, &input);
        if let Err(what) = caller.put(&input) {
            watch::tell(&what);
        }
        caller.tally.inputs[input.kind as usize] += 1;
    }
    watch::stop();
    caller.tally
}

/// What was asked, and what was refused.
pub struct Tally {
    inputs: [u64; inputs::KINDS.len()],
    calls: [u64; NAMES.len()],
    refused: [[u64; LAST + 1]; NAMES.len()],
    /// How often there was a place, by the exports that tell one.
    placed: [u64; NAMES.len()],
}

impl Tally {
    fn new() -> Self {
        let calls = [0; NAMES.len()];
        let (refused, placed) = ([[0; LAST + 1]; NAMES.len()], calls);
        Self { inputs: [0; inputs::KINDS.len()], calls, refused, placed }
    }

    fn print(&self) {
        for (kind, count) in inputs::KINDS.iter().zip(self.inputs) {
            println!("{count:>12}  inputs: {kind}");
        }
        for (i, (name, calls)) in NAMES.iter().zip(self.calls).enumerate() {
            let (refused, placed) = (self.refused[i].iter().sum::<u64>(), self.placed[i]);
            match name.ends_with("_place") {
                true => println!("{calls:>12}  {name}, of which with a place {placed}"),
                false => println!("{calls:>12}  {name}, of which refused {refused}"),
            }
        }
        for number in 1..=LAST {
            let count: u64 = self.refused.iter().map(|of| of[number]).sum();
            println!("{count:>12}  refusal {number}");
        }
        println!("{:>12}  inputs in all", self.inputs.iter().sum::<u64>());
        println!("{:>12}  calls in all", self.calls.iter().sum::<u64>());
    }
}
