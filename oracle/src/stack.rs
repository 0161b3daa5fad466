//! How much stack each export wants: measured on a stack of the run's own, bounded by the machine code, and held against what
//! `include/tzb.h` states. No theorem speaks of the stack.

mod calls;
mod frames;
mod own;

use crate::port::exports::NAMES;
use crate::random::Random;
use calls::Lent;
use own::{Call, Stack};

/// The header's table, as it stands when the oracle is built.
const HEADER: &str = include_str!("../../include/tzb.h");
/// More than any export takes.
const SIZE: usize = 0x4_0000;

/// Measures over all inputs, prints the table, and ends with status 1 where the header states too little.
pub fn run(seed: u64) {
    println!("seed {seed}");
    let measured = measure(seed, 1000);
    print(&measured);
    if let Err(why) = judge(&measured) {
        println!("{why}");
        std::process::exit(1);
    }
    println!("{} calls: every export stays within what include/tzb.h states", measured.calls);
}

/// The same over fewer inputs; all that is told is told in a line.
pub fn short(seed: u64) {
    let measured = measure(seed, 30);
    if let Err(why) = judge(&measured) {
        println!("{why}");
        std::process::exit(1);
    }
    println!("stack: {} calls, none of more than include/tzb.h states", measured.calls);
}

/// The greatest need of each export, in bytes.
struct Measured {
    calls: u64,
    most: [usize; NAMES.len()],
    /// What goes wrong on a stack of just that size, if anything does.
    wrong: Option<String>,
}

fn measure(seed: u64, turns: usize) -> Measured {
    let stated = stated(HEADER);
    let mut measured = Measured { calls: 0, most: [0; NAMES.len()], wrong: None };
    let mut stack = Stack::new(SIZE);
    let mut random = Random::new(seed);
    calls::all(&mut random, turns, &mut Lent::new(), &mut |export, call| {
        let written = stack.need(call);
        measured.calls += 1;
        if written > measured.most[export] {
            let need = comes_back_on(&stack, call, written);
            measured.most[export] = need;
            let wrong = comes_back(&stack, call, need, stated[export]);
            let told = wrong.map(|what| format!("{}: {what}", NAMES[export]));
            measured.wrong = measured.wrong.take().or(told);
        }
    });
    measured
}

/// The least stack on which a call comes back: as much as it wrote to, or more where it reads below that. It does where an
/// answer is copied whole of which a case fills only a part.
fn comes_back_on(stack: &Stack, call: &Call, written: usize) -> usize {
    let more = (written..SIZE).step_by(own::STEP);
    more.clone().find(|&bytes| stack.suffices(bytes, call)).unwrap_or(written)
}

/// A call on as much stack as it took, on a place less, and on what is stated for it. What is not as it should be.
fn comes_back(stack: &Stack, call: &Call, need: usize, stated: usize) -> Option<String> {
    if !stack.suffices(need, call) {
        return Some(format!("took {need} bytes, and does not come back on as many"));
    }
    if stack.suffices(need - own::STEP, call) {
        return Some(format!("took {need} bytes, and comes back on fewer"));
    }
    let fits = stack.suffices(stated, call);
    (!fits).then(|| format!("does not come back on the {stated} bytes that include/tzb.h states"))
}

/// For each export the bytes that the header states: lines ` *     96 KB  tzb_open tzb_lookup`.
fn stated(header: &str) -> [usize; NAMES.len()] {
    let lines = header.lines().filter_map(|line| line.strip_prefix(" *     ")?.split_once(" KB  "));
    let mut stated = [0; NAMES.len()];
    for (size, names) in lines {
        let size: usize = size.parse().expect("a number of KB");
        for name in names.split(' ') {
            let place = NAMES.iter().position(|&export| export == name);
            let place =
                place.unwrap_or_else(|| panic!("{name} in the table of stacks is no export"));
            assert_eq!(stated[place], 0, "{name} stands twice in the table of stacks");
            stated[place] = 1024 * size;
        }
    }
    let missing = NAMES.iter().zip(stated).find(|&(_, size)| size == 0);
    assert!(missing.is_none(), "{missing:?} is not in the table of stacks");
    stated
}

/// What was measured is within the bound, and the bound within what is stated.
fn judge(measured: &Measured) -> Result<(), String> {
    if let Some(wrong) = &measured.wrong {
        return Err(wrong.clone());
    }
    let bounds = frames::bounds()?;
    for (i, (&most, stated)) in measured.most.iter().zip(stated(HEADER)).enumerate() {
        let bound = bounds.as_ref().map_or(most, |bounds| bounds[i]);
        if !(0 < most && most <= bound && bound <= stated) {
            let name = NAMES[i];
            return Err(format!("{name}: took {most}, bound {bound}, stated {stated} bytes"));
        }
    }
    Ok(())
}

fn print(measured: &Measured) {
    let bounds = frames::bounds().ok().flatten();
    if bounds.is_none() {
        println!("no bound: objdump is not here, or its text is not understood");
    }
    println!("{:<24}{:>12}{:>12}{:>12}", "stack, bytes", "measured", "bound", "stated");
    for (i, stated) in stated(HEADER).into_iter().enumerate() {
        let bound = bounds.map_or("-".to_string(), |bounds| bounds[i].to_string());
        println!("{:<24}{:>12}{bound:>12}{stated:>12}", NAMES[i], measured.most[i]);
    }
}

#[cfg(test)]
mod tests {
    use super::*;

    #[test]
    fn the_header_states_enough() {
        let measured = measure(1, 3);
        assert_eq!(judge(&measured), Ok(()));
    }

    #[test]
    fn a_header_that_states_too_little_is_found_out() {
        let mut measured = measure(1, 0);
        measured.most[0] = stated(HEADER)[0] + 8;
        assert!(judge(&measured).unwrap_err().starts_with("tzb_open: took "));
    }

    #[test]
    #[should_panic(expected = "is not in the table of stacks")]
    fn every_export_stands_in_the_header() {
        stated(&HEADER.replace(" tzb_candidate", ""));
    }
}
