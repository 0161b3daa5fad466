//! A bound of each export's stack, from the archive's machine code: of a function all that its pushes and subtractions take,
//! each counted once, and of what it calls the greatest, or what it keeps below its stack pointer without taking it. No function calls itself, and none is called by a pointer.
//! Each counted once is enough: they are undone before they come again, as code has the same depth each time at the same place.

use crate::port::exports::NAMES;
use std::collections::HashMap;
use std::process::Command;

/// The archive that the oracle is linked with.
const ARCHIVE: &str = env!("TZB_ARCHIVE");
/// A return address.
const WORD: usize = 8;
/// Of the C library, and in no archive here: as in glibc, where they take nothing but their return address.
const OUTSIDE: [&str; 2] = ["memcpy", "memset"];
/// What the run itself lays on the stack before a call: two words, and two more for an export that takes more than eight.
fn handed(name: &str) -> usize {
    let more = ["tzb_contains_striped", "tzb_contains_striped_place", "tzb_journal_ask"];
    if more.contains(&name) { 32 } else { 16 }
}

/// For each export, or None where there is no program that takes machine code apart.
pub fn bounds() -> Result<Option<[usize; NAMES.len()]>, String> {
    let Some(text) = disassembled() else { return Ok(None) };
    let functions = functions(&text)?;
    let mut bounds = [0; NAMES.len()];
    for (bound, name) in bounds.iter_mut().zip(NAMES) {
        let need = need(&functions, name, &mut Vec::new())?;
        *bound = (handed(name) + need).next_multiple_of(super::own::STEP);
    }
    Ok(Some(bounds))
}

fn disassembled() -> Option<String> {
    ["x86_64-linux-gnu-objdump", "objdump"].iter().find_map(|program| {
        let words = ["-dr", "--no-show-raw-insn", "-M", "intel", ARCHIVE];
        let output = Command::new(program).args(words).output().ok()?;
        output.status.success().then(|| String::from_utf8_lossy(&output.stdout).into_owned())
    })
}

/// What a function takes below its return address, what it keeps below that, and what it calls.
#[derive(Debug, Default, PartialEq)]
struct Function {
    own: usize,
    below: usize,
    calls: Vec<String>,
}

/// The functions of a disassembly by their names.
fn functions(text: &str) -> Result<HashMap<String, Function>, String> {
    let mut all = HashMap::new();
    let mut name = String::new();
    let mut probe = Probe::None;
    for line in text.lines() {
        if let Some((_, label)) = line.strip_suffix(">:").and_then(|line| line.split_once(" <")) {
            name = label.to_string();
            all.insert(name.clone(), Function::default());
        } else if let Some(function) = all.get_mut(&name) {
            look(line, function, &mut probe).map_err(|why| format!("{name}: {why}"))?;
        }
    }
    Ok(all)
}

/// A large frame is taken page by page, in a loop: `mov r11,rsp`, `sub r11,SIZE`, then pages until `rsp` is `r11`.
#[derive(Clone, Copy, PartialEq)]
enum Probe {
    None,
    Copied,
    Pages,
}

fn look(line: &str, function: &mut Function, probe: &mut Probe) -> Result<(), String> {
    let mut columns = line.split('\t').map(str::trim).filter(|column| !column.is_empty());
    let (Some(place), Some(what)) = (columns.next(), columns.next()) else { return Ok(()) };
    if place.contains("R_X86_64_PLT32") {
        let callee = what.strip_suffix("-0x4").ok_or(format!("a call of {what}"))?;
        function.calls.push(callee.strip_prefix(".text.").unwrap_or(callee).to_string());
        return Ok(());
    }
    if let Some((_, rest)) = what.split_once("[rsp-") {
        function.below = function.below.max(number(rest.split([']', '+', '*']).next(), what)?);
    }
    let (word, operands) = what.split_once(char::is_whitespace).unwrap_or((what, ""));
    match (word, operands.trim()) {
        ("push", _) => function.own += 8,
        ("pop" | "ret" | "cmp" | "test", _) => {}
        ("mov", "r11,rsp") => *probe = Probe::Copied,
        ("sub", size) if *probe == Probe::Copied => {
            function.own += number(size.strip_prefix("r11,"), what)?;
            *probe = Probe::Pages;
        }
        ("sub", "rsp,0x1000") if *probe == Probe::Pages => {}
        ("jne", _) if *probe == Probe::Pages => *probe = Probe::None,
        ("sub", size) if size.starts_with("rsp,") => {
            function.own += number(size.strip_prefix("rsp,"), what)?;
        }
        ("add", size) if size.starts_with("rsp,") => _ = number(size.strip_prefix("rsp,"), what)?,
        ("lea", size) if size.starts_with("rsp,") => {
            // upward only
            number(size.strip_prefix("rsp,[rsp+").and_then(|size| size.strip_suffix(']')), what)?;
        }
        ("leave" | "enter" | "pushf" | "pushfq", _) => return Err(format!("{what} is not known")),
        (_, to) if to.starts_with("rsp,") || to == "rsp" => {
            return Err(format!("{what} is not known"));
        }
        ("call", to) if !to.contains('<') => return Err(format!("{what} is a call by a pointer")),
        _ => {}
    }
    Ok(())
}

fn number(text: Option<&str>, what: &str) -> Result<usize, String> {
    let digits = text.and_then(|text| text.strip_prefix("0x"));
    let number = digits.and_then(|digits| usize::from_str_radix(digits, 16).ok());
    number.filter(|&n| n < 1 << 31).ok_or(format!("{what} is not known"))
}

/// All that a call of it takes, its return address included.
fn need(
    functions: &HashMap<String, Function>,
    name: &str,
    above: &mut Vec<String>,
) -> Result<usize, String> {
    if OUTSIDE.contains(&name) {
        return Ok(WORD);
    }
    if above.iter().any(|caller| caller == name) {
        return Err(format!("{name} calls itself: {above:?}"));
    }
    let function = functions.get(name).ok_or(format!("{name} is not in the archive"))?;
    above.push(name.to_string());
    let mut most = function.below;
    for callee in &function.calls {
        most = most.max(need(functions, callee, above)?);
    }
    above.pop();
    Ok(WORD + function.own + most)
}

#[cfg(test)]
mod tests {
    use super::*;

    const SMALL: &str = "
0000000000000000 <low>:
   0:\tpush   rbx
   1:\tsub    rsp,0x10
   5:\tcall   a <low+0xa>
\t\t\t6: R_X86_64_PLT32\tmemset-0x4
   a:\tadd    rsp,0x10
   e:\tpop    rbx
   f:\tret

0000000000000000 <high>:
   0:\tmov    r11,rsp
   3:\tsub    r11,0x10000
   a:\tsub    rsp,0x1000
  11:\tmov    QWORD PTR [rsp],0x0
  19:\tcmp    rsp,r11
  1c:\tjne    a <high+0xa>
  1e:\tsub    rsp,0x8
  22:\tcall   27 <high+0x27>
\t\t\t23: R_X86_64_PLT32\t.text.low-0x4
  27:\tlea    rsp,[rsp+0x10008]
  2f:\tjmp    34 <high+0x34>
\t\t\t30: R_X86_64_PLT32\tlow-0x4
";

    #[test]
    fn frames_add_up_along_calls() {
        let functions = functions(SMALL).unwrap();
        let calls = vec!["memset".to_string()];
        assert_eq!(functions["low"], Function { own: 24, below: 0, calls });
        assert_eq!(need(&functions, "low", &mut Vec::new()), Ok(8 + 24 + 8));
        assert_eq!(need(&functions, "high", &mut Vec::new()), Ok(8 + 0x1_0008 + 40));
    }

    #[test]
    fn what_is_kept_below_the_stack_pointer_counts() {
        let kept = SMALL.replace("sub    rsp,0x10", "mov    QWORD PTR [rsp-0x18],rdi");
        let functions = functions(&kept).unwrap();
        assert_eq!(functions["low"].below, 24);
        assert_eq!(need(&functions, "low", &mut Vec::new()), Ok(8 + 8 + 24));
    }

    #[test]
    fn what_is_not_known_is_told() {
        for wrong in ["mov    rsp,rax", "sub    rsp,rax", "and    rsp,0xffffffe0", "leave"] {
            let text = SMALL.replace("push   rbx", wrong);
            assert!(functions(&text).unwrap_err().contains("is not known"), "{wrong}");
        }
        let by_pointer = SMALL.replace("call   a <low+0xa>", "call   rax");
        assert!(functions(&by_pointer).unwrap_err().contains("by a pointer"));
        let again = SMALL.replace("memset", "high");
        let again = need(&functions(&again).unwrap(), "high", &mut Vec::new());
        assert!(again.unwrap_err().contains("high calls itself"));
    }
}
