//! What a run met: how often each refusal was said, and each known difference with the smallest file for it.

use crate::bytes::hex;
use crate::compare::{keep, stop};
use crate::known::{self, ALL, KNOWN};
use std::collections::BTreeMap;

#[derive(Default)]
pub struct Met {
    files: u64,
    questions: u64,
    /// By number, 0 where the file opens: how often document 01 said it, and the original.
    said: BTreeMap<u32, [u64; 2]>,
    known: [Smallest; KNOWN.len()],
}

/// Of one known difference: how often it was met, and the smallest files; any, and one that a side opens.
#[derive(Default)]
struct Smallest {
    met: u64,
    any: Option<Vec<u8>>,
    opens: Option<Vec<u8>>,
}

impl Met {
    /// A file with document 01's number and the original's, and how many questions were put to it.
    pub fn add(&mut self, file: &[u8], [document, original]: [u32; 2], questions: u64) {
        self.files += 1;
        self.questions += questions;
        self.said.entry(document).or_default()[0] += 1;
        self.said.entry(original).or_default()[1] += 1;
        if document == original {
            return;
        }
        let which = known::met(file);
        if which.is_empty() {
            let why = "the two sides differ, and no known difference tells why";
            stop(file, why, |_| None);
        }
        for &i in &which {
            let smallest = &mut self.known[i];
            smallest.met += 1;
            if which.len() == 1 {
                keep(&mut smallest.any, file);
                if document == 0 || original == 0 {
                    keep(&mut smallest.opens, file);
                }
            }
        }
    }

    /// Makes the smallest files smaller still.
    pub fn make_small(&mut self) {
        for (i, of) in self.known.iter_mut().enumerate() {
            for (place, must_open) in [(&mut of.any, false), (&mut of.opens, true)] {
                if let Some(file) = place.take() {
                    *place = Some(known::small(i, file, must_open));
                }
            }
        }
    }

    pub fn print(&self) {
        println!("{:>12}  files", self.files);
        println!("{:>12}  questions of names and candidates", self.questions);
        self.print_opening(true);
    }

    /// What was said of opening, and the known differences; with the smallest files or without.
    pub fn print_opening(&self, files: bool) {
        println!("{:>12}{:>12}{:>12}", "answer", "document 01", "original");
        for n in 0..=34 {
            let [document, original] = self.said.get(&n).unwrap_or(&[0; 2]);
            let answer = if n == 0 { "opens".to_string() } else { format!("refusal {n}") };
            println!("{answer:>12}{document:>12}{original:>12}");
        }
        for (known, of) in KNOWN.iter().zip(&self.known) {
            println!("known: {}, met {} times", known.name, of.met);
            println!("  document 01: {}\n  original: {}", known.document, known.original);
            for (what, file) in [("smallest", &of.any), ("smallest that a side opens", &of.opens)] {
                if let Some(file) = file.as_ref().filter(|_| files) {
                    let (d, o) = (known::number(file, &[]), known::number(file, &ALL));
                    println!("  {what}: {} bytes, document 01 {d}, original {o}", file.len());
                    println!("    {}", hex(file));
                }
            }
        }
    }
}
