//! Which zone a position is in, from a time-zone index file (`.tzb`), by a reader that is proved.
//!
//! The reader itself is `libtzb_c.a`: x86-64 code. Of any bytes and any position it is proved to answer what the index
//! format's rules say of these bytes: a zone, none, or one numbered refusal. Of a file that the full check accepts it is
//! proved to refuse no question, and to be exact. This crate lends it Rust's slices and hands back Rust's types. It has no
//! dependency, keeps no global state, and never panics on what it reads.
//!
//! ```
//! # fn main() -> Result<(), Box<dyn std::error::Error>> {
//! let file = tzb::read("../sample/real-ne.tzb")?;
//! let index = tzb::Index::open_checked(file)?; // once, with the full check
//! match index.zone(8.68, 50.11)? {
//!     Some(zone) => println!("{}", index.name(zone)?),
//!     None => println!("no zone"),
//! }
//! # Ok(())
//! # }
//! ```
//!
//! # For users of tzf-rs
//!
//! | tzf-rs | here |
//! |---|---|
//! | `EmbeddedFinder::from_tzb(data)?` | [`Index::open(data)?`](Index::open), of bytes owned or borrowed |
//! | `get_tz_name(lng, lat)`, `""` for none | [`name_at(lng, lat)?`](Index::name_at), `None` for none |
//! | `get_tz_names(lng, lat)` | [`names_at(lng, lat)?`](Index::names_at) |
//! | `get_tz_index(lng, lat)` | [`zone(lng, lat)?`](Index::zone) |
//! | `timezonenames()` | [`names()`](Index::names) |
//! | `data_version()` | [`data_version()`](Index::data_version) |
//!
//! Two things differ. A broken file never reads as "no zone here": every question has a [`Refusal`] for it. And a FUZZY
//! section is not read: every answer comes from the shapes and the grid.
//!
//! # One index for the whole program
//!
//! ```no_run
//! use std::sync::LazyLock;
//!
//! static INDEX: LazyLock<tzb::Index> = LazyLock::new(|| {
//!     let file = tzb::read("zones.tzb").expect("zones.tzb is read");
//!     tzb::Index::open_checked(file).expect("zones.tzb is accepted")
//! });
//! ```
//!
//! One that is to be replaced while the program runs is a field like any other: see [`Index`].
//!
//! # Speed and memory
//!
//! Open once and ask often: opening also builds [stripes](Walk), which make questions by long coastlines faster and take no
//! more memory than the file does. They change no answer. [`Index::open_plain`] opens without them, for a few questions;
//! [`Index::walk`] tells which way an index goes, and why.
//!
//! # Where a file is broken
//!
//! A question that meets a chunk whose bytes are broken is refused by 38 to 43, and the [`Refusal`] has the
//! [`place`](Refusal::place) in the file at which they are. To find all such chunks, for whoever made the file:
//!
//! ```
//! # fn main() -> Result<(), Box<dyn std::error::Error>> {
//! # let file = tzb::read("../sample/real-ne.tzb")?;
//! let index = tzb::Index::open(file)?;
//! for chunk in 0..index.chunk_count() {
//!     if let Err(refusal) = index.decode(chunk) {
//!         println!("chunk {chunk}: {refusal}"); // ... longer than it need be, at byte 1,204,331.
//!     }
//! }
//! # Ok(())
//! # }
//! ```
//!
//! # A zone on a map
//!
//! ```
//! # fn main() -> Result<(), Box<dyn std::error::Error>> {
//! # let file = tzb::read("../sample/real-ne.tzb")?;
//! let index = tzb::Index::open(file)?;
//! let zone = index.zone(8.68, 50.11)?.ok_or("no zone")?;
//! let geojson = index.map(zone)?; // {"type":"MultiPolygon","coordinates":[[[[6.65952,53.59911], ...
//! # assert!(geojson.starts_with(r#"{"type":"MultiPolygon","coordinates":[[[[6.65952,53.59911],"#), "{geojson:.99}");
//! # Ok(())
//! # }
//! ```
//!
//! [`map`] is the same of a file's bytes.
//!
//! # A journal of answers
//!
//! ```
//! # fn main() -> Result<(), Box<dyn std::error::Error>> {
//! # let file = tzb::read("../sample/real-ne.tzb")?;
//! use tzb::journal::Entry;
//!
//! let index = tzb::Index::open(file)?;
//! let bytes = index.journal(868_000, 5_011_000).to_bytes()?; // to be kept, 16 bytes
//! assert_eq!(Entry::read(&bytes)?.zones(), [469, 126]); // Etc/GMT-1 and Germany
//! # Ok(())
//! # }
//! ```
//!
//! [`journal`] has the whole of it.
//!
//! # Stack
//!
//! Opening and the full check want 96 KB of stack, a question 8 KB; `include/tzb.h` says it for each export. Threads of
//! Rust's have 2 MB where nothing else is said.

#![cfg_attr(not(test), warn(clippy::unwrap_used, clippy::expect_used, clippy::panic))]

mod commas;
mod index;
pub mod journal;
mod layout;
mod map;
mod read;
mod refusal;
mod room;
mod sys;
mod walk;

pub use index::Index;
pub use layout::{Grid, Section};
pub use map::map;
pub use read::read;
pub use refusal::Refusal;
pub use walk::{Walk, WhyPlain};

/// Looks at everything in the file: all that opening looks at, every record, every chunk's points, every box.
/// [`Index::open_checked`] makes it and opens.
///
/// On a file that it accepts, no question is refused but for a number that is too large, and containment at points of
/// whole hundred-thousandths of a degree is that of exact geometry. Both are proved.
///
/// ```
/// let refusal = tzb::full_check(&[0; 100]).unwrap_err();
/// assert_eq!(refusal.number(), 2);
/// ```
///
/// # Errors
/// Opening's refusal, 1 to 34; or 47, with the lowest broken [`rule`](Refusal::rule).
pub fn full_check(file: &[u8]) -> Result<(), Refusal> {
    let answer = Refusal::of_code(sys::full_check(file).into());
    answer.map(|_| ()).map_err(|refusal| refusal.with_rule_of(file))
}
