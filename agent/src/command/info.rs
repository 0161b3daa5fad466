//! What an opened file says of itself, a line for each thing.

use std::io::{self, Write};

use super::found::Shown;
use tzb::Index;

pub fn write(index: &Index, out: &mut impl Write) -> io::Result<()> {
    let mut line = |what: &str, value: String| writeln!(out, "{what:<10}{value}");
    line("size", format!("{} bytes", index.file().len()))?;
    line("version", Shown(index.data_version()).to_string())?;
    line("zones", index.zone_count().to_string())?;
    line("grid", grid(index))?;
    line("walk", index.walk().to_string())?;
    line("checksum", format!("{:08x}, correct", index.checksum()))?;
    line("sections", index.sections().count().to_string())?;
    for section in index.sections() {
        let name = section.name().map_or(format!("type {}", section.kind), str::to_string);
        let records = section.records().map_or(String::new(), |n| format!(", {n} records"));
        line("", format!("{name:<10}{} bytes at {}{records}", section.length, section.offset))?;
    }
    Ok(())
}

fn grid(index: &Index) -> String {
    match index.grid() {
        Some(grid) => format!(
            "{} x {} cells from {} {}, {} candidates",
            grid.columns, grid.rows, grid.lng, grid.lat, grid.candidates
        ),
        None => "none".to_string(),
    }
}
