//! Finds the proved archive `libtzb_c.a` and names it to the linker.
//!
//! `TZB_LIB` is the folder that holds it; a relative one counts from the repository's root. Without it `scripts/archive.sh`
//! says which one it is: `target/staticlib`, where that was written from the present sources, else `dist`. Nothing is proved here.

use std::env;
use std::path::{Path, PathBuf};
use std::process::{Command, exit};

const ARCHIVE: &str = "libtzb_c.a";

fn main() {
    println!("cargo::rerun-if-env-changed=TZB_LIB");
    // set by './tzb', which tells by content whether a part of the command has changed
    println!("cargo::rerun-if-env-changed=TZB_MADE_OF");
    println!("cargo::rerun-if-changed=build.rs");
    if let Some(why) = elsewhere(&set("CARGO_CFG_TARGET_ARCH"), &set("CARGO_CFG_TARGET_OS")) {
        println!("cargo::warning={why}");
        // Named without a folder: checking does not look for it, and whoever links is told that it is not there.
        println!("cargo::rustc-link-lib=static=tzb_c");
        return;
    }
    let folder = archive_folder();
    println!("cargo::rustc-link-search=native={}", folder.display());
    println!("cargo::rustc-link-lib=static=tzb_c");
}

/// For a machine that the archive is not written for: what to say of it, in a line. That is no failure: a crate that depends
/// on this one can be checked and documented there, and only what is linked wants the archive.
pub fn elsewhere(arch: &str, os: &str) -> Option<String> {
    let line = format!(
        "{ARCHIVE} is x86-64 code for Linux: for {arch} on {os} this crate can be checked and documented, but not linked. \
         Build for x86_64-unknown-linux-gnu; './tzb' in the repository's root does so on Arm, and runs it under an emulator."
    );
    ([arch, os] != ["x86_64", "linux"]).then_some(line)
}

/// The folder that holds the archive, which is there when this returns.
fn archive_folder() -> PathBuf {
    let here = PathBuf::from(set("CARGO_MANIFEST_DIR"));
    let root = here.parent().unwrap_or(&here);
    let folder = match env::var_os("TZB_LIB") {
        Some(named) => root.join(named),
        None => return root.join(kept(root)),
    };
    watch(&folder.join(ARCHIVE));
    if !folder.join(ARCHIVE).exists() {
        stop(&format!("TZB_LIB is {}, and there is no {ARCHIVE} in it.", folder.display()));
    }
    folder
}

/// The folder of the archive that was proved here, or that the repository keeps. What the script has to say is a warning.
fn kept(root: &Path) -> String {
    let script = root.join("scripts/archive.sh");
    let said = match Command::new("sh").arg(&script).arg("folder").output() {
        Ok(said) => said,
        Err(error) => stop(&format!("'sh' could not be run: {error}")),
    };
    let notes = String::from_utf8_lossy(&said.stderr);
    if !said.status.success() {
        stop(&format!("{} ended with {}:\n{notes}", script.display(), said.status));
    }
    for note in notes.lines() {
        println!("cargo::warning={note}");
    }
    for part in ["crates.txt", "dist", "scripts/archive.sh", "scripts/sources.sh"] {
        watch(&root.join(part));
    }
    watch_sources(&root.join("crates"));
    // Written where the archive is proved anew. While it is not there cargo runs this at every build, so only where that matters.
    let origin = root.join("target/staticlib").join(ARCHIVE).with_extension("a.origin");
    if origin.exists() || !notes.is_empty() {
        watch(&origin);
    }
    String::from_utf8_lossy(&said.stdout).trim_end().to_string()
}

/// The files that the archive is made of, and not what `rt` keeps beside them.
fn watch_sources(crates: &Path) {
    for folder in std::fs::read_dir(crates).into_iter().flatten().flatten() {
        for part in ["src", "specs", "proofs"] {
            let part = folder.path().join(part);
            if part.exists() {
                watch(&part);
            }
        }
    }
}

fn watch(path: &Path) {
    println!("cargo::rerun-if-changed={}", path.display());
}

/// A variable that cargo sets for every build script.
fn set(variable: &str) -> String {
    env::var(variable).unwrap_or_else(|_| stop(&format!("cargo has not set {variable}.")))
}

fn stop(why: &str) -> ! {
    eprintln!("{why}");
    exit(1)
}
