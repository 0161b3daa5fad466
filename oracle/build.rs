//! Lays the original's text beside the shims, as a module that main.rs includes, and names the port's archive to the linker.
//! TZF_SRC is the folder with the original's text; TZB_LIB the folder with libtzb_c.a. Relative ones count from the repository's root.

use std::path::{Path, PathBuf};
use std::{env, fs};

fn main() {
    let here = PathBuf::from(env::var("CARGO_MANIFEST_DIR").unwrap());
    let root = here.parent().unwrap();
    let source = folder(root, "TZF_SRC", "../shared");
    let archive = folder(root, "TZB_LIB", "target/staticlib");
    let out = PathBuf::from(env::var("OUT_DIR").unwrap());
    let shims = here.join("shims/tzb");
    fs::create_dir_all(out.join("tzb")).unwrap();

    for name in ["mod", "raycast", "reader"] {
        let original = source.join(format!("src--src--tzb--{name}.rs.txt"));
        let after = shims.join(format!("{name}.after.rs"));
        let mut text = read(&original);
        if after.exists() {
            text.push_str(&read(&after));
        }
        fs::write(out.join(format!("tzb/{name}.rs")), text).unwrap();
    }
    for name in ["expand", "fuzzy", "tile"] {
        let text = read(&shims.join(format!("{name}.rs")));
        fs::write(out.join(format!("tzb/{name}.rs")), text).unwrap();
    }
    let path = out.join("tzb/mod.rs");
    let module = format!("#[allow(dead_code, unused_imports)]\n#[path = {path:?}]\nmod tzb;\n");
    fs::write(out.join("original.rs"), module).unwrap();

    let library = archive.join("libtzb_c.a");
    if !library.exists() {
        stop(&format!("{} is not there: run 'sh scripts/archive.sh' first", library.display()));
    }
    println!("cargo:rerun-if-changed={}", library.display());
    println!("cargo:rustc-env=TZB_ARCHIVE={}", library.display());
    println!("cargo:rerun-if-changed=shims/tzb");
    println!("cargo:rustc-link-search=native={}", archive.display());
    println!("cargo:rustc-link-lib=static=tzb_c");
}

fn folder(root: &Path, variable: &str, default: &str) -> PathBuf {
    println!("cargo:rerun-if-env-changed={variable}");
    root.join(env::var(variable).unwrap_or(default.to_string()))
}

fn read(path: &Path) -> String {
    println!("cargo:rerun-if-changed={}", path.display());
    fs::read_to_string(path).unwrap_or_else(|e| stop(&format!("{}: {e}", path.display())))
}

fn stop(why: &str) -> ! {
    eprintln!("{why}");
    std::process::exit(1)
}
