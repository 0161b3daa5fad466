//! The build script, for machines that the archive is not written for.

#[allow(dead_code)]
#[path = "../build.rs"]
mod script;

#[test]
fn the_archive_is_for_one_machine() {
    assert_eq!(script::elsewhere("x86_64", "linux"), None);
}

/// Elsewhere there is a line to say, and no more: cargo takes one line as a warning.
#[test]
fn elsewhere_a_line_is_said() {
    for (arch, os) in [("aarch64", "linux"), ("aarch64", "macos"), ("x86_64", "windows")] {
        let line = script::elsewhere(arch, os).unwrap();
        assert!(line.contains("libtzb_c.a is x86-64 code for Linux"), "{line}");
        assert!(line.contains(&format!("for {arch} on {os}")) && !line.contains('\n'), "{line}");
    }
}
