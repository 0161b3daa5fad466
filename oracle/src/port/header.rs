//! `include/tzb.h` declares exactly the exports, each with its types.

/// The C declaration of an export, from its Rattle signature.
fn declared(signature: &str) -> String {
    let (name, rest) = signature.split_once('(').unwrap();
    let (lent, answer) = rest.split_once(')').unwrap();
    let answer = c_type(answer.trim().strip_prefix("->").unwrap().trim());
    let lent: Vec<String> =
        lent.split(',').map(str::trim).filter(|p| !p.is_empty()).map(parameter).collect();
    format!("{answer} {name}({});", lent.join(", "))
}

fn parameter(text: &str) -> String {
    let (name, kind) = text.split_once(':').unwrap();
    match kind.trim() {
        "&[u8]" => format!("const uint8_t *{name}, size_t {name}_length"),
        "&[i32]" => format!("const int32_t *{name}, size_t {name}_length"),
        "&[u32]" => format!("const uint32_t *{name}, size_t {name}_length"),
        "&mut [u8]" => format!("uint8_t *{name}, size_t {name}_length"),
        "&mut [i32]" => format!("int32_t *{name}, size_t {name}_length"),
        "&mut [u32]" => format!("uint32_t *{name}, size_t {name}_length"),
        "&mut [u64]" => format!("uint64_t *{name}, size_t {name}_length"),
        plain => format!("{} {name}", c_type(plain)),
    }
}

fn c_type(rattle: &str) -> &'static str {
    match rattle {
        "i32" => "int32_t",
        "u32" => "uint32_t",
        "i64" => "int64_t",
        "u64" => "uint64_t",
        "usize" => "size_t",
        "f64" => "double",
        other => panic!("{other} has no C type here"),
    }
}

#[test]
fn header_declares_the_exports() {
    let root = concat!(env!("CARGO_MANIFEST_DIR"), "/..");
    let read = |path: &str| std::fs::read_to_string(format!("{root}/{path}")).unwrap();
    let source = read("crates/tzb_c_c/src/lib.rt");
    let exports: Vec<String> = source
        .split("pub extern \"C\" fn ")
        .skip(1)
        .map(|text| declared(&text[..text.find("ensures").unwrap()].replace('\n', " ")))
        .collect();
    let header = read("include/tzb.h");
    let lines: Vec<&str> = header.lines().filter(|line| line.ends_with(");")).collect();
    let code = |line: &&&str| !line.starts_with(" *");
    assert_eq!(lines.iter().filter(code).map(|l| l.to_string()).collect::<Vec<_>>(), exports);
}
