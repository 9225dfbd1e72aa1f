//! The declarations for Rust and C are those of the Rattle source.

use std::{fs, path::Path};

fn read(file: &str) -> String {
    let repository = Path::new(concat!(env!("CARGO_MANIFEST_DIR"), "/../.."));
    words(&fs::read_to_string(repository.join(file)).expect(file))
}

/// The text with one space wherever there is some.
fn words(text: &str) -> String {
    text.split_whitespace().collect::<Vec<_>>().join(" ")
}

/// The answer's crate and that of the exported functions.
fn rattle() -> String {
    ["crates/terms/src/lib.rt", "crates/kit_c/src/lib.rt"].map(read).join(" ")
}

/// What stands between the two.
fn between<'a>(text: &'a str, before: &str, after: &str) -> &'a str {
    let (_, rest) = text.split_once(before).unwrap_or_else(|| panic!("no {before:?}"));
    rest.split_once(after).unwrap_or_else(|| panic!("no {after:?} behind {before:?}")).0
}

/// The attributes right before the item.
fn attributes<'a>(text: &'a str, item: &str) -> &'a str {
    let (before, _) = text.split_once(item).unwrap_or_else(|| panic!("no {item:?}"));
    let mut rest = before;
    while let Some((start, _)) =
        rest.trim_end().strip_suffix(']').and_then(|it| it.rsplit_once("#["))
    {
        rest = start;
    }
    &before[rest.len()..]
}

/// Names and types of what is written `name: type,` one after another.
fn fields(list: &str) -> Vec<(&str, &str)> {
    let fields = list.split(',').map(str::trim).filter(|field| !field.is_empty());
    fields.map(|field| field.split_once(": ").expect("name and type")).collect()
}

/// The exported functions of the source with their parameters.
fn functions(source: &str) -> Vec<(&str, Vec<(&str, &str)>)> {
    let functions = source.split("#[unsafe(no_mangle)] pub extern \"C\" fn ").skip(1);
    functions
        .map(|function| {
            let (name, rest) = function.split_once('(').expect("a function");
            let (parameters, rest) = rest.split_once(") ").expect("its parameters");
            assert!(rest.starts_with("-> Answer "), "{name} answers");
            (name, fields(parameters))
        })
        .collect()
}

/// The declaration of a function in Rust.
fn in_rust(name: &str, parameters: &[(&str, &str)]) -> String {
    let parameter = |&(name, kind): &(&str, &str)| match kind {
        "u64" => format!("{name}: u64, "),
        "&[u8]" => format!("{name}: *const u8, {name}_length: usize, "),
        "&mut [u8]" => format!("{name}: *mut u8, {name}_length: usize, "),
        _ => panic!("{name} is {kind}"),
    };
    let parameters: String = parameters.iter().map(parameter).collect();
    format!("fn {name}( {parameters}) -> Answer;")
}

/// The declaration of a function in C.
fn in_c(name: &str, parameters: &[(&str, &str)]) -> String {
    let parameter = |&(name, kind): &(&str, &str)| match kind {
        "u64" => format!("uint64_t {name}"),
        "&[u8]" => format!("const uint8_t *{name}, size_t {name}_length"),
        "&mut [u8]" => format!("uint8_t *{name}, size_t {name}_length"),
        _ => panic!("{name} is {kind}"),
    };
    let parameters: Vec<String> = parameters.iter().map(parameter).collect();
    format!("struct kit_answer {name}( {});", parameters.join(", "))
}

/// Whether every function of the source is declared as it is there.
fn declared(source: &str) -> bool {
    let (rust, header) = (read("host/kit/src/lent.rs"), read("host/kit/kit.h"));
    functions(source).into_iter().all(|(name, parameters)| {
        rust.contains(&in_rust(name, &parameters)) && header.contains(&in_c(name, &parameters))
    })
}

#[test]
fn parameters_are_those_of_the_source() {
    let source = rattle();
    let names: Vec<&str> = functions(&source).into_iter().map(|(name, _)| name).collect();
    assert_eq!(names, ["kit_check", "kit_run"]);
    assert!(declared(&source));
    for (here, there) in [
        ("literals: u64, waiting: u64", "waiting: u64, literals: u64"),
        ("job: &[u8], variables", "job: &mut [u8], variables"),
        ("listing: &mut [u8], )", ")"),
    ] {
        assert!(source.contains(here));
        assert!(!declared(&source.replace(here, there)), "{there}");
    }
}

#[test]
fn nothing_else_is_declared() {
    let (rust, header) = (read("host/kit/src/lent.rs"), read("host/kit/kit.h"));
    let rust = between(&rust, "unsafe extern \"C\" {", " }");
    assert_eq!(rust.matches("fn ").count(), 2);
    assert_eq!(header.matches("struct kit_answer ").count(), 3);
}

#[test]
fn the_answer_has_the_fields_of_the_source() {
    let (source, rust, header) = (rattle(), read("host/kit/src/lent.rs"), read("host/kit/kit.h"));
    let of_source = between(&source, "pub struct Answer {", "}");
    assert!(attributes(&source, "pub struct Answer {").contains("#[repr(C)]"));
    assert_eq!(between(&rust, "pub struct Answer {", "}"), of_source);
    assert!(between(&rust, "#[repr(C)]", "{").ends_with("pub struct Answer "));
    let in_c = fields(of_source).into_iter().map(|(name, kind)| {
        assert_eq!(kind, "u64");
        format!(" uint64_t {};", name.strip_prefix("pub ").expect("a public field"))
    });
    assert_eq!(between(&header, "struct kit_answer {", " }"), in_c.collect::<String>());
}
