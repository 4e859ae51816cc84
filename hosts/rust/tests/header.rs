//! The crate declares what include/ubrenchip.h declares: the same reasons, structs and calls, with
//! the same numbers, fields and parameters, and the same limits under the same names. Both texts are
//! read for it, and the header's declarations are put as Rust has them.

use std::collections::BTreeSet;

/// The header without comments and lines for the preprocessor.
fn header() -> String {
    let text = include_str!("../../../include/ubrenchip.h");
    let after = |piece: &'static str| piece.split_once("*/").map_or(piece, |(_, after)| after);
    let text: String = text.split("/*").map(after).collect();
    let lines = text.lines().filter(|line| !line.starts_with('#'));
    even(&lines.collect::<Vec<_>>().join(" "))
}

/// The crate's declarations without comments and attributes.
fn declarations() -> String {
    let lines = include_str!("../src/c.rs").lines().map(str::trim_start);
    let lines = lines.filter(|line| !line.starts_with("//") && !line.starts_with('#'));
    even(&lines.collect::<Vec<_>>().join(" "))
}

/// A text with single spaces, none beside a bracket, a comma or a semicolon, and no last comma.
fn even(text: &str) -> String {
    let mut text = text.split_whitespace().collect::<Vec<_>>().join(" ");
    for mark in ["(", ")", "{", "}", ",", ";"] {
        text = text
            .replace(&format!(" {mark}"), mark)
            .replace(&format!("{mark} "), mark);
    }
    text.replace(",)", ")").replace(",}", "}")
}

/// What stands between `open` and the next `close`, each time.
fn between<'a>(text: &'a str, open: &'a str, close: &'a str) -> impl Iterator<Item = &'a str> {
    let end = move |piece: &'a str| piece.split_once(close).expect("what opens is closed").0;
    text.split(open).skip(1).map(end)
}

/// A type of the header, as Rust has it.
fn rust_type(name: &str) -> &str {
    match name {
        "uint8_t" => "u8",
        "uint32_t" => "u32",
        "uint64_t" => "u64",
        "int64_t" => "i64",
        "size_t" => "usize",
        "ubrenchip_answer" => "Answer",
        "ubrenchip_speed" => "Speed",
        "ubrenchip_sampled" => "Sampled",
        "ubrenchip_viewed" => "Viewed",
        _ => panic!("the header has a type {name}, which is not known here"),
    }
}

/// A field or a parameter of the header, as Rust has it.
fn rust_variable(variable: &str) -> String {
    let (of, name) = variable.rsplit_once(' ').expect("a type and a name");
    match (of.strip_prefix("const "), name.strip_prefix('*')) {
        (None, None) => format!("{name}: {}", rust_type(of)),
        (None, Some(name)) => format!("{name}: *mut {}", rust_type(of)),
        (Some(of), Some(name)) => format!("{name}: *const {}", rust_type(of)),
        (Some(_), None) => panic!("a const that is no pointer: {variable}"),
    }
}

#[test]
fn the_reasons_are_the_headers() {
    let (header, declarations) = (header(), declarations());
    let reasons = between(&header, "enum ubrenchip_refusal{", "}")
        .next()
        .expect("an enum");
    let theirs: Vec<_> = reasons
        .split(',')
        .map(|reason| reason.replace(" =", ": u32 ="))
        .collect();
    let ours: Vec<_> = between(&declarations, "pub const ", ";").collect();
    assert_eq!(ours, theirs);
    assert_eq!(ours.len(), 14);
}

#[test]
fn the_structs_are_the_headers() {
    let (header, declarations) = (header(), declarations());
    let theirs: Vec<_> = between(&header, "typedef struct ", ";}")
        .map(|item| {
            let (name, fields) = item.split_once('{').expect("fields");
            let fields = fields
                .split(';')
                .map(|field| format!("pub {}", rust_variable(field)));
            format!(
                "{}{{{}",
                rust_type(name),
                fields.collect::<Vec<_>>().join(",")
            )
        })
        .collect();
    let ours: Vec<_> = between(&declarations, "pub struct ", "}").collect();
    assert_eq!(ours, theirs);
    assert_eq!(ours.len(), 4);
    assert_eq!(
        include_str!("../src/c.rs").matches("#[repr(C)]\n").count(),
        4
    );
}

#[test]
fn the_calls_are_the_headers() {
    let (header, declarations) = (header(), declarations());
    let theirs: BTreeSet<_> = header
        .split(&[';', '{', '}'][..])
        .filter_map(|item| item.strip_suffix(')')?.split_once('('))
        .map(|(head, parameters)| {
            let (answer, name) = head.split_once(' ').expect("an answer and a name");
            let parameters: Vec<_> = parameters.split(',').map(rust_variable).collect();
            format!("{}({})-> {}", name, parameters.join(","), rust_type(answer))
        })
        .collect();
    let ours: BTreeSet<_> = between(&declarations, "pub fn ", ";")
        .map(String::from)
        .collect();
    assert_eq!(ours, theirs);
    assert_eq!(ours.len(), 17);
}

/// The number that an expression of the header or of the crate's limits says.
fn number(text: &str) -> i64 {
    let plain = text.replace('_', "");
    if let Some(power) = plain
        .strip_prefix("(1 << ")
        .and_then(|rest| rest.strip_suffix(") - 1"))
    {
        return (1 << power.parse::<u32>().expect("a power")) - 1;
    }
    let open = plain
        .split_once('(')
        .map_or(plain.as_str(), |(_, inside)| inside);
    let digits = open.strip_suffix(')').unwrap_or(open);
    digits.parse().expect("a number")
}

#[test]
fn the_limits_are_the_headers() {
    let header = include_str!("../../../include/ubrenchip.h");
    let theirs: Vec<_> = header
        .lines()
        .filter_map(|line| line.strip_prefix("#define UBRENCHIP_")?.split_once(' '))
        .filter(|(name, _)| !name.starts_with("VERSION"))
        .map(|(name, text)| {
            let text = text.split_once("/*").map_or(text, |(before, _)| before);
            (name.to_string(), number(text.trim()))
        })
        .collect();
    let ours: Vec<_> = between(include_str!("../src/limits.rs"), "pub const ", ";")
        .map(|item| {
            let (name, text) = item.split_once(": ").expect("a name and a type");
            let (_, text) = text.split_once(" = ").expect("a number");
            (name.to_string(), number(text))
        })
        .collect();
    assert_eq!(sorted(ours.clone()), sorted(theirs));
    assert_eq!(ours.len(), 19);
}

fn sorted(mut items: Vec<(String, i64)>) -> Vec<(String, i64)> {
    items.sort();
    items
}
