//! The header, the proved crates behind it and this wrapper declare the same functions and fields,
//! and the header and the wrapper have the same refusals, limits and version. Read from their texts.
//! The README's example in Rust is the crate's first, which runs as a test.

use softlode::{
    ENOUGH_AREA, LARGEST_ROTA, LAST_MINUTE, MOST_QUESTIONS, Refusal, VERSION, fits, version,
};

const HEADER: &str = include_str!("../../../include/softlode.h");
const INTERFACE: &str = include_str!("../../../crates/softlode/src/lib.rt");
const STRUCTURES: &str = concat!(
    include_str!("../../../crates/host_answers/src/lib.rt"),
    include_str!("../../../crates/table_board/src/lib.rt"),
    include_str!("../../../crates/host_page/src/lib.rt"),
    include_str!("../../../crates/machine/src/lib.rt"),
);
const WRAPPER: &str = concat!(
    include_str!("../src/ffi.rs"),
    include_str!("../src/rota.rs"),
    include_str!("../src/table.rs"),
    include_str!("../src/page.rs"),
    include_str!("../src/service.rs"),
    include_str!("../src/calendar.rs"),
);

/// The structs as the header, the proved crates and the wrapper name them.
const STRUCTS: [[&str; 3]; 12] = [
    ["softlode_rota", "RotaTold", "Told<RotaCounts>"],
    ["softlode_table", "TableTold", "Told<TableCounts>"],
    ["softlode_tidied", "TidiedTold", "TidiedTold"],
    ["softlode_written", "WrittenTold", "WrittenTold"],
    ["softlode_told", "Told", "Told<Answer>"],
    ["softlode_next", "NextTold", "Told<NextUse>"],
    ["softlode_board", "Board", "BoardTold"],
    ["softlode_place", "Place", "Place"],
    ["softlode_question", "Question", "Question"],
    ["softlode_service", "Service", "Service"],
    ["softlode_date_time", "DateTold", "Told<DateTime>"],
    ["softlode_minute_number", "MinuteTold", "Told<u32>"],
];

/// A number, where a function gives no struct but that.
const NUMBER: [&str; 3] = ["uint32_t", "u32", "u32"];

/// What stands between the first `start` and the next `end` after it.
fn between<'a>(text: &'a str, start: &str, end: &str) -> &'a str {
    let (_, rest) = text.split_once(start).unwrap_or_else(|| panic!("no {start}"));
    rest.split_once(end).unwrap_or_else(|| panic!("no {end} after {start}")).0
}

/// The fields of a struct of the header, as `name: type`.
fn c_fields(name: &str) -> Vec<String> {
    between(HEADER, &format!("typedef struct {name} {{"), "}")
        .lines()
        .filter_map(|line| line.split_once(';'))
        .map(|(field, _)| {
            let (kind, name) = field.trim().split_once(' ').expect("a type and a name");
            let kind = kind.replace("int", "").replace("_t", "");
            match name.trim_end_matches(']').split_once('[') {
                Some((name, count)) => format!("{name}: [{kind}; {count}]"),
                None => format!("{name}: {kind}"),
            }
        })
        .collect()
}

/// The fields of a struct of Rust or of Rattle, in the header's words.
fn rust_fields(text: &str, name: &str) -> Vec<String> {
    between(text, &format!("struct {name} {{"), "}")
        .lines()
        .map(|line| line.trim().trim_start_matches("pub ").trim_end_matches(','))
        .filter(|line| !line.is_empty() && !line.starts_with("//"))
        .map(|line| line.replace("user", "volunteer").replace("permission", "right"))
        .map(|line| line.replace(": Place", ": softlode_place"))
        .collect()
}

#[test]
fn the_same_fields() {
    for [c, proved, wrapped] in STRUCTS {
        let expected = c_fields(c);
        assert_eq!(rust_fields(STRUCTURES, proved), expected, "{c}");
        let found = match wrapped.strip_prefix("Told<").and_then(|rest| rest.strip_suffix('>')) {
            Some("u32") => vec!["refusal: u32".into(), "minute: u32".into()],
            Some(values) => [vec!["refusal: u32".into()], rust_fields(WRAPPER, values)].concat(),
            None => rust_fields(WRAPPER, wrapped),
        };
        assert_eq!(found, expected, "{c}");
    }
}

/// A function's name, its parameters as C passes them, and which of the structs it gives, or past
/// them a number.
type Function = (String, String, usize);

/// `kinds` says how a text names the types of parameters, `column` how it names the structs.
fn function<'a>(
    name: &str,
    parameters: impl Iterator<Item = &'a str>,
    gives: &str,
    kinds: &[(&str, &str)],
    column: usize,
) -> Function {
    let passed = parameters.map(|parameter| {
        let known = kinds.iter().find(|(kind, _)| *kind == parameter);
        known.unwrap_or_else(|| panic!("{name}: {parameter}")).1
    });
    let gives = STRUCTS.iter().chain([&NUMBER]).position(|names| names[column] == gives);
    let gives = gives.unwrap_or_else(|| panic!("{name} gives another"));
    (name.into(), passed.collect::<Vec<_>>().join(" "), gives)
}

/// The functions of a text of Rust or of Rattle.
fn rust_functions(text: &str, kinds: &[(&str, &str)], column: usize) -> Vec<Function> {
    let mut found: Vec<_> = text
        .split("fn softlode_")
        .skip(1)
        .map(|rest| {
            let (name, rest) = rest.split_once('(').expect("parameters");
            let (parameters, rest) = rest.split_once(')').expect("their end");
            let parameters =
                parameters.split(',').filter_map(|one| Some(one.split_once(": ")?.1.trim()));
            let gives = rest.lines().next().expect("a line").trim_end_matches(';');
            let gives = gives.trim_start_matches(" -> ");
            function(name, parameters, gives, kinds, column)
        })
        .collect();
    found.sort();
    found
}

/// The functions of the header, each on a line of its own.
fn c_functions() -> Vec<Function> {
    let kinds = [
        ("const uint8_t *", "bytes"),
        ("uint8_t *", "area"),
        ("softlode_service *", "record"),
        ("softlode_question *", "questions"),
        ("size_t ", "size"),
        ("uint32_t ", "number"),
    ];
    let mut found: Vec<_> = HEADER
        .lines()
        .filter(|line| line.starts_with("softlode_") || line.starts_with("uint32_t softlode_"))
        .map(|line| {
            let (gives, rest) = line.split_once(" softlode_").expect("a type and a name");
            let (name, rest) = rest.split_once('(').expect("parameters");
            let parameters = rest.trim_end_matches(");").split(", ");
            let parameters = parameters.filter(|one| *one != "void").map(|one| {
                let name = one.rfind(|c: char| !c.is_ascii_lowercase()).expect("a type") + 1;
                &one[..name]
            });
            function(name, parameters, gives, &kinds, 0)
        })
        .collect();
    found.sort();
    found
}

#[test]
fn the_same_functions() {
    let expected = c_functions();
    assert_eq!(expected.len(), 22);
    let kinds = [
        ("&[u8]", "bytes size"),
        ("&mut [u8]", "area size"),
        ("&mut Service", "record"),
        ("&mut [Question]", "questions size"),
        ("u32", "number"),
    ];
    assert_eq!(rust_functions(INTERFACE, &kinds, 1), expected);
    let kinds = [
        ("*const u8", "bytes"),
        ("*mut u8", "area"),
        ("*mut Service", "record"),
        ("*mut Question", "questions"),
        ("usize", "size"),
        ("u32", "number"),
    ];
    assert_eq!(rust_functions(WRAPPER, &kinds, 2), expected);
}

/// The names, numbers and meanings of the refusals: an enumerator and a case of the header for each,
/// and a line of the wrapper, from which its constants are made.
#[test]
fn the_same_refusals() {
    let named = between(HEADER, "enum softlode_refusal {", "}")
        .lines()
        .filter_map(|line| line.trim().trim_end_matches(',').split_once(" = "));
    let said: Vec<(&str, &str)> = HEADER
        .lines()
        .filter_map(|line| line.trim().strip_prefix("case ")?.split_once(": return "))
        .collect();
    assert_eq!(said[0], ("0", "\"\";"));
    let expected: Vec<String> = named
        .zip(&said[1..])
        .map(|((name, number), (case, meaning))| {
            assert_eq!(name, *case);
            let name = name.strip_prefix("SOFTLODE_").expect("a name of the library");
            format!("{name} = {number}: {meaning}")
        })
        .collect();
    let lines = between(include_str!("../src/refusal.rs"), "\nrefusals! {\n", "\n}").lines();
    assert_eq!(lines.map(str::trim).collect::<Vec<_>>(), expected);
    assert_eq!((expected.len(), said.len()), (Refusal::ALL.len(), Refusal::ALL.len() + 1));
    for (refusal, line) in Refusal::ALL.iter().zip(&expected) {
        let end = format!(" = {}: \"{}\";", refusal.number(), refusal.meaning());
        assert!(line.ends_with(&end), "{line}");
    }
}

/// The number of a macro of the header.
fn c_number(name: &str) -> usize {
    let number = between(HEADER, &format!("\n#define SOFTLODE_{name} "), "\n");
    number.parse().unwrap_or_else(|_| panic!("{name} is {number}"))
}

#[test]
fn the_same_limits() {
    assert_eq!(LARGEST_ROTA, c_number("LARGEST_ROTA"));
    assert_eq!(ENOUGH_AREA, c_number("ENOUGH_AREA"));
    assert_eq!(LAST_MINUTE as usize, c_number("LAST_MINUTE"));
    assert_eq!(MOST_QUESTIONS, c_number("MOST_QUESTIONS"));
}

/// Of the header, the wrapper, its package, and the library.
#[test]
fn the_same_version() {
    let numbers = ["MAJOR", "MINOR", "PATCH"].map(|part| c_number(&format!("VERSION_{part}")));
    assert_eq!(numbers.map(|number| number.to_string()).join("."), env!("CARGO_PKG_VERSION"));
    assert_eq!(VERSION.to_string(), env!("CARGO_PKG_VERSION"));
    assert_eq!(version(), VERSION);
    assert!(fits());
}

#[test]
fn the_example_of_the_readme() {
    let readme = between(include_str!("../../../README.md"), "```rust\n", "```");
    let example: String = between(include_str!("../src/lib.rs"), "//! ```\n", "//! ```\n")
        .lines()
        .map(|line| line.trim_start_matches("//!").trim_start())
        .filter(|line| !line.starts_with("# "))
        .map(|line| format!("{line}\n"))
        .collect();
    assert_eq!(readme, example);
}
