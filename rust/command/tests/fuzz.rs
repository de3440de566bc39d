//! Whatever it is given, the command ends with status 0, 1 or 2, and never by a panic.

mod common;

use cases::case::{Tally, tallied};
use cases::generate;
use cases::random::Random;
use common::{Ran, data, finish, program, run};

/// Counts how a run ended, and asks that it says why.
fn ended(ran: &Ran, tally: &mut Tally, what: &str) {
    tally.add(ran.status as u32);
    assert!((0..=2).contains(&ran.status), "{what}: {ran:?}");
    assert!(ran.status != 2 || ran.complaints.starts_with("softlode: "), "{what}: {ran:?}");
    assert!(
        ran.status != 1 || !ran.complaints.is_empty() || ran.output.starts_with(b"refused "),
        "{what}: {ran:?}"
    );
}

/// Every command that reads bytes.
const ON_BYTES: [&[&str]; 11] = [
    &["check", "-"],
    &["text", "-"],
    &["tidy", "-"],
    &["ask", "-", "0", "0", "10"],
    &["next", "-", "0", "0", "2024-03-03 14:00"],
    &["board", "-", "0"],
    &["list", "-"],
    &["list", "--plain", "-"],
    &["pack", "-"],
    &["week", "-", "2024-02-28"],
    &["week", "-", "0", "--html", "-"],
];

#[test]
fn any_bytes() {
    let tally = tallied("any bytes", 6_000, |case, tally| {
        let random = &mut case.random;
        let bytes = match random.below(8) {
            0 => {
                let count = random.below(200) as usize;
                random.bytes(count)
            }
            1 => {
                let table = generate::small_table(random);
                generate::damaged_table(random, &table)
            }
            2 => generate::table(random).encode(),
            _ => {
                let rota = generate::small_rota(random);
                generate::damaged_rota(random, &rota)
            }
        };
        let words = random.pick(&ON_BYTES);
        ended(&run(words, &bytes), tally, &format!("{words:?} {}", cases::case::hex(&bytes)));
    });
    tally.reached([0, 1]);
}

/// Changes a text here and there: characters, words and lines.
fn changed(random: &mut Random, text: &str) -> String {
    let mut lines: Vec<String> = text.lines().map(String::from).collect();
    for _ in 0..random.between(1, 4) {
        if lines.is_empty() {
            break;
        }
        let (i, j) =
            (random.below(lines.len() as u32) as usize, random.below(lines.len() as u32) as usize);
        match random.below(10) {
            0 => drop(lines.remove(i)),
            1 => lines.swap(i, j),
            2 => lines.insert(i, lines[j].clone()),
            3 | 4 => {
                let mut words: Vec<&str> = lines[i].split(' ').collect();
                let at = random.below(words.len() as u32) as usize;
                let word = random.pick(&[
                    "always",
                    "in",
                    "to",
                    "is",
                    "minute",
                    "4294967296",
                    "65536",
                    "255",
                    "24:00",
                    "99:99",
                    "\"",
                    "\"\"",
                    "\\",
                    "2400-12-31",
                    "2401-01-01",
                    "0000-00-00",
                    "Mon",
                    "week",
                    "#",
                    "x",
                    "é",
                    "\u{202e}",
                    "-1",
                    "::",
                    "the",
                    "end",
                ]);
                match random.below(3) {
                    0 => words[at] = word,
                    1 => words.insert(at, word),
                    _ => drop(words.remove(at)),
                }
                lines[i] = words.join(" ");
            }
            _ => {
                let mut letters: Vec<char> = lines[i].chars().collect();
                let at = random.between(0, letters.len() as u32) as usize;
                let letter = random.pick(&[
                    '"',
                    '\\',
                    ' ',
                    '0',
                    '9',
                    ':',
                    '-',
                    '#',
                    'a',
                    'Z',
                    '\t',
                    '\u{0}',
                    '\u{7f}',
                    'ß',
                    'İ',
                    '\u{1F600}',
                ]);
                match random.below(3) {
                    0 => letters.insert(at, letter),
                    1 if at < letters.len() => letters[at] = letter,
                    _ if at < letters.len() => drop(letters.remove(at)),
                    _ => {}
                }
                lines[i] = letters.into_iter().collect();
            }
        }
    }
    lines.join("\n")
}

#[test]
fn any_text() {
    let texts = [
        std::fs::read_to_string(data("week.text")).unwrap(),
        run(&["text".into(), data("small.rota").into_os_string()], b"").text().to_string(),
    ];
    let tally = tallied("any text", 20_000, |case, tally| {
        let random = &mut case.random;
        let which = random.below(2) as usize;
        let text = changed(random, &texts[which]);
        let ran = run(&["pack", "-"], text.as_bytes());
        ended(&ran, tally, &text);
        // What is complained about has a line, and what is packed is accepted and has a text.
        match ran.status {
            1 => assert!(ran.complaints.starts_with("softlode: standard input, line "), "{ran:?}"),
            0 => assert_eq!(run(&["text", "-"], &ran.output).status, 0, "{text}"),
            _ => {}
        }
    });
    tally.reached([0, 1]);
}

#[test]
fn any_names() {
    let names = std::fs::read_to_string(data("week.rota.names")).unwrap();
    let rota = data("week.rota").into_os_string();
    let tally = tallied("any names", 6_000, |case, tally| {
        let names = changed(&mut case.random, &names);
        let words = ["text".into(), "--names".into(), "-".into(), rota.clone()];
        ended(&run(&words, names.as_bytes()), tally, &names);
    });
    tally.reached([0, 2]);
}

#[test]
fn any_words() {
    const WORDS: [&str; 40] = [
        "check",
        "text",
        "pack",
        "tidy",
        "ask",
        "next",
        "board",
        "list",
        "help",
        "--help",
        "-h",
        "--version",
        "-V",
        "--",
        "-",
        "--names",
        "--names=-",
        "--no-names",
        "--plain",
        "-x",
        "--output",
        "0",
        "5",
        "8",
        "64",
        "Agnes",
        "discard a record",
        "2024-03-03",
        "14:00",
        "2024-03-03T14:00",
        "Sun",
        "minute",
        "9999999999",
        "",
        " ",
        "é",
        "\"",
        "T",
        "2T4",
        "now",
    ];
    let (rota, table) = (data("week.rota").into_os_string(), data("week.table").into_os_string());
    let input = std::fs::read(&rota).unwrap();
    let tally = tallied("any words", 20_000, |case, tally| {
        let random = &mut case.random;
        let mut words: Vec<std::ffi::OsString> = Vec::new();
        for _ in 0..random.below(8) {
            words.push(match random.below(8) {
                0 => rota.clone(),
                1 => table.clone(),
                _ => random.pick(&WORDS).into(),
            });
        }
        // A command comes first more often than not; nothing is written to a file.
        if random.one_in(2) {
            words.insert(0, random.pick(&WORDS[..9]).into());
        }
        if let Some(at) = words.iter().position(|word| word == "--output") {
            words.insert(at + 1, "-".into());
        }
        ended(&run(&words, &input), tally, &format!("{words:?}"));
    });
    tally.reached([0, 1, 2]);
}

/// The same as a process, where a panic is status 101.
#[test]
fn the_program_too() {
    let rota = std::fs::read(data("week.rota")).unwrap();
    let text = std::fs::read_to_string(data("week.text")).unwrap();
    let tally = tallied("the program", 150, |case, tally| {
        let random = &mut case.random;
        let words = random.pick(&ON_BYTES);
        let mut input =
            if words[0] == "pack" { changed(random, &text).into_bytes() } else { rota.clone() };
        let at = random.below(input.len() as u32) as usize;
        input[at] = random.byte();
        if random.one_in(4) {
            input.truncate(at);
        }
        ended(&finish(program().args(words), &input), tally, &format!("{words:?}"));
    });
    tally.reached([0, 1]);
}
