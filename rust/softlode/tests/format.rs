//! docs/FORMAT.md against the stored files and the proved library: its bytes, the files of
//! data/refusals, its calls, and the order of its refusals, which is the header's.
//!
//! After a change of the page this writes the files anew:
//!
//!     cargo test --offline -p softlode --test format -- --ignored

use std::collections::BTreeSet;
use std::fs;

use softlode::{Lent, Question, Refusal, Rota, Service, Table, date, minute};

const PAGE: &str = include_str!("../../../docs/FORMAT.md");
const HEADER: &str = include_str!("../../../include/softlode.h");
const DATA: &str = concat!(env!("CARGO_MANIFEST_DIR"), "/../../data");

/// The bytes of a file below data/.
fn stored(name: &str) -> Vec<u8> {
    fs::read(format!("{DATA}/{name}")).unwrap_or_else(|error| panic!("data/{name}: {error}"))
}

/// All numbers of a text, in order.
fn numbers(text: &str) -> Vec<u32> {
    let digits = text.split(|c: char| !c.is_ascii_digit()).filter(|digits| !digits.is_empty());
    digits.map(|digits| digits.parse().expect("a number of 32 bits")).collect()
}

fn hexadecimal(text: &str) -> Vec<u8> {
    text.split_whitespace()
        .map(|byte| u8::from_str_radix(byte, 16).unwrap_or_else(|_| panic!("bytes: {text}")))
        .collect()
}

/// A line of a table of the page: the heading above it, and each cell with its column.
struct Line {
    heading: &'static str,
    cells: Vec<(&'static str, &'static str)>,
}

impl Line {
    fn find(&self, column: &str) -> Option<&'static str> {
        self.cells.iter().find(|(name, _)| *name == column).map(|(_, cell)| *cell)
    }

    fn get(&self, column: &str) -> &'static str {
        self.find(column).unwrap_or_else(|| panic!("{}: no column {column}", self.heading))
    }

    /// The number in the column `refusal`; none for "those of ..".
    fn refusal(&self) -> Option<u32> {
        self.find("refusal").and_then(|cell| cell.parse().ok())
    }
}

/// All lines of all tables.
fn lines() -> Vec<Line> {
    let (mut heading, mut columns, mut lines) = ("", None, Vec::new());
    for line in PAGE.lines() {
        if line.starts_with('#') {
            heading = line.trim_start_matches('#').trim();
        }
        let Some(line) = line.strip_prefix("| ").and_then(|line| line.strip_suffix('|')) else {
            // The line of dashes is within a table.
            columns = columns.filter(|_| line.starts_with('|'));
            continue;
        };
        let cells: Vec<&str> = line.split('|').map(str::trim).collect();
        let Some(names) = &columns else {
            columns = Some(cells);
            continue;
        };
        assert_eq!(names.len(), cells.len(), "{line}");
        lines.push(Line { heading, cells: names.iter().copied().zip(cells).collect() });
    }
    lines
}

/// What a file of the page's tables is made from.
#[derive(Clone, Copy)]
struct Base {
    file: &'static str,
    /// The columns of the change, and of the other change where there are two.
    columns: [&'static str; 2],
}

const BASES: [Base; 2] = [
    Base { file: "small.rota", columns: ["S with", "by S with"] },
    Base { file: "small.table", columns: ["S's table with", "by S's table with"] },
];

impl Base {
    /// The base with changes as the page words them.
    fn with(self, changes: &[&str]) -> Vec<u8> {
        let mut bytes = stored(self.file);
        for change in changes.iter().flat_map(|changes| changes.split("; ")) {
            if let Some(rest) = change.strip_prefix("its first ") {
                bytes.truncate(numbers(rest)[0] as usize);
            } else if let Some(more) = change.strip_suffix(" after its end") {
                bytes.extend(hexadecimal(more));
            } else {
                let (at, new) = change.split_once(" is ").or(change.split_once(" are ")).unwrap();
                let (at, new) = (numbers(at), hexadecimal(new));
                let (first, last) = (at[0] as usize, *at.last().unwrap() as usize);
                assert_eq!(last + 1 - first, new.len(), "{change}");
                assert_ne!(stored(self.file)[first..=last], new, "{change}");
                bytes[first..=last].copy_from_slice(&new);
            }
        }
        bytes
    }

    fn lend(self, bytes: &[u8]) -> Lent<'_> {
        if self.file.ends_with(".rota") { Lent::Rota(bytes) } else { Lent::Table(bytes) }
    }

    fn read(self, bytes: &[u8]) -> u32 {
        let judged = match self.lend(bytes) {
            Lent::Rota(bytes) => Rota::read(bytes).err(),
            Lent::Table(bytes) => Table::read(bytes).err(),
        };
        judged.map_or(0, Refusal::number)
    }
}

/// A line with its base, for those that tell a change of it.
fn changes() -> Vec<(Line, Base, Vec<&'static str>)> {
    let change = |line: Line| {
        let base = BASES.into_iter().find(|base| line.find(base.columns[0]).is_some())?;
        let changes = base.columns.iter().filter_map(|column| line.find(column)).collect();
        Some((line, base, changes))
    };
    lines().into_iter().filter_map(change).collect()
}

/// The names of the files, each with its base, its refusal and its bytes as the page tells them.
fn files() -> Vec<(&'static str, Base, u32, Vec<u8>)> {
    changes()
        .into_iter()
        .filter_map(|(line, base, changes)| {
            Some((line.find("file")?, base, line.refusal()?, base.with(&changes)))
        })
        .collect()
}

/// What a call gives, in the page's words. `lent` is a rota or a table; `None` for a call that is
/// not made on such bytes.
fn call(call: &str, lent: Lent, record: &mut Service) -> Option<String> {
    let (name, arguments) = call.trim_matches('`').split_once(": ").expect("a name");
    let n = numbers(arguments);
    let role = |role: Option<u32>| role.map_or("no".into(), |role| format!("yes, role {role}"));
    let told = match (name, lent) {
        ("question", _) => lent.may(n[0], n[1], n[2]).map(role),
        ("page", _) if arguments.ends_with(" questions") => {
            lent.page(&mut vec![Question::default(); n[0] as usize]).map(|()| "done".into())
        }
        ("page", _) => {
            let mut page = [Question::new(n[0], n[1], n[2])];
            lent.page(&mut page).and_then(|()| page[0].answer.role()).map(role)
        }
        ("advance", _) => record.advance(lent, n[0]).map(|count| format!("closed {count}")),
        ("open", _) => record.open(lent, n[0]).map(|()| "done".into()),
        ("close", _) => record.close(lent, n[0]).map(|()| "done".into()),
        ("ask", _) => record.ask(lent, n[0], n[1]).map(role),
        ("date", _) => date(n[0]).map(|date| date.to_string()),
        ("minute", _) => minute(n[0], n[1], n[2], n[3], n[4]).map(|minute| minute.to_string()),
        // The wrapper tidies and rewrites what it has read.
        ("tidy", Lent::Rota(bytes)) => {
            let mut area = vec![0xa5; n[0] as usize];
            let tidy = Rota::read(bytes).and_then(|rota| Ok(rota.tidy(&mut area)?.len()));
            assert!(tidy.is_ok() || area.iter().all(|&byte| byte == 0xa5), "{call}");
            tidy.map(|length| format!("{length} bytes"))
        }
        ("rewrite", Lent::Rota(bytes)) => {
            let mut area = vec![0xa5; n[0] as usize];
            let written = Rota::read(bytes).and_then(|rota| {
                let table = rota.rewrite(&mut area)?;
                let (derived, rows, length) = (table.derived, table.rows, table.bytes.len());
                Ok(format!("{derived} derived roles, {rows} rows, {length} bytes"))
            });
            assert!(written.is_ok() || area.iter().all(|&byte| byte == 0xa5), "{call}");
            written
        }
        ("size", Lent::Rota(bytes)) => {
            Rota::read(bytes).and_then(|rota| rota.table_size()).map(|size| {
                format!("{} derived roles, {} rows, {} bytes", size.derived, size.rows, size.length)
            })
        }
        ("next use", Lent::Table(bytes)) => Table::read(bytes)
            .and_then(|table| table.next_use(n[0], n[1], n[2]))
            .map(|next| next.map_or("none".into(), |minute| format!("minute {minute}"))),
        ("board", Lent::Table(bytes)) => {
            Table::read(bytes).and_then(|table| table.board(n[0])).map(|board| {
                let plural = if board.rows == 1 { "" } else { "s" };
                let mut told = format!("{} row{plural}", board.rows);
                for volunteer in 0..64 {
                    for right in board.rights_of(volunteer) {
                        told += &format!("; volunteer {volunteer}: {right}");
                    }
                }
                told
            })
        }
        ("tidy" | "rewrite" | "size" | "next use" | "board", _) => return None,
        _ => panic!("no such call: {call}"),
    };
    Some(told.unwrap_or_else(|refusal| format!("refused {}", refusal.number())))
}

/// A record as the page has it, such as "now 3, open 0, 1".
fn record(now: &str, open: &str) -> Service {
    let open = numbers(open).into_iter().fold(0, |open, volunteer| open | 1 << volunteer);
    Service { now: numbers(now)[0], open }
}

/// The record of a line, or a fresh one.
fn record_of(line: &Line) -> Service {
    line.find("record").map_or(Service::fresh(), |text| {
        let (now, open) = text.split_once(", open ").expect("two fields");
        record(now, open)
    })
}

/// Makes a call on a rota and on its table, as far as it is made on such; both give the same.
fn on_both(text: &str, name: &str, record: &mut Service) -> String {
    let (rota, table) = (stored(&format!("{name}.rota")), stored(&format!("{name}.table")));
    let mut mirror = *record;
    let told = call(text, Lent::Rota(&rota), record);
    let mirrored = call(text, Lent::Table(&table), &mut mirror);
    if let (Some(told), Some(mirrored)) = (&told, &mirrored) {
        assert_eq!((told, *record), (mirrored, mirror), "{text}");
    }
    told.or(mirrored).expect("made on one of them")
}

#[test]
fn the_bytes_of_the_page_are_those_of_the_files() {
    let blocks: Vec<&str> = PAGE.split("\n```").collect();
    let mut shown = Vec::new();
    for block in blocks.iter().skip(1).step_by(2) {
        let (name, text) = block.split_once('\n').expect("a name");
        let file = stored(name.strip_prefix("data/").expect("a file below data/"));
        let mut at = 0;
        for line in text.lines() {
            let (bytes, _) = line.split_once(" | ").expect("bytes and words");
            let (offset, bytes) = bytes.trim_start().split_once("  ").expect("an offset");
            assert_eq!(offset.parse(), Ok(at), "{line}");
            let bytes = hexadecimal(bytes);
            assert_eq!(file.get(at..at + bytes.len()), Some(&bytes[..]), "{line}");
            at += bytes.len();
        }
        assert_eq!(at, file.len(), "{name} is shown whole");
        shown.push(name);
    }
    assert_eq!(shown, ["data/small.rota", "data/week.rota", "data/small.table"]);
}

#[test]
fn every_file_is_as_told_and_gets_its_refusal() {
    let mut named = BTreeSet::new();
    for (name, base, refusal, bytes) in files() {
        assert_eq!(stored(&format!("refusals/{name}")), bytes, "{name}");
        assert_eq!(base.read(&bytes), refusal, "{name}");
        assert!(name.starts_with(&format!("{refusal:02}-")), "{name} begins with its refusal");
        assert!(named.insert(name.to_string()), "{name} is there once");
    }
    let there = fs::read_dir(format!("{DATA}/refusals")).expect("the folder");
    let there = there.map(|file| file.unwrap().file_name().into_string().unwrap());
    assert_eq!(there.collect::<BTreeSet<_>>(), named);
}

#[test]
fn of_two_faults_the_first_counts() {
    let two = changes().into_iter().filter(|(_, _, changes)| changes.len() == 2);
    let mut seen = 0;
    for (line, base, changes) in two {
        let alone = [0, 1].map(|i| base.read(&base.with(&changes[i..=i])));
        assert_eq!(Some(alone[0]), line.refusal(), "{}", line.get("file"));
        assert_eq!(alone[1].to_string(), line.get("and the other"), "{}", line.get("file"));
        seen += 1;
    }
    assert!(seen >= 24, "{seen}");
}

#[test]
fn what_is_at_the_limits_is_accepted() {
    let accepted = changes().into_iter().filter(|(line, ..)| line.find("since").is_some());
    let judged: Vec<_> =
        accepted.map(|(_, base, changes)| (base.read(&base.with(&changes)), changes)).collect();
    assert!(judged.iter().all(|(refusal, _)| *refusal == 0), "{judged:?}");
    assert!(judged.len() >= 14, "{}", judged.len());
}

#[test]
fn every_call_gives_what_the_page_says() {
    let (mut calls, mut in_turn) = (0, Service::fresh());
    for line in lines() {
        if let Some(text) = line.find("call in turn") {
            assert_eq!(on_both(text, "small", &mut in_turn), line.get("gives"), "{text}");
            assert_eq!(in_turn, record(line.get("now"), line.get("open")), "{text}");
        } else if let Some(text) = line.find("call, weekly rota") {
            assert_eq!(on_both(text, "week", &mut Service::fresh()), line.get("gives"), "{text}");
        } else if let (Some(text), Some(gives)) = (line.find("call"), line.find("gives")) {
            assert_eq!(on_both(text, "small", &mut Service::fresh()), gives, "{text}");
        } else if let (Some(text), Some(refusal)) = (line.find("call"), line.refusal()) {
            let before = record_of(&line);
            let mut after = before;
            let told = on_both(text, "small", &mut after);
            assert_eq!(told, format!("refused {refusal}"), "{}: {text}", line.heading);
            assert_eq!(after, before, "{text}");
        } else {
            continue;
        }
        calls += 1;
    }
    assert!(calls >= 79, "{calls}");
}

/// Where an operation has "those of ..", every refused file gets its own number, and what comes
/// before it comes before the files' refusals.
#[test]
fn the_refusals_of_the_bytes_come_in_their_place() {
    let (lines, files) = (lines(), files());
    let starts = |line: &&Line| line.find("refusal").is_some_and(|it| it.starts_with("those of "));
    for those in lines.iter().filter(starts) {
        // A table's size, which the wrapper does not have.
        let Some(text) = those.find("call") else { continue };
        let of_operation = lines.iter().filter(|line| line.heading == those.heading);
        let before = of_operation.take_while(|line| line.refusal().is_some());
        let before: Vec<_> = before.map(|line| (line.get("call"), line.refusal())).collect();
        let mut tried = 0;
        for (name, base, refusal, bytes) in &files {
            let mut given = record_of(those);
            let Some(told) = call(text, base.lend(bytes), &mut given) else { continue };
            assert_eq!(told, format!("refused {refusal}"), "{name}: {text}");
            assert_eq!(given, record_of(those), "{name}: {text}");
            for (text, refusal) in &before {
                let told = call(text, base.lend(bytes), &mut given);
                assert_eq!(told, refusal.map(|number| format!("refused {number}")), "{name}");
            }
            tried += 1;
        }
        assert!(tried > 30, "{text} on {tried} files");
    }
}

/// The operations of the header's list, each with its refusals in order: numbers, and "those of ..".
fn listed() -> Vec<(String, Vec<String>)> {
    let (_, list) = HEADER.split_once("Refusals, by operation").expect("the list");
    let (list, _) = list.split_once("*/").expect("its end");
    let mut operations: Vec<(String, String)> = Vec::new();
    for line in list.lines().filter_map(|line| line.strip_prefix(" *   ")) {
        match line.split_once("  ") {
            Some((name, rest)) if !name.is_empty() => operations.push((name.into(), rest.into())),
            _ => operations.last_mut().expect("a first operation").1 += line,
        }
    }
    let refusals = |text: String| {
        // What stands in brackets says more of the number before it.
        let text: String = text
            .split('(')
            .map(|part| part.split_once(')').map_or(part, |(_, rest)| rest))
            .collect();
        let one = |part: &str| match part.find("those of ") {
            Some(at) => part[at..].to_string(),
            None => numbers(part)[0].to_string(),
        };
        text.split([',', ';']).map(one).collect()
    };
    operations.into_iter().map(|(name, text)| (name, refusals(text))).collect()
}

#[test]
fn the_refusals_are_the_headers_in_its_order() {
    let mut found: Vec<(String, Vec<String>)> = Vec::new();
    for line in lines().iter().filter(|line| line.find("and the other").is_none()) {
        let Some(refusal) = line.find("refusal").map(str::to_string) else { continue };
        match found.last_mut() {
            Some((name, refusals)) if name == line.heading => refusals.push(refusal),
            _ => found.push((line.heading.into(), vec![refusal])),
        }
    }
    // Several causes of one number stand one below the other.
    found.iter_mut().for_each(|(_, refusals)| refusals.dedup());
    assert_eq!(found, listed());
    let all: BTreeSet<u32> = lines().iter().filter_map(Line::refusal).collect();
    let expected: BTreeSet<u32> = Refusal::ALL.iter().map(|refusal| refusal.number()).collect();
    assert_eq!(all, expected);
}

#[test]
#[ignore = "writes the files of data/refusals as the page tells them"]
fn write_the_files() {
    fs::create_dir_all(format!("{DATA}/refusals")).expect("the folder");
    for (name, _, _, bytes) in files() {
        fs::write(format!("{DATA}/refusals/{name}"), bytes).expect("a file");
    }
}
