//! The listing program, run as a process: every byte that it prints for an input.

use std::io::{ErrorKind, Write};
use std::path::PathBuf;
use std::process::{ChildStdin, Command, Stdio};
use std::thread::sleep;
use std::time::Duration;

use cases::case::{Case, Tally, hex, tallied};
use cases::generate::{self, LIMITS, Sets};
use cases::random::Random;
use cases::{data, worst};
use reference::rota::Rota;
use reference::{listing, table};

/// Most bytes that the program takes, and the room for the table that it prints.
const INPUT_LIMIT: usize = 8_192;
const AREA_SIZE: u64 = 65_536;

fn program() -> PathBuf {
    PathBuf::from(concat!(env!("CARGO_MANIFEST_DIR"), "/../../target/bin/listing"))
}

/// How an input comes through the pipe.
#[derive(Clone, Copy, Debug)]
enum Feed {
    AtOnce,
    /// So many bytes at a time, with a pause after each of the first few.
    Pieces(usize),
}

/// Feeds all of the input. The program reads one byte more than its limit and may then be gone.
fn feed(mut pipe: ChildStdin, input: &[u8], feed: Feed) {
    let size = match feed {
        Feed::AtOnce => input.len().max(1),
        Feed::Pieces(size) => size,
    };
    for (number, piece) in input.chunks(size).enumerate() {
        match pipe.write_all(piece) {
            Ok(()) => {}
            Err(error) if error.kind() == ErrorKind::BrokenPipe && input.len() > INPUT_LIMIT => {
                return;
            }
            Err(error) => panic!("the program does not read its input: {error}"),
        }
        if matches!(feed, Feed::Pieces(_)) && number < 8 {
            sleep(Duration::from_millis(1));
        }
    }
}

/// What the program prints. It ends well, and says nothing elsewhere.
fn printed(input: &[u8], how: Feed) -> Vec<u8> {
    let path = program();
    let mut child = Command::new(&path)
        .stdin(Stdio::piped())
        .stdout(Stdio::piped())
        .stderr(Stdio::piped())
        .spawn()
        .unwrap_or_else(|error| panic!("{}: {error}; `make target/bin/listing` makes it", path.display()));
    // It prints nothing before it has read all, so neither waits for the other.
    feed(child.stdin.take().expect("piped"), input, how);
    let output = child.wait_with_output().expect("the program ends");
    assert!(output.status.success(), "{} for {}", output.status, hex(input));
    assert!(output.stderr.is_empty(), "on standard error, for {}", hex(input));
    output.stdout
}

/// The refusal that a listing is; 0 for a table.
fn refusal(text: &str) -> u32 {
    let number = text.strip_prefix("refused ").map(|number| number.trim_end().parse());
    number.map_or(0, |number| number.expect("a number"))
}

fn compare_fed(case: &Case, tally: &mut Tally, input: &[u8], how: Feed) -> u32 {
    let expected = listing::program(input);
    let given = printed(input, how);
    if given != expected.as_bytes() {
        case.same(String::from_utf8_lossy(&given), expected.as_str().into(), input, how);
        panic!("{}: not the same bytes", case.name);
    }
    let refusal = refusal(&expected);
    tally.add(refusal);
    tally.count_if(input.len() > INPUT_LIMIT, "input over the limit");
    tally.count_if(input.len() <= INPUT_LIMIT && refusal == 9, "9 within the limit");
    refusal
}

fn compare(case: &Case, tally: &mut Tally, input: &[u8]) -> u32 {
    compare_fed(case, tally, input, Feed::AtOnce)
}

/// The small rota and a weekly one, whole and in pieces; what is printed for the former is stored.
#[test]
fn stored_rotas() {
    let (case, mut tally) =
        (Case::new("listed stored_rotas", 0), Tally::new("listed stored_rotas"));
    assert_eq!(printed(&data::small_rota(), Feed::AtOnce), data::small_listing());
    let tidy = [&[3], &data::small_rota()[1..]].concat();
    assert_eq!(printed(&tidy, Feed::AtOnce), data::small_listing());
    let weekly = generate::weekly_rota();
    for input in [data::small_rota(), weekly.encode(), weekly.tidy().encode()] {
        for size in [1, 2, 3, 7, 12, 53, 4_096] {
            compare_fed(&case, &mut tally, &input, Feed::Pieces(size));
        }
        compare(&case, &mut tally, &input);
    }
    tally.reached([0]);
}

/// No bytes, as many as the program takes, one more, and more than a pipe holds; zero bytes, and
/// a rota with zero bytes after it. The longest rota that is accepted has all counts at their
/// limits.
#[test]
fn lengths() {
    let (mut case, mut tally) = (Case::new("listed lengths", 0), Tally::new("listed lengths"));
    let longest = generate::rota_of(&mut case.random, &LIMITS).encode();
    assert_eq!(longest.len(), 12 + 32 * 10 + 256 * 4 + 32 + 512 * 3 + 512 * 3);
    assert_eq!(longest.len(), 4_460);
    // It is read to its end: its table is what has no room.
    assert_eq!(compare(&case, &mut tally, &longest), 20);
    let lengths =
        [0, 1, 11, 12, 13, 4_096, 4_459, 4_460, 4_461, 8_191, 8_192, 8_193, 8_194, 65_536, 200_000];
    for start in [&[][..], &data::small_rota(), &longest] {
        for len in lengths {
            let input: Vec<u8> =
                start.iter().copied().chain(std::iter::repeat(0)).take(len).collect();
            let refusal = compare(&case, &mut tally, &input);
            if len > INPUT_LIMIT {
                assert_eq!(refusal, 9, "{len} bytes");
            }
            for size in [1_000, 4_096, 8_192] {
                compare_fed(&case, &mut tally, &input, Feed::Pieces(size));
            }
        }
    }
    tally.reached([1, 2, 9, 20]).also(&["input over the limit", "9 within the limit"]);
}

/// Tables of 65,536 bytes, of all sizes down to 8 bytes less, and up to 16 more.
#[test]
fn tables_that_just_fit() {
    let name = "listed tables_that_just_fit";
    let (case, mut tally) = (Case::new(name, 0), Tally::new(name));
    // One more derived role and one row less make a table one byte longer.
    for derived in 8..=LIMITS.roles {
        let rows = 4_094 - derived;
        let input = generate::rota_with_table(derived, rows).encode();
        let size = table::size(derived.into(), rows.into());
        let refusal = compare(&case, &mut tally, &input);
        assert_eq!(refusal, if size > AREA_SIZE { 20 } else { 0 }, "{size} bytes");
        tally.count_if(size == AREA_SIZE, "65,536 bytes");
        tally.count_if(size == AREA_SIZE + 1, "65,537 bytes");
    }
    tally.reached([0, 20]).also(&["65,536 bytes", "65,537 bytes"]);
}

/// The largest rotas: their tables have no room, or nearly fill it.
#[test]
fn largest_rotas() {
    let name = "listed largest_rotas";
    let (mut case, mut tally) = (Case::new(name, 0), Tally::new(name));
    let random = &mut case.random;
    let mut rotas = vec![
        generate::fine_rota(random, 32, 8, 32, Sets::Same),
        generate::fine_rota(random, 32, 8, 32, Sets::Few),
        generate::fine_rota(random, 8, 8, 3, Sets::Many),
        generate::fine_rota(random, 8, 8, 4, Sets::Many),
        generate::fine_rota(random, 32, 8, 1, Sets::Many),
    ];
    rotas.extend(worst::cuts().iter().map(|(_, cut)| cut.rota()));
    for rota in rotas {
        compare(&case, &mut tally, &rota.encode());
    }
    tally.reached([0, 20]);
}

/// A small rota, one of any size, one of which most grants something, or one at all limits, whose
/// table has no room.
fn any_rota(random: &mut Random) -> Rota {
    match random.below(8) {
        0 if random.one_in(16) => generate::rota_of(random, &LIMITS),
        0 => generate::rota(random),
        1 | 2 => generate::granting_rota(random),
        3 | 4 => generate::touching_rota(random),
        _ => generate::small_rota(random),
    }
}

/// Mostly at once, sometimes in pieces.
fn any_feed(random: &mut Random) -> Feed {
    match random.below(40) {
        0 => Feed::Pieces(random.between(1, 200) as usize),
        _ => Feed::AtOnce,
    }
}

#[test]
fn random_rotas() {
    let tally = tallied("listed random_rotas", 2_000, |case, tally| {
        let rota = any_rota(&mut case.random);
        let input = match case.random.below(8) {
            0 => generate::with_unused_hours(&mut case.random, &rota).encode(),
            _ => rota.encode(),
        };
        let how = any_feed(&mut case.random);
        compare_fed(case, tally, &input, how);
    });
    tally.reached([0, 20]);
}

#[test]
fn damaged_rotas() {
    let tally = tallied("listed damaged_rotas", 1_800, |case, tally| {
        let rota = any_rota(&mut case.random);
        let input = match case.random.below(8) {
            0 => {
                let len = case.random.below(300) as usize;
                case.random.bytes(len)
            }
            _ => generate::damaged_rota(&mut case.random, &rota),
        };
        let how = any_feed(&mut case.random);
        compare_fed(case, tally, &input, how);
    });
    tally.reached((0..=12).chain([52]));
}
