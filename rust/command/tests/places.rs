//! Where a refused rota is at fault: each number by each of its causes.

mod common;

use cases::case::tallied;
use cases::generate;
use command::place;
use softlode::{Refusal, Rota};

/// The small rota S: hours records at 12 and 30, of 2 pairs and 1; the role at 44, volunteer rows at
/// 45 and 48, the right row at 51; 54 bytes.
fn small() -> Vec<u8> {
    std::fs::read(common::data("small.rota")).unwrap()
}

/// What `check` prints for the small rota with some bytes changed.
fn checked(changes: &[(usize, &[u8])]) -> String {
    let mut bytes = small();
    for (at, value) in changes {
        bytes[*at..at + value.len()].copy_from_slice(value);
    }
    check(&bytes)
}

fn check(bytes: &[u8]) -> String {
    let ran = common::run(&["check", "-"], bytes);
    assert_eq!((ran.status, ran.complaints.as_str()), (1, ""), "{}", ran.text());
    let (first, second) = ran.text().split_once('\n').expect("a line");
    // The number and its text are the library's.
    assert_eq!(first, Rota::read(bytes).unwrap_err().to_string());
    let number = first.strip_prefix("refused ").and_then(|rest| rest.split(':').next()).unwrap();
    format!("{number} {}", second.trim())
}

#[test]
fn every_cause_of_a_refusal_of_the_small_rota() {
    let over = 210_379_681u32.to_le_bytes();
    let causes: &[(&[(usize, &[u8])], &str)] = &[
        (&[(0, &[4, 0])], "2 header, byte 0: format 4, but a rota's is 1 or 3"),
        (&[(0, &[1, 1])], "2 header, byte 0: format 257, but a rota's is 1 or 3"),
        (&[(2, &[0, 0])], "3 header, byte 2: a cycle of 0 minutes, but it has 1 to 40320"),
        (
            &[(2, &[0x81, 0x9d])],
            "3 header, byte 2: a cycle of 40321 minutes, but it has 1 to 40320",
        ),
        (&[(4, &[33])], "4 header, byte 4: 33 hours, but there can be 32 at the most"),
        (&[(5, &[65])], "4 header, byte 5: 65 volunteers, but there can be 64 at the most"),
        (&[(6, &[65])], "4 header, byte 6: 65 rights, but there can be 64 at the most"),
        (&[(7, &[33])], "4 header, byte 7: 33 roles, but there can be 32 at the most"),
        (&[(8, &[1, 2])], "4 header, byte 8: 513 volunteer rows, but there can be 512 at the most"),
        (&[(10, &[1, 2])], "4 header, byte 10: 513 right rows, but there can be 512 at the most"),
        (
            &[(12, &[20])],
            "6 hours 0, byte 12: it begins at minute 20 (Mon 2001-01-01 00:20), not before its end, minute 20",
        ),
        (
            &[(30, &[41])],
            "6 hours 1, byte 30: it begins at minute 41 (Mon 2001-01-01 00:41), not before its end, minute 40",
        ),
        (
            &[(34, &over)],
            "6 hours 1, byte 34: it ends at minute 210379681, past the end of 2400, which is 210379680",
        ),
        (&[(20, &[0])], "7 hours 0, byte 20: it has no pair"),
        (
            &[(20, &[1, 1])],
            "7 hours 0, byte 20: 257 pairs, with 0 in the records before it: there can be 256 in all",
        ),
        (
            &[(38, &[255, 0])],
            "7 hours 1, byte 38: 255 pairs, with 2 in the records before it: there can be 256 in all",
        ),
        (&[(38, &[9, 0])], "5 hours 1, byte 40: 9 pairs take 36 bytes, but the file ends after 14"),
        (
            &[(4, &[3])],
            "7 hours 2, byte 52: 65280 pairs, with 3 in the records before it: there can be 256 in all",
        ),
        (&[(24, &[0])], "8 hours 0, pair 0, byte 24: its length is 0, at minute 0"),
        (
            &[(28, &[5])],
            "8 hours 0, pair 1, byte 26: offset 6 and length 5 end at minute 11, past the cycle of 10 minutes",
        ),
        (
            &[(22, &[255, 255])],
            "8 hours 0, pair 0, byte 22: offset 65535 and length 4 end at minute 65539, past the cycle of 10 minutes",
        ),
        (
            &[(26, &[4])],
            "8 hours 0, pair 1, byte 26: it begins at minute 4, where the pair before it ends: the two touch, and would be one",
        ),
        (
            &[(26, &[3])],
            "8 hours 0, pair 1, byte 26: it begins at minute 3, but the pair before it ends at minute 4",
        ),
        (&[(44, &[2])], "10 role 0, byte 44: hours 2, but there are 2 hours"),
        (&[(44, &[254])], "10 role 0, byte 44: hours 254, but there are 2 hours"),
        (&[(45, &[2])], "11 volunteer row 0, byte 45: volunteer 2, but there are 2 volunteers"),
        (&[(49, &[1])], "11 volunteer row 1, byte 49: role 1, but there is 1 role"),
        (&[(50, &[9])], "11 volunteer row 1, byte 50: hours 9, but there are 2 hours"),
        (&[(51, &[1])], "12 right row 0, byte 51: right 1, but there is 1 right"),
        (&[(52, &[255])], "12 right row 0, byte 52: role 255, but there is 1 role"),
        (&[(53, &[2])], "12 right row 0, byte 53: hours 2, but there are 2 hours"),
        // Of two faults the first is told, as the library does.
        (&[(49, &[1]), (44, &[2])], "10 role 0, byte 44: hours 2, but there are 2 hours"),
    ];
    for (changes, expected) in causes {
        let (number, place) = expected.split_once(' ').unwrap();
        assert_eq!(checked(changes), format!("{number} {place}"), "{changes:?}");
    }
}

#[test]
fn a_file_that_is_too_short_or_too_long() {
    let small = small();
    let cut = |length: usize| check(&small[..length]);
    assert_eq!(cut(0), "1 byte 0: the file ends here, but a rota begins with a header of 12 bytes");
    assert_eq!(
        cut(11),
        "1 byte 11: the file ends here, but a rota begins with a header of 12 bytes"
    );
    assert_eq!(
        cut(12),
        "5 hours 0, byte 12: the file ends after 0 of the first 10 bytes of this record"
    );
    assert_eq!(
        cut(39),
        "5 hours 1, byte 30: the file ends after 9 of the first 10 bytes of this record"
    );
    assert_eq!(cut(29), "5 hours 0, byte 22: 2 pairs take 8 bytes, but the file ends after 7");
    let by_counts =
        "but by its counts it has 54 bytes: 44 before the roles, 1 for 1 role, 9 for 3 rows";
    assert_eq!(cut(53), format!("9 byte 53: the file ends here, {by_counts}"));
    assert_eq!(
        check(&[small.as_slice(), &[0]].concat()),
        format!("9 byte 54: the file goes on here, {by_counts}")
    );
    // Of a longer file no more is read than is needed to refuse it.
    let long = [small, vec![0; 100_000]].concat();
    let ran = common::run(&["check", "-"], &long);
    assert_eq!(
        ran.text(),
        format!(
            "refused 9: the rota is longer or shorter than its counts say\n  byte 54: the file goes on here, {by_counts}\n"
        )
    );
}

#[test]
fn rows_of_a_tidy_rota() {
    let tidy = |rows: &[u8]| {
        let mut bytes = vec![3, 0, 10, 0, 0, 3, 2, 2, rows.len() as u8 / 3, 0, 2, 0, 255, 255];
        bytes.extend(rows);
        bytes.extend([0, 0, 255, 0, 0, 255]);
        check(&bytes)
    };
    assert_eq!(
        tidy(&[0, 1, 255, 1, 0, 255]),
        "52 volunteer row 1, byte 17: role 0, volunteer 1, always stands after role 1, volunteer 0, always, but comes before it in order"
    );
    assert_eq!(
        tidy(&[0, 0, 255, 0, 0, 255]),
        "52 volunteer row 1, byte 17: role 0, volunteer 0, always is there twice"
    );
    assert_eq!(
        tidy(&[0, 0, 255]),
        "52 right row 1, byte 20: role 0, right 0, always is there twice"
    );
    assert_eq!(
        tidy(&[0, 1, 255, 3, 0, 255]),
        "11 volunteer row 1, byte 17: volunteer 3, but there are 3 volunteers"
    );
}

#[test]
fn what_is_no_rota() {
    let table = std::fs::read(common::data("small.table")).unwrap();
    assert_eq!(
        check(&table),
        "2 header, byte 0: this is a table, of format 2, not a rota; it is accepted as one, with 3 derived roles and 8 rows"
    );
    assert_eq!(
        check(&table[..100]),
        "2 header, byte 0: this is a table, of format 2, not a rota; as a table it is refused 25: the table is longer or shorter than its counts say"
    );
    assert_eq!(
        check(b"rota format 1\ncycle 1 day\n"),
        "2 header, byte 0: this looks like the text of a rota; softlode pack makes its bytes"
    );
    assert_eq!(
        check(b"# a comment, and then the text"),
        "2 header, byte 0: this looks like the text of a rota; softlode pack makes its bytes"
    );
}

/// On damaged rotas the place is found for every number, and it is in the file, or right after it.
#[test]
fn every_refusal_is_explained() {
    let tally = tallied("places", 40_000, |case, tally| {
        let rota = generate::small_rota(&mut case.random);
        let bytes = match case.random.below(3) {
            0 => generate::damaged_rows(&mut case.random, &rota.tidy()),
            _ => generate::damaged_rota(&mut case.random, &rota),
        };
        let Err(refusal) = Rota::read(&bytes) else { return tally.add(0) };
        tally.add(refusal.number());
        let fault = place::find(&bytes, refusal);
        let fault =
            fault.unwrap_or_else(|| panic!("case {}: {refusal} is not explained", case.number));
        assert!(fault.byte <= bytes.len(), "{fault}");
        // It explains this number, and no other.
        let others = Refusal::ALL.iter().filter(|&&other| other != refusal);
        assert!(others.copied().all(|other| place::find(&bytes, other).is_none()), "{fault}");
    });
    tally.reached((0..=12).chain([52]));
}
