//! Pages of questions: on rotas and on tables.

use cases::case::{Case, Tally, tallied};
use comparison::compare::asked::{Kind, Lent};
use comparison::compare::page::{self, compare_page, questions};
use reference::END;
use reference::page::{Place, Question};
use reference::rota::Rota;
use reference::table::Table;

const BEFORE: Place = Place { refusal: 99, yes: 98, role: 97 };

fn asked(user: u32, permission: u32, minute: u32) -> Question {
    Question { user, permission, minute, answer: BEFORE }
}

/// The worked minutes of the stored one, and each refusal in a place.
fn worked<K: Kind>() {
    let bytes = K::stored().encode();
    let numbers = [
        (0, 0, 3),
        (0, 0, 4),
        (1, 0, 12),
        (1, 0, 37),
        (256, 256, END),
        (256, 256, 0),
        (0, 256, 0),
        (0, 0, END - 1),
    ];
    let answers =
        [(0, 1, 0), (0, 0, 0), (0, 1, 0), (0, 0, 0), (33, 0, 0), (34, 0, 0), (35, 0, 0), (0, 0, 0)];
    let mut list = numbers.map(|(user, permission, minute)| asked(user, permission, minute));
    assert_eq!(K::page(&bytes, &mut list), 0);
    for (i, question) in list.into_iter().enumerate() {
        let Question { user, permission, minute, answer } = question;
        assert_eq!((user, permission, minute), numbers[i], "question {i}");
        assert_eq!((answer.refusal, answer.yes, answer.role), answers[i], "question {i}");
    }
}

#[test]
fn worked_pages() {
    worked::<Rota>();
    worked::<Table>();
}

/// 0, 1, 256 and 257 records; more than 256 come before bad bytes, and both leave every place.
fn counts<K: Kind>() {
    let good = K::stored().encode();
    let mut bad = good.clone();
    bad[0] = 9;
    let format = K::page(&bad, &mut []);
    assert!(matches!(format, 2 | 22));
    assert!(matches!(K::page(&[], &mut []), 1 | 21));
    for count in [0, 1, 2, 255, 256, 257, 258, 1_000] {
        let list = vec![asked(0, 0, 3); count];
        let mut given = list.clone();
        assert_eq!(K::page(&bad, &mut given), if count > 256 { 51 } else { format });
        assert_eq!(given, list, "{count} records");
        let answered = Question { answer: Place { refusal: 0, yes: 1, role: 0 }, ..asked(0, 0, 3) };
        let (refusal, expected) =
            if count > 256 { (51, list.clone()) } else { (0, vec![answered; count]) };
        assert_eq!((K::page(&good, &mut given), given), (refusal, expected), "{count} records");
    }
}

#[test]
fn counts_of_records() {
    counts::<Rota>();
    counts::<Table>();
}

/// Every part of one list, empty ones too, is answered by itself, and the rest of it stays.
fn parts<K: Kind>(case: &mut Case, tally: &mut Tally) {
    let small = K::small(&mut case.random);
    let lent = Lent::<K>::new(small.encode());
    let list = questions(&mut case.random, &small, 12);
    for from in 0..=list.len() {
        for to in from..=list.len() {
            compare_page(case, tally, &lent, &list, from..to);
        }
    }
}

#[test]
fn parts_of_a_list() {
    tallied("parts of a list, rota", 100, parts::<Rota>).reached([0, 33, 34, 35]).also(&["yes"]);
    tallied("parts of a list, table", 100, parts::<Table>).reached([0, 33, 34, 35]).also(&["yes"]);
}

const ALSO: [&str; 4] = ["yes", "empty page", "full page", "too long and bad bytes"];

#[test]
fn pages_on_rotas() {
    let reached = (0..=12).chain(33..=35).chain([51, 52]);
    tallied("pages on rotas", 6_000, page::on_rotas).reached(reached).also(&ALSO);
}

#[test]
fn pages_on_tables() {
    let reached = [0].into_iter().chain(21..=28).chain(33..=35).chain([51]);
    let tally = tallied("pages on tables", 6_000, page::on_tables);
    tally.reached(reached).also(&ALSO);
    tally.also(&["many rows", "few rows"]);
}

#[test]
fn pages_by_questions() {
    let reached = [0, 33, 34, 35];
    tallied("pages by questions, rota", 300, page::by_questions::<Rota>).reached(reached);
    tallied("pages by questions, table", 300, page::by_questions::<Table>).reached(reached);
}
