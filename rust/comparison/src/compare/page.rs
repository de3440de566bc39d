//! Pages of questions, on rotas and on tables alike.

use std::ops::Range;

use cases::case::{Case, Tally};
use cases::generate;
use cases::random::Random;
use reference::page::{LIMIT, Place, Question};
use reference::rota::Rota;
use reference::table::Table;

use super::asked::{Kind, Lent};
use super::rota::some_rota;
use super::table::any_table;
use crate::expected;
use crate::ffi::rota::Answered;

/// How many questions: none, one, some, the most, or more than that.
fn count(random: &mut Random) -> usize {
    match random.below(12) {
        0 => 0,
        1 => 1,
        2 => LIMIT,
        3 => LIMIT + 1,
        4 => random.between(LIMIT as u32 - 2, LIMIT as u32 + 40) as usize,
        _ => random.between(2, 24) as usize,
    }
}

/// Whatever a host has left in a place.
fn any_place(random: &mut Random) -> Place {
    let mut number = || random.bits() as u32;
    Place { refusal: number(), yes: number(), role: number() }
}

/// Records about `near`, with anything in their places. Half of the pages ask for one minute.
pub fn questions(random: &mut Random, near: &impl Kind, count: usize) -> Vec<Question> {
    let shared = random.one_in(2).then(|| near.minute(random));
    let mut question = || Question {
        user: generate::number(random, near.users()),
        permission: generate::number(random, near.permissions()),
        minute: shared.unwrap_or_else(|| near.minute(random)),
        answer: any_place(random),
    };
    (0..count).map(|_| question()).collect()
}

/// A page of those records that are in the range; those before and after it stay as they are.
pub fn compare_page<K: Kind>(
    case: &Case,
    tally: &mut Tally,
    lent: &Lent<K>,
    records: &[Question],
    page: Range<usize>,
) {
    let (refusal, answered) = expected::rota::page(&lent.parsed, &records[page.clone()]);
    tally.add(refusal);
    if refusal == 0 {
        tally.count_if(answered.is_empty(), "empty page");
        tally.count_if(answered.len() == LIMIT, "full page");
        for question in &answered {
            tally.add(question.answer.refusal);
            tally.count_if(question.answer.yes == 1, "yes");
        }
    } else {
        tally.count_if(refusal == 51 && lent.parsed.is_err(), "too long and bad bytes");
    }
    let mut expected = records.to_vec();
    expected[page.clone()].copy_from_slice(&answered);
    let mut given = records.to_vec();
    let proved = K::page(&lent.bytes, &mut given[page.clone()]);
    let what = ("page", page, records);
    case.same((proved, given), (refusal, expected), &lent.bytes, what);
}

/// A page to these bytes, with a record before it and one after it.
fn guarded<K: Kind>(case: &mut Case, tally: &mut Tally, lent: &Lent<K>, near: &K) {
    let count = count(&mut case.random);
    let records = questions(&mut case.random, near, count + 2);
    compare_page(case, tally, lent, &records, 1..count + 1);
}

pub fn on_rotas(case: &mut Case, tally: &mut Tally) {
    let rota = some_rota(&mut case.random, 3);
    let lent = if case.random.one_in(3) {
        Lent::<Rota>::new(generate::damaged_rota(&mut case.random, &rota))
    } else {
        Lent::new(rota.encode())
    };
    guarded(case, tally, &lent, &rota);
}

pub fn on_tables(case: &mut Case, tally: &mut Tally) {
    let table = match case.random.below(3) {
        0 => generate::crowded_table(&mut case.random),
        1 => generate::many_rows_table(&mut case.random),
        _ => any_table(&mut case.random),
    };
    let lent = if case.random.one_in(3) {
        Lent::<Table>::new(generate::damaged_table(&mut case.random, &table))
    } else {
        // Rows are searched where a role has many, and passed where it has few.
        let has_many = table.rows.len() / 16 >= usize::from(table.roles);
        tally.count(if has_many { "many rows" } else { "few rows" });
        Lent::new(table.encode())
    };
    guarded(case, tally, &lent, &table);
}

/// Each place has what the proved single question gives: the request's own words.
pub fn by_questions<K: Kind>(case: &mut Case, tally: &mut Tally) {
    let kind =
        if case.random.one_in(2) { K::small(&mut case.random) } else { K::any(&mut case.random) };
    let bytes = kind.encode();
    let mut records = questions(&mut case.random, &kind, LIMIT);
    let asked = records.iter().map(|&record| {
        let Question { user, permission, minute, .. } = record;
        let Answered { refusal, yes, role } = K::question(&bytes, user, permission, minute);
        Question { answer: Place { refusal, yes, role }, ..record }
    });
    let asked: Vec<Question> = asked.collect();
    let refusal = K::page(&bytes, &mut records);
    for question in &asked {
        tally.add(question.answer.refusal);
    }
    case.same((refusal, records), (0, asked), &bytes, "page");
}
