//! Rewriting: byte for byte, into areas of the table's size and of sizes around it.

use cases::case::{Case, Tally};
use cases::{generate, joining};
use reference::rewriting::{eras, touch};
use reference::table::{self, Table};
use reference::{Refusal, rewriting};

use super::area;
use super::asked::{self, compare_holders, compare_question, compare_read};
use super::rota::some_rota;
use crate::expected::rewriting::{Whole, whole};
use crate::ffi::rewriting::Rewritten;
use crate::{expected, ffi};

/// A rota's bytes with the table that the reference makes of them, so that it makes it once.
pub struct Lent {
    pub bytes: Vec<u8>,
    pub whole: Result<Whole, Refusal>,
}

impl Lent {
    pub fn new(bytes: Vec<u8>) -> Lent {
        let whole = whole(&bytes);
        Lent { bytes, whole }
    }

    /// The table's size; 16 where there is none.
    pub fn size(&self) -> usize {
        self.whole.as_ref().map_or(16, |whole| whole.bytes.len())
    }
}

/// Rewrites into an area of that size, compares the outcome and every byte, and has the proved
/// reader read the table.
pub fn compare(case: &mut Case, tally: &mut Tally, lent: &Lent, size: usize) -> u32 {
    let written = area::compare(
        case,
        &lent.bytes,
        ("rewrite", size),
        |area| expected::rewriting::rewrite(&lent.whole, area),
        |area| ffi::rewriting::rewrite(&lent.bytes, area),
    );
    let Rewritten { refusal, derived, rows, length } = written.told;
    tally.add(refusal);
    if refusal == 0 {
        let read = ffi::table::read(written.first(length));
        let counts = (read.refusal, read.derived, read.rows);
        case.same(counts, (0, derived, rows), &lent.bytes, "read the table");
    }
    refusal
}

/// The size that is told. By the proved code alone: a rewriting tells the same in an area of that
/// size, one byte more, and many more, and 20 with one byte less.
pub fn compare_size(case: &mut Case, tally: &mut Tally, lent: &Lent) {
    let told = ffi::rewriting::size(&lent.bytes);
    case.same(told, expected::rewriting::size(&lent.whole), &lent.bytes, "size");
    tally.add(told.refusal);
    let into = |size: u64| ffi::rewriting::rewrite(&lent.bytes, &mut vec![0; size as usize]);
    let many = u64::from(case.random.between(2, 100_000));
    for more in [0, 1, many] {
        case.same(into(told.length + more), told, &lent.bytes, ("as the size tells", more));
    }
    if told.refusal == 0 {
        let less = Rewritten { refusal: 20, ..Rewritten::default() };
        case.same(into(told.length - 1), less, &lent.bytes, "one byte less than the size");
    }
}

/// The size, and areas of exactly that, one byte less, one more, none, much larger, one that is too
/// small by any amount, and where rows are joined, one byte less than they would need unjoined.
pub fn compare_areas(case: &mut Case, tally: &mut Tally, lent: &Lent) {
    compare_size(case, tally, lent);
    let size = lent.size();
    let larger = size + case.random.between(2, 5_000) as usize;
    let smaller = case.random.below(size as u32) as usize;
    for size in [size, size - 1, size + 1, 0, larger, smaller] {
        compare(case, tally, lent, size);
    }
    if let Ok(whole) = &lent.whole {
        tally.count_if(whole.rows == 0, "bare header");
        tally.count_if(whole.rows > 0, "rows");
        tally.count_if(whole.derived < whole.rows, "a derived role with several rows");
        joining::count(tally, &whole.unjoined, &whole.table);
        let unjoined = table::size(whole.derived.into(), whole.unjoined.rows.len() as u64);
        if unjoined > size as u64 {
            assert_eq!(compare(case, tally, lent, unjoined as usize - 1), 0);
        }
    }
}

/// Rotas of all sizes up to the limits.
pub fn any_size(case: &mut Case, tally: &mut Tally) {
    let rota = match case.random.below(3) {
        0 => generate::rota(&mut case.random),
        _ => generate::granting_rota(&mut case.random),
    };
    compare_areas(case, tally, &Lent::new(rota.encode()));
}

/// Small rotas, where eras are often shorter than the cycle and rows often touch.
pub fn small(case: &mut Case, tally: &mut Tally) {
    let rota = match case.random.below(2) {
        0 => generate::small_rota(&mut case.random),
        _ => generate::touching_rota(&mut case.random),
    };
    let shorter = |&(begin, end): &(u32, u32)| end - begin < rota.cycle.into();
    tally.count_if(eras(&rota).iter().any(shorter), "an era shorter than the cycle");
    compare_areas(case, tally, &Lent::new(rota.encode()));
}

/// Hours that nothing refers to cut eras and cells as well.
pub fn unused_hours(case: &mut Case, tally: &mut Tally) {
    let rota = match case.random.below(4) {
        0 => generate::granting_rota(&mut case.random),
        _ => generate::small_rota(&mut case.random),
    };
    let with_unused = generate::with_unused_hours(&mut case.random, &rota);
    let (before, lent) = (Lent::new(rota.encode()), Lent::new(with_unused.encode()));
    tally.count_if(before.size() < lent.size(), "a table made longer");
    compare_areas(case, tally, &lent);
}

/// The size of any rota, whole or damaged.
pub fn sized(case: &mut Case, tally: &mut Tally) {
    let rota = some_rota(&mut case.random, 8);
    let bytes = match case.random.below(4) {
        0 => rota.encode(),
        _ => generate::damaged_rota(&mut case.random, &rota),
    };
    compare_size(case, tally, &Lent::new(bytes));
}

/// The rota's refusals come before 20, and leave the area whole.
pub fn damaged(case: &mut Case, tally: &mut Tally) {
    let rota = some_rota(&mut case.random, 8);
    let lent = Lent::new(generate::damaged_rota(&mut case.random, &rota));
    let any = case.random.below(400) as usize;
    for size in [0, lent.size(), any] {
        compare(case, tally, &lent, size);
    }
}

/// The proved table's neighbouring rows do not touch. It and the table with its rows unjoined are
/// read, enable the same derived roles and give the same answers, at each minute of some cycles on
/// both sides of every era's border.
pub fn joined_and_unjoined(case: &mut Case, tally: &mut Tally) {
    let rota = joining::short_rota(&mut case.random);
    let (bytes, unjoined) = (rota.encode(), rewriting::unjoined(&rota));
    let tables = [ffi::rewriting::table(&bytes), unjoined.encode()];
    for table in &tables {
        compare_read(case, tally, &asked::Lent::<Table>::new(table.clone()));
    }
    let joined = Table::parse(&tables[0]).expect("a rewritten table is read");
    joining::count(tally, &unjoined, &joined);
    let touching = joined.rows.windows(2).find(|two| touch(&two[0], &two[1]));
    case.same(touching, None, &bytes, "rows that touch");
    // Of both is expected what the unjoined table gives.
    let lent = tables.map(|bytes| asked::Lent { bytes, parsed: Ok(unjoined.clone()) });
    for t in joining::minutes(&rota) {
        let enabled = joining::enabled(&unjoined, t);
        case.same(joining::enabled(&joined, t), enabled, &bytes, ("enabled at", t));
        for lent in &lent {
            compare_holders(case, tally, lent, t);
            for user in 0..rota.users.into() {
                for permission in 0..rota.permissions.into() {
                    compare_question(case, tally, lent, user, permission, t);
                }
            }
        }
    }
}
