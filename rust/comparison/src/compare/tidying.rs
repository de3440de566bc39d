//! Tidying: byte for byte, into areas of the tidy rota's size and of sizes around it. What is tidied
//! is the same rota.

use cases::case::{Case, Tally};
use cases::{generate, tidying};
use reference::Refusal;
use reference::rota::{Rota, TIDY};

use super::area;
use super::asked::{self, compare_answers};
use super::rota::some_rota;
use crate::expected::tidying::{Whole, whole};
use crate::ffi::tidying::{Tidied, tidied};
use crate::{expected, ffi};

/// A rota's bytes with the tidy rota that the reference makes of them, so that it makes it once.
pub struct Lent {
    pub bytes: Vec<u8>,
    pub whole: Result<Whole, Refusal>,
}

impl Lent {
    pub fn new(bytes: Vec<u8>) -> Lent {
        let whole = whole(&bytes);
        Lent { bytes, whole }
    }

    /// The tidy rota's size; 12 where there is none.
    pub fn size(&self) -> usize {
        self.whole.as_ref().map_or(12, |whole| whole.bytes.len())
    }
}

/// What `compare_areas` counts besides what a tidying shows.
pub const REACHED: [&str; 2] = ["tidy as it was", "an area shorter than the rota"];

/// Tidies into an area of that size, compares the outcome and every byte, and has the proved reader
/// read the tidy rota.
pub fn compare(case: &mut Case, tally: &mut Tally, lent: &Lent, size: usize) -> u32 {
    let written = area::compare(
        case,
        &lent.bytes,
        ("tidy", size),
        |area| expected::tidying::tidy(&lent.whole, area),
        |area| ffi::tidying::tidy(&lent.bytes, area),
    );
    let Tidied { refusal, length } = written.told;
    tally.add(refusal);
    if refusal == 0 {
        let tidy = lent.whole.as_ref().map(|whole| whole.tidy.clone()).map_err(|&refusal| refusal);
        let read = ffi::rota::read(written.first(length));
        case.same(read, expected::rota::read(&tidy), &lent.bytes, "read the tidy rota");
        tally.count_if(size < lent.bytes.len(), REACHED[1]);
    }
    refusal
}

/// Areas of exactly the size, one byte less, one more, of the rota's own size and one less, none,
/// larger, and one that is too small by any amount.
pub fn compare_areas(case: &mut Case, tally: &mut Tally, lent: &Lent) {
    let (size, own) = (lent.size(), lent.bytes.len());
    let larger = size + case.random.between(2, 600) as usize;
    let smaller = case.random.below(size as u32) as usize;
    for size in [size, size - 1, size + 1, own, own.saturating_sub(1), 0, larger, smaller] {
        compare(case, tally, lent, size);
    }
    if let Ok(whole) = &lent.whole {
        tidying::count(tally, &whole.rota, &whole.tidy);
        tally.count_if(whole.rota.format == TIDY, REACHED[0]);
    }
}

/// Rotas of all sizes up to the limits, as one sender or another has them.
pub fn any_size(case: &mut Case, tally: &mut Tally) {
    let rota = match case.random.below(3) {
        0 => generate::rota(&mut case.random),
        _ => generate::granting_rota(&mut case.random),
    };
    let rota = match case.random.below(4) {
        0 => rota,
        _ => generate::respelled(&mut case.random, &rota),
    };
    compare_areas(case, tally, &Lent::new(rota.encode()));
}

/// Small rotas, where rows often repeat.
pub fn small(case: &mut Case, tally: &mut Tally) {
    let rota = generate::small_rota(&mut case.random);
    let rota = match case.random.below(3) {
        0 => rota,
        _ => generate::respelled(&mut case.random, &rota),
    };
    compare_areas(case, tally, &Lent::new(rota.encode()));
}

/// The rota's refusals come before 20, and leave the area whole.
pub fn damaged(case: &mut Case, tally: &mut Tally) {
    let bytes = match case.random.below(2) {
        0 => {
            let rota = some_rota(&mut case.random, 8);
            generate::damaged_rota(&mut case.random, &rota)
        }
        _ => {
            let rota = generate::tidy_rota(&mut case.random);
            generate::damaged_rows(&mut case.random, &rota)
        }
    };
    let lent = Lent::new(bytes);
    let any = case.random.below(400) as usize;
    for size in [0, lent.bytes.len(), any] {
        compare(case, tally, &lent, size);
    }
}

/// Two senders have the same rota, each with rows in another order and with other repeats: both
/// become the same bytes. These become the same bytes again, have the table that the rotas have, and
/// answer as these do.
pub fn same_rota(case: &mut Case, tally: &mut Tally) {
    let rota = some_rota(&mut case.random, 8);
    let [one, other] = [(); 2].map(|()| generate::respelled(&mut case.random, &rota).encode());
    let tidy = tidied(&one);
    tally.count_if(one != other, "two spellings");
    for bytes in [&other, &rota.encode(), &tidy] {
        case.same(&tidied(bytes), &tidy, bytes, "tidied");
    }
    let table = ffi::rewriting::table(&one);
    for bytes in [&other, &tidy] {
        case.same(&ffi::rewriting::table(bytes), &table, bytes, "its table");
    }
    // Of all is expected what the first one means.
    let parsed = Rota::parse(&one);
    for bytes in [one, other, tidy] {
        let lent = asked::Lent { parsed: parsed.clone(), bytes };
        compare_answers(case, tally, &lent, &rota, 6);
    }
}
