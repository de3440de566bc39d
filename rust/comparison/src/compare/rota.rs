//! Rotas: well formed and damaged.

use cases::case::{Case, Tally};
use cases::random::Random;
use cases::{data, generate, tidying};
use reference::Refusal;
use reference::page::Question;
use reference::rota::Rota;

use super::asked::{Kind, Lent, compare_all, compare_question};
use crate::ffi::rota::{Answered, Holders, RotaRead};
use crate::{expected, ffi};

impl Kind for Rota {
    type Read = RotaRead;

    fn parse(bytes: &[u8]) -> Result<Rota, Refusal> {
        Rota::parse(bytes)
    }

    fn encode(&self) -> Vec<u8> {
        Rota::encode(self)
    }

    fn stored() -> Rota {
        Rota::parse(&data::small_rota()).expect("well formed")
    }

    fn small(random: &mut Random) -> Rota {
        generate::small_rota(random)
    }

    fn any(random: &mut Random) -> Rota {
        generate::rota(random)
    }

    fn minute(&self, random: &mut Random) -> u32 {
        generate::rota_minute(random, self)
    }

    fn expected(parsed: &Result<Rota, Refusal>) -> RotaRead {
        expected::rota::read(parsed)
    }

    fn read(bytes: &[u8]) -> RotaRead {
        ffi::rota::read(bytes)
    }

    fn question(bytes: &[u8], user: u32, permission: u32, t: u32) -> Answered {
        ffi::rota::question(bytes, user, permission, t)
    }

    fn page(bytes: &[u8], questions: &mut [Question]) -> u32 {
        ffi::rota::page(bytes, questions)
    }

    fn holders_of(bytes: &[u8], t: u32) -> Holders {
        ffi::rota::holders(bytes, t)
    }
}

/// A rota of any size, once in `n` times, else a small one.
pub fn some_rota(random: &mut Random, n: u32) -> Rota {
    if random.one_in(n) { generate::rota(random) } else { generate::small_rota(random) }
}

pub fn well_formed(case: &mut Case, tally: &mut Tally) {
    let rota = match case.random.below(4) {
        0 => generate::small_rota(&mut case.random),
        _ => generate::rota(&mut case.random),
    };
    let lent = Lent::new(rota.encode());
    assert!(lent.parsed.is_ok(), "the builder makes only accepted rotas");
    compare_all(case, tally, &lent, &rota, 6);
    // A question that is likely to be a yes: a row's own user, another row's permission.
    if !rota.user_rows.is_empty() && !rota.permission_rows.is_empty() {
        for _ in 0..3 {
            let user_row = case.random.pick(&rota.user_rows);
            let same_role = rota.permission_rows.iter().find(|row| row.role == user_row.role);
            let permission = same_role.unwrap_or(&rota.permission_rows[0]).number;
            let t = rota.minute(&mut case.random);
            let (user, permission) = (user_row.number.into(), permission.into());
            compare_question(case, tally, &lent, user, permission, t);
        }
    }
}

/// Several faults at once, so that the order of refusals shows.
pub fn several_faults(case: &mut Case, tally: &mut Tally) {
    let rota = some_rota(&mut case.random, 8);
    let bytes = generate::damaged_rota(&mut case.random, &rota);
    compare_all(case, tally, &Lent::new(bytes), &rota, 1);
}

/// Rows of a tidy rota alone, out of range and out of order.
pub fn damaged_rows(case: &mut Case, tally: &mut Tally) {
    let rota = generate::tidy_rota(&mut case.random);
    let bytes = generate::damaged_rows(&mut case.random, &rota);
    let lent = Lent::new(bytes);
    let refusal = tidying::first_fault(tally, &lent.bytes, &rota);
    assert_eq!(lent.parsed.as_ref().err().copied().unwrap_or(0), refusal);
    compare_all(case, tally, &lent, &rota, 1);
}

/// Any bytes from some place on, mostly behind a header that passes, so that the records are read
/// in them.
pub fn any_bytes(case: &mut Case, tally: &mut Tally) {
    let rota = generate::small_rota(&mut case.random);
    let mut bytes = rota.encode();
    let from = case.random.below(bytes.len() as u32) as usize;
    let sparse = case.random.one_in(2);
    for byte in &mut bytes[from..] {
        if !sparse || case.random.one_in(4) {
            *byte =
                if case.random.one_in(2) { case.random.byte() } else { case.random.below(4) as u8 };
        }
    }
    compare_all(case, tally, &Lent::new(bytes), &rota, 1);
}
