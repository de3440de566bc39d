//! Tidying: every byte of the area, each refusal in its turn, and the same rota afterwards.

use cases::case::{Case, Tally, tallied};
use cases::{data, generate, tidying as worked};
use comparison::compare::tidying::{self, Lent, REACHED, compare, compare_areas};
use comparison::ffi;
use comparison::ffi::rota::RotaRead;
use comparison::ffi::tidying::{Tidied, tidied, tidy};
use reference::page::Question;
use reference::rota::{ANY_ORDER, Rota, TIDY};

const AREA: [u8; 60] = [0xa5; 60];

fn given(length: u64) -> Tidied {
    Tidied { refusal: 0, length }
}

fn refused(refusal: u32) -> Tidied {
    Tidied { refusal, length: 0 }
}

#[test]
fn the_small_rota() {
    let rota = data::small_rota();
    let expected = [&[3], &rota[1..]].concat();
    let mut area = AREA;
    assert_eq!(tidy(&rota, &mut area), given(54));
    assert_eq!((&area[..54], &area[54..]), (&expected[..], &AREA[54..]));
    assert_eq!(tidy(&rota, &mut [0; 54]), given(54));
    let mut area = AREA;
    assert_eq!(tidy(&rota, &mut area[..53]), refused(20));
    assert_eq!(tidy(&rota, &mut []), refused(20));
    assert_eq!(area, AREA, "a refusal writes nothing");
    assert_eq!(tidied(&expected), expected);
    assert_eq!(ffi::rewriting::table(&expected), data::small_table());
    let read = ffi::rota::read(&expected);
    assert_eq!(read, RotaRead { format: 3, ..ffi::rota::read(&rota) });
    assert_eq!((ffi::rota::read(&rota).format, ffi::rota::read(&rota[..53]).format), (1, 0));
}

/// 11 and 52 of each user row in turn, then 12 and 52 of each permission row: in reading, in a
/// question and a page, in tidying and in rewriting.
#[test]
fn rows_in_order() {
    let (mut case, mut tally) = (Case::new("rows_in_order", 0), Tally::new("rows_in_order"));
    for (name, rota, due) in worked::worked() {
        let bytes = rota.encode();
        assert_eq!(ffi::rota::read(&bytes).refusal, due, "{name}");
        assert_eq!(ffi::rota::question(&bytes, 0, 0, 0).refusal, due, "{name}");
        assert_eq!(ffi::rota::page(&bytes, &mut [Question::default()]), due, "{name}");
        assert_eq!(ffi::rewriting::rewrite(&bytes, &mut [0; 4_096]).refusal, due, "{name}");
        assert_eq!(tidy(&bytes, &mut [0; 100]).refusal, due, "{name}");
        assert_eq!(tidy(&bytes, &mut []), refused(if due == 0 { 20 } else { due }), "{name}");
        compare_areas(&mut case, &mut tally, &Lent::new(bytes));
    }
    tally.reached([0, 11, 12, 20, 52]);
}

/// With each fault repaired the next one shows; at the end 20 is left.
#[test]
fn refusals_in_order() {
    let (mut case, mut tally) =
        (Case::new("refusals_in_order", 0), Tally::new("refusals_in_order"));
    for (bytes, refusal) in worked::ladder() {
        assert_eq!(ffi::rota::read(&bytes).refusal, refusal);
        let mut area = [0xa5; 64];
        assert_eq!(tidy(&bytes, &mut area), refused(if refusal == 0 { 20 } else { refusal }));
        assert_eq!(area, [0xa5; 64], "a refusal writes nothing");
        compare_areas(&mut case, &mut tally, &Lent::new(bytes));
    }
    tally.reached((0..=12).chain([20, 52]));
}

/// Also as rotas that are asked and rewritten.
#[test]
fn formats() {
    let small = Rota::parse(&data::small_rota()).expect("well formed");
    for format in (0..=5).chain([255, 256, 256 + ANY_ORDER, 256 + TIDY, 768, 65_535]) {
        let bytes = Rota { format, ..small.clone() }.encode();
        let due = if [ANY_ORDER, TIDY].contains(&format) { 0 } else { 2 };
        assert_eq!(ffi::rota::read(&bytes).refusal, due, "format {format}");
        assert_eq!(ffi::rota::question(&bytes, 0, 0, 3).refusal, due, "format {format}");
        assert_eq!(ffi::rewriting::rewrite(&bytes, &mut [0; 195]).refusal, due, "format {format}");
        assert_eq!(tidy(&bytes, &mut [0; 54]).refusal, due, "format {format}");
    }
}

/// Each number of rows, and each of them out of order or repeated.
#[test]
fn each_row_out_of_order() {
    let mut case = Case::new("each_row_out_of_order", 0);
    let mut tally = Tally::new("each_row_out_of_order");
    worked::each_row_out_of_order(&mut case.random, |rota, refusal| {
        let bytes = rota.encode();
        assert_eq!(ffi::rota::read(&bytes).refusal, refusal);
        tally.add(refusal);
    });
    tally.reached([0, 11, 12, 52]);
    assert!(tally.reached_times(52) > 5_000);
}

/// Every role, user or permission and hours of a row that there can be.
#[test]
fn all_rows() {
    let (mut case, mut tally) = (Case::new("all_rows", 0), Tally::new("all_rows"));
    for rota in worked::all_rows() {
        assert_eq!((rota.user_rows.len(), rota.permission_rows.len()), (512, 512));
        compare_areas(&mut case, &mut tally, &Lent::new(rota.encode()));
    }
    tally.reached([0, 20]).also(&["rows that were not in order"]);
}

/// 512 + 512 rows, 32 roles, 64 users and permissions: shuffled, in order, tidy, and few rows that
/// repeat. Each set of counts 0 as well.
#[test]
fn at_the_limits() {
    let (mut case, mut tally) = (Case::new("at_the_limits", 0), Tally::new("at_the_limits"));
    let most = worked::most_rows(&mut case.random);
    let tidy = most.tidy();
    assert_eq!((tidy.user_rows.len(), tidy.permission_rows.len()), (512, 512));
    assert_eq!(tidy.encode().len(), 4_460);
    let in_order = Rota { format: ANY_ORDER, ..tidy.clone() };
    let [few, one] = [7, 1].map(|count| worked::most_repeats(&most, count));
    let some = generate::rota_of(&mut case.random, &generate::LIMITS);
    for rota in [most, in_order, tidy, few, one, some] {
        compare_areas(&mut case, &mut tally, &Lent::new(rota.encode()));
    }
    for which in 0..generate::EDGE_SIZES {
        let rota = generate::rota_of(&mut case.random, &generate::edge_sizes(which));
        for rota in [rota.tidy(), rota] {
            compare_areas(&mut case, &mut tally, &Lent::new(rota.encode()));
        }
    }
    tally.reached([0, 20]).also(&worked::REACHED);
    tally.also(&REACHED);
}

/// Whatever the area's size, on the small rota with each of its rows twice.
#[test]
fn every_size() {
    let (mut case, mut tally) = (Case::new("every_size", 0), Tally::new("every_size"));
    let mut rota = Rota::parse(&data::small_rota()).expect("well formed");
    rota.user_rows.extend(rota.user_rows.clone());
    rota.permission_rows.extend(rota.permission_rows.clone());
    let lent = Lent::new(rota.encode());
    assert_eq!((lent.bytes.len(), lent.size()), (63, 54));
    for size in 0..70 {
        let refusal = compare(&mut case, &mut tally, &lent, size);
        assert_eq!(refusal, if size < 54 { 20 } else { 0 }, "{size} bytes");
    }
}

#[test]
fn random_rotas() {
    let tally = tallied("tidied random_rotas", 3_000, tidying::any_size);
    tally.reached([0, 20]).also_often(&worked::REACHED, 500);
    tally.also_often(&REACHED, 50);
}

#[test]
fn small_rotas() {
    let tally = tallied("tidied small_rotas", 6_000, tidying::small);
    tally.reached([0, 20]).also_often(&worked::REACHED, 500);
    tally.also_often(&REACHED, 200);
}

#[test]
fn damaged_rotas() {
    let tally = tallied("tidied damaged_rotas", 6_000, tidying::damaged);
    tally.reached((0..=12).chain([20, 52]));
    assert!(tally.reached_times(20) > 500 && tally.reached_times(52) > 2_000);
}

#[test]
fn the_same_rota() {
    tallied("tidied the_same_rota", 1_500, tidying::same_rota)
        .reached([0, 33, 34, 35])
        .also_often(&["two spellings", "yes", "no"], 500);
}
