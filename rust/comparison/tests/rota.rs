//! Rotas: read, asked, and asked who holds anything; well formed and damaged.

use cases::case::{Case, Tally, tallied};
use cases::{data, generate, tidying};
use comparison::compare::asked::{self, compare_all, compare_question, compare_read};
use comparison::compare::rota;
use comparison::ffi;
use reference::END;
use reference::hours::{Hours, HoursRef};
use reference::rota::{Rota, Row};

type Lent = asked::Lent<Rota>;

fn small() -> Rota {
    Rota::parse(&data::small_rota()).expect("well formed")
}

#[test]
fn worked_minutes() {
    asked::worked_minutes::<Rota>();
}

/// The limits, each passed and then gone over, with the number that is due.
#[test]
fn limits() {
    let case = Case::new("limits", 0);
    let mut tally = Tally::new("limits");
    let mut read = |rota: Rota| {
        let lent = Lent::new(rota.encode());
        compare_read(&case, &mut tally, &lent);
        ffi::rota::read(&lent.bytes).refusal
    };
    let s = small();
    let always = HoursRef::Always;
    for (cycle, refusal) in [(10, 0), (40_320, 0), (0, 3), (40_321, 3), (65_535, 3), (9, 0), (7, 8)]
    {
        assert_eq!(read(Rota { cycle, ..small() }), refusal, "cycle {cycle}");
    }
    let mut with_hours =
        |record: Hours| read(Rota { hours: vec![record, s.hours[1].clone()], ..small() });
    assert_eq!(with_hours(Hours::new(0, END, &[(0, 10)])), 0);
    assert_eq!(with_hours(Hours::new(END - 1, END, &[(0, 10)])), 0);
    assert_eq!(with_hours(Hours::new(0, END + 1, &[(0, 10)])), 6);
    assert_eq!(with_hours(Hours::new(END, END, &[(0, 10)])), 6);
    assert_eq!(with_hours(Hours::new(6, 5, &[(0, 10)])), 6);
    assert_eq!(with_hours(Hours::new(0, 1, &[(0, 11)])), 8);
    assert_eq!(with_hours(Hours::new(0, 1, &[(9, 1)])), 0);
    assert_eq!(with_hours(Hours::new(0, 1, &[(9, 2)])), 8);
    assert_eq!(with_hours(Hours::new(0, 1, &[(65_535, 1)])), 8);
    assert_eq!(with_hours(Hours::new(0, 1, &[(0, 0)])), 8);
    assert_eq!(with_hours(Hours::new(0, 1, &[(0, 4), (4, 1)])), 8);
    assert_eq!(with_hours(Hours::new(0, 1, &[(0, 4), (5, 1)])), 0);
    assert_eq!(with_hours(Hours::new(0, 1, &[(5, 1), (0, 4)])), 8);
    assert_eq!(with_hours(Hours::new(0, 1, &[])), 7);

    let counted = |count, limit| if count > limit { 4 } else { 0 };
    for users in [2, 63, 64, 65, 255] {
        assert_eq!(read(Rota { users, ..small() }), counted(users, 64));
    }
    for permissions in [1, 63, 64, 65, 255] {
        assert_eq!(read(Rota { permissions, ..small() }), counted(permissions, 64));
    }
    for roles in [1, 31, 32, 33, 255] {
        let refusal = counted(roles, 32);
        assert_eq!(read(Rota { roles: vec![always; roles.into()], ..small() }), refusal);
    }
    for count in [2, 31, 32, 33, 255] {
        let all = vec![Hours::new(0, END, &[(0, 10)]); count.into()];
        assert_eq!(read(Rota { hours: all, ..small() }), counted(count, 32));
    }
    for count in [0, 1, 511, 512, 513, 65_535] {
        let refusal = if count > 512 { 4 } else { 0 };
        let rows = vec![Row::new(0, 0, always); count];
        assert_eq!(read(Rota { user_rows: rows.clone(), ..small() }), refusal);
        assert_eq!(read(Rota { permission_rows: rows.clone(), ..small() }), refusal);
    }
    // 256 pairs in all pass: in one record, in two, in 32.
    let many = |count: u16| Hours::new(0, 9, &(0..count).map(|i| (2 * i, 1)).collect::<Vec<_>>());
    let mut with_pairs = |counts: &[u16]| {
        let hours = counts.iter().map(|&count| many(count)).collect();
        read(Rota { cycle: 600, hours, roles: vec![always], user_rows: vec![], ..small() })
    };
    assert_eq!(with_pairs(&[256]), 0);
    assert_eq!(with_pairs(&[257]), 7);
    assert_eq!(with_pairs(&[255, 1]), 0);
    assert_eq!(with_pairs(&[255, 2]), 7);
    assert_eq!(with_pairs(&[256, 1]), 7);
    assert_eq!(with_pairs(&[8; 32]), 0);
    let mut one_over = [8; 32];
    one_over[31] = 9;
    assert_eq!(with_pairs(&one_over), 7);

    for (hours, refusal) in [(0, 0), (1, 0), (2, 10), (254, 10)] {
        assert_eq!(read(Rota { roles: vec![HoursRef::Numbered(hours)], ..small() }), refusal);
    }
    let rows = [
        (Row::new(0, 0, always), 0),
        (Row::new(0, 0, HoursRef::Numbered(1)), 0),
        (Row::new(0, 0, HoursRef::Numbered(2)), 1),
        (Row::new(0, 0, HoursRef::Numbered(254)), 1),
        (Row::new(0, 1, always), 1),
        (Row::new(0, 255, always), 1),
        (Row::new(255, 0, always), 1),
    ];
    for (bad, out) in rows {
        assert_eq!(
            read(Rota { user_rows: vec![Row::new(0, 0, always), bad], ..small() }),
            out * 11
        );
        assert_eq!(read(Rota { permission_rows: vec![bad], ..small() }), out * 12);
    }
    assert_eq!(read(Rota { user_rows: vec![Row::new(2, 0, always)], ..small() }), 11);
    assert_eq!(read(Rota { permission_rows: vec![Row::new(1, 0, always)], ..small() }), 12);
    tally.reached([0, 3, 4, 6, 7, 8, 10, 11, 12]);
}

/// Each set of counts 0, the cycle 1 or 40,320, all else at its limit.
#[test]
fn counts_of_0_alone_and_together() {
    let mut tally = Tally::new("counts_of_0_alone_and_together");
    for which in 0..generate::EDGE_SIZES {
        let mut case = Case::new("counts_of_0_alone_and_together", which.into());
        let rota = generate::rota_of(&mut case.random, &generate::edge_sizes(which));
        compare_all(&mut case, &mut tally, &Lent::new(rota.tidy().encode()), &rota, 10);
        let lent = Lent::new(rota.encode());
        compare_all(&mut case, &mut tally, &lent, &rota, 40);
        for len in [0, 11, 12, lent.bytes.len() - 1] {
            compare_read(&case, &mut tally, &Lent::new(lent.bytes[..len].to_vec()));
        }
        let longer = [&lent.bytes[..], &[0]].concat();
        compare_read(&case, &mut tally, &Lent::new(longer));
    }
    tally.reached([0, 1, 9, 33, 34, 35]);
}

#[test]
fn well_formed_rotas() {
    tallied("well_formed_rotas", 20_000, rota::well_formed)
        .reached([0, 33, 34, 35])
        .also(&["yes", "no"]);
}

#[test]
fn small_rotas_minute_by_minute() {
    tallied("small_rotas_minute_by_minute", 150, asked::minute_by_minute(compare_question::<Rota>))
        .reached([0, 33, 34, 35]);
}

#[test]
fn questions_at_and_over_their_limits() {
    tallied(
        "questions_at_and_over_their_limits",
        300,
        asked::at_and_over_limits(compare_question::<Rota>),
    )
    .reached([0, 33, 34, 35]);
}

#[test]
fn every_length() {
    let compare = |case: &mut Case, tally: &mut Tally| asked::every_length::<Rota>(case, tally, 6);
    tallied("every_length", 300, compare).reached([0, 1, 5, 9]);
}

#[test]
fn every_byte_changed() {
    tallied("every_byte_changed", 150, asked::every_byte_changed::<Rota>)
        .reached((0..=0).chain(2..=12).chain([52]));
}

#[test]
fn several_faults() {
    tallied("several_faults", 40_000, rota::several_faults)
        .reached((0..=12).chain([33, 34, 35, 52]));
}

/// Out of range and out of order, before and after each other.
#[test]
fn damaged_rows() {
    tallied("damaged_rows", 20_000, rota::damaged_rows)
        .reached([0, 11, 12, 52])
        .also_often(&tidying::FAULTS, 500);
}

#[test]
fn any_bytes() {
    tallied("any_bytes", 20_000, rota::any_bytes).reached([0]);
}
