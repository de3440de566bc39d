//! Bytes that are read and asked, and asked who holds anything: rotas and tables alike.

use std::fmt::Debug;

use cases::case::{Case, Tally};
use cases::generate;
use cases::random::Random;
use reference::page::Question;
use reference::policy::Policy;
use reference::{END, Refusal};

use crate::expected;
use crate::ffi::rota::{Answered, Holders};

/// What the bytes hold, with the proved functions on them.
pub trait Kind: Policy + Sized {
    type Read: PartialEq + Debug;

    fn parse(bytes: &[u8]) -> Result<Self, Refusal>;

    fn encode(&self) -> Vec<u8>;

    /// The one that data/ holds.
    fn stored() -> Self;

    fn small(random: &mut Random) -> Self;

    /// Of any size.
    fn any(random: &mut Random) -> Self;

    /// A minute at which an answer may change.
    fn minute(&self, random: &mut Random) -> u32;

    /// What the reference gives for reading.
    fn expected(parsed: &Result<Self, Refusal>) -> Self::Read;

    fn read(bytes: &[u8]) -> Self::Read;

    fn question(bytes: &[u8], user: u32, permission: u32, t: u32) -> Answered;

    fn page(bytes: &[u8], questions: &mut [Question]) -> u32;

    fn holders_of(bytes: &[u8], t: u32) -> Holders;
}

/// Bytes with what the reference reads in them, so that it reads them once.
pub struct Lent<K> {
    pub bytes: Vec<u8>,
    pub parsed: Result<K, Refusal>,
}

impl<K: Kind> Lent<K> {
    pub fn new(bytes: Vec<u8>) -> Lent<K> {
        let parsed = K::parse(&bytes);
        Lent { bytes, parsed }
    }
}

/// Compares what is asked of the bytes with a user, a permission and a minute.
pub type Ask<K> = fn(&Case, &mut Tally, &Lent<K>, u32, u32, u32);

pub fn compare_read<K: Kind>(case: &Case, tally: &mut Tally, lent: &Lent<K>) {
    tally.add(lent.parsed.as_ref().err().copied().unwrap_or(0));
    case.same(K::read(&lent.bytes), K::expected(&lent.parsed), &lent.bytes, "read");
}

pub fn compare_question<K: Kind>(
    case: &Case,
    tally: &mut Tally,
    lent: &Lent<K>,
    user: u32,
    permission: u32,
    t: u32,
) {
    let expected = expected::rota::question(&lent.parsed, user, permission, t);
    tally.add(expected.refusal);
    if expected.refusal == 0 {
        tally.count(if expected.yes == 1 { "yes" } else { "no" });
    }
    let proved = K::question(&lent.bytes, user, permission, t);
    let given = ("question", "user", user, "permission", permission, "minute", t);
    case.same(proved, expected, &lent.bytes, given);
}

pub fn compare_holders<K: Kind>(case: &Case, tally: &mut Tally, lent: &Lent<K>, t: u32) {
    let expected = expected::rota::holders(&lent.parsed, t);
    tally.add(expected.refusal);
    let proved = K::holders_of(&lent.bytes, t);
    case.same(proved, expected, &lent.bytes, ("holders", "minute", t));
}

/// Any user, permission and minute of `near`.
pub fn compare_any_question<K: Kind>(
    case: &mut Case,
    tally: &mut Tally,
    lent: &Lent<K>,
    near: &impl Kind,
) {
    let user = generate::number(&mut case.random, near.users());
    let permission = generate::number(&mut case.random, near.permissions());
    let t = near.minute(&mut case.random);
    compare_question(case, tally, lent, user, permission, t);
}

/// Reads the bytes, and asks a few questions at minutes where the answers of `near` may change.
pub fn compare_all<K: Kind>(
    case: &mut Case,
    tally: &mut Tally,
    lent: &Lent<K>,
    near: &K,
    questions: u32,
) {
    compare_read(case, tally, lent);
    compare_answers(case, tally, lent, near, questions);
}

/// The questions alone, and who holds anything.
pub fn compare_answers<K: Kind>(
    case: &mut Case,
    tally: &mut Tally,
    lent: &Lent<K>,
    near: &K,
    questions: u32,
) {
    for _ in 0..questions {
        compare_any_question(case, tally, lent, near);
    }
    let t = near.minute(&mut case.random);
    compare_holders(case, tally, lent, t);
}

/// The worked minutes of the stored one.
pub fn worked_minutes<K: Kind>() {
    let bytes = K::stored().encode();
    let ask = |user, t| {
        let answered = K::question(&bytes, user, 0, t);
        assert_eq!(answered.refusal, 0);
        (answered.yes == 1).then_some(answered.role)
    };
    assert_eq!(ask(0, 3), Some(0));
    assert_eq!(ask(0, 4), None);
    assert_eq!([ask(0, 12), ask(1, 12)], [Some(0); 2]);
    assert_eq!(ask(1, 36), Some(0));
    assert_eq!([ask(0, 37), ask(1, 37), ask(0, 40), ask(1, 40)], [None; 4]);
    assert_eq!([3, 4, 12, 36].map(|t| K::holders_of(&bytes, t).users), [1, 0, 3, 2]);
    let refusal = |user, permission, t| K::question(&bytes, user, permission, t).refusal;
    assert_eq!(refusal(1, 0, END - 1), 0);
    assert_eq!(refusal(256, 256, END), 33);
    assert_eq!(refusal(256, 256, 0), 34);
    assert_eq!(refusal(2, 0, 0), 34);
    assert_eq!(refusal(0, 256, 0), 35);
    assert_eq!(refusal(0, 1, 0), 35);
    assert_eq!(K::holders_of(&bytes, END).refusal, 33);
}

/// Every user, permission and minute of a stretch, and the set of holders.
pub fn minute_by_minute<K: Kind>(ask: Ask<K>) -> impl Fn(&mut Case, &mut Tally) {
    move |case, tally| {
        let small = K::small(&mut case.random);
        let lent = Lent::<K>::new(small.encode());
        for t in (0..50).chain(END - 10..END + 1) {
            compare_holders(case, tally, &lent, t);
            for user in 0..=small.users() {
                for permission in 0..=small.permissions() {
                    ask(case, tally, &lent, user, permission, t);
                }
            }
        }
    }
}

/// Numbers at and over every limit, with minutes at and over theirs.
pub fn at_and_over_limits<K: Kind>(ask: Ask<K>) -> impl Fn(&mut Case, &mut Tally) {
    move |case, tally| {
        let kind = if case.random.one_in(3) {
            K::small(&mut case.random)
        } else {
            K::any(&mut case.random)
        };
        let lent = Lent::<K>::new(kind.encode());
        let numbers = |limit: u32| {
            let below = limit.saturating_sub(1);
            [0, below, limit, limit + 1, 63, 64, 65, 255, 256, 256 + below, 1 << 16, u32::MAX]
        };
        let t = kind.minute(&mut case.random);
        for user in numbers(kind.users()) {
            for permission in numbers(kind.permissions()) {
                ask(case, tally, &lent, user, permission, t);
            }
            for t in [0, END - 1, END, END + 1, 1 << 31, u32::MAX] {
                let permission = generate::number(&mut case.random, kind.permissions());
                ask(case, tally, &lent, user, permission, t);
                compare_holders(case, tally, &lent, t);
            }
        }
    }
}

/// Cut at every length, and longer by a few bytes: accepted at one length alone.
pub fn every_length<K: Kind>(case: &mut Case, tally: &mut Tally, longer: usize) {
    let small = K::small(&mut case.random);
    let mut bytes = small.encode();
    let whole = bytes.len();
    let extra = case.random.bytes(longer);
    bytes.extend(extra);
    for len in 0..=bytes.len() {
        let lent = Lent::<K>::new(bytes[..len].to_vec());
        assert_eq!(lent.parsed.is_ok(), len == whole);
        compare_all(case, tally, &lent, &small, 1);
    }
}

/// Changed at every byte; the stored one comes first.
pub fn every_byte_changed<K: Kind>(case: &mut Case, tally: &mut Tally) {
    let kind = if case.number == 0 { K::stored() } else { K::small(&mut case.random) };
    let whole = kind.encode();
    for i in 0..whole.len() {
        for value in generate::changes(whole[i]) {
            let mut bytes = whole.clone();
            bytes[i] = value;
            compare_all(case, tally, &Lent::new(bytes), &kind, 1);
        }
    }
}
