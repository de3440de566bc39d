//! The wrapper's own promises. What the calls answer is compared in `comparison`.

use std::collections::HashSet;
use std::sync::Arc;
use std::thread;

use softlode::{
    LARGEST_ROTA, LAST_MINUTE, Lent, Question, Refusal, Rota, RotaBuf, RotaOf, Service, Table,
    TableBuf, TableOf, TableSize, date, minute,
};

const SMALL: &[u8] = include_bytes!("../../../data/small.rota");
const SMALL_TABLE: &[u8] = include_bytes!("../../../data/small.table");
const WEEK: &[u8] = include_bytes!("../../../data/week.rota");
const WEEK_TABLE: &[u8] = include_bytes!("../../../data/week.table");
const AREA_SIZE: usize = 65_536;

/// Numbers that would be small if they were cut to 8, 16 or fewer bits.
const TOO_HIGH: [u32; 7] = [64, 255, 256, 512, 65_536, 1 << 31, u32::MAX];

#[test]
fn every_refusal_has_a_text_of_its_own() {
    let numbers: Vec<u32> = Refusal::ALL.iter().map(|refusal| refusal.number()).collect();
    let expected: Vec<u32> =
        (1..=12).chain(20..=28).chain(33..=35).chain(40..=44).chain(50..=52).collect();
    assert_eq!(numbers, expected);
    let texts: HashSet<&str> = Refusal::ALL.iter().map(|refusal| refusal.meaning()).collect();
    assert_eq!(texts.len(), numbers.len());
    for refusal in Refusal::ALL {
        let line = refusal.to_string();
        assert_eq!(line, format!("refused {}: {}", refusal.number(), refusal.meaning()));
        assert!(line.len() <= 120 && !line.contains('\n'), "{line}");
    }
    let told = format!("{:?}", Refusal::NOT_OPEN);
    assert_eq!(told, "Refusal(44: the volunteer's session is not open)");
    let error: Box<dyn std::error::Error> = Refusal::NO_SUCH_DATE.into();
    assert!(error.to_string().starts_with("refused 50: the date"));
}

/// What a log gets: counts and lengths, and no bytes.
#[test]
fn debug_texts() {
    let rota = Rota::read(SMALL).unwrap();
    let rota_text = "Rota { counts: RotaCounts { cycle: 10, hours: 2, volunteers: 2, rights: 1, \
                     roles: 1, volunteer_rows: 2, right_rows: 1, format: 1 }, length: 54 }";
    assert_eq!(format!("{rota:?}"), rota_text);
    assert_eq!(format!("{:?}", RotaBuf::read(SMALL.to_vec())), format!("Ok({rota_text})"));
    let table = rota.to_table().unwrap();
    let table_text = "Table { counts: TableCounts { cycle: 10, volunteers: 2, rights: 1, roles: 1, \
                      derived: 3, rows: 8 }, length: 195 }";
    assert_eq!(format!("{table:?}"), table_text);
    assert_eq!(format!("{:?}", table.as_table()), table_text);
    let mut area = [0; 195];
    let written = format!("{:?}", rota.rewrite(&mut area).unwrap());
    assert_eq!(written, "Written { derived: 3, rows: 8, length: 195 }");
    let lent = [Lent::from(&rota), Lent::from(&table)];
    assert_eq!(format!("{lent:?}"), "[Rota(54 bytes), Table(195 bytes)]");
    let boards = [3, 12, 37].map(|minute| format!("{:?}", table.board(minute).unwrap()));
    assert_eq!(boards[0], "Board { rows: 1, rights: {0: [0]} }");
    assert_eq!(boards[1], "Board { rows: 1, rights: {0: [0], 1: [0]} }");
    assert_eq!(boards[2], "Board { rows: 0, rights: {} }");
}

#[test]
fn no_bytes() {
    assert_eq!(Rota::read(&[]), Err(Refusal::ROTA_SHORT));
    assert_eq!(Table::read(&[]), Err(Refusal::TABLE_SHORT));
    assert_eq!(Rota::read(SMALL).unwrap().tidy(&mut []), Err(Refusal::AREA_TOO_SMALL));
    assert_eq!(Rota::read(SMALL).unwrap().rewrite(&mut []), Err(Refusal::AREA_TOO_SMALL));
    for (lent, refusal) in
        [(Lent::Rota(&[]), Refusal::ROTA_SHORT), (Lent::Table(&[]), Refusal::TABLE_SHORT)]
    {
        let mut service = Service { now: 3, open: 1 };
        assert_eq!(lent.may(0, 0, 0), Err(refusal));
        assert_eq!(lent.page(&mut []), Err(refusal));
        assert_eq!(service.advance(lent, 4), Err(refusal));
        assert_eq!(service.open(lent, 1), Err(refusal));
        assert_eq!(service.close(lent, 0), Err(refusal));
        assert_eq!(service.ask(lent, 0, 0), Err(refusal));
        assert_eq!(service, Service { now: 3, open: 1 });
    }
}

#[test]
fn numbers_do_not_wrap() {
    for lent in [Lent::Rota(SMALL), Lent::Table(SMALL_TABLE)] {
        let mut service = Service::fresh();
        service.open(lent, 0).unwrap();
        let before = service;
        for number in TOO_HIGH {
            assert_eq!(lent.may(number, 0, 3), Err(Refusal::NO_SUCH_VOLUNTEER));
            assert_eq!(lent.may(0, number, 3), Err(Refusal::NO_SUCH_RIGHT));
            assert_eq!(service.open(lent, number), Err(Refusal::NO_SUCH_VOLUNTEER));
            assert_eq!(service.close(lent, number), Err(Refusal::NO_SUCH_VOLUNTEER));
            assert_eq!(service.ask(lent, number, 0), Err(Refusal::NO_SUCH_VOLUNTEER));
            assert_eq!(service.ask(lent, 0, number), Err(Refusal::NO_SUCH_RIGHT));
            assert!(!service.is_open(number));
            assert_eq!(minute(2001, number, 1, 0, 0), Err(Refusal::NO_SUCH_DATE));
            assert_eq!(minute(2001, 1, 1, number, 0), Err(Refusal::NO_SUCH_DATE));
        }
        for minute in [LAST_MINUTE + 1, 1 << 31, u32::MAX] {
            assert_eq!(lent.may(0, 0, minute), Err(Refusal::NO_SUCH_MINUTE));
            assert_eq!(service.advance(lent, minute), Err(Refusal::NO_SUCH_MINUTE));
            assert_eq!(date(minute), Err(Refusal::NO_SUCH_MINUTE));
        }
        assert_eq!(service, before);
    }
}

#[test]
fn the_next_use_of_the_small_table() {
    let table = Table::read(SMALL_TABLE).unwrap();
    let from = |volunteer, minute| table.next_use(volunteer, 0, minute).unwrap();
    assert_eq!([0, 4, 8, 19].map(|minute| from(0, minute)), [Some(0), Some(6), Some(10), None]);
    assert_eq!([0, 36, 37].map(|minute| from(1, minute)), [Some(12), Some(36), None]);
    assert_eq!(from(1, LAST_MINUTE), None);
    for minute in [LAST_MINUTE + 1, 1 << 31, u32::MAX] {
        assert_eq!(table.next_use(2, 1, minute), Err(Refusal::NO_SUCH_MINUTE));
    }
    for number in [2].into_iter().chain(TOO_HIGH) {
        assert_eq!(table.next_use(number, number, 0), Err(Refusal::NO_SUCH_VOLUNTEER));
        assert_eq!(table.next_use(0, number, 0), Err(Refusal::NO_SUCH_RIGHT));
    }
}

#[test]
fn the_board_of_the_small_table() {
    let table = Table::read(SMALL_TABLE).unwrap();
    let at = |minute| table.board(minute).map(|board| (board.rows, board.rights));
    let of = |first: [u64; 2]| {
        let mut rights = [0; 64];
        rights[..2].copy_from_slice(&first);
        rights
    };
    assert_eq!(at(3), Ok((1, of([1, 0]))));
    assert_eq!(at(12), Ok((1, of([1, 1]))));
    assert_eq!(at(37), Ok((0, of([0, 0]))));
    assert_eq!(at(LAST_MINUTE), Ok((0, of([0, 0]))));
    for minute in [LAST_MINUTE + 1, 1 << 31, u32::MAX] {
        assert_eq!(at(minute), Err(Refusal::NO_SUCH_MINUTE));
    }
    let board = table.board(12).unwrap();
    assert!(board.may(0, 0) && board.may(1, 0));
    assert_eq!(board.rights_of(1).collect::<Vec<_>>(), [0]);
    for number in TOO_HIGH {
        assert!(!board.may(number, 0) && !board.may(0, number));
        assert_eq!(board.rights_of(number).count(), 0);
    }
}

/// Each set has what single questions say, at each hour of a week.
#[test]
fn boards_of_a_week() {
    let table = Table::read(WEEK_TABLE).unwrap();
    let monday = minute(2024, 2, 26, 0, 0).unwrap();
    let mut most = 0;
    for at in (0..7 * 24).map(|hour| monday + 60 * hour) {
        let board = table.board(at).unwrap();
        for volunteer in 0..64 {
            let is_yes = |&right: &u32| matches!(table.may(volunteer, right, at), Ok(Some(_)));
            let rights: Vec<u32> = (0..64).filter(is_yes).collect();
            assert_eq!(board.rights_of(volunteer).collect::<Vec<_>>(), rights);
        }
        most = most.max(board.rows);
    }
    assert!(most > 1 && most <= table.counts().roles, "{most} rows at once");
}

#[test]
fn the_page_of_the_small_rota() {
    for lent in [Lent::Rota(SMALL), Lent::Table(SMALL_TABLE)] {
        let numbers = [(0, 0, 3), (0, 0, 4), (1, 0, 12), (2, 0, 12), (0, 1, 12), (9, 9, u32::MAX)];
        let mut page =
            numbers.map(|(volunteer, right, minute)| Question::new(volunteer, right, minute));
        let fresh = page;
        assert_eq!(lent.page(&mut page), Ok(()));
        for (question, (volunteer, right, minute)) in page.into_iter().zip(numbers) {
            assert_eq!(question.answer.role(), lent.may(volunteer, right, minute));
            let kept = (question.volunteer, question.right, question.minute);
            assert_eq!(kept, (volunteer, right, minute));
        }
        let answered = page;
        // An answer is written anew, whatever the place had.
        assert_eq!((lent.page(&mut page), page), (Ok(()), answered));
        assert_eq!(lent.page(&mut []), Ok(()));
        let mut long = [fresh[0]; 257];
        assert_eq!((lent.page(&mut long), long), (Err(Refusal::PAGE_TOO_LONG), [fresh[0]; 257]));
        assert_eq!((lent.page(&mut long[..256]), long[256]), (Ok(()), fresh[0]));
        assert_eq!(long[..256], [answered[0]; 256]);
    }
}

#[test]
fn a_refused_page_leaves_every_place() {
    let mut bad = SMALL.to_vec();
    bad[0] = 9;
    for (lent, refusal) in
        [(Lent::Rota(&bad), Refusal::ROTA_FORMAT), (Lent::Table(&bad), Refusal::TABLE_FORMAT)]
    {
        for count in [0, 1, 256, 257] {
            // A page with answers of its own.
            let mut page = vec![Question::new(0, 0, 3); 256];
            Lent::Rota(SMALL).page(&mut page).unwrap();
            page.resize(count, Question::new(1, 1, 1));
            let before = page.clone();
            let expected = if count > 256 { Refusal::PAGE_TOO_LONG } else { refusal };
            assert_eq!((lent.page(&mut page), page), (Err(expected), before));
        }
    }
}

/// On the small rota volunteer 0 holds no right at minutes 4, 5, 8, 9, 14, 15 and from 18 on.
#[test]
fn an_advance_judges_each_minute_that_it_passes() {
    for lent in [Lent::Rota(SMALL), Lent::Table(SMALL_TABLE)] {
        let mut service = Service::fresh();
        assert_eq!(service.advance(lent, 1), Ok(0));
        service.open(lent, 0).unwrap();
        assert_eq!(service.advance(lent, 11), Ok(1));
        assert_eq!(service, Service { now: 11, open: 0 });
        // The old now is not judged, and nothing is in an advance to it.
        for (now, minute, closed) in [(9, 13, 0), (8, 13, 1), (9, 14, 1), (5, 5, 0)] {
            let mut service = Service { now, open: 1 };
            assert_eq!(service.advance(lent, minute), Ok(closed), "from {now} to {minute}");
            assert_eq!(service.is_open(0), closed == 0);
        }
        let mut service = Service { now: LAST_MINUTE, open: 3 };
        assert_eq!(service.advance(lent, LAST_MINUTE), Ok(0));
        let mut service = Service { now: LAST_MINUTE - 1, open: 3 };
        assert_eq!(service.advance(lent, LAST_MINUTE), Ok(2));
    }
}

#[test]
fn a_refused_call_leaves_the_record() {
    for lent in [Lent::Rota(SMALL), Lent::Table(SMALL_TABLE)] {
        let given = Service { now: 3, open: 1 };
        let mut service = given;
        assert_eq!(service.advance(lent, 2), Err(Refusal::BEFORE_NOW));
        assert_eq!(service.open(lent, 0), Err(Refusal::ALREADY_OPEN));
        assert_eq!(service.open(lent, 1), Err(Refusal::NO_RIGHT_NOW));
        assert_eq!(service.close(lent, 1), Err(Refusal::NOT_OPEN));
        assert_eq!(service.ask(lent, 1, 0), Err(Refusal::NOT_OPEN));
        assert_eq!(service, given);
        for odd in [Service { now: 3, open: 4 }, Service { now: u32::MAX, open: 0 }] {
            let mut service = odd;
            assert_eq!(service.advance(lent, 5), Err(Refusal::RECORD_UNFIT));
            assert_eq!(service.open(lent, 0), Err(Refusal::RECORD_UNFIT));
            assert_eq!(service.close(lent, 0), Err(Refusal::RECORD_UNFIT));
            assert_eq!(service.ask(lent, 0, 0), Err(Refusal::RECORD_UNFIT));
            assert_eq!(service, odd);
        }
    }
}

#[test]
fn a_refused_rewriting_leaves_the_area() {
    let rota = Rota::read(SMALL).unwrap();
    let mut area = [0xa5; 194];
    assert_eq!(rota.rewrite(&mut area), Err(Refusal::AREA_TOO_SMALL));
    assert_eq!(area, [0xa5; 194]);
    let mut area = [0xa5; 196];
    assert_eq!(rota.rewrite(&mut area).unwrap().bytes, SMALL_TABLE);
    assert_eq!(area[195], 0xa5);
    assert_eq!(Table::read(&area), Err(Refusal::TABLE_LENGTH), "not the whole area");
}

#[test]
fn the_size_of_a_table() {
    for (file, expected, derived, rows) in [(SMALL, SMALL_TABLE, 3, 8), (WEEK, WEEK_TABLE, 23, 239)]
    {
        let rota = Rota::read(file).unwrap();
        let length = expected.len();
        assert_eq!(rota.table_size(), Ok(TableSize { derived, rows, length }));
        let mut area = vec![0xa5; length];
        assert_eq!(rota.rewrite(&mut area[1..]), Err(Refusal::AREA_TOO_SMALL));
        assert_eq!(area, vec![0xa5; length]);
        assert_eq!(rota.rewrite(&mut area).unwrap().bytes, expected);
        assert_eq!(rota.rewrite_to_vec().unwrap(), expected);
        assert_eq!(rota.to_table(), TableBuf::read(expected.to_vec()));
    }
}

/// Everything at its limit at once is accepted, and no byte more.
#[test]
fn the_largest_rota() {
    let header = [1, 0, 17, 0, 32, 64, 64, 32, 0, 2, 0, 2];
    let hours = [[0, 0, 0, 0], [1, 0, 0, 0], [8, 0, 0, 0]].concat()[..10].to_vec();
    let pairs: Vec<u8> = (0..8).flat_map(|pair| [2 * pair, 0, 1, 0]).collect();
    let mut rota = [&header[..], &[hours, pairs].concat().repeat(32), &[255; 32]].concat();
    rota.extend([0, 0, 255].repeat(1_024));
    assert_eq!(rota.len(), LARGEST_ROTA);
    assert!(Rota::read(&rota).is_ok());
    rota.push(0);
    assert_eq!(Rota::read(&rota), Err(Refusal::ROTA_LENGTH));
}

/// What owns its bytes answers as what is lent, whoever keeps it, and gives them back.
#[test]
fn owned() {
    struct Server {
        rota: RotaBuf,
        table: TableBuf,
    }
    let rota = RotaBuf::read(WEEK.to_vec()).unwrap();
    let server = Server { table: rota.to_table().unwrap(), rota };
    let expected = week(Lent::Rota(WEEK));
    let server = thread::spawn(move || {
        assert_eq!(week(Lent::from(&server.rota)), expected);
        assert_eq!(week(Lent::from(&server.table)), expected);
        server
    });
    let Server { rota, table } = server.join().unwrap();
    assert_eq!(rota.as_rota(), Rota::read(WEEK).unwrap());
    assert_eq!(table.as_table(), Table::read(WEEK_TABLE).unwrap());
    assert_eq!((rota.bytes(), table.bytes()), (WEEK, WEEK_TABLE));
    assert_eq!((rota.into_bytes(), table.into_bytes()), (WEEK.to_vec(), WEEK_TABLE.to_vec()));
    assert_eq!(RotaBuf::read(WEEK_TABLE.to_vec()), Err(Refusal::ROTA_FORMAT));
    assert_eq!(TableBuf::read(WEEK.to_vec()), Err(Refusal::TABLE_FORMAT));
}

#[test]
fn shared() {
    let (rota, table): (Arc<[u8]>, Arc<[u8]>) = (WEEK.into(), WEEK_TABLE.into());
    let (rota, table) = (RotaOf::read(rota).unwrap(), TableOf::read(table).unwrap());
    let monday = minute(2024, 2, 26, 9, 0).unwrap();
    let (other, same) = (rota.clone(), table.clone());
    let thread = thread::spawn(move || (other.may(0, 4, monday), same.may(0, 4, monday)));
    assert_eq!(thread.join().unwrap(), (Ok(Some(2)), Ok(Some(2))));
    let mut service = Service::fresh();
    assert_eq!(service.advance(&rota.as_rota(), monday), Ok(0));
    assert_eq!(service.open(&table.as_table(), 0), Ok(()));
}

/// The rota with both kinds of rows in the other order, and the first volunteer row twice.
fn respelled(rota: &[u8]) -> Vec<u8> {
    let counts = Rota::read(rota).unwrap().counts();
    let [volunteers, rights] =
        [counts.volunteer_rows, counts.right_rows].map(|rows| 3 * rows as usize);
    let (start, rows) = rota.split_at(rota.len() - volunteers - rights);
    let reversed = |rows: &[u8]| rows.chunks_exact(3).rev().collect::<Vec<_>>().concat();
    let (volunteer_rows, right_rows) = rows.split_at(volunteers);
    let all =
        [start, &reversed(volunteer_rows), &volunteer_rows[..3], &reversed(right_rows)].concat();
    let count = (counts.volunteer_rows as u16 + 1).to_le_bytes();
    [&all[..8], &count, &all[10..]].concat()
}

#[test]
fn the_tidy_small_rota() {
    let rota = Rota::read(SMALL).unwrap();
    assert_eq!(rota.counts().format, 1);
    let expected = [&[3], &SMALL[1..]].concat();
    let mut area = [0xa5; 60];
    assert_eq!(rota.tidy(&mut area), Ok(&expected[..]));
    assert_eq!(area[54..], [0xa5; 6]);
    assert_eq!(rota.tidy_to_vec().unwrap(), expected);
    assert_eq!(rota.to_tidy(), RotaBuf::read(expected.clone()));
    let mut area = [0xa5; 53];
    assert_eq!(rota.tidy(&mut area), Err(Refusal::AREA_TOO_SMALL));
    assert_eq!(area, [0xa5; 53]);
    let tidy = Rota::read(&expected).unwrap();
    assert_eq!(tidy.counts().format, 3);
    assert_eq!(tidy.tidy(&mut [0; 54]), Ok(&expected[..]));
    // The longer rota becomes the same, in an area that is shorter than itself.
    let longer = respelled(SMALL);
    assert_eq!(longer.len(), 57);
    assert_eq!(Rota::read(&longer).unwrap().tidy(&mut [0; 54]), Ok(&expected[..]));
    assert_eq!(Rota::read(&longer).unwrap().tidy_to_vec().unwrap(), expected);
    for (at, refusal) in [(53, Refusal::RIGHT_ROW), (0, Refusal::ROTA_FORMAT)] {
        let mut bad = expected.clone();
        bad[at] = 2;
        assert_eq!(Rota::read(&bad), Err(refusal));
    }
}

/// However a week is spelled: the same bytes, the same table, and the same answers.
#[test]
fn the_tidy_week() {
    let (mut area, mut other_area) = ([0; 1_024], [0; 1_024]);
    let tidy = Rota::read(WEEK).unwrap().tidy(&mut area).unwrap();
    assert_ne!(tidy[2..], WEEK[2..]);
    let respelled = respelled(WEEK);
    assert_eq!(Rota::read(&respelled).unwrap().tidy(&mut other_area), Ok(tidy));
    assert_eq!(Rota::read(tidy).unwrap().tidy(&mut other_area), Ok(tidy));
    let mut table = vec![0; AREA_SIZE];
    for rota in [WEEK, &respelled, tidy] {
        assert_eq!(Rota::read(rota).unwrap().rewrite(&mut table).unwrap().bytes, WEEK_TABLE);
        assert_eq!(week(Lent::Rota(rota)), week(Lent::Table(WEEK_TABLE)));
    }
    // A format alone does not make it tidy.
    let untidy = [&[3], &WEEK[1..]].concat();
    assert_eq!(Rota::read(&untidy), Err(Refusal::ROTA_ORDER));
    assert_eq!(Lent::Rota(&untidy).may(0, 0, 0), Err(Refusal::ROTA_ORDER));
    assert_eq!(Service::fresh().advance(Lent::Rota(&untidy), 0), Err(Refusal::ROTA_ORDER));
}

/// A week of the service, hour by hour: what every call told, and the record that it left.
fn week(lent: Lent) -> Vec<(Result<u32, Refusal>, Service)> {
    let mut service = Service::fresh();
    let mut told = Vec::new();
    let monday = minute(2024, 2, 26, 0, 0).unwrap();
    for hour in 0..7 * 24 {
        told.push((service.advance(lent, monday + 60 * hour), service));
        for volunteer in 0..20 {
            told.push((service.open(lent, volunteer).map(|()| 0), service));
            let role = service.ask(lent, volunteer, volunteer % 10);
            told.push((role.map(|role| role.unwrap_or(99)), service));
        }
    }
    told
}

#[test]
fn two_threads_at_once() {
    let alone = week(Lent::Rota(WEEK));
    assert!(alone.iter().any(|(told, _)| *told == Ok(4)), "somebody discards");
    for _ in 0..10 {
        thread::scope(|scope| {
            let threads = [Lent::Rota(WEEK), Lent::Rota(WEEK), Lent::Table(WEEK_TABLE)]
                .map(|lent| scope.spawn(move || week(lent)));
            for thread in threads {
                assert_eq!(thread.join().unwrap(), alone);
            }
        });
    }
}

/// Runs on a thread with this much stack, or the least that there is. A thread that overflows it
/// ends the whole test program.
fn with_stack<T: Send>(size: usize, run: impl FnOnce() -> T + Send) -> T {
    thread::scope(|scope| {
        let builder = thread::Builder::new().stack_size(size);
        builder.spawn_scoped(scope, run).expect("a thread").join().expect("no panic")
    })
}

/// A rewriting, and a table's size, take less than 1 MiB of stack; the rest is for the thread itself.
#[test]
fn stack_of_a_rewriting() {
    for (rota, table) in [(SMALL, SMALL_TABLE), (WEEK, WEEK_TABLE)] {
        let written = with_stack((1 << 20) + (16 << 10), || {
            Rota::read(rota).unwrap().rewrite_to_vec().unwrap()
        });
        assert_eq!(written, table);
    }
}

/// A tidying takes less than 32 KiB; the rest is for the thread itself.
#[test]
fn stack_of_a_tidying() {
    for rota in [SMALL, WEEK] {
        let mut area = [0; 1_024];
        let length = with_stack((32 << 10) + (16 << 10), || {
            Rota::read(rota).unwrap().tidy(&mut area).map(<[u8]>::len)
        });
        assert_eq!(length, Ok(rota.len()));
    }
}

/// Every other call takes less than 4 KiB, so it runs on the smallest stack.
#[test]
fn stack_of_every_other_call() {
    let told = with_stack(1, || {
        let rota = Rota::read(WEEK).map(|rota| rota.counts().volunteers);
        let table = Table::read(WEEK_TABLE).map(|table| table.counts().rows);
        let monday = minute(2024, 2, 26, 9, 0).unwrap();
        let weekday = date(monday).map(|date| date.weekday);
        let rows = Table::read(WEEK_TABLE).and_then(|table| table.board(monday));
        let mut told = vec![rota, table, weekday, rows.map(|board| board.rows)];
        for lent in [Lent::Rota(WEEK), Lent::Table(WEEK_TABLE)] {
            let mut service = Service::fresh();
            told.push(lent.may(0, 9, monday).map(|role| role.unwrap_or(99)));
            let mut page = [Question::new(0, 9, monday)];
            told.push(
                lent.page(&mut page).and_then(|()| page[0].answer.role()).map(Option::unwrap),
            );
            told.push(service.advance(lent, monday));
            told.push(service.open(lent, 0).map(|()| 0));
            told.push(service.ask(lent, 0, 9).map(|role| role.unwrap_or(99)));
            told.push(service.close(lent, 0).map(|()| 0));
        }
        told
    });
    let calls = [5, 5, 0, 0, 5, 0].map(Ok);
    assert_eq!(told[..4], [Ok(20), Ok(239), Ok(0), Ok(5)]);
    assert_eq!((&told[4..10], &told[10..]), (&calls[..], &calls[..]));
}
