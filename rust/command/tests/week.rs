//! softlode week: what it shows is read back, from the terminal's text and from the page, and every
//! interval, name and picture is held to single questions.

mod common;
mod markup;

use std::time::{SystemTime, UNIX_EPOCH};

use cases::case::{Case, Tally, tallied};
use cases::generate::{self, LIMITS, Sizes};
use cases::random::Random;
use command::names::{Kind, Names};
use command::parts::Parts;

use command::week::Report;
use command::week::model::{Cuts, Run, Week};
use command::week::terminal::{self, Look};
use common::{Folder, data, finish, program, run};
use markup::Node;
use reference::END;
use reference::edges::Edges;
use reference::hours::{HoursRef, Pair};
use softlode::{Lent, Question, Rota, Table};

const DAY: u32 = 1_440;

/// What is asked, and the minutes at which an answer may change.
struct Asked<'a> {
    lent: Lent<'a>,
    cycle: u32,
    volunteers: u32,
    rights: u32,
    edges: Edges,
}

impl Asked<'_> {
    /// For each volunteer the rights, by single questions.
    fn at(&self, minute: u32) -> Vec<u64> {
        let mut questions = Vec::new();
        for volunteer in 0..self.volunteers {
            questions.extend((0..self.rights).map(|right| Question::new(volunteer, right, minute)));
        }
        let mut sets = vec![0; self.volunteers as usize];
        for page in questions.chunks_mut(256) {
            self.lent.page(page).expect("the bytes are accepted");
            for question in page {
                let is_yes = question.answer.role().expect("a question in range").is_some();
                sets[question.volunteer as usize] |= u64::from(is_yes) << question.right;
            }
        }
        sets
    }

    /// Who may use a right then, or what a volunteer may use.
    fn set(&self, kind: Kind, number: u32, at: &[u64]) -> u64 {
        match kind {
            Kind::Right => {
                (0..).zip(at).fold(0, |set, (i, rights)| set | (rights >> number & 1) << i)
            }
            _ => at[number as usize],
        }
    }

    fn count(&self, kind: Kind) -> u32 {
        if kind == Kind::Right { self.rights } else { self.volunteers }
    }

    /// The turn that holds a minute.
    fn turn(&self, minute: u32) -> (u32, u32) {
        let begin = minute / self.cycle * self.cycle;
        (begin, (begin + self.cycle).min(END))
    }

    /// The turns before and after, where they are.
    fn beside(&self, turn: (u32, u32)) -> [Option<(u32, u32)>; 2] {
        let before = (turn.0 > 0).then(|| self.turn(turn.0 - 1));
        [before, (turn.1 < END).then(|| self.turn(turn.1))]
    }

    /// Positions of a turn to ask at: all of a short one; else those at which something may change in
    /// it or in the turns beside, each with the minutes beside it, and some others.
    fn positions(&self, random: &mut Random, turn: (u32, u32)) -> Vec<u32> {
        let length = turn.1 - turn.0;
        if length <= 64 {
            return (0..length).collect();
        }
        let mut edges = self.edges.cuts.clone();
        for (begin, end) in self.beside(turn).into_iter().flatten().chain([turn]) {
            let within = self.edges.spans.iter().filter(|span| (begin..end).contains(span));
            edges.extend(within.map(|span| span - begin));
        }
        random.shuffle(&mut edges);
        edges.truncate(24);
        let mut all: Vec<u32> =
            edges.iter().flat_map(|&edge| [edge.saturating_sub(1), edge, edge + 1]).collect();
        all.extend((0..8).map(|_| random.below(length)));
        all.extend([0, length - 1]);
        all.retain(|&position| position < length);
        all.sort();
        all.dedup();
        all
    }
}

/// A right or a volunteer, as it was shown.
#[derive(Debug, Default)]
struct Shown {
    number: u32,
    is_volunteer: bool,
    runs: Vec<Run>,
    /// For the turns before and after what is here alone, and what is there alone.
    differences: [[Vec<Run>; 2]; 2],
}

/// Those of the runs that hold a minute, together.
fn holding(runs: &[Run], minute: u32) -> u64 {
    let holding = runs.iter().filter(|run| (run.begin..run.end).contains(&minute));
    holding.fold(0, |set, run| set | run.set)
}

/// Every shown set is what single questions say, in the turn and against those beside.
fn hold_to_questions(case: &mut Case, asked: &Asked, minute: u32, shown: &[Shown], bytes: &[u8]) {
    let turn = asked.turn(minute);
    let beside = asked.beside(turn);
    let lists = shown.iter().flat_map(|one| beside.iter().zip(&one.differences));
    for (beside, [alone, missing]) in lists {
        // Nothing is compared beyond the end of either.
        let length = beside.map_or(0, |beside| (beside.1 - beside.0).min(turn.1 - turn.0));
        for (run, begin) in alone
            .iter()
            .map(|run| (run, turn.0))
            .chain(missing.iter().map(|run| (run, beside.expect("a turn beside").0)))
        {
            assert!(begin <= run.begin && run.begin < run.end && run.end <= begin + length);
        }
    }
    for position in asked.positions(&mut case.random, turn) {
        let here = asked.at(turn.0 + position);
        let there = beside.map(|beside| {
            let minute = beside.map(|beside| beside.0 + position).filter(|&minute| minute < END);
            minute.map(|minute| (minute, asked.at(minute)))
        });
        for one in shown {
            let kind = if one.is_volunteer { Kind::Volunteer } else { Kind::Right };
            let set = asked.set(kind, one.number, &here);
            let what = (kind, one.number, turn, position);
            case.same(holding(&one.runs, turn.0 + position), set, bytes, what);
            for (there, lists) in there.iter().zip(&one.differences) {
                // Where there is no such minute nothing differs.
                let (minute, other) = match there {
                    Some((minute, at)) => (*minute, asked.set(kind, one.number, at)),
                    None => (turn.0 + position, set),
                };
                let [alone, missing] = lists;
                case.same(holding(alone, turn.0 + position), set & !other, bytes, ("alone", what));
                case.same(holding(missing, minute), other & !set, bytes, ("missing", what));
            }
        }
    }
}

/// The model's own sections.
fn model(week: &Week) -> Vec<Shown> {
    let kinds = [Kind::Right, Kind::Volunteer];
    let numbers = kinds.into_iter().flat_map(|kind| (0..week.count(kind)).map(move |i| (kind, i)));
    let one = |(kind, number)| {
        let section = week.section(kind, number);
        let lists = section.against.map(|against| {
            against.map_or_else(Default::default, |against| [against.here, against.there])
        });
        Shown {
            number,
            is_volunteer: kind == Kind::Volunteer,
            runs: section.runs,
            differences: lists,
        }
    };
    numbers.map(one).collect()
}

/// A day and time as it is written, `Mon 2024-02-26 09:00`, with its weekday held to the date.
fn minute_of(day: &str, time: &str) -> u32 {
    let (weekday, date) = day.split_once(' ').unwrap_or_else(|| panic!("no day: {day}"));
    let number = |text: &str| text.parse::<u32>().unwrap_or_else(|_| panic!("{day} {time}"));
    let date: Vec<u32> = date.split('-').map(number).collect();
    let midnight = softlode::minute(date[0], date[1], date[2], 0, 0).unwrap();
    let weekdays = ["Mon", "Tue", "Wed", "Thu", "Fri", "Sat", "Sun"];
    assert_eq!(weekdays[(midnight / DAY % 7) as usize], weekday, "{day}");
    let (hour, minute) = time.split_once(':').unwrap();
    let (hour, minute) = (number(hour), number(minute));
    assert!(minute < 60 && (hour < 24 || (hour, minute) == (24, 0)), "{time}");
    midnight + 60 * hour + minute
}

/// The days that words list: `Mon 2024-02-26 to Wed 2024-02-28 and Fri 2024-03-01`.
fn days(words: &str) -> Vec<u32> {
    let mut days = Vec::new();
    for item in words.replace(" and ", ", ").split(", ") {
        let (first, last) = item.split_once(" to ").unwrap_or((item, item));
        let (first, last) = (minute_of(first, "00:00"), minute_of(last, "00:00"));
        days.extend((first..=last).step_by(DAY as usize));
    }
    days
}

/// The intervals of a time in words.
fn intervals(words: &str, cycle: u32) -> Vec<(u32, u32)> {
    if let Some(rest) = words.strip_prefix("from ") {
        let (rest, position) = match rest.split_once(" (minute ") {
            Some((rest, position)) => (rest, Some(position)),
            None => (rest, None),
        };
        let (from, to) = rest.split_once(" to before ").unwrap_or_else(|| panic!("{words}"));
        let [begin, end] = [from, to].map(|date| {
            let (day, time) = date.rsplit_once(' ').unwrap();
            minute_of(day, time)
        });
        assert_eq!(position.is_some(), cycle % DAY != 0, "{words}");
        if let Some(position) = position {
            let first = begin % cycle;
            let expected = format!("{first} to before {} of the cycle)", first + (end - begin));
            assert_eq!(position, expected, "{words}");
        }
        return vec![(begin, end)];
    }
    let (listed, times) = match words.split_once(", each day from ") {
        Some(parts) => parts,
        None => words.split_once(" from ").unwrap_or_else(|| panic!("{words}")),
    };
    let (times, more) = match times.strip_suffix(" of the next day") {
        Some(times) => (times, DAY),
        None => (times, 0),
    };
    let (from, to) = times.split_once(" to before ").unwrap_or_else(|| panic!("{words}"));
    let all = days(listed);
    assert_eq!(all.len() > 1, words.contains("each day"), "{words}");
    let of_day = |time: &str| minute_of("Mon 2001-01-01", time);
    all.into_iter().map(|day| (day + of_day(from), day + of_day(to) + more)).collect()
}

/// The set of a list: `Ruth (5), volunteers 2, 7`.
fn members(words: &str) -> u64 {
    let number = |item: &str| -> u32 {
        let named = item.strip_suffix(')').and_then(|item| item.rsplit_once('('));
        let text = named.map_or_else(|| item.rsplit(' ').next().unwrap(), |(_, number)| number);
        text.parse().unwrap_or_else(|_| panic!("no number: {item} of {words}"))
    };
    words.split(", ").fold(0, |set, item| set | 1 << number(item))
}

fn runs(times: &str, who: &str, cycle: u32) -> Vec<Run> {
    let set = members(who);
    intervals(times, cycle).into_iter().map(|(begin, end)| Run { begin, end, set }).collect()
}

/// Times and who, in one line.
fn line(words: &str, cycle: u32) -> Vec<Run> {
    let (times, who) = words.split_once(": ").unwrap_or_else(|| panic!("no times: {words}"));
    runs(times, who, cycle)
}

/// Which list a difference belongs in, by what it is called.
fn place_of(heading: &str) -> (usize, usize) {
    let which = ["before", "after"].iter().position(|which| heading.contains(which)).unwrap();
    (which, usize::from(!heading.to_lowercase().starts_with("not the ")))
}

/// `right 3`, or a name with its number.
fn number_of(title: &str) -> u32 {
    members(title).trailing_zeros()
}

/// What the terminal's text says.
fn read_text(text: &str, cycle: u32) -> Vec<Shown> {
    let mut shown = Vec::new();
    for block in text.split("\n\n").skip(1) {
        let mut lines = block.lines();
        let mut one = Shown { number: number_of(lines.next().unwrap()), ..Shown::default() };
        for words in lines {
            let words = words.strip_prefix("  ").unwrap_or_else(|| panic!("{words}"));
            let heading = words.split(": ").next().unwrap();
            if words.starts_with("nobody in this ") {
                assert!(one.runs.is_empty());
            } else if heading.starts_with("not the ") || heading.ends_with(" also") {
                let (which, list) = place_of(heading);
                let words = words.split_once(": ").unwrap().1;
                one.differences[which][list].extend(line(words, cycle));
            } else {
                one.runs.extend(line(words, cycle));
            }
        }
        shown.push(one);
    }
    shown
}

/// What the page says: in its tables and lists, to which its pictures are held.
fn read_page(page: &Node, cycle: u32, turn: (u32, u32)) -> Vec<Shown> {
    let mut shown = Vec::new();
    for section in page.all("section") {
        let id = section.attribute("id").unwrap();
        let (kind, number) = id.split_once('-').unwrap();
        let number: u32 = number.parse().unwrap();
        assert_eq!(number_of(&section.first("h3").text()), number);
        let mut one = Shown { number, is_volunteer: kind == "volunteer", ..Shown::default() };
        let mut keys = std::collections::HashMap::new();
        for row in section.all("tr").into_iter().skip(1) {
            let [_, who] = row.all("td")[..] else { panic!("two cells") };
            for item in row.all("li") {
                one.runs.extend(runs(&item.text(), &who.text(), cycle));
            }
            keys.insert(row.first("th").text(), members(&who.text()));
        }
        let (mut which, mut list) = (0, 0);
        for part in section.all("dl").iter().flat_map(|list| list.elements()) {
            if part.name == "dt" {
                (which, list) = place_of(&part.text());
            } else {
                one.differences[which][list].extend(line(&part.text(), cycle));
            }
        }
        one.runs.sort_by_key(|run| run.begin);
        picture(section.first("svg"), &one, &keys, turn, cycle);
        shown.push(one);
    }
    shown
}

/// The picture has a block for each run and a bar for each difference, to the minute.
fn picture(
    svg: &Node,
    one: &Shown,
    keys: &std::collections::HashMap<String, u64>,
    turn: (u32, u32),
    cycle: u32,
) {
    let across = (turn.1 - turn.0).min(DAY);
    let number = |node: &Node, name: &str| -> f64 {
        node.attribute(name).unwrap().trim_end_matches('%').parse().unwrap()
    };
    // The minutes that a rectangle is over; at the edges of rows it goes on in the next.
    let minutes = |rect: &Node| -> (u32, u32) {
        let row = (number(rect, "y") - 18.0) as u32 / 36;
        let exact = |percent: f64| -> u32 {
            let minutes = percent * f64::from(across) / 100.0;
            assert!((minutes - minutes.round()).abs() < 0.01, "{minutes}");
            turn.0 + row * DAY + minutes.round() as u32
        };
        let x = number(rect, "x");
        (exact(x), exact(x + number(rect, "width")))
    };
    // As pictures show runs: cut where rows end.
    let cut = |runs: &[Run], by: i64| -> Vec<(u32, u32, u64)> {
        let mut pieces = Vec::new();
        for run in runs {
            let [mut at, end] = [run.begin, run.end].map(|minute| (i64::from(minute) + by) as u32);
            while at < end {
                let row_end = turn.0 + ((at - turn.0) / DAY + 1) * DAY;
                pieces.push((at, end.min(row_end), run.set));
                at = end.min(row_end);
            }
        }
        pieces.sort();
        pieces
    };
    let mut blocks = Vec::new();
    for block in svg.all("g") {
        let title = block.first("title").text();
        let (key, times) = title.split_once(": ").unwrap();
        let (begin, end) = minutes(block.first("rect"));
        let [(first, last)] = intervals(times, cycle)[..] else { panic!("one interval") };
        assert!(first <= begin && end <= last, "{title}");
        if let [label] = block.all("text")[..] {
            assert_eq!(label.text(), key);
        }
        let tone = keys[key].count_ones().min(8).ilog2() + 1;
        assert_eq!(block.attribute("class"), Some(format!("t{tone}").as_str()));
        blocks.push((begin, end, keys[key]));
    }
    blocks.sort();
    assert_eq!(blocks, cut(&one.runs, 0));
    let bars = svg.elements().filter(|node| node.name == "rect");
    let mut found: [[Vec<(u32, u32)>; 2]; 2] = Default::default();
    for bar in bars {
        let which = usize::from((number(bar, "y") - 18.0) as u32 % 36 > 18);
        let list =
            ["here", "there"].iter().position(|&class| bar.attribute("class") == Some(class));
        found[which][list.unwrap()].push(minutes(bar));
    }
    for (which, lists) in found.into_iter().enumerate() {
        for (list, mut bars) in lists.into_iter().enumerate() {
            bars.sort();
            let by = match (which, list) {
                (_, 0) => 0,
                (0, _) => i64::from(cycle),
                _ => -i64::from(cycle),
            };
            let expected = cut(&one.differences[which][list], by);
            let expected: Vec<(u32, u32)> = expected.iter().map(|&(a, b, _)| (a, b)).collect();
            // Words may part a run that the picture joins no more than it does.
            assert_eq!(bars, expected, "{which} {list}");
        }
    }
}

/// A rota whose hours are shifts: each at the same time of some days, the nights over midnight.
fn shifts(random: &mut Random) -> reference::rota::Rota {
    let cycle = random.pick(&[10_080, 10_080, 20_160, 4_320]);
    let sizes = Sizes {
        cycle,
        hours: 3,
        pairs: 3,
        users: random.between(1, 5),
        permissions: random.between(1, 4),
        roles: 2,
        user_rows: 8,
        permission_rows: 6,
    };
    let mut rota = generate::rota_of(random, &sizes);
    for hours in &mut rota.hours {
        let (start, length) = (random.below(DAY) as u16, random.between(1, DAY - 1) as u16);
        let days = (0..cycle / DAY as u16).filter(|_| !random.one_in(4));
        let offsets = days.map(|day| day * DAY as u16 + start);
        let pair = |offset| Pair { offset, length: length.min(cycle - offset) };
        hours.pairs = offsets.map(pair).collect();
        if hours.pairs.is_empty() {
            hours.pairs = vec![pair(start)];
        }
    }
    rota
}

/// A rota of some kind, and a minute near which something may change.
fn generated(random: &mut Random) -> (reference::rota::Rota, u32) {
    let rota = match random.below(14) {
        12.. => shifts(random),
        0 => generate::granting_rota(random),
        1 => generate::relay_rota(random),
        2 => generate::touching_rota(random),
        3..=6 => {
            let cycle =
                random.pick(&[1_440, 10_080, 10_080, 20_160, 30_240, 40_320, 4_320, 40_319, 1_500]);
            let sizes = Sizes {
                cycle,
                hours: 4,
                pairs: 16,
                users: random.between(1, 6),
                permissions: random.between(1, 5),
                roles: 3,
                user_rows: 12,
                permission_rows: 8,
            };
            generate::rota_of(random, &sizes)
        }
        _ => generate::small_rota(random),
    };
    let minute = generate::rota_minute(random, &rota).min(END - 1);
    (rota, minute)
}

fn asked<'a>(lent: Lent<'a>, rota: &reference::rota::Rota) -> Asked<'a> {
    Asked {
        lent,
        cycle: rota.cycle.into(),
        volunteers: rota.users.into(),
        rights: rota.permissions.into(),
        edges: Edges::of_rota(rota),
    }
}

/// What was reached, so that no test is empty.
fn count(tally: &mut Tally, asked: &Asked, minute: u32, shown: &[Shown]) {
    tally.add(0);
    let turn = asked.turn(minute);
    for (is_reached, what) in [
        (asked.cycle % DAY == 0, "of days"),
        (asked.cycle % DAY != 0, "of minutes"),
        (turn.0 == 0, "the first"),
        (turn.1 == END, "the last"),
        (turn.1 - turn.0 < asked.cycle, "cut off"),
        (shown.iter().any(|one| one.runs.len() > 1), "runs"),
        (shown.iter().any(|one| !one.differences[0][0].is_empty()), "not before"),
        (shown.iter().any(|one| !one.differences[0][1].is_empty()), "before also"),
        (shown.iter().any(|one| !one.differences[1][0].is_empty()), "not after"),
        (shown.iter().any(|one| !one.differences[1][1].is_empty()), "after also"),
    ] {
        tally.count_if(is_reached, what);
    }
}

const REACHED: [&str; 9] = [
    "of days",
    "of minutes",
    "the first",
    "the last",
    "runs",
    "not before",
    "before also",
    "not after",
    "after also",
];

#[test]
fn the_model_of_rotas() {
    let tally = tallied("the model of rotas", 1_500, |case, tally| {
        let (rota, minute) = generated(&mut case.random);
        let bytes = rota.encode();
        let accepted = Rota::read(&bytes).unwrap();
        let table = accepted.rewrite_to_vec().unwrap();
        let cuts = Cuts::of_rota(&Parts::of(&accepted));
        let week = Week::of(&Table::read(&table).unwrap(), &cuts, minute).unwrap();
        let asked = asked(Lent::Rota(&bytes), &rota);
        let shown = model(&week);
        hold_to_questions(case, &asked, minute, &shown, &bytes);
        count(tally, &asked, minute, &shown);
    });
    tally.reached([0]).also(&REACHED);
    tally.also(&["cut off"]);
}

#[test]
fn the_model_of_tables() {
    let tally = tallied("the model of tables", 1_500, |case, tally| {
        let table = match case.random.below(4) {
            0 => generate::table(&mut case.random),
            1 => generate::relay_table(&mut case.random),
            _ => generate::small_table(&mut case.random),
        };
        let minute = generate::table_minute(&mut case.random, &table).min(END - 1);
        let bytes = table.encode();
        let accepted = Table::read(&bytes).unwrap();
        let week = Week::of(&accepted, &Cuts::of_table(&accepted), minute).unwrap();
        let asked = Asked {
            lent: Lent::Table(&bytes),
            cycle: table.cycle.into(),
            volunteers: table.users.into(),
            rights: table.permissions.into(),
            edges: Edges::of_table(&table),
        };
        let shown = model(&week);
        hold_to_questions(case, &asked, minute, &shown, &bytes);
        count(tally, &asked, minute, &shown);
    });
    tally.reached([0]).also(&["runs", "not before", "after also"]);
}

/// Names for some, odd ones too, in a file beside the rota.
fn names_file(random: &mut Random, rota: &reference::rota::Rota) -> String {
    let odd = ["Ruth", "<script>", "a & b", "O'Neill", "\"Q\"", "רות", "x.y_z", "]]>", "ぬ"];
    let mut names = Names::default();
    for (kind, count) in [(Kind::Volunteer, rota.users), (Kind::Right, rota.permissions)] {
        for number in 0..u32::from(count) {
            if random.one_in(2) {
                names.give(kind, number, &format!("{} {number}", random.pick(&odd))).unwrap();
            }
        }
    }
    command::names::NamesFile { names, head: None }.print()
}

/// The rota and its names in a folder, and the words that ask for its week.
fn written(
    folder: &Folder,
    random: &mut Random,
    rota: &reference::rota::Rota,
    minute: u32,
) -> Vec<String> {
    let path = folder.file("a.rota", rota.encode()).display().to_string();
    folder.file("a.rota.names", names_file(random, rota));
    ["week".to_string(), path, minute.to_string()].into()
}

#[test]
fn the_text_says_what_single_questions_say() {
    let folder = Folder::new("week-text");
    let tally = tallied("the text of weeks", 600, |case, tally| {
        let (rota, minute) = generated(&mut case.random);
        let bytes = rota.encode();
        let ran = run(&written(&folder, &mut case.random, &rota, minute), b"");
        assert_eq!((ran.status, ran.complaints.as_str()), (0, ""));
        let asked = asked(Lent::Rota(&bytes), &rota);
        let shown = read_text(ran.text(), asked.cycle);
        let numbers: Vec<u32> = shown.iter().map(|one| one.number).collect();
        assert_eq!(numbers, (0..asked.count(Kind::Right)).collect::<Vec<_>>());
        hold_to_questions(case, &asked, minute, &shown, &bytes);
        count(tally, &asked, minute, &shown);
        tally.count_if(ran.text().contains("each day"), "days together");
        tally.count_if(ran.text().contains("of the next day"), "nights together");
    });
    tally.reached([0]).also(&REACHED);
    tally.also(&["days together", "nights together"]);
}

#[test]
fn the_page_says_what_single_questions_say() {
    let folder = Folder::new("week-page");
    let tally = tallied("the page of weeks", 600, |case, tally| {
        let (rota, minute) = generated(&mut case.random);
        let bytes = rota.encode();
        let mut words = written(&folder, &mut case.random, &rota, minute);
        words.extend(["--html".into(), "-".into()]);
        let ran = run(&words, b"");
        assert_eq!((ran.status, ran.complaints.as_str()), (0, ""));
        let page = markup::page(ran.text());
        let asked = asked(Lent::Rota(&bytes), &rota);
        let shown = read_page(&page, asked.cycle, asked.turn(minute));
        let numbers: Vec<(bool, u32)> =
            shown.iter().map(|one| (one.is_volunteer, one.number)).collect();
        let expected: Vec<(bool, u32)> = (0..asked.rights)
            .map(|right| (false, right))
            .chain((0..asked.volunteers).map(|volunteer| (true, volunteer)))
            .collect();
        assert_eq!(numbers, expected);
        hold_to_questions(case, &asked, minute, &shown, &bytes);
        count(tally, &asked, minute, &shown);
        tally.count_if(ran.text().contains("&lt;script&gt;"), "a name to escape");
    });
    tally.reached([0]).also(&REACHED);
    tally.also(&["a name to escape"]);
}

/// Its page is kept, so that one can be looked at.
#[test]
fn the_page_of_the_weekly_rota() {
    let folder = Folder::new("week-kept");
    let (rota, out) = (data("week.rota").display().to_string(), folder.path("week.html"));
    let out_name = out.display().to_string();
    let ran = run(&["week", &rota, "2024-02-28", "--html", &out_name], b"");
    let wrote = format!("wrote {out_name}: the week from Mon 2024-02-26 to Sun 2024-03-03\n");
    assert_eq!((ran.status, ran.text()), (0, wrote.as_str()));
    let page = std::fs::read_to_string(out).unwrap();
    let is_kept = page == std::fs::read_to_string(data("week.html")).unwrap();
    assert!(is_kept, "data/week.html is not what softlode week makes of data/week.rota");
    for words in [
        "<h3 id='right-4-name'>approve a <span>record (4)</span></h3>",
        "<dt>Not the week before</dt>\n<dd><span>Fri 2024-03-01</span> from 13:00 to before 18:00: <span>Greta (6)</span></dd>",
        "<dt>The week before also</dt>\n<dd><span>Fri 2024-02-23</span> from 09:00 to before 18:00: <span>Hugo (7)</span></dd>",
    ] {
        assert!(page.contains(words), "{words}");
    }
}

/// The report of the weekly rota, to be drawn for a terminal.
fn weekly_report(bytes: &[u8], minute: u32) -> Report {
    let rota = Rota::read(bytes).unwrap();
    let table = rota.rewrite_to_vec().unwrap();
    let cuts = Cuts::of_rota(&Parts::of(&rota));
    Report {
        week: Week::of(&Table::read(&table).unwrap(), &cuts, minute).unwrap(),
        names: Names::default(),
        source: "week.rota".into(),
        by: "",
        today: None,
        chosen: None,
    }
}

#[test]
fn the_blocks_of_a_terminal() {
    let bytes = std::fs::read(data("week.rota")).unwrap();
    let minute = softlode::minute(2024, 2, 28, 0, 0).unwrap();
    let report = weekly_report(&bytes, minute);
    let begin = minute / 10_080 * 10_080;
    let rota = Rota::read(&bytes).unwrap();
    let boards: Vec<Vec<bool>> = (0..rota.counts().rights)
        .map(|right| {
            let volunteers = 0..rota.counts().volunteers;
            let held =
                |t: u32| volunteers.clone().any(|who| rota.may(who, right, t).unwrap().is_some());
            (begin..begin + 10_080).map(held).collect()
        })
        .collect();
    for (width, a_day) in [(20, 1), (60, 6), (80, 8), (100, 12), (200, 24), (1_200, 144)] {
        let look = Look { width, blocks: ['.', '+', '#'] };
        let text = terminal::print(&report, Some(&look));
        if width >= 60 {
            let longest = text.lines().map(|line| line.chars().count()).max();
            assert!(longest <= Some(width), "{width}: {longest:?}");
        }
        let drawn: Vec<&str> = text.lines().filter_map(|line| line.strip_prefix("  |")).collect();
        assert_eq!(drawn.len(), boards.len());
        for (line, held) in drawn.iter().zip(&boards) {
            let days: Vec<&str> = line.trim_end_matches('|').split('|').collect();
            assert!(days.len() == 7 && days.iter().all(|day| day.len() == a_day), "{line}");
            let cells = held.chunks(1_440 / a_day);
            let expected: String = cells
                .map(|cell| match cell.iter().filter(|&&held| held).count() {
                    0 => '.',
                    some if some == cell.len() => '#',
                    _ => '+',
                })
                .collect();
            assert_eq!(days.concat(), expected);
        }
        // Words are the same as without a terminal, but for the lines.
        let flat = |text: &str| text.split_whitespace().collect::<Vec<_>>().join(" ");
        let plain = terminal::print(&report, None);
        for line in plain.lines() {
            assert!(flat(&text).contains(&flat(line)), "{line}");
        }
        assert!(plain.is_ascii());
    }
}

/// What differs is marked below the blocks: Friday's merging before and after, the others' after.
#[test]
fn the_marks_of_a_terminal() {
    let bytes = std::fs::read(data("week.rota")).unwrap();
    let mut report = weekly_report(&bytes, softlode::minute(2024, 2, 28, 0, 0).unwrap());
    report.chosen = Some(vec![(Kind::Right, 6)]);
    let look = Look { width: 80, blocks: ['.', '+', '#'] };
    let text = terminal::print(&report, Some(&look));
    let drawn = "\nright 6
   Mon 26   Tue 27   Wed 28   Thu 29   Fri 01   Sat 02   Sun 03
  |...###..|...###..|...###..|...###..|...###..|........|........|
      >>>      >>>      >>>      >>>      <<<
  Mon 2024-02-26 to Thu 2024-02-29, each day";
    assert!(text.contains(drawn), "{text}");
    // A cycle of minutes has one line.
    let small = std::fs::read(data("small.rota")).unwrap();
    let text = terminal::print(&weekly_report(&small, 12), Some(&look));
    let drawn = "\nright 0\n   Mon 2001-01-01 00:10\n  |########..|\n   >>xx<<x>\n";
    assert!(text.contains(drawn), "{text}");
    // No width is too small or too large.
    for width in [0, 1, 2, 3, 1 << 32, usize::MAX] {
        let look = Look { width, blocks: ['.', '+', '#'] };
        for (bytes, minute) in [(&bytes, 12_180_960), (&small, 12)] {
            let text = terminal::print(&weekly_report(bytes, minute), Some(&look));
            assert!(text.contains("|"), "{text}");
        }
    }
}

#[test]
fn dates_and_choices() {
    let rota = data("week.rota").display().to_string();
    let week = |words: &[&str]| {
        let words: Vec<&str> = ["week", &rota].iter().chain(words).copied().collect();
        run(&words, b"")
    };
    let title = |words: &[&str]| {
        let ran = week(words);
        assert_eq!(ran.status, 0, "{words:?}: {}", ran.complaints);
        ran.text().lines().next().unwrap().to_string()
    };
    let expected = "The week from Mon 2024-02-26 to Sun 2024-03-03, by week.rota";
    for words in [
        &["2024-02-28"][..],
        &["2024-02-26 00:00"],
        &["2024-03-03", "23:59"],
        &["2024-03-03T23:59"],
        &["Wed 2024-02-28"],
        &["Wed", "2024-02-28", "11:00"],
        &["12180960"],
        &["minute", "12180960"],
    ] {
        assert_eq!(title(words), expected, "{words:?}");
    }
    // Without a date, it is the computer's: the one before or after it was asked.
    let now = || SystemTime::now().duration_since(UNIX_EPOCH).unwrap().as_secs() / 60 - 16_305_120;
    let days = || softlode::date(now() as u32).unwrap().to_string()[..14].to_string();
    let (first, ran, last) = (days(), week(&[]), days());
    assert_eq!(ran.status, 0);
    let today = |day: &str| {
        let words = format!(
            "\nNo date was named: this is today's week, by this computer's clock, on which it is {day} in UTC.\n"
        );
        ran.text().contains(&words) && ran.text().starts_with(&title(&[&day[4..]]))
    };
    assert!(today(&first) || today(&last), "{}", ran.text());
    // The ends of time.
    assert!(
        week(&["2001-01-01"])
            .text()
            .contains("There is no week before: 2001 begins with this one.")
    );
    assert!(
        week(&["2400-12-31"]).text().contains("There is no week after: 2400 ends with this one.")
    );
    // One right or volunteer alone.
    let headings = |words: &[&str]| -> Vec<String> {
        let text = week(&[&["2024-02-28"], words].concat());
        text.text().split("\n\n").skip(1).map(|one| one.lines().next().unwrap().into()).collect()
    };
    assert_eq!(headings(&["--right", "4"]), ["approve a record (4)"]);
    assert_eq!(headings(&["--right=approve a record"]), ["approve a record (4)"]);
    assert_eq!(headings(&["--volunteer", "Agnes"]), ["Agnes (0)"]);
    assert_eq!(headings(&["--volunteer", "7", "--right", "0"]), ["read a record (0)", "Hugo (7)"]);
    let volunteer = week(&["2024-02-28", "--volunteer", "9"]);
    assert!(
        volunteer
            .text()
            .ends_with("  Sun 2024-03-03 from 14:00 to before 17:00: discard a record (8)\n")
    );
    let page = week(&["2024-02-28", "--volunteer", "9", "--html", "-"]);
    assert_eq!(markup::page(page.text()).all("section").len(), 1);
    // A table is asked as a table, and says so.
    let table = run(&["week", &data("week.table").display().to_string(), "2024-02-28"], b"");
    assert!(table.text().starts_with(
        "The week from Mon 2024-02-26 to Sun 2024-03-03, by week.table (by the table)\n"
    ));
    let by_rota = week(&["2024-02-28", "--no-names"]);
    let times = |text: &str| text.split_once("\n\n").unwrap().1.to_string();
    assert_eq!(times(table.text()), times(by_rota.text()));
}

#[test]
fn what_cannot_be_shown() {
    let rota = data("week.rota").display().to_string();
    let folder = Folder::new("week-habits");
    let nowhere = folder.path("none/out.html").display().to_string();
    for (words, status, what) in [
        (&["2024-02-30"][..], 2, "2024-02-30 does not exist"),
        (&["Mon 2024-02-28"], 2, "2024-02-28 is a Wed, not a Mon"),
        (&["yesterday"], 2, "is no date"),
        (&["2024-02-28", "12:00", "x"], 2, "one word too many"),
        (&["210379680"], 1, "refused 33"),
        (&["2024-02-28", "--right", "10"], 2, "there is no right 10: there are 10 rights, from 0"),
        (&["2024-02-28", "--volunteer", "Rutt"], 2, "no volunteer named Rutt"),
        (&["2024-02-28", "--html"], 2, "--html needs a file after it"),
        (&["2024-02-28", "--right"], 2, "--right needs a name or a number after it"),
        (&["2024-02-28", "--html", "/dev/full"], 2, "cannot write /dev/full"),
        (&["2024-02-28", "--html", &nowhere], 2, "cannot write"),
    ] {
        let words: Vec<&str> = ["week", &rota].iter().chain(words).copied().collect();
        let ran = finish(program().args(&words), b"");
        assert_eq!((ran.status, ran.text()), (status, ""), "{words:?}: {}", ran.complaints);
        assert!(ran.complaints.contains(what), "{words:?}: {}", ran.complaints);
    }
    assert_eq!(run(&["week", "-", "0"], b"no rota").status, 1);
    assert_eq!(folder.names(), [""; 0]);
}

/// Rotas at all limits, and rotas with nothing in them.
#[test]
fn weeks_at_the_limits() {
    let mut random = Random::new(7);
    let mut largest = generate::rota_of(&mut random, &LIMITS);
    largest.roles = vec![HoursRef::Always; largest.roles.len()];
    for (rota, kind) in [
        (largest, "turn"),
        (generate::rota_of(&mut random, &generate::edge_sizes(1)), "turn"),
        (generate::rota_of(&mut random, &generate::edge_sizes(127)), "turn"),
        (generate::weekly_rota(), "week"),
    ] {
        let bytes = rota.encode();
        for minute in ["0", "105000000", "210379679"] {
            let text = run(&["week", "-", minute], &bytes);
            assert_eq!((text.status, text.complaints.as_str()), (0, ""));
            assert!(text.text().starts_with(&format!("The {kind} ")));
            let page = run(&["week", "-", minute, "--html", "-"], &bytes);
            assert_eq!(page.status, 0);
            let sections = markup::page(page.text()).all("section").len();
            assert_eq!(sections, usize::from(rota.users) + usize::from(rota.permissions));
        }
    }
}
