//! What is wrong with a text is told with its line and column, and nothing is written.

mod common;

use command::text::pack;

const TEXT: &str = "\
rota format 1
cycle 1 week

hours 0 opening
    dates from Mon 2001-01-01 00:00 to the end of 2400
    open from Mon 09:00 to before Mon 18:00
    open from Tue 09:00 to before Tue 18:00
hours 1 \"winter Wednesdays\"
    dates from Wed 2023-11-01 00:00 to before Fri 2024-03-01 00:00
    open from Wed 10:00 to before Wed 16:00

volunteer 0 coordinator
volunteer 1
right 0 \"read a record\"
role 0 reader in opening
role 1 transcriber always

coordinator is reader in opening
volunteer 1 is role 1 always
\"read a record\" to reader always
";

/// The complaint about the text with one thing changed.
fn complaint(old: &str, new: &str) -> String {
    assert!(TEXT.contains(old), "{old}");
    let text = TEXT.replacen(old, new, 1);
    match pack(&text) {
        Ok(_) => panic!("accepted:\n{text}"),
        Err(why) => why.to_string(),
    }
}

#[test]
fn every_kind_of_line_has_its_complaints() {
    pack(TEXT).expect("the text is fine as it is");
    let complaints = [
        // The first lines.
        (
            "rota format 1",
            "rota format 2",
            "line 1, column 13: there is no rota of format 2; it is 1 or 3",
        ),
        (
            "rota format 1",
            "rota format",
            "line 1, column 12: the format, 1 or 3, is missing at the end of the line",
        ),
        ("rota format 1", "rota 1", "line 1, column 6: format is expected here, not 1"),
        (
            "rota format 1",
            "Rota format 1",
            "line 1, column 1: a rota begins with the line rota format 1, or rota format 3",
        ),
        (
            "rota format 1\n",
            "",
            "line 1, column 1: a rota begins with the line rota format 1, or rota format 3",
        ),
        (
            "cycle 1 week\n",
            "",
            "line 3, column 1: the second line is the cycle, such as cycle 1 week",
        ),
        (
            "cycle 1 week",
            "cycle 1 weak",
            "line 2, column 9: minutes, hours, days or weeks is expected here, not weak; did you mean week?",
        ),
        (
            "cycle 1 week",
            "cycle one week",
            "line 2, column 7: the length of the cycle, such as 1 week, is expected here, not one",
        ),
        (
            "cycle 1 week",
            "cycle 0 weeks",
            "line 2, column 7: a cycle has 1 to 40320 minutes, which are 4 weeks, not 0",
        ),
        (
            "cycle 1 week",
            "cycle 5 weeks",
            "line 2, column 7: a cycle has 1 to 40320 minutes, which are 4 weeks, not 50400",
        ),
        (
            "cycle 1 week",
            "cycle 99999999999999 weeks",
            "line 2, column 7: a cycle has 1 to 40320 minutes, which are 4 weeks, not 43293270333600",
        ),
        ("cycle 1 week", "cycle 1 week 2", "line 2, column 14: 2 is one word too many"),
        (
            "cycle 1 week",
            "cycle 1 week\nrota format 1",
            "line 3, column 1: the format is said already",
        ),
        (
            "cycle 1 week",
            "cycle 1 week\ncycle 1 week",
            "line 3, column 1: the cycle is said already",
        ),
        // Declarations.
        (
            "hours 0 opening",
            "hours 1 opening",
            "line 4, column 7: hours 0 comes next, not 1: the numbers begin with 0",
        ),
        (
            "hours 1",
            "hours 2",
            "line 8, column 7: hours 1 comes next, not 2: hours 0 is the last before it",
        ),
        (
            "volunteer 1\n",
            "volunteer 0\n",
            "line 13, column 11: volunteer 1 comes next, not 0: volunteer 0 is the last before it",
        ),
        (
            "volunteer 1\n",
            "volunteer 1 coordinator\n",
            "line 13, column 13: the name coordinator is used twice: volunteer 0 has it",
        ),
        (
            "volunteer 1\n",
            "volunteer 1 Coordinator\n",
            "line 13, column 13: the name Coordinator is used twice: volunteer 0 has it, but for capitals",
        ),
        (
            "volunteer 1\n",
            "volunteer 1 in\n",
            "line 13, column 13: in is a word of the language; as a name it stands in quotes: \"in\"",
        ),
        (
            "volunteer 1\n",
            "volunteer 1 a:b\n",
            "line 13, column 13: a:b is no name; a name has letters and digits, - _ . and ', or stands in quotes",
        ),
        (
            "volunteer 1\n",
            "volunteer 1 2024-03-01\n",
            "line 13, column 13: 2024-03-01 is no name; a name has letters and digits, - _ . and ', or stands in quotes",
        ),
        (
            "volunteer 1\n",
            "volunteer 1 \"17\"\n",
            "line 13, column 13: a name is not a number, as 17 is",
        ),
        (
            "volunteer 1\n",
            "volunteer 1 \"\"\n",
            "line 13, column 13: a name has at least one character",
        ),
        (
            "volunteer 1\n",
            "volunteer 1 \" x\"\n",
            "line 13, column 13: a name has no blank before or after it, and no two together",
        ),
        (
            "volunteer 1\n",
            "volunteer 1 \"a\u{200b}b\"\n",
            "line 13, column 13: a name has no character that cannot be seen, such as \\u{200b}",
        ),
        (
            "volunteer 1\n",
            "volunteer 1 \"a\tb\"\n",
            "line 13, column 13: a name has no character that cannot be seen, such as \\u{9}",
        ),
        ("volunteer 1\n", "volunteer 1 Ruth B\n", "line 13, column 18: B is one word too many"),
        (
            "volunteer 1\n",
            "volunteer one\n",
            "line 13, column 11: the number of the volunteer is expected here, not one",
        ),
        (
            "hours 1 \"winter Wednesdays\"",
            "hours 1 \"always\"",
            "line 8, column 9: no name is always: it would be misread",
        ),
        (
            "role 0 reader in opening",
            "role 0 reader",
            "line 15, column 14: always, or in and hours, is missing at the end of the line",
        ),
        (
            "role 0 reader in opening",
            "role 0 reader on opening",
            "line 15, column 15: always, or in and hours, is expected here, not on",
        ),
        (
            "role 0 reader in opening",
            "role 0 reader in openning",
            "line 15, column 18: there are no hours named openning; did you mean opening?",
        ),
        (
            "role 0 reader in opening",
            "role 0 reader in hours 2",
            "line 15, column 18: there are no hours 2: the text has 2 hours",
        ),
        // Quotes.
        (
            "\"winter Wednesdays\"",
            "\"winter Wednesdays",
            "line 8, column 9: a name in quotes does not end on its line",
        ),
        (
            "\"winter Wednesdays\"",
            "\"winter \\Wednesdays\"",
            "line 8, column 17: a backslash stands only before a quote or a backslash",
        ),
        (
            "\"winter Wednesdays\"",
            "\"winter\"Wednesdays",
            "line 8, column 17: a blank must stand before and after a name in quotes",
        ),
        (
            "\"winter Wednesdays\"",
            "winter\"Wednesdays\"",
            "line 8, column 15: a blank must stand before and after a name in quotes",
        ),
        // Dates.
        ("2024-03-01", "2024-02-30", "line 9, column 51: 2024-02-30 does not exist"),
        ("2024-03-01", "2023-02-29", "line 9, column 51: 2023-02-29 does not exist"),
        ("2024-03-01", "2401-01-02", "line 9, column 51: 2401-01-02 is not in 2001 to 2400"),
        ("2023-11-01", "2000-11-01", "line 9, column 20: 2000-11-01 is not in 2001 to 2400"),
        ("2023-11-01", "2401-01-01", "line 9, column 20: 2401-01-01 is not in 2001 to 2400"),
        (
            "2024-03-01",
            "2024-3-1",
            "line 9, column 51: 2024-3-1 is no date; a date is written as 2024-03-01",
        ),
        ("Fri 2024-03-01", "Mon 2024-03-01", "line 9, column 47: 2024-03-01 is a Fri, not a Mon"),
        (
            "Fri 2024-03-01",
            "Friday 2024-03-01",
            "line 9, column 47: Friday is no weekday; did you mean Fri?",
        ),
        (
            "Fri 2024-03-01",
            "Fru 2024-03-01",
            "line 9, column 47: Fru is no date; a date is written as 2024-03-01; did you mean Fri?",
        ),
        (
            "Fri 2024-03-01 00:00",
            "Fri 2024-03-01",
            "line 9, column 61: a time such as 09:00 is missing at the end of the line",
        ),
        (
            "Fri 2024-03-01 00:00",
            "Wed 2023-11-01 00:00",
            "line 9, column 47: the dates end at Wed 2023-11-01 00:00, not after they begin, at Wed 2023-11-01 00:00",
        ),
        (
            "Wed 2023-11-01 00:00",
            "Wed 2023-11-01 24:00",
            "line 9, column 31: 24:00 ends a day; what begins then begins at 00:00 of the next day",
        ),
        (
            "Wed 2023-11-01 00:00",
            "minute 210379680",
            "line 9, column 23: there is no minute 210379680: the last is 210379679, with 2400",
        ),
        (
            "Fri 2024-03-01 00:00",
            "minute 210379681",
            "line 9, column 54: there is no minute 210379681: the last is 210379680, with 2400",
        ),
        (
            "to before Fri 2024-03-01 00:00",
            "to Fri 2024-03-01 00:00",
            "line 9, column 40: before and a date, or the end of 2400, is expected here, not Fri",
        ),
        (
            "to the end of 2400",
            "to the end of 2300",
            "line 5, column 51: 2400 is expected here, not 2300",
        ),
        (
            "    dates from Mon 2001-01-01 00:00 to the end of 2400\n",
            "",
            "line 5, column 5: the dates line of hours comes before their open lines",
        ),
        (
            "    open from Wed 10:00 to before Wed 16:00\n",
            "",
            "line 8, column 1: hours 1 has no open line",
        ),
        (
            "    open from Wed 10:00",
            "    dates from minute 0 to before minute 1\n    open from Wed 10:00",
            "line 10, column 5: hours 1 has its dates already",
        ),
        (
            "volunteer 1\n",
            "volunteer 1\nopen from Mon 09:00 to before Mon 18:00\n",
            "line 14, column 1: a line of open stands below its hours line",
        ),
        // Positions.
        (
            "Mon 18:00",
            "Mon 25:00",
            "line 6, column 39: 25:00 does not exist; the last time of a day is 23:59, and an end can be 24:00",
        ),
        (
            "Mon 18:00",
            "Mon 24:01",
            "line 6, column 39: 24:01 does not exist; the last time of a day is 23:59, and an end can be 24:00",
        ),
        (
            "Mon 18:00",
            "Mon 9:60",
            "line 6, column 39: 9:60 does not exist; an hour has the minutes 00 to 59",
        ),
        ("Mon 18:00", "Mon 18:0", "line 6, column 39: 18:0 is no time; a time is written as 09:00"),
        (
            "Mon 18:00",
            "Mon 18",
            "line 6, column 39: a position in the cycle is expected here, not 18; it is written as Mon 09:00, or minute 540",
        ),
        (
            "Mon 18:00",
            "18:00",
            "line 6, column 35: a position in the cycle is expected here, not 18:00; it is written as Mon 09:00, or minute 540",
        ),
        ("Mon 18:00", "mon 18:00", "line 6, column 35: mon is no weekday; did you mean Mon?"),
        ("Mon 18:00", "Monday 18:00", "line 6, column 35: Monday is no weekday; did you mean Mon?"),
        (
            "from Mon 09:00",
            "from Mon 24:00",
            "line 6, column 19: 24:00 ends a day; what begins then begins at 00:00 of the next day",
        ),
        (
            "Mon 18:00",
            "minute 10081",
            "line 6, column 35: minute 10081 is past the cycle, which has 10080 minutes",
        ),
        (
            "from Mon 09:00",
            "from minute 10080",
            "line 6, column 15: minute 10080 is past the cycle, which has 10080 minutes",
        ),
        (
            "Mon 18:00",
            "Mon 09:00",
            "line 6, column 35: it ends at Mon 09:00, not after it begins, at Mon 09:00; across the end of the cycle stand two lines, to before Sun 24:00 and from Mon 00:00",
        ),
        (
            "Tue 18:00",
            "Mon 01:00",
            "line 7, column 35: it ends at Mon 01:00, not after it begins, at Tue 09:00; across the end of the cycle stand two lines, to before Sun 24:00 and from Mon 00:00",
        ),
        (
            "to before Mon 18:00",
            "to Mon 18:00",
            "line 6, column 28: before is expected here, not Mon",
        ),
        ("open from", "opened from", "line 6, column 5: unknown word opened; did you mean open?"),
        // Rows.
        (
            "coordinator is reader",
            "coordinater is reader",
            "line 18, column 1: there is no volunteer named coordinater; did you mean coordinator?",
        ),
        (
            "coordinator is reader",
            "Coordinator is reader",
            "line 18, column 1: there is no volunteer named Coordinator; did you mean coordinator?",
        ),
        (
            "coordinator is reader",
            "coordinator is raeder",
            "line 18, column 16: there is no role named raeder; did you mean reader?",
        ),
        (
            "coordinator is reader",
            "coordinator to reader",
            "line 18, column 1: there is no right named coordinator",
        ),
        (
            "coordinator is reader",
            "coordinator reader",
            "line 18, column 13: is or to after the name coordinator is expected here, not reader",
        ),
        (
            "coordinator is reader",
            "coordinator",
            "line 18, column 13: is or to after the name coordinator is expected here, not in",
        ),
        (
            "is reader in opening",
            "is reader",
            "line 18, column 22: always, or in and hours, is missing at the end of the line",
        ),
        (
            "is reader in opening",
            "is reader in",
            "line 18, column 25: a name, or hours and a number, is missing at the end of the line",
        ),
        (
            "is reader in opening",
            "is",
            "line 18, column 15: a name, or role and a number, is missing at the end of the line",
        ),
        (
            "volunteer 1 is",
            "volunteer 2 is",
            "line 19, column 1: there is no volunteer 2: the text has 2 volunteers",
        ),
        (
            "volunteer 1 is",
            "volunteer 1 to",
            "line 19, column 13: a volunteer is a role; is is expected here, not to",
        ),
        (
            "is role 1 always",
            "is role 2 always",
            "line 19, column 16: there is no role 2: the text has 2 roles",
        ),
        (
            "is role 1 always",
            "is role 1 sometimes",
            "line 19, column 23: always, or in and hours, is expected here, not sometimes",
        ),
        (
            "\"read a record\" to",
            "\"read a recrod\" to",
            "line 20, column 1: there is no right named \"read a recrod\"; did you mean \"read a record\"?",
        ),
        (
            "\"read a record\" to",
            "always to",
            "line 20, column 1: always is a word of the language; as a name it stands in quotes: \"always\"",
        ),
        (
            "\"read a record\" to",
            "7 to",
            "line 20, column 1: 7 is no name; a name has letters and digits, - _ . and ', or stands in quotes",
        ),
        (
            "\"read a record\" to",
            "? to",
            "line 20, column 1: ? is no name; a name has letters and digits, - _ . and ', or stands in quotes",
        ),
        (
            "\"read a record\" to",
            "volunter 0 to",
            "line 20, column 1: unknown word volunter; did you mean volunteer?",
        ),
        (
            "\"read a record\" to reader",
            "\u{1b}[2J",
            "line 20, column 1: no line begins with \\u{1b}[2J",
        ),
    ];
    for (old, new, expected) in complaints {
        assert_eq!(complaint(old, new), expected, "{new}");
    }
}

/// What only the library judges is told with its number, and with the lines.
#[test]
fn what_the_library_refuses_has_its_number_and_lines() {
    let pair = "refused 8: a pair is empty, goes past the cycle, or does not start later than the end of the pair before it";
    let in_order = "open lines stand in order, with time between them";
    let told = [
        ("Mon 17:00", "it begins at Mon 17:00, but the pair before it ends at Mon 18:00"),
        (
            "Mon 18:00",
            "it begins at Mon 18:00, where the pair before it ends: the two touch, and would be one",
        ),
    ];
    for (begin, why) in told {
        assert_eq!(
            complaint("open from Tue 09:00", &format!("open from {begin}")),
            format!("line 7: {pair}\n  {why} (line 6); {in_order}")
        );
    }
    // The rows of the text ascend, so that it is fine in format 3 too; a row that falls is named.
    pack(&TEXT.replace("format 1", "format 3")).expect("its rows ascend");
    let fallen = TEXT.replace("format 1", "format 3").replace(
        "volunteer 1 is role 1 always\n",
        "volunteer 1 is role 1 always\n# more\ncoordinator is transcriber always\n",
    );
    assert_eq!(
        pack(&fallen).unwrap_err().to_string(),
        "line 21: refused 52: a row of a format 3 rota is not above the row before it\n  role 1, volunteer 0, always stands after role 1, \
         volunteer 1, always, but comes before it in order (line 19); softlode tidy puts the rows of a rota of format 1 in order"
    );
}

#[test]
fn limits_of_a_text() {
    let head = "rota format 1\ncycle 4 weeks\n";
    let many =
        |count: usize, line: &dyn Fn(usize) -> String| -> String { (0..count).map(line).collect() };
    let hours = |count: usize| {
        many(count, &|i| {
            format!(
                "hours {i}\ndates from minute 0 to before minute 1\nopen from minute 0 to before minute 1\n"
            )
        })
    };
    let opens = |count: usize| {
        many(count, &|i| format!("open from minute {} to before minute {}\n", 2 * i, 2 * i + 1))
    };
    let of = |kind: &'static str, count: usize| many(count, &|i| format!("{kind} {i}\n"));
    let roles = |count: usize| many(count, &|i| format!("role {i} always\n"));
    let row = |row: &'static str, count: usize| {
        format!("volunteer 0\nright 0\nrole 0 always\n{}", many(count, &|_| format!("{row}\n")))
    };
    let record = "hours 0\ndates from minute 0 to before minute 1\n";
    let texts = [
        (hours(32), hours(33), "line 99, column 7: a rota has at most 32 hours"),
        (
            of("volunteer", 64),
            of("volunteer", 65),
            "line 67, column 11: a rota has at most 64 volunteers",
        ),
        (of("right", 64), of("right", 65), "line 67, column 7: a rota has at most 64 rights"),
        (roles(32), roles(33), "line 35, column 6: a rota has at most 32 roles"),
        (
            format!("{record}{}", opens(256)),
            format!("{record}{}", opens(257)),
            "line 261, column 1: a rota has at most 256 open lines in all",
        ),
        (
            row("volunteer 0 is role 0 always", 512),
            row("volunteer 0 is role 0 always", 513),
            "line 518, column 1: a rota has at most 512 rows of a volunteer",
        ),
        (
            row("right 0 to role 0 always", 512),
            row("right 0 to role 0 always", 513),
            "line 518, column 1: a rota has at most 512 rows of a right",
        ),
    ];
    for (most, over, expected) in texts {
        pack(&format!("{head}{most}")).unwrap_or_else(|why| panic!("{why}"));
        assert_eq!(pack(&format!("{head}{over}")).unwrap_err().to_string(), expected);
    }
    for (text, expected) in [
        ("", "line 1, column 1: a line such as rota format 1 is missing"),
        ("# nothing\n\n", "line 2, column 1: a line such as rota format 1 is missing"),
        ("rota format 1\n", "line 1, column 1: a line such as cycle 1 week is missing"),
    ] {
        assert_eq!(pack(text).unwrap_err().to_string(), expected);
    }
    assert_eq!(
        pack("rota format 3\ncycle 1 minute").unwrap().bytes,
        [3, 0, 1, 0, 0, 0, 0, 0, 0, 0, 0, 0]
    );
}

/// Positions in cycles of every shape.
#[test]
fn positions_in_other_cycles() {
    let open = |cycle: &str, open: &str| {
        let text = format!(
            "rota format 1\ncycle {cycle}\nhours 0\ndates from minute 0 to before minute 1\nopen {open}\n"
        );
        pack(&text)
            .map(|packed| {
                let [a, b, c, d] = packed.bytes[22..26] else { panic!("a pair") };
                (u16::from_le_bytes([a, b]), u16::from_le_bytes([c, d]))
            })
            .map_err(|why| why.to_string())
    };
    assert_eq!(
        open("2 weeks", "from week 2 Mon 09:00 to before week 2 Sun 24:00"),
        Ok((10_620, 9_540))
    );
    assert_eq!(open("3 days", "from day 3 09:00 to before day 3 24:00"), Ok((3_420, 900)));
    assert_eq!(open("1 day", "from 00:00 to before 24:00"), Ok((0, 1_440)));
    assert_eq!(open("90 minutes", "from minute 89 to before minute 90"), Ok((89, 1)));
    for (cycle, interval, expected) in [
        (
            "2 weeks",
            "from week 3 Mon 09:00 to before week 2 Mon 10:00",
            "line 5, column 16: there is no week 3: the cycle has 2 weeks, from 1",
        ),
        (
            "2 weeks",
            "from week 0 Mon 09:00 to before week 2 Mon 10:00",
            "line 5, column 16: there is no week 0: the cycle has 2 weeks, from 1",
        ),
        (
            "2 weeks",
            "from Mon 09:00 to before Mon 10:00",
            "line 5, column 11: a position in the cycle is expected here, not Mon; it is written as week 1 Mon 09:00, or minute 540",
        ),
        (
            "3 days",
            "from day 4 09:00 to before day 4 10:00",
            "line 5, column 15: there is no day 4: the cycle has 3 days, from 1",
        ),
        (
            "3 days",
            "from Mon 09:00 to before Mon 10:00",
            "line 5, column 11: a position in the cycle is expected here, not Mon; it is written as day 1 09:00, or minute 540",
        ),
        (
            "1 day",
            "from Mon 09:00 to before Mon 10:00",
            "line 5, column 11: a position in the cycle is expected here, not Mon; it is written as 09:00, or minute 540",
        ),
        (
            "90 minutes",
            "from 00:00 to before 01:00",
            "line 5, column 11: a position in the cycle is expected here, not 00:00; it is written as minute 6",
        ),
        (
            "90 minutes",
            "from minute x to before minute 8",
            "line 5, column 18: the number of a minute is expected here, not x",
        ),
    ] {
        assert_eq!(open(cycle, interval).unwrap_err(), expected, "{cycle}, {interval}");
    }
}

#[test]
fn bytes_that_are_no_text() {
    let pack = |text: &[u8]| {
        let ran = common::run(&["pack", "-"], text);
        assert_eq!((ran.status, ran.output.as_slice()), (1, &[][..]));
        ran.complaints
    };
    assert_eq!(
        pack(b"rota format 1\ncycle \xff"),
        "softlode: standard input, line 2, column 7: byte 0xff is no UTF-8 text\n"
    );
    let rota = std::fs::read(common::data("week.rota")).unwrap();
    assert!(
        pack(&rota)
            .ends_with("these look like bytes, not text: softlode text makes the text of a rota\n")
    );
    let long = common::run(&["pack", "-"], &vec![b'#'; (4 << 20) + 1]);
    assert_eq!(
        (long.status, long.complaints.as_str()),
        (2, "softlode: standard input is too long: a text has at most 4194304 bytes\n")
    );
}
