//! A host of the library, as a server would be one; hosts/host.c does the same in C, and
//! data/week.host is what both print for data/week.rota.
//!
//!     host ROTA

#![deny(warnings)]

use std::fmt::{Display, Write};
use std::io::Write as _;
use std::process::ExitCode;

use softlode::{
    LAST_MINUTE, Lent, MOST_QUESTIONS, Question, Refusal, Rota, RotaBuf, Service, TableBuf, date,
    fits, minute, version,
};

const HOUR: u32 = 60;
const DAY: u32 = 24 * HOUR;

/// The two services, what they have been doing, and the text of it.
struct Host {
    rota: RotaBuf,
    table: TableBuf,
    /// With the rota.
    service: Service,
    /// With the table.
    mirror: Service,
    advances: u32,
    closed: u32,
    opens: u32,
    closes: u32,
    yes: u32,
    no: u32,
    refused: u32,
    text: String,
}

/// Adds a line; a string takes every line.
macro_rules! say {
    ($text:expr, $($words:tt)*) => {
        writeln!($text, $($words)*).expect("a string grows")
    };
}

fn agreed<T: PartialEq>(a: T, b: T) -> T {
    if a != b {
        eprintln!("host: the rota and the table disagree");
        std::process::exit(1);
    }
    a
}

impl Host {
    /// A call of both services, which must tell and leave the same.
    fn call<T: PartialEq>(
        &mut self,
        call: impl Fn(&mut Service, Lent) -> Result<T, Refusal>,
    ) -> Result<T, Refusal> {
        let told = call(&mut self.service, Lent::from(&self.rota));
        let mirrored = call(&mut self.mirror, Lent::from(&self.table));
        agreed(self.service, self.mirror);
        agreed(told, mirrored)
    }

    /// The rota with its rows in order, as two coordinators compare theirs. Its table must be the
    /// same, and tidied again it must be the same.
    fn show_tidy(&mut self) -> Result<(), Refusal> {
        let tidy = self.rota.to_tidy()?;
        let counts = tidy.counts();
        assert_eq!(counts.format, 3);
        assert_eq!(tidy.to_table()?, self.table, "another table");
        assert_eq!(tidy.to_tidy()?, tidy, "tidied to another");
        say!(
            self.text,
            "tidy rota: {} + {} rows, {} bytes, with the same table",
            counts.volunteer_rows,
            counts.right_rows,
            tidy.bytes().len()
        );
        Ok(())
    }

    /// An hour begins: whoever holds a right now comes, and asks for every right; even numbers
    /// leave at noon.
    fn spend_hour(&mut self, minute: u32) -> Result<(), Refusal> {
        let counts = self.rota.counts();
        let closed = self.call(|service, lent| service.advance(lent, minute))?;
        let now = date(minute)?;
        self.advances += 1;
        self.closed += closed;
        if closed > 0 {
            say!(self.text, "{now} {closed} closed by the hour, open {:016x}", self.service.open);
        }
        for volunteer in 0..counts.volunteers {
            if self.service.is_open(volunteer) {
                continue;
            }
            if self.call(|service, lent| service.open(lent, volunteer)).is_err() {
                self.refused += 1;
                continue;
            }
            self.opens += 1;
            let mut rights = String::new();
            for right in 0..counts.rights {
                match self.call(|service, lent| service.ask(lent, volunteer, right))? {
                    Some(role) => {
                        self.yes += 1;
                        rights += &format!(" {right} by {role}");
                    }
                    None => self.no += 1,
                }
            }
            say!(self.text, "{now} volunteer {volunteer} opens; right by role:{rights}");
        }
        if now.hour == 12 {
            for volunteer in (0..counts.volunteers).step_by(2) {
                if self.call(|service, lent| service.close(lent, volunteer)).is_err() {
                    self.refused += 1;
                    continue;
                }
                self.closes += 1;
                say!(self.text, "{now} volunteer {volunteer} closes");
            }
        }
        Ok(())
    }

    /// Who may use each right at a minute, by questions without a service.
    fn show_users(&mut self, minute: u32) -> Result<(), Refusal> {
        let (counts, now) = (self.rota.counts(), date(minute)?);
        for right in 0..counts.rights {
            let mut volunteers = String::new();
            for volunteer in 0..counts.volunteers {
                let (rota, table) = (&self.rota, &self.table);
                let told = rota.may(volunteer, right, minute);
                if agreed(told, table.may(volunteer, right, minute))?.is_some() {
                    volunteers += &format!(" {volunteer}");
                }
            }
            say!(self.text, "{now} right {right} may be used by{volunteers}");
        }
        Ok(())
    }

    /// The staff board of a minute, as a screen in the hall shows it: who is on, and with which
    /// rights. Single questions must say the same.
    fn show_board(&mut self, minute: u32) -> Result<(), Refusal> {
        let (counts, board) = (self.rota.counts(), self.table.board(minute)?);
        let (rows, plural) = (board.rows, if board.rows == 1 { "" } else { "s" });
        say!(self.text, "{} staff board, by {rows} row{plural} of the table:", date(minute)?);
        let mut is_anyone = false;
        for volunteer in 0..counts.volunteers {
            for right in 0..counts.rights {
                let told = self.rota.may(volunteer, right, minute);
                let told = agreed(told, self.table.may(volunteer, right, minute))?;
                assert_eq!(board.may(volunteer, right), told.is_some(), "board and question");
            }
            let rights: String =
                board.rights_of(volunteer).map(|right| format!(" {right}")).collect();
            if !rights.is_empty() {
                say!(self.text, "  volunteer {volunteer} may use rights{rights}");
                is_anyone = true;
            }
        }
        say!(self.text, "  nobody {}may use a right", if is_anyone { "else " } else { "" });
        Ok(())
    }

    /// The page of a volunteer at a minute, as a tree viewer shows it: a button for each right,
    /// grey where it may not be used. One page to the rota and one to the table answer all, and
    /// single questions must say the same.
    fn show_page(&mut self, volunteer: u32, minute: u32) -> Result<(), Refusal> {
        let rights = 0..self.rota.counts().rights;
        let mut page: Vec<_> =
            rights.map(|right| Question::new(volunteer, right, minute)).collect();
        let mut mirror = page.clone();
        self.rota.page(&mut page)?;
        self.table.page(&mut mirror)?;
        let mut buttons = String::new();
        for Question { right, answer, .. } in agreed(page, mirror) {
            let told = self.rota.may(volunteer, right, minute);
            let told = agreed(told, self.table.may(volunteer, right, minute));
            assert_eq!(answer.role(), told, "page and question");
            buttons += &if told?.is_some() { format!(" [{right}]") } else { format!(" {right}") };
        }
        say!(self.text, "{} page of volunteer {volunteer}:{buttons}", date(minute)?);
        Ok(())
    }

    /// When each volunteer can next use each right, from a minute on, as a journey is planned: next
    /// Sunday's discard, or never again.
    fn show_next(&mut self, minute: u32) -> Result<(), Refusal> {
        let (counts, now) = (self.rota.counts(), date(minute)?);
        for volunteer in 0..counts.volunteers {
            let (mut uses, mut last) = (String::new(), None);
            for right in 0..counts.rights {
                let next = self.table.next_use(volunteer, right, minute)?;
                let Some(at) = next else { continue };
                let told = self.rota.may(volunteer, right, at);
                let told = agreed(told, self.table.may(volunteer, right, at))?;
                assert!(told.is_some(), "a next use that is none");
                if let Some(before) = last.filter(|&before| before != at) {
                    uses += &format!(" on {},", date(before)?);
                }
                uses += &format!(" {right}");
                last = next;
            }
            match last {
                Some(at) => {
                    say!(
                        self.text,
                        "{now} volunteer {volunteer} can next use rights{uses} on {}",
                        date(at)?
                    )
                }
                None => say!(self.text, "{now} volunteer {volunteer} can use no right any more"),
            }
        }
        Ok(())
    }

    fn show_refusal<T>(&mut self, what: &str, given: Result<T, Refusal>) {
        let told: &dyn Display = match &given {
            Ok(_) => &"accepted",
            Err(refusal) => refusal,
        };
        say!(self.text, "{what}: {told}");
    }

    /// Damaged bytes and wrong numbers: each is one refusal, and leaves the record.
    fn show_refusals(&mut self) {
        let mut other = self.rota.bytes().to_vec();
        let short = &other[..other.len() - 1];
        self.show_refusal("the rota without its last byte", Rota::read(short));
        other[0] ^= 0xff;
        self.show_refusal("the rota with another first byte", Rota::read(&other));
        other[0] = 3;
        self.show_refusal("the rota as a tidy one", Rota::read(&other));
        self.show_refusal("an area of 8 bytes", self.rota.rewrite(&mut [0; 8]));
        self.show_refusal("an area of 8 bytes to tidy in", self.rota.tidy(&mut [0; 8]));
        let mut short = self.table.bytes().to_vec();
        short.pop();
        self.show_refusal("the table without its last byte", TableBuf::read(short));
        self.show_refusal("the next use by volunteer 256", self.table.next_use(256, 0, 0));
        self.show_refusal("the board of minute 210379680", self.table.board(LAST_MINUTE + 1));
        let mut long_page = [Question::default(); MOST_QUESTIONS + 1];
        self.show_refusal("a page of 257 questions", self.table.page(&mut long_page));
        let told = self.call(|service, lent| service.open(lent, 256));
        self.show_refusal("an open of volunteer 256", told);
        let told = self.call(|service, lent| service.advance(lent, 0));
        self.show_refusal("an advance to minute 0", told);
        self.show_refusal("29 February 2023", minute(2023, 2, 29, 0, 0));
    }
}

/// All that the host prints for a rota.
fn week(file: Vec<u8>) -> Result<String, Refusal> {
    let rota = RotaBuf::read(file)?;
    let counts = rota.counts();
    let mut host = Host {
        table: rota.to_table()?,
        rota,
        service: Service::fresh(),
        mirror: Service::fresh(),
        advances: 0,
        closed: 0,
        opens: 0,
        closes: 0,
        yes: 0,
        no: 0,
        refused: 0,
        text: String::new(),
    };
    say!(
        host.text,
        "rota: format {}, cycle {}, {} hours, {} volunteers, {} rights, {} roles, {} + {} rows",
        counts.format,
        counts.cycle,
        counts.hours,
        counts.volunteers,
        counts.rights,
        counts.roles,
        counts.volunteer_rows,
        counts.right_rows
    );
    let (table, length) = (host.table.counts(), host.table.bytes().len());
    say!(host.text, "table: {} derived roles, {} rows, {length} bytes", table.derived, table.rows);
    host.show_tidy()?;

    let monday = minute(2024, 2, 26, 0, 0)?;
    for hour in 0..7 * 24 {
        host.spend_hour(monday + HOUR * hour)?;
    }
    host.show_users(monday + 2 * DAY + 11 * HOUR)?;
    host.show_board(monday + 2 * DAY + 11 * HOUR)?;
    for volunteer in 0..counts.volunteers {
        host.show_page(volunteer, monday + 2 * DAY + 11 * HOUR)?;
    }
    host.show_next(monday + 7 * DAY)?;
    host.show_refusals();
    let Host { service, advances, closed, opens, closes, yes, no, refused, mut text, .. } = host;
    say!(
        text,
        "{advances} advances closed {closed}; {opens} opens, {closes} closes, {yes} yes, {no} no, \
         {refused} refused; at {} open {:016x}",
        date(service.now)?,
        service.open
    );
    say!(text, "the rota and the table agree");
    Ok(text)
}

/// A line on standard error, and status 2.
fn fail(what: impl Display) -> ExitCode {
    eprintln!("host: {what}");
    ExitCode::from(2)
}

fn main() -> ExitCode {
    if !fits() {
        return fail(format_args!("the library is of version {}, which does not fit", version()));
    }
    let arguments: Vec<_> = std::env::args_os().skip(1).collect();
    let [name] = arguments.as_slice() else {
        return fail("usage: host ROTA");
    };
    let Ok(file) = std::fs::read(name) else {
        return fail(format_args!("cannot read {}", name.display()));
    };
    let (text, status) = match week(file) {
        Ok(text) => (text, ExitCode::SUCCESS),
        Err(refusal) => (format!("{refusal}\n"), ExitCode::FAILURE),
    };
    if std::io::stdout().write_all(text.as_bytes()).is_err() {
        return fail("cannot write");
    }
    status
}
