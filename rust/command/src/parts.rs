//! The parts of a rota: what its bytes say, and back. It decides nothing: bytes are taken apart
//! after the library has accepted them, and put together for the library to judge.

use softlode::Rota;

/// The byte of an hours reference that is always.
pub const ALWAYS: u8 = 255;
/// How many bytes come before the hours records.
pub const HEADER: usize = 12;

/// An hours record: from a minute to before another, and pairs of offset and length.
#[derive(Clone, Debug, PartialEq, Eq)]
pub struct Hours {
    pub begin: u32,
    pub end: u32,
    pub pairs: Vec<(u16, u16)>,
}

/// A row: a volunteer or a right, a role, and the byte of its hours.
#[derive(Clone, Copy, Debug, PartialEq, Eq)]
pub struct Row {
    pub number: u8,
    pub role: u8,
    pub hours: u8,
}

#[derive(Clone, Debug, Default, PartialEq, Eq)]
pub struct Parts {
    pub format: u16,
    pub cycle: u16,
    pub hours: Vec<Hours>,
    pub volunteers: u8,
    pub rights: u8,
    /// The byte of the hours of each role.
    pub roles: Vec<u8>,
    pub volunteer_rows: Vec<Row>,
    pub right_rows: Vec<Row>,
}

/// The number of some bytes, low byte first.
pub fn low_first(bytes: &[u8]) -> u64 {
    bytes.iter().rev().fold(0, |number, &byte| number << 8 | u64::from(byte))
}

/// Passes bytes from the front; past the end they are 0.
struct Reader<'a>(&'a [u8]);

impl Reader<'_> {
    fn number(&mut self, width: usize) -> u32 {
        let (taken, rest) = self.0.split_at(width.min(self.0.len()));
        self.0 = rest;
        low_first(taken) as u32
    }

    fn byte(&mut self) -> u8 {
        self.number(1) as u8
    }

    fn short(&mut self) -> u16 {
        self.number(2) as u16
    }
}

impl Parts {
    /// The parts of a rota that was accepted.
    pub fn of(rota: &Rota) -> Parts {
        let counts = rota.counts();
        let mut reader = Reader(&rota.bytes()[HEADER..]);
        let hours = |_| {
            let (begin, end, count) = (reader.number(4), reader.number(4), reader.short());
            let pairs = (0..count).map(|_| (reader.short(), reader.short())).collect();
            Hours { begin, end, pairs }
        };
        let hours = (0..counts.hours).map(hours).collect();
        let roles = (0..counts.roles).map(|_| reader.byte()).collect();
        let mut rows = |count: u32| {
            let mut row =
                |_| Row { number: reader.byte(), role: reader.byte(), hours: reader.byte() };
            (0..count).map(&mut row).collect()
        };
        Parts {
            format: counts.format as u16,
            cycle: counts.cycle as u16,
            hours,
            volunteers: counts.volunteers as u8,
            rights: counts.rights as u8,
            roles,
            volunteer_rows: rows(counts.volunteer_rows),
            right_rows: rows(counts.right_rows),
        }
    }

    /// The bytes of the parts, which nobody has judged.
    pub fn bytes(&self) -> Vec<u8> {
        let mut out = Vec::new();
        out.extend(self.format.to_le_bytes());
        out.extend(self.cycle.to_le_bytes());
        out.extend([self.hours.len() as u8, self.volunteers, self.rights, self.roles.len() as u8]);
        out.extend((self.volunteer_rows.len() as u16).to_le_bytes());
        out.extend((self.right_rows.len() as u16).to_le_bytes());
        for Hours { begin, end, pairs } in &self.hours {
            out.extend(begin.to_le_bytes());
            out.extend(end.to_le_bytes());
            out.extend((pairs.len() as u16).to_le_bytes());
            for (offset, length) in pairs {
                out.extend(offset.to_le_bytes());
                out.extend(length.to_le_bytes());
            }
        }
        out.extend(&self.roles);
        for Row { number, role, hours } in self.volunteer_rows.iter().chain(&self.right_rows) {
            out.extend([number, role, hours]);
        }
        out
    }
}
