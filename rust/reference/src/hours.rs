//! Hours records: a span of minutes and the parts of the cycle that count within it.

use crate::bytes::{u16_at, u32_at};
use crate::{END, Refusal};

/// Most pairs in all hours records of a rota together.
pub const PAIR_LIMIT: u32 = 256;

/// One stretch of the cycle.
#[derive(Clone, Copy, Debug, PartialEq, Eq)]
pub struct Pair {
    pub offset: u16,
    pub length: u16,
}

impl Pair {
    /// offset + length, as a number that does not wrap.
    pub fn end(&self) -> u32 {
        u32::from(self.offset) + u32::from(self.length)
    }
}

#[derive(Clone, Debug, PartialEq, Eq)]
pub struct Hours {
    pub begin: u32,
    pub end: u32,
    pub pairs: Vec<Pair>,
}

/// What a role or a row refers to.
#[derive(Clone, Copy, Debug, PartialEq, Eq)]
pub enum HoursRef {
    Always,
    Numbered(u8),
}

impl HoursRef {
    /// 255 is always; else the number of one of `count` records.
    pub fn from_byte(byte: u8, count: usize) -> Option<HoursRef> {
        match byte {
            255 => Some(HoursRef::Always),
            number if usize::from(number) < count => Some(HoursRef::Numbered(number)),
            _ => None,
        }
    }

    pub fn to_byte(self) -> u8 {
        match self {
            HoursRef::Always => 255,
            HoursRef::Numbered(number) => number,
        }
    }

    /// Whether the hours that are meant hold at minute `t`.
    pub fn hold(self, hours: &[Hours], cycle: u32, t: u32) -> bool {
        match self {
            HoursRef::Always => t < END,
            HoursRef::Numbered(number) => hours[usize::from(number)].hold(cycle, t),
        }
    }
}

impl Hours {
    /// A record with these pairs of offset and length; nothing is judged.
    pub fn new(begin: u32, end: u32, pairs: &[(u16, u16)]) -> Hours {
        let pairs = pairs.iter().map(|&(offset, length)| Pair { offset, length }).collect();
        Hours { begin, end, pairs }
    }

    /// Reads the record at byte `at`; the records before it have `total` pairs.
    pub fn parse(bytes: &[u8], at: usize, cycle: u32, total: u32) -> Result<Hours, Refusal> {
        let rest = bytes.get(at..).unwrap_or(&[]);
        if rest.len() < 10 {
            return Err(5);
        }
        let (begin, end, count) = (u32_at(rest, 0), u32_at(rest, 4), u16_at(rest, 8));
        if begin >= end || end > END {
            return Err(6);
        }
        if count == 0 || u64::from(total) + u64::from(count) > u64::from(PAIR_LIMIT) {
            return Err(7);
        }
        let count = usize::from(count);
        if rest.len() < 10 + 4 * count {
            return Err(5);
        }
        let mut pairs: Vec<Pair> = Vec::with_capacity(count);
        for i in 0..count {
            let pair = Pair { offset: u16_at(rest, 10 + 4 * i), length: u16_at(rest, 12 + 4 * i) };
            // Touching the pair before is refused as well.
            let later = pairs.last().is_none_or(|before| u32::from(pair.offset) > before.end());
            if pair.length == 0 || pair.end() > cycle || !later {
                return Err(8);
            }
            pairs.push(pair);
        }
        Ok(Hours { begin, end, pairs })
    }

    /// Bytes that the record takes.
    pub fn size(&self) -> usize {
        10 + 4 * self.pairs.len()
    }

    pub fn encode(&self, out: &mut Vec<u8>) {
        out.extend(self.begin.to_le_bytes());
        out.extend(self.end.to_le_bytes());
        out.extend((self.pairs.len() as u16).to_le_bytes());
        for pair in &self.pairs {
            out.extend(pair.offset.to_le_bytes());
            out.extend(pair.length.to_le_bytes());
        }
    }

    /// The phase counts from minute 0, never from begin.
    pub fn hold(&self, cycle: u32, t: u32) -> bool {
        let phase = t % cycle;
        self.begin <= t
            && t < self.end
            && self.pairs.iter().any(|pair| u32::from(pair.offset) <= phase && phase < pair.end())
    }
}

#[cfg(test)]
mod tests {
    use super::*;

    fn record(begin: u32, end: u32, pairs: &[(u16, u16)]) -> Vec<u8> {
        let pairs = pairs.iter().map(|&(offset, length)| Pair { offset, length }).collect();
        let mut bytes = Vec::new();
        Hours { begin, end, pairs }.encode(&mut bytes);
        bytes
    }

    fn judge(bytes: &[u8], cycle: u32, total: u32) -> Result<usize, Refusal> {
        Hours::parse(bytes, 0, cycle, total).map(|hours| hours.pairs.len())
    }

    #[test]
    fn limits_of_a_record() {
        assert_eq!(judge(&record(0, END, &[(0, 10)]), 10, 0), Ok(1));
        assert_eq!(judge(&record(0, END + 1, &[(0, 10)]), 10, 0), Err(6));
        assert_eq!(judge(&record(5, 5, &[(0, 10)]), 10, 0), Err(6));
        assert_eq!(judge(&record(0, 5, &[(0, 11)]), 10, 0), Err(8));
        assert_eq!(judge(&record(0, 5, &[(0, 0)]), 10, 0), Err(8));
        assert_eq!(judge(&record(0, 5, &[(0, 2), (2, 2)]), 10, 0), Err(8), "touching");
        assert_eq!(judge(&record(0, 5, &[(0, 2), (3, 2)]), 10, 0), Ok(2));
        assert_eq!(judge(&record(0, 5, &[(65535, 2)]), 10, 0), Err(8), "the sum does not wrap");
        assert_eq!(judge(&record(0, 5, &[]), 10, 0), Err(7));
        assert_eq!(judge(&record(0, 5, &[(0, 2)]), 10, 255), Ok(1));
        assert_eq!(judge(&record(0, 5, &[(0, 2)]), 10, 256), Err(7));
        assert_eq!(judge(&record(0, 5, &[(0, 2)]), 10, u32::MAX), Err(7));
        assert_eq!(judge(&record(0, 5, &[(0, 2)])[..13], 10, 0), Err(5));
        assert_eq!(judge(&record(0, 5, &[(0, 2)])[..9], 10, 0), Err(5));
        assert_eq!(Hours::parse(&[0; 20], usize::MAX, 10, 0), Err(5));
    }

    #[test]
    fn the_count_comes_before_the_cut() {
        let mut bytes = record(0, 5, &[(0, 2)]);
        bytes[8..10].copy_from_slice(&257u16.to_le_bytes());
        assert_eq!(judge(&bytes, 10, 0), Err(7));
        bytes[8..10].copy_from_slice(&256u16.to_le_bytes());
        assert_eq!(judge(&bytes, 10, 0), Err(5));
    }

    #[test]
    fn the_phase_counts_from_minute_0() {
        let hours = Hours::parse(&record(3, 25, &[(0, 2), (6, 4)]), 0, 10, 0).unwrap();
        let held: Vec<u32> = (0..40).filter(|&t| hours.hold(10, t)).collect();
        assert_eq!(held, [6, 7, 8, 9, 10, 11, 16, 17, 18, 19, 20, 21]);
    }

    #[test]
    fn always_ends_with_the_last_minute() {
        assert!(HoursRef::Always.hold(&[], 10, END - 1));
        assert!(!HoursRef::Always.hold(&[], 10, END));
        assert_eq!(HoursRef::from_byte(254, 32), None);
        assert_eq!(HoursRef::from_byte(32, 32), None);
        assert_eq!(HoursRef::from_byte(31, 32), Some(HoursRef::Numbered(31)));
        assert_eq!(HoursRef::from_byte(255, 0), Some(HoursRef::Always));
    }
}
