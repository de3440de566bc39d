//! Names for the hours, volunteers, rights and roles of a rota. The bytes have none, so they are
//! kept in a names file beside them.

use std::collections::HashMap;

use softlode::{Refusal, Rota};

use crate::hint::did_you_mean;
use crate::words::{self, Complaint, Cursor, counted, is_invisible, shown};

/// What is numbered, from 0, and may have a name.
#[derive(Clone, Copy, Debug, PartialEq, Eq, Hash)]
pub enum Kind {
    Hours,
    Volunteer,
    Right,
    Role,
}

impl Kind {
    pub const ALL: [Kind; 4] = [Kind::Hours, Kind::Volunteer, Kind::Right, Kind::Role];

    /// Its word in the text of a rota.
    pub fn word(self) -> &'static str {
        ["hours", "volunteer", "right", "role"][self as usize]
    }

    /// `there is no role`, `there are no hours`.
    pub fn there_is_no(self) -> String {
        format!("there {} no {}", if self == Kind::Hours { "are" } else { "is" }, self.word())
    }

    /// So many of them.
    pub fn counted(self, count: u32) -> String {
        counted(count, self.word())
    }
}

/// How many of each kind there are, in the order of `Kind::ALL`. A table does not know its hours.
pub type Counts = [Option<u32>; 4];

/// The counts of a rota.
pub fn counts_of(rota: &Rota) -> Counts {
    let counts = rota.counts();
    [counts.hours, counts.volunteers, counts.rights, counts.roles].map(Some)
}

/// The words of the text's language; as names they stand in quotes.
pub const RESERVED: [&str; 34] = [
    "rota",
    "format",
    "cycle",
    "minute",
    "minutes",
    "hour",
    "hours",
    "day",
    "days",
    "week",
    "weeks",
    "dates",
    "open",
    "from",
    "to",
    "before",
    "the",
    "end",
    "of",
    "volunteer",
    "right",
    "role",
    "is",
    "in",
    "always",
    "names",
    "sum",
    "Mon",
    "Tue",
    "Wed",
    "Thu",
    "Fri",
    "Sat",
    "Sun",
];

/// Whether a word is one of the language, or would be but for its case.
pub fn is_reserved(word: &str) -> bool {
    RESERVED.iter().any(|reserved| reserved.eq_ignore_ascii_case(word))
}

/// Whether a word can be a name without quotes.
pub fn is_bare(name: &str) -> bool {
    name.chars().all(|c| c.is_alphanumeric() || "-_.'".contains(c))
        && name.chars().any(char::is_alphabetic)
        && !is_reserved(name)
}

/// Whether a text can be a name at all, in quotes; or why not.
pub fn judge(name: &str) -> Result<(), String> {
    const MOST: usize = 100;
    let is_blank = |c: char| c.is_whitespace() && c != ' ';
    let unseen = name.chars().find(|&c| c.is_control() || is_invisible(c) || is_blank(c));
    if name.is_empty() {
        Err("a name has at least one character".into())
    } else if let Some(unseen) = unseen {
        Err(format!(
            "a name has no character that cannot be seen, such as {}",
            unseen.escape_unicode()
        ))
    } else if name.starts_with(' ') || name.ends_with(' ') || name.contains("  ") {
        Err("a name has no blank before or after it, and no two together".into())
    } else if name.chars().all(char::is_numeric) {
        Err(format!("a name is not a number, as {} is", shown(name)))
    } else if name.eq_ignore_ascii_case("always") {
        Err("no name is always: it would be misread".into())
    } else if name.chars().count() > MOST {
        Err(format!("a name has at most {MOST} characters"))
    } else {
        Ok(())
    }
}

/// A name as it stands in a text: bare, or in quotes.
pub fn spelled(name: &str) -> String {
    if is_bare(name) {
        return name.to_string();
    }
    format!("\"{}\"", name.replace('\\', "\\\\").replace('"', "\\\""))
}

/// The names of a rota. Within a kind no two are equal, nor equal but for case.
#[derive(Clone, Debug, Default, PartialEq, Eq)]
pub struct Names {
    by_number: [Vec<Option<String>>; 4],
    /// In lower case.
    folded: [HashMap<String, u32>; 4],
}

impl Names {
    /// Names something, or tells why not.
    pub fn give(&mut self, kind: Kind, number: u32, name: &str) -> Result<(), String> {
        judge(name)?;
        let word = kind.word();
        if self.get(kind, number).is_some() {
            return Err(format!("{word} {number} has a name already"));
        }
        let folded = name.to_lowercase();
        if let Some(&other) = self.folded[kind as usize].get(&folded) {
            let same = self.get(kind, other) == Some(name);
            let how = if same { "" } else { ", but for capitals" };
            return Err(format!(
                "the name {} is used twice: {word} {other} has it{how}",
                spelled(name)
            ));
        }
        self.folded[kind as usize].insert(folded, number);
        let of_kind = &mut self.by_number[kind as usize];
        let place = number as usize;
        if of_kind.len() <= place {
            of_kind.resize(place + 1, None);
        }
        of_kind[place] = Some(name.to_string());
        Ok(())
    }

    pub fn get(&self, kind: Kind, number: u32) -> Option<&str> {
        self.by_number[kind as usize].get(number as usize)?.as_deref()
    }

    /// The number of that name, to the letter.
    pub fn find(&self, kind: Kind, name: &str) -> Option<u32> {
        let &number = self.folded[kind as usize].get(&name.to_lowercase())?;
        (self.get(kind, number) == Some(name)).then_some(number)
    }

    /// The number of that name, or a complaint with the nearest name.
    pub fn number(&self, kind: Kind, name: &str) -> Result<u32, String> {
        self.find(kind, name).ok_or_else(|| {
            let known: Vec<String> = self.all(kind).map(|(_, name)| spelled(name)).collect();
            let hint = did_you_mean(name, known.iter().map(String::as_str));
            format!("{} named {}{hint}", kind.there_is_no(), spelled(&shown(name)))
        })
    }

    /// All of a kind, by number.
    pub fn all(&self, kind: Kind) -> impl Iterator<Item = (u32, &str)> {
        let numbered = (0..).zip(&self.by_number[kind as usize]);
        numbered.filter_map(|(number, name)| Some((number, name.as_deref()?)))
    }

    pub fn is_empty(&self) -> bool {
        self.folded.iter().all(HashMap::is_empty)
    }

    /// How the text of a rota refers to it: by its name, or by its kind and number.
    pub fn reference(&self, kind: Kind, number: u32) -> String {
        match self.get(kind, number) {
            Some(name) => spelled(name),
            None => format!("{} {number}", kind.word()),
        }
    }

    /// How an answer shows it: a name with its number, or the kind and the number.
    pub fn shown(&self, kind: Kind, number: u32) -> String {
        match self.get(kind, number) {
            Some(name) => format!("{name} ({number})"),
            None => format!("{} {number}", kind.word()),
        }
    }

    /// The numbers of a set: each with its name, or alone.
    pub fn shown_set(&self, kind: Kind, set: u64) -> String {
        let shown = |number: u32| match self.get(kind, number) {
            Some(_) => self.shown(kind, number),
            None => number.to_string(),
        };
        let numbers = (0..64).filter(|number| set >> number & 1 == 1);
        numbers.map(shown).collect::<Vec<_>>().join(", ")
    }
}

/// The first line of a names file: which rota it is for.
#[derive(Clone, Copy, Debug, PartialEq, Eq)]
pub struct Head {
    /// In the order of `Kind::ALL`.
    pub counts: [u32; 4],
    pub sum: u32,
}

/// In which order the first line has the counts.
const HEAD_ORDER: [Kind; 4] = [Kind::Volunteer, Kind::Right, Kind::Role, Kind::Hours];

impl Head {
    pub fn of(rota: &Rota) -> Result<Head, Refusal> {
        Ok(Head { counts: counts_of(rota).map(|count| count.unwrap_or(0)), sum: sum(rota)? })
    }

    fn words(&self) -> String {
        let counts = HEAD_ORDER.map(|kind| kind.counted(self.counts[kind as usize]));
        format!("names of a rota with {}, sum {:08x}", counts.join(", "), self.sum)
    }

    fn parse(cursor: &mut Cursor) -> Result<Head, Complaint> {
        cursor.expect(&["names", "of", "a", "rota", "with"])?;
        let mut counts = [0; 4];
        for kind in HEAD_ORDER {
            let number = cursor
                .number(format_args!("the number of {}s", kind.word().trim_end_matches('s')))?;
            let words = [1, 2].map(|count| counted(count, kind.word())[2..].to_string() + ",");
            if !words.iter().any(|word| cursor.take(word)) {
                return Err(cursor.expected(&words[1]));
            }
            counts[kind as usize] = number;
        }
        cursor.expect(&["sum"])?;
        let column = cursor.clone();
        let word = cursor.word("the sum")?;
        let is_sum = word.text.len() == 8 && word.text.bytes().all(|byte| byte.is_ascii_hexdigit());
        let sum = u32::from_str_radix(&word.text, 16).ok().filter(|_| is_sum);
        let sum = sum.ok_or_else(|| column.expected("a sum of 8 hexadecimal digits"))?;
        Ok(Head { counts, sum })
    }
}

/// The names of a file, with the rota that they are for where it says so.
#[derive(Clone, Debug, Default)]
pub struct NamesFile {
    pub names: Names,
    pub head: Option<Head>,
}

impl NamesFile {
    pub fn parse(text: &str) -> Result<NamesFile, Complaint> {
        let mut file = NamesFile::default();
        for (i, line) in words::lines(text).enumerate() {
            let line = line?;
            let mut cursor = Cursor::new(&line);
            if cursor.is("names") && i == 0 {
                file.head = Some(Head::parse(&mut cursor)?);
                cursor.done()?;
                continue;
            }
            let Some(kind) = Kind::ALL.into_iter().find(|kind| cursor.take(kind.word())) else {
                return Err(cursor.expected("hours, volunteer, right or role"));
            };
            let number = cursor.number(format_args!("the number of the {}", kind.word()))?;
            if number > 254 {
                return Err(cursor.at(
                    line.words[1].column,
                    format!("there is never a {} {number}", kind.word()),
                ));
            }
            let column = cursor.peek().map_or(line.end, |word| word.column);
            let name = name(&mut cursor)?;
            file.names.give(kind, number, name).map_err(|what| cursor.at(column, what))?;
            cursor.done()?;
        }
        Ok(file)
    }

    pub fn print(&self) -> String {
        let mut out = String::new();
        if let Some(head) = &self.head {
            out += &format!("{}\n", head.words());
        }
        for kind in Kind::ALL {
            for (number, name) in self.names.all(kind) {
                out += &format!("{} {number} {}\n", kind.word(), spelled(name));
            }
        }
        out
    }

    /// Whether the names are for what has these counts, and this sum where it is known; or why not.
    pub fn fits(&self, counts: Counts, sum: Option<u32>) -> Result<(), String> {
        for kind in Kind::ALL {
            let Some(count) = counts[kind as usize] else { continue };
            let last = self.names.all(kind).last();
            if let Some((number, name)) = last.filter(|&(number, _)| number >= count) {
                let (word, name) = (kind.word(), spelled(name));
                return Err(format!(
                    "{word} {number} {name} is not there: the file has {}",
                    kind.counted(count)
                ));
            }
            if let Some(said) =
                self.head.map(|head| head.counts[kind as usize]).filter(|&said| said != count)
            {
                return Err(format!("they are of a rota with {}, not {count}", kind.counted(said)));
            }
        }
        match (self.head, sum) {
            (Some(head), Some(sum)) if head.sum != sum => Err(format!(
                "they are of another rota: its sum is {:08x}, and this one's is {sum:08x}",
                head.sum
            )),
            _ => Ok(()),
        }
    }
}

/// A name, bare or in quotes.
pub fn name<'a>(cursor: &mut Cursor<'a>) -> Result<&'a str, Complaint> {
    let here = cursor.clone();
    let word = cursor.word("a name")?;
    if word.is_quoted || is_bare(&word.text) {
        return Ok(&word.text);
    }
    let text = shown(&word.text);
    let what = if is_reserved(&word.text) {
        format!("{text} is a word of the language; as a name it stands in quotes: \"{text}\"")
    } else {
        format!(
            "{text} is no name; a name has letters and digits, - _ . and ', or stands in quotes"
        )
    };
    Err(here.here(what))
}

/// The sum of a rota, by which a names file is known to fit: the CRC-32 of the tidied bytes, so
/// that format, order and repeats of rows make no difference.
pub fn sum(rota: &Rota) -> Result<u32, Refusal> {
    let mut area = vec![0; rota.bytes().len()];
    Ok(crc32(rota.tidy(&mut area)?))
}

fn crc32(bytes: &[u8]) -> u32 {
    let step = |crc: u32| if crc & 1 == 1 { crc >> 1 ^ 0xedb8_8320 } else { crc >> 1 };
    !bytes.iter().fold(!0, |crc: u32, &byte| (0..8).fold(crc ^ u32::from(byte), |crc, _| step(crc)))
}

#[cfg(test)]
mod tests {
    use super::*;

    #[test]
    fn the_sum_is_crc_32() {
        assert_eq!(crc32(b"123456789"), 0xcbf4_3926);
        assert_eq!(crc32(b""), 0);
    }
}
