//! Lines of text as words with their places: what the text of a rota and a names file are made of.

use std::borrow::Cow;
use std::fmt;

/// What is wrong with a text, and where. Lines and columns count from 1, columns in characters.
#[derive(Clone, Debug, PartialEq, Eq)]
pub struct Complaint {
    pub line: usize,
    pub column: usize,
    pub what: String,
}

impl fmt::Display for Complaint {
    fn fmt(&self, f: &mut fmt::Formatter<'_>) -> fmt::Result {
        write!(f, "line {}, column {}: {}", self.line, self.column, self.what)
    }
}

/// A word: bare, or a name that stood in quotes.
#[derive(Clone, Debug, PartialEq, Eq)]
pub struct Word<'a> {
    pub text: Cow<'a, str>,
    pub is_quoted: bool,
    pub column: usize,
}

impl Word<'_> {
    /// The word as a complaint shows it: in quotes where it stood in quotes.
    pub fn shown(&self) -> String {
        if self.is_quoted { format!("\"{}\"", shown(&self.text)) } else { shown(&self.text) }
    }
}

/// Any text as a complaint shows it: what would move a terminal's cursor or cannot be seen is
/// spelled out, and what is long is cut.
pub fn shown(text: &str) -> String {
    const MOST: usize = 60;
    let mut out = String::new();
    for (count, c) in text.chars().enumerate() {
        if count == MOST {
            out.push_str("..");
            break;
        }
        if c.is_control() || is_invisible(c) {
            out.extend(c.escape_unicode());
        } else {
            out.push(c);
        }
    }
    out
}

/// Characters that take no room of their own, or change the direction of others: two names that
/// differ in them alone look the same.
pub fn is_invisible(c: char) -> bool {
    matches!(c,
        '\u{ad}' | '\u{34f}' | '\u{61c}' | '\u{115f}' | '\u{1160}' | '\u{17b4}' | '\u{17b5}'
        | '\u{180b}'..='\u{180f}' | '\u{200b}'..='\u{200f}' | '\u{2028}'..='\u{202e}'
        | '\u{2060}'..='\u{206f}' | '\u{3164}' | '\u{fe00}'..='\u{fe0f}' | '\u{feff}' | '\u{ffa0}'
        | '\u{fff0}'..='\u{fffb}' | '\u{1d173}'..='\u{1d17a}' | '\u{e0000}'..='\u{e0fff}')
}

/// A line that has words.
#[derive(Clone, Debug)]
pub struct Line<'a> {
    pub number: usize,
    pub words: Vec<Word<'a>>,
    /// The column after the last word.
    pub end: usize,
}

/// The text of bytes; a byte order mark before it is dropped.
pub fn text(bytes: &[u8]) -> Result<&str, Complaint> {
    match str::from_utf8(bytes) {
        Ok(text) => Ok(text.strip_prefix('\u{feff}').unwrap_or(text)),
        Err(error) => {
            let before = String::from_utf8_lossy(&bytes[..error.valid_up_to()]);
            let line = before.matches('\n').count() + 1;
            let column = before.rsplit('\n').next().unwrap_or("").chars().count() + 1;
            let what = format!("byte {:#04x} is no UTF-8 text", bytes[error.valid_up_to()]);
            Err(Complaint { line, column, what })
        }
    }
}

/// The lines of a text that have words: `#` begins a comment, and blanks separate words.
pub fn lines(text: &str) -> impl Iterator<Item = Result<Line<'_>, Complaint>> {
    let numbered = text.lines().enumerate().map(|(i, text)| line(i + 1, text));
    numbered.filter(|line| !line.as_ref().is_ok_and(|line| line.words.is_empty()))
}

/// One line.
pub fn line(number: usize, text: &str) -> Result<Line<'_>, Complaint> {
    let mut words = Vec::new();
    let (mut rest, mut column, mut end) = (text, 1, 1);
    loop {
        let trimmed = rest.trim_start();
        column += rest[..rest.len() - trimmed.len()].chars().count();
        rest = trimmed;
        if rest.is_empty() || rest.starts_with('#') {
            return Ok(Line { number, words, end });
        }
        let complain =
            |column: usize, what: &str| Complaint { line: number, column, what: what.to_string() };
        let (text, length, is_quoted) = if rest.starts_with('"') {
            let (name, length) = quoted(rest).map_err(|(at, what)| complain(column + at, what))?;
            (Cow::Owned(name), length, true)
        } else {
            let length = rest.find(|c: char| c.is_whitespace() || c == '"' || c == '#');
            let length = length.unwrap_or(rest.len());
            (Cow::Borrowed(&rest[..length]), length, false)
        };
        words.push(Word { text, is_quoted, column });
        column += rest[..length].chars().count();
        end = column;
        rest = &rest[length..];
        let goes_on = rest.starts_with(|c: char| !c.is_whitespace() && c != '#');
        if goes_on {
            return Err(complain(column, "a blank must stand before and after a name in quotes"));
        }
    }
}

/// The name in quotes at the start of a text, and how many bytes it takes; or what is wrong with it,
/// so many characters on.
fn quoted(text: &str) -> Result<(String, usize), (usize, &'static str)> {
    let mut name = String::new();
    let mut is_escaped = false;
    for (count, (i, c)) in text.char_indices().enumerate().skip(1) {
        match c {
            '"' | '\\' if is_escaped => {
                name.push(c);
                is_escaped = false;
            }
            _ if is_escaped => {
                return Err((count - 1, "a backslash stands only before a quote or a backslash"));
            }
            '\\' => is_escaped = true,
            '"' => return Ok((name, i + 1)),
            _ => name.push(c),
        }
    }
    Err((0, "a name in quotes does not end on its line"))
}

/// Goes through the words of a line, one after the other.
#[derive(Clone, Debug)]
pub struct Cursor<'a> {
    line: &'a Line<'a>,
    next: usize,
}

impl<'a> Cursor<'a> {
    pub fn new(line: &'a Line<'a>) -> Cursor<'a> {
        Cursor { line, next: 0 }
    }

    /// The next word, which stays.
    pub fn peek(&self) -> Option<&'a Word<'a>> {
        self.line.words.get(self.next)
    }

    /// The next word, which is passed; or a complaint that names what should be there.
    pub fn word(&mut self, expected: impl fmt::Display) -> Result<&'a Word<'a>, Complaint> {
        let word = self.peek().ok_or_else(|| self.expected(expected))?;
        self.next += 1;
        Ok(word)
    }

    /// Whether the next word is this one, bare.
    pub fn is(&self, word: &str) -> bool {
        self.peek().is_some_and(|next| !next.is_quoted && next.text == word)
    }

    /// Passes the next word if it is this one.
    pub fn take(&mut self, word: &str) -> bool {
        let is_it = self.is(word);
        self.next += usize::from(is_it);
        is_it
    }

    /// Passes these words, or complains about the first that is another.
    pub fn expect(&mut self, words: &[&str]) -> Result<(), Complaint> {
        for word in words {
            if !self.take(word) {
                return Err(self.expected(word));
            }
        }
        Ok(())
    }

    /// A number of digits; one that no field can hold is the highest that there is.
    pub fn number(&mut self, expected: impl fmt::Display) -> Result<u32, Complaint> {
        let number = self.peek().filter(|word| !word.is_quoted).and_then(|word| digits(&word.text));
        let number = number.ok_or_else(|| self.expected(expected))?;
        self.next += 1;
        Ok(number)
    }

    /// Nothing more may stand on the line.
    pub fn done(&self) -> Result<(), Complaint> {
        match self.peek() {
            None => Ok(()),
            Some(word) => Err(self.here(format!("{} is one word too many", word.shown()))),
        }
    }

    /// A complaint about the next word, or about the line's end.
    pub fn here(&self, what: impl Into<String>) -> Complaint {
        let column = self.peek().map_or(self.line.end, |word| word.column);
        self.at(column, what)
    }

    /// A complaint about this line.
    pub fn at(&self, column: usize, what: impl Into<String>) -> Complaint {
        Complaint { line: self.line.number, column, what: what.into() }
    }

    /// A complaint that something else should be here.
    pub fn expected(&self, what: impl fmt::Display) -> Complaint {
        match self.peek() {
            Some(word) => self.here(format!("{what} is expected here, not {}", word.shown())),
            None => self.here(format!("{what} is missing at the end of the line")),
        }
    }
}

/// The number that digits spell; one that is over 32 bits is the highest that there is.
pub fn digits(text: &str) -> Option<u32> {
    let is_number = !text.is_empty() && text.bytes().all(|byte| byte.is_ascii_digit());
    is_number.then(|| text.parse().unwrap_or(u32::MAX))
}

/// A count with its word: 1 week, 2 weeks.
pub fn counted(count: u32, word: &str) -> String {
    format!("{count} {word}{}", if count == 1 || word.ends_with('s') { "" } else { "s" })
}
