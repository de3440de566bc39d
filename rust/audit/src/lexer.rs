//! The tokens of both languages, as the kit reads them. Comments fall away, and quoted text is one
//! token. The braces of a contract's clause and the tree of a `ghost use` are the proof language's,
//! inside a file of Rattle too.

/// A token, the place where it begins, and whether it is the first of its line.
#[derive(Clone, Copy, Debug, PartialEq)]
pub struct Token<'a> {
    pub text: &'a str,
    pub at: usize,
    pub line: usize,
    pub column: usize,
    pub first: bool,
}

impl Token<'_> {
    pub fn end(&self) -> usize {
        self.at + self.text.len()
    }
}

/// Where the proof language's text ends.
#[derive(Clone, Copy, PartialEq)]
enum Until {
    End,
    /// The brace that closes one that is read already.
    Brace,
    Semicolon,
}

struct Lexer<'a> {
    text: &'a str,
    at: usize,
    line: usize,
    line_at: usize,
    tokens: Vec<Token<'a>>,
}

/// The tokens of a file of specs/ or proofs/.
pub fn proof_tokens(text: &str) -> Result<Vec<Token<'_>>, String> {
    let mut lexer = Lexer::new(text);
    lexer.proof(Until::End)?;
    Ok(lexer.tokens)
}

/// The tokens of a file of src/.
pub fn source_tokens(text: &str) -> Result<Vec<Token<'_>>, String> {
    let mut lexer = Lexer::new(text);
    lexer.source()?;
    Ok(lexer.tokens)
}

impl<'a> Lexer<'a> {
    fn new(text: &'a str) -> Lexer<'a> {
        Lexer { text, at: 0, line: 1, line_at: 0, tokens: Vec::new() }
    }

    fn rest(&self) -> &'a str {
        &self.text[self.at..]
    }

    /// Goes on by so many bytes, over ends of lines too.
    fn pass(&mut self, bytes: usize) {
        for (n, c) in self.rest()[..bytes].char_indices() {
            if c == '\n' {
                self.line += 1;
                self.line_at = self.at + n + 1;
            }
        }
        self.at += bytes;
    }

    fn push(&mut self, bytes: usize) {
        let first = self.tokens.last().is_none_or(|last| last.line != self.line);
        let column = self.text[self.line_at..self.at].chars().count();
        self.tokens.push(Token {
            text: &self.rest()[..bytes],
            at: self.at,
            line: self.line,
            column,
            first,
        });
        self.pass(bytes);
    }

    fn unclosed<T>(&self, what: &str) -> Result<T, String> {
        Err(format!("line {}: {what} is not closed", self.line))
    }

    fn line_comment(&mut self) {
        self.pass(self.rest().find('\n').unwrap_or(self.rest().len()));
    }

    /// A comment between two marks, which nest.
    fn block_comment(&mut self, open: &str, close: &str) -> Result<(), String> {
        let (mut depth, mut end) = (0, 0);
        loop {
            let left = &self.rest()[end..];
            if left.starts_with(open) {
                depth += 1;
                end += open.len();
            } else if left.starts_with(close) {
                depth -= 1;
                end += close.len();
            } else {
                match left.chars().next() {
                    Some(c) => end += c.len_utf8(),
                    None => return self.unclosed("a comment"),
                }
            }
            if depth == 0 {
                self.pass(end);
                return Ok(());
            }
        }
    }

    /// Quoted text that begins with `before` bytes and ends with `close`, where a backslash may
    /// stand before a sign.
    fn quoted(&mut self, before: usize, close: char) -> Result<(), String> {
        let mut escaped = false;
        for (n, c) in self.rest()[before..].char_indices() {
            match c {
                _ if escaped => escaped = false,
                '\\' => escaped = true,
                _ if c == close => {
                    self.push(before + n + c.len_utf8());
                    return Ok(());
                }
                _ => {}
            }
        }
        self.unclosed("quoted text")
    }

    /// A run of signs, at least one.
    fn run(&mut self, goes_on: impl Fn(char) -> bool) {
        let more = self.rest().char_indices().skip(1).find(|(_, c)| !goes_on(*c));
        self.push(more.map_or(self.rest().len(), |(n, _)| n));
    }

    fn proof(&mut self, until: Until) -> Result<(), String> {
        let mut depth = usize::from(until == Until::Brace);
        while let Some(c) = self.rest().chars().next() {
            match c {
                _ if c.is_whitespace() => self.pass(c.len_utf8()),
                _ if self.rest().starts_with("--") => self.line_comment(),
                _ if self.rest().starts_with("{-") => self.block_comment("{-", "-}")?,
                '"' => self.quoted(1, '"')?,
                '«' => self.quoted('«'.len_utf8(), '»')?,
                '{' | '}' | '(' | ')' | '.' | ';' | ',' | '@' | '»' => {
                    depth += usize::from(c == '{');
                    depth = depth.saturating_sub(usize::from(c == '}'));
                    self.push(c.len_utf8());
                    if depth == 0 && (until, c) == (Until::Brace, '}')
                        || (until, c) == (Until::Semicolon, ';')
                    {
                        return Ok(());
                    }
                }
                _ => self.run(|c| !c.is_whitespace() && !"(){}.;,@\"«»".contains(c)),
            }
        }
        if until == Until::End { Ok(()) } else { self.unclosed("a clause") }
    }

    fn source(&mut self) -> Result<(), String> {
        let word = |c: char| c.is_alphanumeric() || c == '_';
        while let Some(c) = self.rest().chars().next() {
            let rest = self.rest();
            match c {
                _ if c.is_whitespace() => self.pass(c.len_utf8()),
                _ if rest.starts_with("//") => self.line_comment(),
                _ if rest.starts_with("/*") => self.block_comment("/*", "*/")?,
                '"' => self.quoted(1, '"')?,
                _ if rest.starts_with("b\"") => self.quoted(2, '"')?,
                _ if rest.starts_with("b'") => self.quoted(2, '\'')?,
                _ if rest.starts_with("br\"") || rest.starts_with("br#") => self.raw()?,
                '\'' => self.run(word),
                _ if word(c) => {
                    self.run(word);
                    let [.., before, last] = self.tokens[..] else { continue };
                    if (before.text, last.text) == ("ghost", "use") {
                        self.proof(Until::Semicolon)?;
                    }
                }
                _ => {
                    self.push(c.len_utf8());
                    if c == '{' && self.opens_clause() {
                        self.proof(Until::Brace)?;
                    }
                }
            }
        }
        Ok(())
    }

    /// A byte string without escapes.
    fn raw(&mut self) -> Result<(), String> {
        let marks = self.rest()[2..].chars().take_while(|c| *c == '#').count();
        let open = 2 + marks + 1;
        let close = format!("\"{}", "#".repeat(marks));
        match self.rest().get(open..).and_then(|text| text.find(&close)) {
            Some(n) => {
                self.push(open + n + close.len());
                Ok(())
            }
            None => self.unclosed("quoted text"),
        }
    }

    /// Whether the brace just read follows `requires` or `ensures`, with a star or without, and with
    /// a name or without.
    fn opens_clause(&self) -> bool {
        let before = self.tokens.iter().rev().skip(1).take(3).map(|token| token.text);
        before
            .take_while(|text| !["{", "}", "(", ")", ";", ","].contains(text))
            .any(|text| ["requires", "ensures"].contains(&text))
    }
}

/// The text that tokens stand in, without its comments: lines and indentation as they are.
pub fn shown(text: &str, tokens: &[Token]) -> String {
    let mut out = String::new();
    let mut last: Option<Token> = None;
    for token in tokens {
        match last {
            Some(before) if before.line == token.line => {
                let gap = &text[before.end()..token.at];
                out.push_str(if gap.trim().is_empty() { gap } else { " " });
            }
            Some(_) => {
                out.push('\n');
                out.push_str(&" ".repeat(token.column));
            }
            None => out.push_str(&" ".repeat(token.column)),
        }
        out.push_str(token.text);
        last = Some(*token);
    }
    out
}
