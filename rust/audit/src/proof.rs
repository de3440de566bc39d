//! A file of specs/ or proofs/: what it brings in, what it declares, and which names it binds.

use std::ops::Range;

use crate::lexer::{Token, proof_tokens};

/// One name that a `use` line brings in.
#[derive(Clone, Debug, PartialEq)]
pub struct Import {
    /// The module that has it, dotted; the module itself where there is no item.
    pub module: String,
    pub item: Option<String>,
    /// What it is called here.
    pub name: String,
    pub line: usize,
}

#[derive(Clone, Copy, Debug, PartialEq)]
pub enum Kind {
    /// A signature: a definition or a theorem.
    Signed,
    /// A data type or a record.
    Type,
    Constructor,
    Field,
    /// An opened field, a ruleset or a module's name.
    Other,
}

/// Something that a file declares.
#[derive(Clone, Debug)]
pub struct Declared {
    pub name: String,
    pub kind: Kind,
    pub line: usize,
    /// Its signature; of a type, the whole declaration.
    pub range: Range<usize>,
    pub within: Within,
}

/// What a declaration stands in.
#[derive(Clone, Debug, Default)]
pub struct Within {
    /// The heads of modules, whose parameters its statement has too.
    pub heads: Vec<Range<usize>>,
    /// Whether it is in a `where` of a clause, out of reach.
    pub clause: bool,
}

pub struct Proof<'a> {
    pub text: &'a str,
    pub tokens: Vec<Token<'a>>,
    pub imports: Vec<Import>,
    pub modules: Vec<String>,
    pub declared: Vec<Declared>,
    /// Names that a term, a pattern or a record's later fields read as something of their own.
    pub bound: Vec<(String, usize)>,
    /// Those that a `let` defines.
    pub lets: Vec<(String, usize)>,
}

/// A name as it is written without its quotes.
pub fn bare(name: &str) -> &str {
    name.trim_start_matches('«').trim_end_matches('»')
}

/// What each item of a `use` line brings in; the tokens are those after the word.
pub fn imports(tokens: &[Token]) -> Result<Vec<Import>, String> {
    let Some(first) = tokens.first() else { return Err("a use of nothing".to_string()) };
    let line = first.line;
    let amiss = || format!("line {line}: a use that is not read");
    let mut path: Vec<&str> = Vec::new();
    let mut at = 0;
    // A path, up to its braces, its other name or its end.
    while let Some(token) = tokens.get(at) {
        match token.text {
            "." => {}
            "{" | "as" => break,
            name => path.push(bare(name)),
        }
        at += 1;
    }
    path.retain(|part| *part != "package");
    let module = path.join(".");
    let last = path.last().copied().ok_or_else(amiss)?;
    match tokens.get(at).map(|token| token.text) {
        None if last == "*" => {
            let module = path[..path.len() - 1].join(".");
            Ok(vec![Import { module, item: Some("*".to_string()), name: "*".to_string(), line }])
        }
        None => Ok(vec![Import { module, item: None, name: last.to_string(), line }]),
        Some("as") => {
            let [name] = &tokens[at + 1..] else { return Err(amiss()) };
            Ok(vec![Import { module, item: None, name: bare(name.text).to_string(), line }])
        }
        _ => {
            let [items @ .., close] = &tokens[at + 1..] else { return Err(amiss()) };
            if close.text != "}" {
                return Err(amiss());
            }
            let mut found = Vec::new();
            for item in items.split(|token| token.text == ",").filter(|item| !item.is_empty()) {
                let other = item.iter().position(|token| token.text == "as");
                let parts: Vec<&str> = item[..other.unwrap_or(item.len())]
                    .iter()
                    .map(|token| bare(token.text))
                    .filter(|text| *text != ".")
                    .collect();
                let (last, inner) = parts.split_last().ok_or_else(amiss)?;
                let home: Vec<&str> = path.iter().chain(inner).copied().collect();
                let name = match other {
                    None => last,
                    Some(n) if item.len() == n + 2 => bare(item[n + 1].text),
                    Some(_) => return Err(amiss()),
                };
                found.push(Import {
                    module: home.join("."),
                    item: Some(last.to_string()),
                    name: name.to_string(),
                    line: item[0].line,
                });
            }
            Ok(found)
        }
    }
}

const MARKS: [&str; 4] = ["pub", "unfoldable", "abbrev", "axiom"];

impl<'a> Proof<'a> {
    pub fn read(text: &'a str) -> Result<Proof<'a>, String> {
        let tokens = proof_tokens(text)?;
        let mut proof = Proof {
            text,
            tokens,
            imports: Vec::new(),
            modules: Vec::new(),
            declared: Vec::new(),
            bound: Vec::new(),
            lets: Vec::new(),
        };
        let whole = 0..proof.tokens.len();
        proof.block(whole.clone(), &Within::default())?;
        proof.bound_in(whole);
        Ok(proof)
    }

    fn word(&self, at: usize) -> &'a str {
        self.tokens.get(at).map_or("", |token| token.text)
    }

    /// The first place in a range at which a word stands outside all brackets.
    fn find(&self, range: Range<usize>, words: &[&str]) -> Option<usize> {
        let mut depth = 0usize;
        for at in range {
            let text = self.word(at);
            match text {
                "(" | "{" => depth += 1,
                ")" | "}" => depth = depth.saturating_sub(1),
                _ if depth == 0 && words.contains(&text) => return Some(at),
                _ => {}
            }
        }
        None
    }

    /// The declarations of a block: each begins a line in the block's column, where a closing bracket
    /// belongs to the declaration before it.
    fn chunks(&self, range: Range<usize>) -> Vec<Range<usize>> {
        let Some(first) = self.tokens.get(range.start).filter(|_| !range.is_empty()) else {
            return Vec::new();
        };
        let starts: Vec<usize> = range
            .clone()
            .filter(|at| *at == range.start || self.tokens[*at].first)
            .filter(|at| self.tokens[*at].column <= first.column)
            .filter(|at| ![")", "}", "]"].contains(&self.word(*at)))
            .collect();
        let ends = starts.iter().skip(1).copied().chain([range.end]);
        starts.iter().copied().zip(ends).map(|(start, end)| start..end).collect()
    }

    fn block(&mut self, range: Range<usize>, within: &Within) -> Result<(), String> {
        for chunk in self.chunks(range) {
            self.declaration(chunk, within)?;
        }
        Ok(())
    }

    fn declare(&mut self, at: usize, kind: Kind, range: &Range<usize>, within: &Within) {
        let token = self.tokens[at];
        self.declared.push(Declared {
            name: bare(token.text).to_string(),
            kind,
            line: token.line,
            range: range.clone(),
            within: within.clone(),
        });
    }

    fn declaration(&mut self, chunk: Range<usize>, within: &Within) -> Result<(), String> {
        let mut at = chunk.start;
        while at < chunk.end && MARKS.contains(&self.word(at)) {
            at += 1;
        }
        let line = self.tokens[chunk.start].line;
        let amiss = |what: &str| format!("line {line}: a {what} that is not read");
        match self.word(at) {
            "use" => {
                let found = imports(&self.tokens[at + 1..chunk.end])?;
                self.imports.extend(found);
            }
            "mod" => self.modules.push(self.word(at + 1).to_string()),
            "mutual" => self.block(at + 1..chunk.end, within)?,
            "module" => {
                let body = self.find(at..chunk.end, &["where"]).ok_or_else(|| amiss("module"))?;
                let mut inside = within.clone();
                inside.heads.push(chunk.start..body + 1);
                self.block(body + 1..chunk.end, &inside)?;
            }
            word @ ("data" | "record") => {
                let field = word == "record";
                self.declare(at + 1, Kind::Type, &chunk, within);
                let Some(body) = self.find(at..chunk.end, &["where"]) else { return Ok(()) };
                let end = self.find(body..chunk.end, &["deriving"]).unwrap_or(chunk.end);
                for part in self.chunks(body + 1..end) {
                    self.parts(part, field, &(chunk.start..end), within)?;
                }
            }
            "open" => {
                for at in at + 1..chunk.end {
                    if !["(", ")", ",", "."].contains(&self.word(at)) {
                        self.declare(at, Kind::Other, &chunk, within);
                    }
                }
            }
            "ruleset" => self.declare(at + 1, Kind::Other, &chunk, within),
            "unfolding" | "infix" | "infixl" | "infixr" => {}
            _ => {
                let sign = self.find(at..chunk.end, &[":", "="]);
                let sign = sign.ok_or_else(|| amiss("declaration"))?;
                if self.word(sign) == ":" {
                    for name in self.names(at..sign) {
                        self.declare(name, Kind::Signed, &chunk, within);
                    }
                } else {
                    self.patterns(at + 1..sign);
                    if let Some(body) = self.find(sign..chunk.end, &["where"]) {
                        let inside = Within { heads: within.heads.clone(), clause: true };
                        self.block(body + 1..chunk.end, &inside)?;
                    }
                }
            }
        }
        Ok(())
    }

    /// A line of fields or constructors. A field whose name a later field reads by itself is bound
    /// there; elsewhere it only ever stands behind a value and a dot.
    fn parts(
        &mut self,
        part: Range<usize>,
        field: bool,
        whole: &Range<usize>,
        within: &Within,
    ) -> Result<(), String> {
        let mut at = part.start;
        while MARKS.contains(&self.word(at)) {
            at += 1;
        }
        if ["infix", "infixl", "infixr"].contains(&self.word(at)) {
            return Ok(());
        }
        let line = self.tokens[part.start].line;
        let sign = self.find(at..part.end, &[":"]);
        let sign = sign.ok_or_else(|| format!("line {line}: a field that is not read"))?;
        for name in self.names(at..sign) {
            let kind = if field { Kind::Field } else { Kind::Constructor };
            self.declare(name, kind, whole, within);
            let text = bare(self.word(name)).to_string();
            let signs: Vec<&str> = text.split('◌').filter(|sign| !sign.is_empty()).collect();
            let read = (part.end..whole.end).any(|later| {
                signs.contains(&bare(self.word(later))) && self.word(later - 1) != "."
            });
            if field && read {
                self.bound.push((text, self.tokens[name].line));
            }
        }
        Ok(())
    }

    /// The names before a sign: what stands in braces are levels.
    fn names(&self, range: Range<usize>) -> Vec<usize> {
        let mut depth = 0usize;
        let mut found = Vec::new();
        for at in range {
            match self.word(at) {
                "(" | "{" => depth += 1,
                ")" | "}" => depth = depth.saturating_sub(1),
                _ if depth == 0 => found.push(at),
                _ => {}
            }
        }
        found
    }

    /// The names of a clause's patterns: variables, and constructors, which the caller tells apart.
    fn patterns(&mut self, range: Range<usize>) {
        for at in range {
            if !["(", ")", "{", "}", ",", ".", "="].contains(&self.word(at)) {
                self.bound.push((bare(self.word(at)).to_string(), self.tokens[at].line));
            }
        }
    }

    /// The names that terms and types bind: after `λ`, `∀` and `let`, and in `(x y : A)`.
    fn bound_in(&mut self, range: Range<usize>) {
        let (mut found, mut lets) = (Vec::new(), Vec::new());
        for at in range.clone() {
            match self.word(at) {
                "λ" | "∀" => {
                    let end = self.find(at + 1..range.end, &["."]).unwrap_or(at);
                    found.extend(self.plain(at + 1..end));
                }
                "let" => {
                    let end = self.find(at + 1..range.end, &["=", ":"]).unwrap_or(at);
                    lets.extend(self.plain(at + 1..end));
                }
                "(" | "{" => {
                    let names = (at + 1..range.end)
                        .take_while(|at| {
                            !["(", ")", "{", "}", ",", ".", ";", "=", ":"].contains(&self.word(*at))
                        })
                        .count();
                    if names > 0 && self.word(at + 1 + names) == ":" {
                        found.extend(at + 1..at + 1 + names);
                    }
                }
                _ => {}
            }
        }
        let named = |at: usize| (bare(self.word(at)).to_string(), self.tokens[at].line);
        let found: Vec<(String, usize)> = found.into_iter().map(named).collect();
        let lets: Vec<(String, usize)> = lets.into_iter().map(named).collect();
        self.bound.extend(found);
        self.lets.extend(lets);
    }

    /// The names among binders, those in brackets only where no type follows.
    fn plain(&self, range: Range<usize>) -> Vec<usize> {
        let typed = self.find(range.clone(), &[":"]).unwrap_or(range.end);
        let mut found = Vec::new();
        let mut at = range.start;
        while at < typed {
            if ["(", "{"].contains(&self.word(at)) {
                let close = (at..typed).find(|at| [")", "}"].contains(&self.word(*at)));
                let close = close.unwrap_or(typed);
                if !(at..close).any(|at| self.word(at) == ":") {
                    found.extend(
                        (at + 1..close)
                            .filter(|at| !["(", "{", ",", "=", ";"].contains(&self.word(*at))),
                    );
                }
                at = close;
            } else if ![",", ".", "record", "}", ")"].contains(&self.word(at)) {
                found.push(at);
            }
            at += 1;
        }
        found
    }
}
