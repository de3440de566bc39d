//! A file of src/: its functions with their contracts, its types and what it brings in.

use std::ops::Range;

use crate::lexer::{Token, source_tokens};
use crate::proof::{Import, imports};

#[derive(Clone, Debug)]
pub struct Function {
    pub name: String,
    pub line: usize,
    pub exported: bool,
    pub has_body: bool,
    pub place: Place,
    pub parameters: Vec<String>,
    pub requires: usize,
    pub ensures: usize,
    /// From its attributes to before its body: what it takes, gives and promises.
    pub head: Range<usize>,
}

/// Where a function stands: by itself, as a trait declares it, in an impl of a trait, or there where
/// the trait in the same file or the ghost member `NAME_gives` says what it promises.
#[derive(Clone, Copy, Debug, PartialEq)]
pub enum Place {
    Own,
    Declared,
    OfTrait,
    Promised,
}

/// A struct, an enum, a constant or another name for a type.
#[derive(Clone, Debug)]
pub struct Item {
    pub name: String,
    pub range: Range<usize>,
}

pub struct Source<'a> {
    pub text: &'a str,
    pub tokens: Vec<Token<'a>>,
    /// What `ghost use` brings in.
    pub imports: Vec<Import>,
    /// The paths of plain `use` items.
    pub uses: Vec<Vec<&'a str>>,
    pub functions: Vec<Function>,
    pub items: Vec<Item>,
    /// How many functions stand there without being written: one for each derive of `Default`, and the
    /// `size_hint` of each `impl Iterator`.
    pub derived: usize,
    /// The traits of the file, and the ghost members of its traits and impls.
    traits: Vec<&'a str>,
    ghosts: Vec<&'a str>,
}

impl<'a> Source<'a> {
    pub fn read(text: &'a str) -> Result<Source<'a>, String> {
        let tokens = source_tokens(text)?;
        let mut source = Source {
            text,
            tokens,
            imports: Vec::new(),
            uses: Vec::new(),
            functions: Vec::new(),
            items: Vec::new(),
            derived: 0,
            traits: Vec::new(),
            ghosts: Vec::new(),
        };
        source.block(0..source.tokens.len(), Place::Own)?;
        Ok(source)
    }

    fn word(&self, at: usize) -> &'a str {
        self.tokens.get(at).map_or("", |token| token.text)
    }

    /// The place after the bracket that closes the one at `at`.
    fn closed(&self, at: usize) -> Result<usize, String> {
        let mut depth = 0usize;
        for place in at..self.tokens.len() {
            match self.word(place) {
                "(" | "[" | "{" => depth += 1,
                ")" | "]" | "}" => depth -= 1,
                _ => {}
            }
            if depth == 0 {
                return Ok(place + 1);
            }
        }
        Err(format!("line {}: a bracket is not closed", self.tokens[at].line))
    }

    /// The place of one of these words, outside the brackets that begin after `at`.
    fn find(&self, mut at: usize, words: &[&str]) -> Result<usize, String> {
        let line = self.tokens.get(at).map_or(0, |token| token.line);
        while at < self.tokens.len() {
            if words.contains(&self.word(at)) {
                return Ok(at);
            }
            at = if ["(", "[", "{"].contains(&self.word(at)) { self.closed(at)? } else { at + 1 };
        }
        Err(format!("line {line}: an item that is not read"))
    }

    fn block(&mut self, range: Range<usize>, place: Place) -> Result<(), String> {
        let mut at = range.start;
        while at < range.end {
            at = self.item(at, place)?;
        }
        Ok(())
    }

    /// Reads the item at `at`, and gives the place after it.
    fn item(&mut self, start: usize, place: Place) -> Result<usize, String> {
        let mut at = start;
        let mut exported = false;
        loop {
            match self.word(at) {
                "#" if self.word(at + 1) == "!" => return self.closed(at + 2),
                "#" => {
                    let end = self.closed(at + 1)?;
                    exported |= (at..end).any(|at| self.word(at) == "no_mangle");
                    let derives = self.word(at + 2) == "derive";
                    let named = (at..end).filter(|at| self.word(*at) == "Default").count();
                    self.derived += if derives { named } else { 0 };
                    at = end;
                }
                "pub" if self.word(at + 1) == "(" => at = self.closed(at + 1)?,
                "pub" => at += 1,
                "extern" => {
                    exported = true;
                    at += 1 + usize::from(self.word(at + 1).starts_with('"'));
                }
                _ => break,
            }
        }
        match self.word(at) {
            "fn" => self.function(start, at, exported, place),
            "ghost" if self.word(at + 1) == "use" => {
                let end = self.find(at, &[";"])?;
                let found = imports(&self.tokens[at + 2..end])?;
                self.imports.extend(found);
                Ok(end + 1)
            }
            "use" => {
                let end = self.find(at, &[";"])?;
                let words = (at + 1..end).map(|at| self.word(at)).filter(|word| *word != ":");
                let words: Vec<&str> = words.collect();
                self.used(&[], &words);
                Ok(end + 1)
            }
            // A ghost member of a trait or of an impl of one.
            "ghost" if place != Place::Own => {
                self.ghosts.push(self.word(at + 1));
                Ok(self.find(at, &[";"])? + 1)
            }
            "mod" if self.word(at + 2) == ";" => Ok(at + 3),
            "impl" | "trait" | "mod" | "{" => {
                let open = self.find(at, &["{"])?;
                let end = self.closed(open)?;
                let of_trait = (at..open).find(|at| self.word(*at) == "for");
                let of_trait = of_trait.filter(|_| self.word(at) == "impl");
                let inside = match self.word(at) {
                    "trait" => Place::Declared,
                    _ if of_trait.is_some() => Place::OfTrait,
                    _ => Place::Own,
                };
                if inside == Place::Declared {
                    self.traits.push(self.word(at + 1));
                }
                self.derived += usize::from(of_trait.is_some() && self.word(at + 1) == "Iterator");
                let (functions, ghosts) = (self.functions.len(), self.ghosts.len());
                self.block(open + 1..end - 1, inside)?;
                let here = of_trait.is_some_and(|at| self.traits.contains(&self.word(at - 1)));
                let said = &self.ghosts[ghosts..];
                for function in &mut self.functions[functions..] {
                    let gives = format!("{}_gives", function.name);
                    if of_trait.is_some() && (here || said.contains(&gives.as_str())) {
                        function.place = Place::Promised;
                    }
                }
                Ok(end)
            }
            "struct" | "enum" | "const" | "type" => {
                let mark = self.find(at, &["{", ";"])?;
                let end = if self.word(mark) == "{" { self.closed(mark)? } else { mark + 1 };
                self.items.push(Item { name: self.word(at + 1).to_string(), range: start..end });
                Ok(end)
            }
            _ => Err(format!("line {}: an item that is not read", self.tokens[start].line)),
        }
    }

    /// The paths of a plain `use`: what stands before its braces goes before each of their paths.
    fn used(&mut self, before: &[&'a str], words: &[&'a str]) {
        let mut depth = 0usize;
        let parts = words.split(|word| {
            depth += usize::from(*word == "{");
            depth = depth.saturating_sub(usize::from(*word == "}"));
            depth == 0 && *word == ","
        });
        let parts: Vec<&[&str]> = parts.filter(|part| !part.is_empty()).collect();
        for part in parts {
            let open = part.iter().position(|word| *word == "{").unwrap_or(part.len());
            let path: Vec<&str> = before.iter().chain(&part[..open]).copied().collect();
            match part.get(open + 1..part.len() - 1) {
                Some(inside) => self.used(&path, inside),
                None => self.uses.push(path),
            }
        }
    }

    fn function(
        &mut self,
        start: usize,
        at: usize,
        exported: bool,
        place: Place,
    ) -> Result<usize, String> {
        let open = self.find(at, &["("])?;
        let close = self.closed(open)?;
        let parameters = (open + 1..close)
            .filter(|at| self.word(at + 1) == ":" && ["(", ",", "mut"].contains(&self.word(at - 1)))
            .map(|at| self.word(at).to_string())
            .collect();
        let (mut requires, mut ensures) = (0, 0);
        let mut next = close;
        // The result's type has no brace, so each brace is a clause's or the body's.
        let end = loop {
            let mark = self.find(next, &["{", ";", "requires", "ensures"])?;
            match self.word(mark) {
                "requires" => requires += 1,
                "ensures" => ensures += 1,
                _ => break mark,
            }
            next = self.closed(self.find(mark, &["{"])?)?;
        };
        let has_body = self.word(end) == "{";
        self.functions.push(Function {
            name: self.word(at + 1).to_string(),
            line: self.tokens[at].line,
            exported,
            has_body,
            place,
            parameters,
            requires,
            ensures,
            head: start..end,
        });
        if has_body { self.closed(end) } else { Ok(end + 1) }
    }
}
