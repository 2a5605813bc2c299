//! Going through a run of tokens.

use crate::items::Span;
use crate::lexer::{Kind, Token, Trouble};

pub struct Cursor<'a> {
    pub tokens: &'a [Token],
    at: usize,
    end: usize,
    /// Whether the first half of the `>>` that is next is passed.
    half: bool,
}

/// The mark that closes what this one opens.
fn closing(open: &str) -> Option<&'static str> {
    match open {
        "(" => Some(")"),
        "[" => Some("]"),
        "{" => Some("}"),
        _ => None,
    }
}

/// The place behind the group that starts at a place of the run.
pub fn behind_group(tokens: &[Token], at: usize) -> Result<usize, Trouble> {
    let mut open = vec![closing(&tokens[at].text).unwrap_or_default()];
    for (i, token) in tokens.iter().enumerate().skip(at + 1) {
        if token.kind != Kind::Mark {
            continue;
        }
        if let Some(mark) = closing(&token.text) {
            open.push(mark);
        } else if open.last() == Some(&token.text.as_str()) {
            open.pop();
            if open.is_empty() {
                return Ok(i + 1);
            }
        }
    }
    Err(Trouble {
        line: tokens[at].line,
        what: format!("has a `{}` that is not closed", tokens[at].text),
    })
}

/// The parts of a run between the marks of this kind that stand in no group; an empty last one is
/// left out.
pub fn parts(tokens: &[Token], span: Span, mark: &str) -> Result<Vec<Span>, Trouble> {
    let mut cursor = Cursor::new(tokens, span);
    let mut found = Vec::new();
    while !cursor.is_end() {
        found.push(cursor.until(&[mark])?);
        cursor.eats(mark);
    }
    Ok(found)
}

impl<'a> Cursor<'a> {
    pub fn new(tokens: &'a [Token], span: Span) -> Self {
        Cursor {
            tokens,
            at: span.start,
            end: span.end,
            half: false,
        }
    }

    /// A cursor over a part of the same tokens.
    pub fn within(&self, span: Span) -> Self {
        Cursor::new(self.tokens, span)
    }

    pub fn is_end(&self) -> bool {
        self.at >= self.end
    }

    pub fn at(&self) -> usize {
        self.at
    }

    pub fn rest(&self) -> Span {
        self.at..self.end
    }

    pub fn token(&self) -> Option<&'a Token> {
        self.tokens[..self.end].get(self.at)
    }

    /// Goes past one token.
    pub fn next(&mut self) {
        self.at += 1;
    }

    fn is(&self, at: usize, text: &str) -> bool {
        let token = self.tokens[..self.end].get(at);
        token.is_some_and(|token| {
            matches!(token.kind, Kind::Word | Kind::Mark) && token.text == text
        })
    }

    /// Whether these are the next tokens.
    pub fn looks_at(&self, texts: &[&str]) -> bool {
        texts
            .iter()
            .enumerate()
            .all(|(i, text)| self.is(self.at + i, text))
    }

    /// Goes past this token, if it is the next.
    pub fn eats(&mut self, text: &str) -> bool {
        let here = self.is(self.at, text);
        self.at += usize::from(here);
        here
    }

    pub fn trouble<T>(&self, what: impl Into<String>) -> Result<T, Trouble> {
        let last = self
            .tokens
            .get(self.at.min(self.tokens.len().saturating_sub(1)));
        Err(Trouble {
            line: last.map_or(1, |token| token.line),
            what: what.into(),
        })
    }

    pub fn expect(&mut self, text: &str) -> Result<(), Trouble> {
        if self.eats(text) {
            return Ok(());
        }
        let found = self.token().map_or("the end", |token| &token.text);
        self.trouble(format!("has `{found}` where `{text}` is expected"))
    }

    pub fn word(&mut self) -> Result<String, Trouble> {
        match self.token() {
            Some(token) if token.kind == Kind::Word => {
                self.at += 1;
                Ok(token.text.clone())
            }
            Some(token) => self.trouble(format!("has `{}` where a name is expected", token.text)),
            None => self.trouble("ends where a name is expected"),
        }
    }

    pub fn quoted(&mut self) -> Result<(), Trouble> {
        match self.token() {
            Some(token) if token.kind == Kind::Quoted => {
                self.at += 1;
                Ok(())
            }
            _ => self.trouble("has no string where one is expected"),
        }
    }

    /// Goes past the group that starts here; what is inside.
    pub fn group(&mut self) -> Result<Span, Trouble> {
        let open = self.token().filter(|token| closing(&token.text).is_some());
        if open.is_none() {
            return self.trouble("has no bracket where one is expected");
        }
        let start = self.at + 1;
        self.at = behind_group(self.tokens, self.at)?;
        Ok(start..self.at - 1)
    }

    /// Goes up to the first of these marks that stands in no group, or to the end; what is passed.
    pub fn until(&mut self, marks: &[&str]) -> Result<Span, Trouble> {
        let start = self.at;
        while !self.is_end() && !marks.iter().any(|mark| self.is(self.at, mark)) {
            match self.token() {
                Some(token) if token.kind == Kind::Mark && closing(&token.text).is_some() => {
                    self.at = behind_group(self.tokens, self.at)?;
                }
                _ => self.at += 1,
            }
        }
        Ok(start..self.at)
    }

    /// Goes up to the comma behind a type, or to the end; what is passed.
    pub fn type_up_to_comma(&mut self) -> Result<Span, Trouble> {
        let start = self.at;
        while !self.is_end() && !self.looks_at(&[","]) {
            if self.looks_at(&["<"]) {
                self.angles()?;
            } else {
                self.until(&["<", ","])?;
            }
        }
        Ok(start..self.at)
    }

    /// Goes past attributes; the traits that they derive.
    pub fn attributes(&mut self) -> Result<Vec<String>, Trouble> {
        let mut derived = Vec::new();
        while self.eats("#") {
            self.eats("!");
            let inside = self.group()?;
            let mut inner = self.within(inside);
            if inner.eats("derive") {
                let traits = inner.group()?;
                let words = self.tokens[traits].iter();
                let words = words.filter(|token| token.kind == Kind::Word);
                derived.extend(words.map(|token| token.text.clone()));
            }
        }
        Ok(derived)
    }

    /// Whether `pub` stands here, for everyone.
    pub fn visibility(&mut self) -> Result<bool, Trouble> {
        if !self.eats("pub") {
            return Ok(false);
        }
        let within = ["crate", "super", "self", "in"];
        if within.iter().any(|word| self.looks_at(&["(", word])) {
            self.group()?;
            return Ok(false);
        }
        Ok(true)
    }

    /// A path, `a::b::c`.
    pub fn path(&mut self) -> Result<Vec<String>, Trouble> {
        let mut path = vec![self.word()?];
        while self.looks_at(&["::"]) && !self.looks_at(&["::", "<"]) {
            self.next();
            path.push(self.word()?);
        }
        Ok(path)
    }

    /// Goes past the name of a lifetime or a label, if it is next.
    pub fn eats_lifetime(&mut self) -> bool {
        let here = self
            .token()
            .is_some_and(|token| token.kind == Kind::Mark && token.text.starts_with('\''));
        self.at += usize::from(here);
        here
    }

    /// Goes past a `>`, which may be a half of `>>`.
    pub fn closes_angle(&mut self) -> bool {
        if self.looks_at(&[">>"]) && !self.half {
            self.half = true;
            return true;
        }
        let closes = self.looks_at(&[">"]) || self.half;
        self.at += usize::from(closes);
        self.half = false;
        closes
    }

    /// Goes past `<`, what stands between it and the `>` that closes it, and that; what is between.
    pub fn angles(&mut self) -> Result<Span, Trouble> {
        self.expect("<")?;
        let start = self.at;
        let mut open = 1;
        while !self.is_end() {
            let here = self.at;
            match self.token() {
                Some(token) if token.kind == Kind::Mark && closing(&token.text).is_some() => {
                    self.at = behind_group(self.tokens, self.at)?;
                    continue;
                }
                Some(token) if token.kind == Kind::Mark => match token.text.as_str() {
                    "<" => open += 1,
                    ">" => open -= 1,
                    ">>" => open -= 2,
                    _ => {}
                },
                _ => {}
            }
            self.at += 1;
            if open <= 0 {
                return Ok(start..here);
            }
        }
        self.trouble("has a `<` that is not closed")
    }
}
