//! The tokens of a source file. What is for the prover alone (`requires { .. }`, `ensures { .. }`,
//! `ghost use ..;`, a ghost field or member) is no code and is left out, as comments are.

#[derive(Clone, Copy, PartialEq)]
pub enum Kind {
    Word,
    Number,
    /// A byte string of so many bytes, an escape counted by its characters.
    Bytes(usize),
    /// A string or a character.
    Quoted,
    Mark,
}

pub struct Token {
    pub kind: Kind,
    pub text: String,
    pub line: usize,
    /// The byte of the file where it starts.
    pub at: usize,
}

/// What cannot be read, and where.
pub struct Trouble {
    pub line: usize,
    pub what: String,
}

/// The marks of more than one character, longer ones first.
const MARKS: [&str; 24] = [
    "..=", "<<=", ">>=", "...", "::", "->", "=>", "==", "!=", "<=", ">=", "&&", "||", "..", "<<",
    ">>", "+=", "-=", "*=", "/=", "%=", "&=", "|=", "^=",
];

/// The words that begin a contract.
const CONTRACTS: [&str; 2] = ["requires", "ensures"];

struct Lexer<'a> {
    text: &'a str,
    at: usize,
    line: usize,
    tokens: Vec<Token>,
}

pub fn tokens(text: &str) -> Result<Vec<Token>, Trouble> {
    let mut lexer = Lexer {
        text,
        at: 0,
        line: 1,
        tokens: Vec::new(),
    };
    while lexer.at < text.len() {
        lexer.step()?;
    }
    Ok(lexer.tokens)
}

fn is_word(c: char) -> bool {
    c.is_ascii_alphanumeric() || c == '_'
}

impl Lexer<'_> {
    fn rest(&self) -> &str {
        &self.text[self.at..]
    }

    fn next(&self) -> char {
        self.rest().chars().next().unwrap_or('\0')
    }

    /// Goes on by so many bytes.
    fn skip(&mut self, bytes: usize) {
        self.line += self.text[self.at..self.at + bytes].matches('\n').count();
        self.at += bytes;
    }

    fn trouble<T>(&self, what: impl Into<String>) -> Result<T, Trouble> {
        Err(Trouble {
            line: self.line,
            what: what.into(),
        })
    }

    fn push(&mut self, kind: Kind, bytes: usize) {
        self.tokens.push(Token {
            kind,
            text: self.text[self.at..self.at + bytes].to_string(),
            line: self.line,
            at: self.at,
        });
        self.skip(bytes);
    }

    fn step(&mut self) -> Result<(), Trouble> {
        let c = self.next();
        if c.is_whitespace() {
            self.skip(c.len_utf8());
            return Ok(());
        }
        match c {
            _ if self.rest().starts_with("//") => {
                self.skip(self.rest().find('\n').unwrap_or(self.rest().len()));
                Ok(())
            }
            _ if self.rest().starts_with("/*") => self.trouble("has a block comment"),
            '"' => self.quoted(0, |_| Kind::Quoted),
            '\'' => self.apostrophe(),
            '0'..='9' => {
                self.number();
                Ok(())
            }
            _ if is_word(c) => self.word(),
            _ if c.is_ascii_punctuation() => {
                let mark = MARKS.iter().find(|mark| self.rest().starts_with(**mark));
                self.push(Kind::Mark, mark.map_or(1, |mark| mark.len()));
                Ok(())
            }
            _ => self.trouble(format!("has '{c}', which is no code")),
        }
    }

    fn number(&mut self) {
        let bytes = self.rest().bytes().collect::<Vec<u8>>();
        let is_digit = |i: usize| bytes.get(i).is_some_and(u8::is_ascii_digit);
        let mut end = 0;
        while end < bytes.len()
            && (is_word(bytes[end] as char) || bytes[end] == b'.' && is_digit(end + 1))
        {
            end += 1;
        }
        self.push(Kind::Number, end);
    }

    fn word(&mut self) -> Result<(), Trouble> {
        let rest = self.rest();
        let end = rest.find(|c| !is_word(c)).unwrap_or(rest.len());
        let (word, behind) = (&rest[..end], &rest[end..]);
        if word == "b" && behind.starts_with('"') {
            return self.quoted(1, Kind::Bytes);
        }
        if ["r", "br"].contains(&word) && behind.starts_with(['"', '#']) {
            return self.trouble("has a raw string");
        }
        if word == "ghost" {
            return self.ghost(end);
        }
        if CONTRACTS.contains(&word) && begins_braces(behind) {
            return self.braces("has a contract that does not end");
        }
        self.push(Kind::Word, end);
        Ok(())
    }

    /// `ghost use ..;`, or `ghost name: { .. }` and `ghost name = { .. }`, with the `,` or `;` behind.
    fn ghost(&mut self, end: usize) -> Result<(), Trouble> {
        let behind = self.rest()[end..].trim_start();
        if let (true, Some(last)) = (behind.starts_with("use "), self.rest().find(';')) {
            self.skip(last + 1);
            return Ok(());
        }
        let behind = behind.trim_start_matches(is_word).trim_start();
        if !behind.starts_with([':', '=']) {
            return self.trouble("has a `ghost` that is none of the known forms");
        }
        self.braces("has a `ghost` that does not end")?;
        if self.rest().trim_start().starts_with('=') {
            self.braces("has a `ghost` that does not end")?;
        }
        let rest = self.rest();
        let space = rest.len() - rest.trim_start().len();
        if rest[space..].starts_with([',', ';']) {
            self.skip(space + 1);
        }
        Ok(())
    }

    /// Goes behind the brace that closes the first that opens; the text is the prover's, braces alone
    /// count.
    fn braces(&mut self, otherwise: &str) -> Result<(), Trouble> {
        let mut open = 0;
        for (i, c) in self.rest().char_indices() {
            open += usize::from(c == '{');
            if c == '}' {
                open -= 1;
                if open == 0 {
                    self.skip(i + 1);
                    return Ok(());
                }
            }
        }
        self.trouble(otherwise)
    }

    /// A text in quotes, which starts behind so many bytes; the kind goes by its length.
    fn quoted(&mut self, before: usize, kind: fn(usize) -> Kind) -> Result<(), Trouble> {
        let inside = &self.rest()[before + 1..];
        let (mut escaped, mut length) = (false, 0);
        for (i, c) in inside.char_indices() {
            if c == '"' && !escaped {
                self.push(kind(length), before + 1 + i + 1);
                return Ok(());
            }
            escaped = c == '\\' && !escaped;
            length += usize::from(!escaped);
        }
        self.trouble("has a string that does not end")
    }

    /// A character, or the name of a lifetime or a label.
    fn apostrophe(&mut self) -> Result<(), Trouble> {
        let inside = &self.rest()[1..];
        let first = inside.chars().next().map_or(0, char::len_utf8);
        if inside.starts_with('\\') {
            let end = inside[2..].find('\'').map(|i| i + 4);
            return match end {
                Some(end) => {
                    self.push(Kind::Quoted, end);
                    Ok(())
                }
                None => self.trouble("has a character that does not end"),
            };
        }
        if inside[first..].starts_with('\'') {
            self.push(Kind::Quoted, first + 2);
        } else {
            let name = inside.find(|c| !is_word(c)).unwrap_or(inside.len());
            self.push(Kind::Mark, name + 1);
        }
        Ok(())
    }
}

/// Whether a brace follows, behind a star or none and a name or none.
fn begins_braces(text: &str) -> bool {
    let behind = text.strip_prefix('*').unwrap_or(text);
    let behind = behind.trim_start().trim_start_matches(is_word);
    behind.trim_start().starts_with('{')
}
