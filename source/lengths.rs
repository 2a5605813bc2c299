//! The value of an array's length: numbers, constants by their paths, `+ - * /`, parentheses, `as`.

use crate::cursor::Cursor;
use crate::items::{Item, Span};
use crate::lexer::Kind;
use crate::program::{Key, Program, Target};

/// Constants that lead to constants are followed so far.
const DEPTH_MAX: usize = 16;

/// The value of an expression in a module, or why it cannot be told.
pub fn value(program: &Program, module: &Key, span: Span) -> Result<u64, String> {
    within(program, module, span, 0)
}

fn within(program: &Program, module: &Key, span: Span, depth: usize) -> Result<u64, String> {
    let mut reader = Reader {
        program,
        module,
        cursor: Cursor::new(program.tokens(module), span),
        depth,
    };
    let found = reader.sum();
    found.filter(|_| reader.cursor.is_end()).ok_or_else(unknown)
}

fn unknown() -> String {
    "has an array whose length cannot be told from the source".to_string()
}

struct Reader<'a> {
    program: &'a Program,
    module: &'a Key,
    cursor: Cursor<'a>,
    depth: usize,
}

impl Reader<'_> {
    fn sum(&mut self) -> Option<u64> {
        let mut total = self.product()?;
        loop {
            if self.cursor.eats("+") {
                total = total.checked_add(self.product()?)?;
            } else if self.cursor.eats("-") {
                total = total.checked_sub(self.product()?)?;
            } else {
                return Some(total);
            }
        }
    }

    fn product(&mut self) -> Option<u64> {
        let mut total = self.cast()?;
        loop {
            if self.cursor.eats("*") {
                total = total.checked_mul(self.cast()?)?;
            } else if self.cursor.eats("/") {
                total = total.checked_div(self.cast()?)?;
            } else {
                return Some(total);
            }
        }
    }

    /// A value, whatever unsigned type it is cast to: one that does not fit is not known.
    fn cast(&mut self) -> Option<u64> {
        let found = self.one()?;
        while self.cursor.eats("as") {
            let most = match self.cursor.word().ok()?.as_str() {
                "u8" => u64::from(u8::MAX),
                "u16" => u64::from(u16::MAX),
                "u32" => u64::from(u32::MAX),
                "u64" | "usize" => u64::MAX,
                _ => return None,
            };
            if found > most {
                return None;
            }
        }
        Some(found)
    }

    fn one(&mut self) -> Option<u64> {
        let token = self.cursor.token()?;
        if token.text == "(" {
            let inside = self.cursor.group().ok()?;
            return within(self.program, self.module, inside, self.depth + 1).ok();
        }
        match token.kind {
            Kind::Number => {
                let found = number(&token.text);
                self.cursor.next();
                found
            }
            Kind::Word => {
                let path = self.cursor.path().ok()?;
                self.constant(&path)
            }
            _ => None,
        }
    }

    fn constant(&self, path: &[String]) -> Option<u64> {
        if self.depth > DEPTH_MAX {
            return None;
        }
        for target in self.program.targets(self.module, path) {
            let Target::Item(place) = target else {
                continue;
            };
            if let Item::Constant { value, .. } = &self.program.item(&place).item {
                return within(self.program, &place.module, value.clone(), self.depth + 1).ok();
            }
        }
        None
    }
}

/// A whole number as it is written, with or without the name of its type.
fn number(text: &str) -> Option<u64> {
    let text = text.replace('_', "");
    let (digits, radix) = match text.get(..2) {
        Some("0x") => (&text[2..], 16),
        Some("0b") => (&text[2..], 2),
        Some("0o") => (&text[2..], 8),
        _ => (&text[..], 10),
    };
    let end = digits.find(['u', 'i']).unwrap_or(digits.len());
    u64::from_str_radix(&digits[..end], radix).ok()
}

/// The bytes of a number that names its own type, as `0u8`.
pub fn suffix(text: &str) -> Option<&str> {
    text.find(['u', 'i']).map(|at| &text[at..])
}
