//! What a run of code mentions: the paths that it names or calls, its methods and macros, and its
//! brackets.

use crate::cursor::{behind_group, Cursor};
use crate::items::Span;
use crate::lexer::{Kind, Token, Trouble};

pub enum What {
    /// A path, the lists of types in it, and whether it is called.
    Path {
        path: Vec<String>,
        types: Vec<Span>,
        called: bool,
    },
    /// `.name(`
    Method(String),
    /// Square brackets that are no index: what stands inside.
    Brackets(Span),
    /// A byte string of so many bytes.
    Bytes(usize),
    /// A form whose calls cannot be told from the text; in words.
    Unclear(&'static str),
}

pub struct Mention {
    pub what: What,
    pub line: usize,
}

/// The macros that are followed: what stands behind them is read as code.
const MACROS: [&str; 2] = ["matches", "unreachable"];

/// The words of the language that may stand where a name may.
const KEYWORDS: [&str; 19] = [
    "as", "break", "const", "continue", "else", "false", "for", "if", "in", "let", "loop", "match",
    "mut", "move", "ref", "return", "true", "unsafe", "while",
];

fn is_keyword(token: &Token) -> bool {
    token.kind == Kind::Word && KEYWORDS.contains(&token.text.as_str())
}

fn is_mark(token: Option<&Token>, text: &str) -> bool {
    token.is_some_and(|token| token.kind == Kind::Mark && token.text == text)
}

/// Whether a value may end with this token, so that brackets behind it are an index and parentheses
/// a call.
fn ends_value(token: &Token) -> bool {
    match token.kind {
        Kind::Word => !is_keyword(token),
        Kind::Mark => [")", "]", "?"].contains(&token.text.as_str()),
        _ => true,
    }
}

/// All that these tokens mention, in their order.
pub fn mentions(tokens: &[Token], span: Span) -> Result<Vec<Mention>, Trouble> {
    let mut found = Vec::new();
    let mut at = span.start;
    while at < span.end {
        let before = (at > span.start).then(|| &tokens[at - 1]);
        let line = tokens[at].line;
        let (what, next) = mention(tokens, span.end, before, at)?;
        found.extend(what.map(|what| Mention { what, line }));
        at = next;
    }
    Ok(found)
}

/// What the token at a place begins, if anything, and the place behind it.
fn mention(
    tokens: &[Token],
    end: usize,
    before: Option<&Token>,
    at: usize,
) -> Result<(Option<What>, usize), Trouble> {
    let token = &tokens[at];
    match token.kind {
        Kind::Bytes(length) => Ok((Some(What::Bytes(length)), at + 1)),
        Kind::Word if is_mark(before, ".") => Ok((method(&tokens[..end], at), at + 1)),
        Kind::Word if is_keyword(token) => Ok((None, at + 1)),
        Kind::Word => word(tokens, end, at),
        Kind::Mark if token.text == "::" => Ok((
            Some(What::Unclear("has a path that begins with no name")),
            at + 1,
        )),
        Kind::Mark if token.text == "[" && !before.is_some_and(ends_value) => {
            let inside = at + 1..behind_group(tokens, at)? - 1;
            Ok((Some(What::Brackets(inside)), at + 1))
        }
        Kind::Mark
            if token.text == "("
                && before.is_some_and(|token| token.kind != Kind::Word && ends_value(token)) =>
        {
            Ok((Some(What::Unclear("calls a value")), at + 1))
        }
        _ => Ok((None, at + 1)),
    }
}

/// A word behind a dot: a method where it is called, else a field.
fn method(tokens: &[Token], at: usize) -> Option<What> {
    let behind = tokens.get(at + 1);
    let called = is_mark(behind, "(") || is_mark(behind, "::");
    called.then(|| What::Method(tokens[at].text.clone()))
}

/// A word that is no field and no word of the language begins a path, or names a form that is not
/// followed.
fn word(tokens: &[Token], end: usize, at: usize) -> Result<(Option<What>, usize), Trouble> {
    let unclear = match tokens[at].text.as_str() {
        "fn" => Some("has a function inside, or the type of one"),
        "impl" | "dyn" | "trait" | "struct" | "enum" | "use" | "mod" | "static" | "type" => {
            Some("declares an item inside")
        }
        _ => None,
    };
    if unclear.is_some() {
        return Ok((unclear.map(What::Unclear), at + 1));
    }
    let mut cursor = Cursor::new(tokens, at..end);
    let (path, types) = path_and_types(&mut cursor)?;
    let next = cursor.at();
    let behind = tokens[..end].get(next);
    if is_mark(behind, "!") {
        let is_followed = path.len() == 1 && MACROS.contains(&path[0].as_str());
        return Ok((
            (!is_followed).then_some(What::Unclear("uses a macro")),
            next + 1,
        ));
    }
    if path.len() == 1 && is_mark(behind, ":") {
        return Ok((None, next));
    }
    let called = is_mark(behind, "(");
    let what = What::Path {
        path,
        types,
        called,
    };
    Ok((Some(what), next))
}

/// A path, and the lists of types in it: `a::b::<A>::c`.
fn path_and_types(cursor: &mut Cursor) -> Result<(Vec<String>, Vec<Span>), Trouble> {
    let mut path = cursor.path()?;
    let mut types = Vec::new();
    while cursor.looks_at(&["::", "<"]) {
        cursor.next();
        let start = cursor.at();
        cursor.angles()?;
        types.push(start..cursor.at());
        if cursor.eats("::") {
            path.extend(cursor.path()?);
        }
    }
    Ok((path, types))
}
