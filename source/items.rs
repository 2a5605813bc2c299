//! The items of a file: functions, constants, types, imports and modules, each with where its parts
//! stand among the file's tokens.

use crate::cursor::Cursor;
use crate::lexer::{Token, Trouble};
use std::ops::Range;

/// A run of a file's tokens.
pub type Span = Range<usize>;

/// A field's name, or nothing where it has none, and its type.
pub type Field = (String, Span);

/// What a function or a constant belongs to that stands in an `impl` or a trait.
#[derive(Clone)]
pub struct Owner {
    /// The type of the `impl`, or the trait's own name.
    pub of: Span,
    /// The trait, if it is one's.
    pub by: Option<Vec<String>>,
    /// The names of the types that the `impl` or the trait takes as parameters.
    pub types: Vec<String>,
}

pub enum Item {
    /// The signature is all between the name and the body.
    Function {
        public: bool,
        signature: Span,
        body: Span,
    },
    /// A `const` or a `static`.
    Constant {
        declared: Span,
        value: Span,
    },
    Struct {
        fields: Vec<Field>,
    },
    /// The variants, and the fields of each.
    Enum {
        variants: Vec<(String, Vec<Field>)>,
    },
    /// Its functions and constants are items of their own.
    Trait,
    Alias {
        stands_for: Span,
    },
    /// The path that the name stands for.
    Import {
        path: Vec<String>,
    },
    /// A module, with its items where they stand in the same file.
    Module {
        inside: Option<Vec<Named>>,
    },
}

pub struct Named {
    pub name: String,
    pub item: Item,
    pub owner: Option<Owner>,
    /// The traits that the compiler writes an `impl` of.
    pub derived: Vec<String>,
}

impl Named {
    fn new(name: String, item: Item) -> Named {
        Named {
            name,
            item,
            owner: None,
            derived: Vec::new(),
        }
    }

    fn deriving(self, derived: Vec<String>) -> Named {
        Named { derived, ..self }
    }
}

/// The items among these tokens.
pub fn items(tokens: &[Token], span: Span) -> Result<Vec<Named>, Trouble> {
    let mut found = Vec::new();
    let mut cursor = Cursor::new(tokens, span);
    while !cursor.is_end() {
        item(&mut cursor, &mut found)?;
    }
    Ok(found)
}

fn item(cursor: &mut Cursor, found: &mut Vec<Named>) -> Result<(), Trouble> {
    let derived = cursor.attributes()?;
    if cursor.is_end() {
        return Ok(());
    }
    let public = cursor.visibility()?;
    while cursor.eats("unsafe") || cursor.looks_at(&["const", "fn"]) && cursor.eats("const") {}
    if cursor.eats("extern") {
        cursor.quoted()?;
    }
    let first = cursor.word()?;
    match first.as_str() {
        "fn" | "const" | "static" => {
            let named = match first.as_str() {
                "fn" => function(cursor, public)?,
                _ => constant(cursor)?,
            };
            let Some(named) = named else {
                return cursor.trouble(format!("has a `{first}` that is only declared"));
            };
            found.push(named);
        }
        "struct" => found.push(structure(cursor)?.deriving(derived)),
        "enum" => found.push(enumeration(cursor)?.deriving(derived)),
        "impl" => implementation(cursor, found)?,
        "trait" => declaration(cursor, found)?,
        "type" => found.push(alias(cursor)?),
        "mod" => found.push(module(cursor)?),
        "use" => {
            imports(cursor, &mut Vec::new(), found)?;
            cursor.expect(";")?;
        }
        _ => {
            let says = format!("has an item that begins with `{first}`, which is not known");
            return cursor.trouble(says);
        }
    }
    Ok(())
}

/// `impl TYPE { .. }` or `impl TRAIT for TYPE { .. }`.
fn implementation(cursor: &mut Cursor, found: &mut Vec<Named>) -> Result<(), Trouble> {
    let types = parameters(cursor)?;
    let mut of = cursor.until(&["for", "where", "{"])?;
    let mut by = None;
    if cursor.eats("for") {
        by = Some(cursor.within(of).path()?);
        of = cursor.until(&["where", "{"])?;
    }
    members(cursor, &Owner { of, by, types }, found)
}

/// A trait, and what it has for those that do not write their own.
fn declaration(cursor: &mut Cursor, found: &mut Vec<Named>) -> Result<(), Trouble> {
    let start = cursor.at();
    let name = cursor.word()?;
    let of = start..cursor.at();
    let types = parameters(cursor)?;
    found.push(Named::new(name.clone(), Item::Trait));
    let by = Some(vec![name]);
    members(cursor, &Owner { of, by, types }, found)
}

/// The functions and constants in the braces that come next; one that is only declared is left out.
fn members(cursor: &mut Cursor, owner: &Owner, found: &mut Vec<Named>) -> Result<(), Trouble> {
    cursor.until(&["{"])?;
    let inside = cursor.group()?;
    let mut inner = cursor.within(inside);
    while !inner.is_end() {
        inner.attributes()?;
        let public = inner.visibility()?;
        while inner.eats("unsafe")
            || inner.eats("final")
            || inner.looks_at(&["const", "fn"]) && inner.eats("const")
        {}
        let named = match inner.word()?.as_str() {
            "fn" => function(&mut inner, public)?,
            "const" => constant(&mut inner)?,
            "type" => {
                inner.until(&[";"])?;
                inner.expect(";")?;
                None
            }
            other => {
                return inner.trouble(format!("has a member `{other}`, which is not known"));
            }
        };
        found.extend(named.map(|named| Named {
            owner: Some(owner.clone()),
            ..named
        }));
    }
    Ok(())
}

/// The names of the types and numbers in angle brackets behind a name, if there are any.
pub fn parameters(cursor: &mut Cursor) -> Result<Vec<String>, Trouble> {
    let mut names = Vec::new();
    if !cursor.looks_at(&["<"]) {
        return Ok(names);
    }
    let inside = cursor.angles()?;
    let mut inner = cursor.within(inside);
    while !inner.is_end() {
        inner.eats("const");
        if !inner.eats_lifetime() {
            names.push(inner.word()?);
        }
        while !inner.is_end() && !inner.eats(",") {
            if inner.looks_at(&["<"]) {
                inner.angles()?;
            } else {
                inner.next();
            }
        }
    }
    Ok(names)
}

/// A function; nothing where it has no body.
fn function(cursor: &mut Cursor, public: bool) -> Result<Option<Named>, Trouble> {
    let name = cursor.word()?;
    let signature = cursor.until(&["{", ";"])?;
    if cursor.eats(";") {
        return Ok(None);
    }
    let body = cursor.group()?;
    let item = Item::Function {
        public,
        signature,
        body,
    };
    Ok(Some(Named::new(name, item)))
}

/// A constant; nothing where it has no value.
fn constant(cursor: &mut Cursor) -> Result<Option<Named>, Trouble> {
    cursor.eats("mut");
    let name = cursor.word()?;
    cursor.expect(":")?;
    let declared = cursor.until(&["=", ";"])?;
    if cursor.eats(";") {
        return Ok(None);
    }
    cursor.expect("=")?;
    let value = cursor.until(&[";"])?;
    cursor.expect(";")?;
    let item = Item::Constant { declared, value };
    Ok(Some(Named::new(name, item)))
}

fn structure(cursor: &mut Cursor) -> Result<Named, Trouble> {
    let name = cursor.word()?;
    cursor.until(&["{", "(", ";"])?;
    let fields = fields(cursor)?;
    cursor.eats(";");
    Ok(Named::new(name, Item::Struct { fields }))
}

/// The fields in braces or parentheses; none where there is neither.
fn fields(cursor: &mut Cursor) -> Result<Vec<Field>, Trouble> {
    let named = cursor.looks_at(&["{"]);
    if !named && !cursor.looks_at(&["("]) {
        return Ok(Vec::new());
    }
    let mut found = Vec::new();
    let inside = cursor.group()?;
    let mut cursor = cursor.within(inside);
    while !cursor.is_end() {
        cursor.attributes()?;
        cursor.visibility()?;
        let mut name = String::new();
        if named {
            name = cursor.word()?;
            cursor.expect(":")?;
        }
        found.push((name, cursor.type_up_to_comma()?));
        cursor.eats(",");
    }
    Ok(found)
}

fn enumeration(cursor: &mut Cursor) -> Result<Named, Trouble> {
    let name = cursor.word()?;
    cursor.until(&["{"])?;
    let inside = cursor.group()?;
    let mut inner = cursor.within(inside);
    let mut variants = Vec::new();
    while !inner.is_end() {
        inner.attributes()?;
        variants.push((inner.word()?, fields(&mut inner)?));
        inner.until(&[","])?;
        inner.eats(",");
    }
    Ok(Named::new(name, Item::Enum { variants }))
}

fn alias(cursor: &mut Cursor) -> Result<Named, Trouble> {
    let name = cursor.word()?;
    cursor.expect("=")?;
    let stands_for = cursor.until(&[";"])?;
    cursor.expect(";")?;
    Ok(Named::new(name, Item::Alias { stands_for }))
}

fn module(cursor: &mut Cursor) -> Result<Named, Trouble> {
    let name = cursor.word()?;
    let mut inside = None;
    if !cursor.eats(";") {
        let span = cursor.group()?;
        inside = Some(items(cursor.tokens, span)?);
    }
    Ok(Named::new(name, Item::Module { inside }))
}

/// What a `use` brings: `a::b`, `a::b as c`, `a::{b, c}`.
fn imports(
    cursor: &mut Cursor,
    path: &mut Vec<String>,
    found: &mut Vec<Named>,
) -> Result<(), Trouble> {
    let length = path.len();
    path.push(cursor.word()?);
    while cursor.eats("::") {
        if cursor.looks_at(&["{"]) {
            let inside = cursor.group()?;
            let mut inner = cursor.within(inside);
            while !inner.is_end() {
                imports(&mut inner, path, found)?;
                inner.eats(",");
            }
            path.truncate(length);
            return Ok(());
        }
        path.push(cursor.word()?);
    }
    if path.last().is_some_and(|last| last == "self") {
        path.pop();
    }
    let own = path.last().cloned().unwrap_or_default();
    let name = if cursor.eats("as") {
        cursor.word()?
    } else {
        own
    };
    found.push(Named::new(name, Item::Import { path: path.clone() }));
    path.truncate(length);
    Ok(())
}
