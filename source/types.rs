//! Types: reading them, the arrays inside them, and their sizes.

use crate::cursor::Cursor;
use crate::items::{Field, Item, Span};
use crate::lengths;
use crate::lexer::{Kind, Trouble};
use crate::program::{Key, Place, Program, Target, SCALARS};

/// A type as it is written; the paths in it are those of its module.
pub enum Type {
    /// A path, and the types behind it in angle brackets.
    Path(Vec<String>, Vec<Type>),
    /// A reference to what follows.
    Reference(Box<Type>),
    Slice(Box<Type>),
    /// An array: its element, and the expression of its length.
    Array(Box<Type>, Span),
    Tuple(Vec<Type>),
}

/// The bytes of a value, and what its address is a multiple of.
#[derive(Clone, Copy)]
pub struct Size {
    pub bytes: u64,
    align: u64,
}

const POINTER: Size = Size { bytes: 8, align: 8 };

/// Types inside types are followed so far.
const DEPTH_MAX: usize = 32;

/// Reads a type that takes the whole run.
pub fn read(program: &Program, module: &Key, span: Span) -> Result<Type, Trouble> {
    let mut cursor = Cursor::new(program.tokens(module), span);
    let found = read_at(&mut cursor)?;
    if cursor.is_end() {
        return Ok(found);
    }
    cursor.trouble("has a type that is not known")
}

fn read_at(cursor: &mut Cursor) -> Result<Type, Trouble> {
    if cursor.eats("&") {
        cursor.eats_lifetime();
        cursor.eats("mut");
        return Ok(Type::Reference(Box::new(read_at(cursor)?)));
    }
    if cursor.looks_at(&["["]) {
        let inside = cursor.group()?;
        return read_brackets(&cursor.within(inside));
    }
    if cursor.looks_at(&["("]) {
        let inside = cursor.group()?;
        let mut inner = cursor.within(inside);
        let mut fields = Vec::new();
        while !inner.is_end() {
            fields.push(read_at(&mut inner)?);
            if !inner.is_end() {
                inner.expect(",")?;
            }
        }
        return Ok(Type::Tuple(fields));
    }
    let path = cursor.path()?;
    let types = if cursor.looks_at(&["<"]) {
        read_list(cursor)?
    } else {
        Vec::new()
    };
    Ok(Type::Path(path, types))
}

/// The types between `<` and `>`; lifetimes and numbers are left out.
pub fn read_list(cursor: &mut Cursor) -> Result<Vec<Type>, Trouble> {
    cursor.expect("<")?;
    let mut found = Vec::new();
    while !cursor.closes_angle() {
        if cursor.is_end() {
            return cursor.trouble("has a `<` that is not closed");
        }
        match cursor.token() {
            Some(token) if token.kind == Kind::Number => cursor.next(),
            _ if cursor.eats_lifetime() => {}
            _ => found.push(read_at(cursor)?),
        }
        cursor.eats(",");
    }
    Ok(found)
}

/// What stands inside the brackets of a slice's or an array's type.
fn read_brackets(inside: &Cursor) -> Result<Type, Trouble> {
    let mut cursor = inside.within(inside.rest());
    let element = Box::new(read_at(&mut cursor)?);
    if cursor.is_end() {
        return Ok(Type::Slice(element));
    }
    cursor.expect(";")?;
    Ok(Type::Array(element, cursor.rest()))
}

impl Program {
    /// The one type that a path names, where it names one.
    pub fn type_at(&self, module: &Key, path: &[String]) -> Option<Target> {
        self.targets(module, path)
            .into_iter()
            .find(|target| match target {
                Target::Item(place) => self.is_type(place),
                Target::Language(path) => path.len() == 1,
                _ => false,
            })
    }

    pub fn is_type(&self, place: &Place) -> bool {
        matches!(
            self.item(place).item,
            Item::Struct { .. } | Item::Enum { .. } | Item::Alias { .. } | Item::Trait
        )
    }

    /// The size of a type, or why it cannot be told.
    pub fn size(&self, module: &Key, of: &Type, depth: usize) -> Result<Size, String> {
        if depth > DEPTH_MAX {
            return Err("has types inside types without end".to_string());
        }
        match of {
            Type::Reference(to) if matches!(**to, Type::Slice(_)) => Ok(Size {
                bytes: 16,
                align: 8,
            }),
            Type::Reference(_) => Ok(POINTER),
            Type::Slice(_) => Err("has a slice with no reference to it".to_string()),
            Type::Array(element, length) => {
                let element = self.size(module, element, depth + 1)?;
                let count = lengths::value(self, module, length.clone())?;
                Ok(Size {
                    bytes: element.bytes.saturating_mul(count),
                    align: element.align,
                })
            }
            Type::Tuple(fields) => {
                let sizes = fields
                    .iter()
                    .map(|field| self.size(module, field, depth + 1));
                Ok(side_by_side(&sizes.collect::<Result<Vec<_>, _>>()?))
            }
            Type::Path(path, types) => self.size_of_path(module, path, types, depth),
        }
    }

    fn size_of_path(
        &self,
        module: &Key,
        path: &[String],
        types: &[Type],
        depth: usize,
    ) -> Result<Size, String> {
        let unknown = || {
            Err(format!(
                "names the type `{}`, which is not known",
                path.join("::")
            ))
        };
        match self.type_at(module, path) {
            Some(Target::Language(name)) => {
                let scalar = SCALARS.iter().find(|(scalar, _)| **scalar == name[0]);
                scalar.map_or_else(unknown, |(_, bytes)| {
                    Ok(Size {
                        bytes: *bytes,
                        align: *bytes,
                    })
                })
            }
            Some(Target::Item(place)) => self.size_of_item(&place, depth + 1),
            None if is_wrapper(path) => {
                let sizes = types.iter().map(|of| self.size(module, of, depth + 1));
                Ok(one_of(&sizes.collect::<Result<Vec<_>, _>>()?))
            }
            _ => unknown(),
        }
    }

    /// The size of a declared type, its fields in their order.
    pub fn size_of_item(&self, place: &Place, depth: usize) -> Result<Size, String> {
        match &self.item(place).item {
            Item::Struct { fields } => self.size_of_fields(place, fields, depth),
            Item::Enum { variants } => {
                let sizes = variants
                    .iter()
                    .map(|(_, fields)| self.size_of_fields(place, fields, depth));
                Ok(one_of(&sizes.collect::<Result<Vec<_>, _>>()?))
            }
            Item::Alias { stands_for } => {
                self.size_of_fields(place, &[(String::new(), stands_for.clone())], depth)
            }
            _ => Err(format!("takes `{}` for a type", self.name(place))),
        }
    }

    fn size_of_fields(
        &self,
        place: &Place,
        fields: &[Field],
        depth: usize,
    ) -> Result<Size, String> {
        let mut sizes = Vec::new();
        for (_, field) in fields {
            let of = read(self, &place.module, field.clone()).map_err(|trouble| trouble.what)?;
            sizes.push(self.size(&place.module, &of, depth)?);
        }
        Ok(side_by_side(&sizes))
    }
}

/// Whether this is one of the language's two types for an answer or none.
pub fn is_wrapper(path: &[String]) -> bool {
    path.len() == 1 && ["Option", "Result"].contains(&path[0].as_str())
}

/// The size of one of several, with the byte that says which.
fn one_of(sizes: &[Size]) -> Size {
    let largest = Size {
        bytes: sizes.iter().map(|size| size.bytes).max().unwrap_or(0),
        align: sizes.iter().map(|size| size.align).max().unwrap_or(1),
    };
    side_by_side(&[largest, Size { bytes: 1, align: 1 }])
}

/// The size of fields in their order, each at a multiple of its own.
fn side_by_side(fields: &[Size]) -> Size {
    let up = |bytes: u64, align: u64| bytes.div_ceil(align.max(1)) * align.max(1);
    let (mut bytes, mut align) = (0, 1);
    for field in fields {
        bytes = up(bytes, field.align) + field.bytes;
        align = field.align.max(align);
    }
    Size {
        bytes: up(bytes, align),
        align,
    }
}
