//! The bytes of an array, as a type or as a value.

use crate::cursor::{parts, Cursor};
use crate::items::{Item, Span};
use crate::lengths;
use crate::lexer::Kind;
use crate::program::{Key, Program, Target};
use crate::types::{self, Type};
use std::collections::BTreeMap;

/// The parameters of a function, each with its type, which stands in the function's module.
pub type Locals = BTreeMap<String, Span>;

/// Where a text stands whose names are looked up: its module, and the parameters of its function.
pub struct Names<'a> {
    pub program: &'a Program,
    pub module: &'a Key,
    pub locals: &'a Locals,
}

/// The bytes of what stands in square brackets that are no index; nothing where it is the type of a
/// slice.
pub fn bytes(names: &Names, inside: Span) -> Result<Option<u64>, String> {
    let (program, module) = (names.program, names.module);
    let tokens = program.tokens(module);
    let halves = parts(tokens, inside.clone(), ";").map_err(|trouble| trouble.what)?;
    if let [element, length] = &halves[..] {
        let count = lengths::value(program, module, length.clone())?;
        return Ok(Some(element_bytes(names, element)?.saturating_mul(count)));
    }
    let elements = parts(tokens, inside, ",").map_err(|trouble| trouble.what)?;
    if let [one] = &elements[..] {
        if of_type(program, module, one.clone()).is_some() {
            return Ok(None);
        }
    }
    list_bytes(names, &elements).map(Some)
}

/// The bytes of a list of values, whose elements are of the type of any that tells its own.
fn list_bytes(names: &Names, elements: &[Span]) -> Result<u64, String> {
    let mut trouble = None;
    for element in elements {
        match element_bytes(names, element) {
            Ok(bytes) => return Ok(bytes.saturating_mul(elements.len() as u64)),
            Err(says) => trouble = Some(says),
        }
    }
    trouble.map_or(Ok(0), Err)
}

/// The bytes of an element, which is a type or a value that tells its type.
fn element_bytes(names: &Names, element: &Span) -> Result<u64, String> {
    let (program, module) = (names.program, names.module);
    if let Some(of) = of_type(program, module, element.clone()) {
        return Ok(program.size(module, &of, 0)?.bytes);
    }
    value_bytes(names, element.clone()).unwrap_or_else(|| {
        let says =
            "has an array whose elements do not tell their type; write one with its type, as `0u8`";
        Err(says.to_string())
    })
}

/// The type that a run is, if all of it is one.
fn of_type(program: &Program, module: &Key, span: Span) -> Option<Type> {
    let found = types::read(program, module, span).ok()?;
    let is_type = match innermost(&found) {
        Type::Path(path, _) => types::is_wrapper(path) || program.type_at(module, path).is_some(),
        _ => true,
    };
    is_type.then_some(found)
}

/// The type behind references and inside arrays, which alone decides whether the whole is a type:
/// `&x` and `[x; 2]` may be values.
fn innermost(of: &Type) -> &Type {
    match of {
        Type::Reference(inner) | Type::Slice(inner) | Type::Array(inner, _) => innermost(inner),
        Type::Tuple(fields) => fields.first().map_or(of, innermost),
        Type::Path(..) => of,
    }
}

/// The bytes of a value, where its text tells its type.
fn value_bytes(names: &Names, span: Span) -> Option<Result<u64, String>> {
    let (program, module) = (names.program, names.module);
    let tokens = program.tokens(module);
    let scalar = |name: &str| {
        Some(
            program
                .size(module, &Type::Path(vec![name.to_string()], Vec::new()), 0)
                .map(|size| size.bytes),
        )
    };
    let shifts = tokens[span.clone()]
        .iter()
        .any(|token| ["<<", ">>"].contains(&token.text.as_str()));
    if span.len() >= 3 && tokens[span.end - 2].text == "as" && !shifts {
        return scalar(&tokens[span.end - 1].text);
    }
    let mut cursor = Cursor::new(tokens, span.clone());
    let first = cursor.token()?;
    match first.kind {
        Kind::Number if span.len() == 1 => lengths::suffix(&first.text).and_then(scalar),
        Kind::Word if ["true", "false"].contains(&first.text.as_str()) && span.len() == 1 => {
            scalar("bool")
        }
        Kind::Word => named_bytes(names, &mut cursor),
        Kind::Mark if first.text == "[" => {
            let inside = cursor.group().ok().filter(|_| cursor.is_end())?;
            bytes(names, inside).transpose()
        }
        _ => None,
    }
}

/// The bytes of a value that begins with a name: of a parameter, or by a path.
fn named_bytes(names: &Names, cursor: &mut Cursor) -> Option<Result<u64, String>> {
    if let Some(declared) = names.locals.get(&cursor.token()?.text) {
        cursor.next();
        return part_bytes(names.program, names.module, declared.clone(), cursor);
    }
    let path = cursor.path().ok()?;
    if cursor.looks_at(&["("]) || cursor.looks_at(&["{"]) {
        cursor.group().ok()?;
    }
    path_bytes(names.program, names.module, &path).filter(|_| cursor.is_end())
}

/// The bytes of a parameter of this type, or of a field or an element of it, `.a[i]`.
fn part_bytes(
    program: &Program,
    module: &Key,
    declared: Span,
    cursor: &mut Cursor,
) -> Option<Result<u64, String>> {
    let mut module = module.clone();
    let mut of = types::read(program, &module, declared).ok()?;
    while !cursor.is_end() {
        while let Type::Reference(to) = of {
            of = *to;
        }
        if cursor.looks_at(&["["]) {
            of = element_of(of, cursor)?;
            continue;
        }
        cursor.expect(".").ok()?;
        (module, of) = field_of(program, &module, &of, &cursor.word().ok()?)?;
    }
    Some(program.size(&module, &of, 0).map(|size| size.bytes))
}

/// The type of an element, whose index in brackets is next.
fn element_of(of: Type, cursor: &mut Cursor) -> Option<Type> {
    let index = cursor.group().ok()?;
    let marks = cursor.tokens[index].iter();
    let is_range = marks.filter(|token| token.text.starts_with("..")).count() > 0;
    match of {
        Type::Slice(element) | Type::Array(element, _) if !is_range => Some(*element),
        _ => None,
    }
}

/// The type of a field, and the module that its names are of.
fn field_of(program: &Program, module: &Key, of: &Type, name: &str) -> Option<(Key, Type)> {
    let Type::Path(path, _) = of else {
        return None;
    };
    let Some(Target::Item(place)) = program.type_at(module, path) else {
        return None;
    };
    let Item::Struct { fields } = &program.item(&place).item else {
        return None;
    };
    let (_, field) = fields.iter().find(|(field, _)| field == name)?;
    let of = types::read(program, &place.module, field.clone()).ok()?;
    Some((place.module, of))
}

/// The bytes of a constant, a struct or an enum, by its path.
fn path_bytes(program: &Program, module: &Key, path: &[String]) -> Option<Result<u64, String>> {
    let place = program
        .targets(module, path)
        .into_iter()
        .find_map(|target| match target {
            Target::Item(place) | Target::Variant(place) => Some(place),
            _ => None,
        })?;
    match &program.item(&place).item {
        Item::Constant { declared, .. } => {
            let of = types::read(program, &place.module, declared.clone()).ok()?;
            Some(program.size(&place.module, &of, 0).map(|size| size.bytes))
        }
        _ if program.is_type(&place) => {
            Some(program.size_of_item(&place, 0).map(|size| size.bytes))
        }
        _ => None,
    }
}
