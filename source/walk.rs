//! The walk: from a crate's public functions through every function that they call, in every crate.
//! In each it looks for long arrays, in the code, in the types it names and in the constants it
//! uses; and it finds what it cannot follow, so that no call is left out in silence.

use crate::arrays::{self, Locals, Names};
use crate::cursor::Cursor;
use crate::items::{parameters, Item, Owner, Span};
use crate::lexer::{Token, Trouble};
use crate::mentions::{mentions, What};
use crate::program::{Finding, Key, Place, Program, Target};
use crate::types::{self, Type};
use std::collections::{BTreeMap, BTreeSet};

/// The bytes of the longest array allowed (document 02, R-8).
pub const LONGEST: u64 = 32;

/// What the language's library brings: methods of slices, numbers and answers, functions of
/// numbers, and the variants of its two types for an answer or none. What the compiler made of
/// these is followed in its MIR.
const METHODS: [&str; 10] = [
    "all",
    "copy_from_slice",
    "fill",
    "is_some",
    "iter",
    "len",
    "map",
    "next_multiple_of",
    "ok_or",
    "saturating_sub",
];
const FUNCTIONS: [&str; 3] = ["count_ones", "from", "trailing_zeros"];
const VARIANTS: [&str; 4] = ["Err", "None", "Ok", "Some"];

/// Traits of the library whose functions are called by name alone, in a macro or on a formatter.
/// Those of the others may be called with no name: by an operator, a `?`, a loop or the end of a
/// value's life.
const NAMED: [&str; 2] = ["Debug", "Display"];

/// What a walk met.
pub struct Walked<'a> {
    program: &'a Program,
    /// Each function, and the one that called it first.
    callers: BTreeMap<Place, Option<Place>>,
    /// The functions that are still to be looked at.
    waiting: Vec<Place>,
    /// The types and constants that were looked at.
    seen: BTreeSet<Place>,
    /// The crates that a function is reached of.
    crates: BTreeSet<String>,
    pub roots: usize,
    pub calls: usize,
    pub findings: Vec<Finding>,
}

/// What is looked at: the module whose names count, its name in a sentence, and the function on the
/// way.
#[derive(Clone)]
struct Scope {
    module: Key,
    name: String,
    function: Place,
    /// The types that it takes as parameters, its other parameters, and what it stands in.
    types: Vec<String>,
    locals: Locals,
    owner: Option<Owner>,
}

/// Walks from all public functions of a crate.
pub fn walk<'a>(program: &'a Program, from: &str) -> Walked<'a> {
    let mut walked = Walked {
        program,
        callers: BTreeMap::new(),
        waiting: Vec::new(),
        seen: BTreeSet::new(),
        crates: BTreeSet::new(),
        roots: 0,
        calls: 0,
        findings: Vec::new(),
    };
    for place in functions(program, from, true) {
        walked.roots += 1;
        walked.reach(&place, None);
    }
    while let Some(place) = walked.waiting.pop() {
        walked.look_at_function(&place);
    }
    walked
}

/// The functions of a crate: all, or those that are public.
pub fn functions(program: &Program, of: &str, only_public: bool) -> Vec<Place> {
    let mut found = Vec::new();
    for (module, inside) in program.modules.iter().filter(|(module, _)| module[0] == of) {
        for (index, named) in inside.items.iter().enumerate() {
            match named.item {
                Item::Function { public, .. } if public || !only_public => found.push(Place {
                    module: module.clone(),
                    index,
                }),
                _ => {}
            }
        }
    }
    found
}

impl Walked<'_> {
    /// The whole names of the functions reached.
    pub fn names(&self) -> Vec<String> {
        self.callers
            .keys()
            .map(|place| self.program.name(place))
            .collect()
    }

    fn reach(&mut self, place: &Place, caller: Option<&Place>) {
        if !self.callers.contains_key(place) {
            self.callers.insert(place.clone(), caller.cloned());
            self.waiting.push(place.clone());
            if self.crates.insert(place.module[0].clone()) {
                self.reach_unnamed(place);
            }
        }
    }

    /// Reaches what a crate has of the library's traits, as the first of its functions is reached.
    fn reach_unnamed(&mut self, first: &Place) {
        let program = self.program;
        let own = program.members();
        let own = own.filter(|(place, _, _)| place.module[0] == first.module[0]);
        let of_library = own.filter(|(place, _, owner)| {
            owner.by.as_ref().is_some_and(|by| {
                let is_named = by.last().is_some_and(|by| NAMED.contains(&by.as_str()));
                !is_named && program.targets(&place.module, by).is_empty()
            })
        });
        for (place, _, _) in of_library {
            self.reach(&place, Some(first));
        }
    }

    /// How a function was reached, from a public one on.
    fn way(&self, function: &Place) -> String {
        let mut way = vec![self.program.name(function)];
        let mut place = function;
        while let Some(Some(caller)) = self.callers.get(place) {
            way.push(self.program.name(caller));
            place = caller;
        }
        way.reverse();
        way.join(" > ")
    }

    fn found(&mut self, scope: &Scope, line: usize, says: &str, is_array: bool) {
        self.findings.push(Finding {
            file: self.program.path_of(&scope.module).to_string(),
            line,
            says: format!(
                "`{}` {says}; the way here: {}",
                scope.name,
                self.way(&scope.function)
            ),
            is_array,
        });
    }

    fn unclear(&mut self, scope: &Scope, line: usize, says: &str) {
        self.found(scope, line, says, false);
    }

    /// A finding where a run cannot be read.
    fn readable<T>(&mut self, scope: &Scope, read: Result<T, Trouble>) -> Option<T> {
        match read {
            Ok(read) => Some(read),
            Err(trouble) => {
                self.unclear(scope, trouble.line, &trouble.what);
                None
            }
        }
    }

    /// A function, or a constant of an `impl`, which the compiler has as one.
    fn look_at_function(&mut self, place: &Place) {
        let program = self.program;
        let named = program.item(place);
        let owner = named.owner.clone();
        let mut scope = Scope {
            module: place.module.clone(),
            name: program.name(place),
            function: place.clone(),
            types: owner.iter().flat_map(|owner| owner.types.clone()).collect(),
            locals: Locals::new(),
            owner,
        };
        match &named.item {
            Item::Function {
                signature, body, ..
            } => {
                self.look_at_signature(&mut scope, signature.clone());
                let tokens = &program.tokens(&place.module)[body.clone()];
                scope.locals.retain(|name, _| !is_bound(tokens, name));
                self.look_at_code(&scope, body.clone());
            }
            Item::Constant { declared, value } => {
                self.look_at_type_in(&scope, declared.clone());
                self.look_at_code(&scope, value.clone());
            }
            _ => {}
        }
    }

    /// Its types; its parameters are in scope behind it.
    fn look_at_signature(&mut self, scope: &mut Scope, signature: Span) {
        let read = read_signature(self.program, &scope.module, signature);
        let Some(found) = self.readable(scope, read) else {
            return;
        };
        scope.types.extend(found.parameters);
        for span in found.types {
            self.look_at_type_in(scope, span);
        }
        scope.locals = found.locals;
        if let Some(owner) = &scope.owner {
            scope.locals.insert("self".to_string(), owner.of.clone());
        }
    }

    fn look_at_code(&mut self, scope: &Scope, span: Span) {
        let read = mentions(self.program.tokens(&scope.module), span);
        for mention in self.readable(scope, read).unwrap_or_default() {
            let line = mention.line;
            match mention.what {
                What::Path {
                    path,
                    types,
                    called,
                } => {
                    self.look_at_path(scope, line, &path, called);
                    for span in types {
                        self.look_at_types_in(scope, span);
                    }
                }
                What::Method(name) => self.look_at_method(scope, line, &name),
                What::Brackets(inside) => self.look_at_brackets(scope, line, inside),
                What::Bytes(length) => self.look_at_bytes(scope, line, length as u64),
                What::Unclear(says) => self.unclear(scope, line, says),
            }
        }
    }

    /// A path: a function is walked even where it is only named, since it may be called later.
    fn look_at_path(&mut self, scope: &Scope, line: usize, path: &[String], called: bool) {
        if let [name] = path {
            let is_variant = VARIANTS.contains(&name.as_str());
            let own = || self.program.targets(&scope.module, path);
            if scope.types.contains(name) || is_variant && own().is_empty() {
                return;
            }
        }
        let targets = self.targets(scope, path);
        let is_clear = targets.iter().any(|target| self.is_clear(target, called));
        if !is_clear && (called || !may_be_local(path)) {
            let what = if called { "calls" } else { "names" };
            let says = format!("{what} `{}`, which cannot be resolved", path.join("::"));
            self.unclear(scope, line, &says);
        }
        for target in targets {
            if let Target::Item(place) | Target::Variant(place) = target {
                self.look_at_item(scope, &place, called);
            }
        }
    }

    /// What a path names in a function: behind one of the function's types, or `Self` in a trait,
    /// the members of that name.
    fn targets(&self, scope: &Scope, path: &[String]) -> Vec<Target> {
        let own = scope.owner.as_ref().filter(|_| path[0] == "Self");
        let own = own.and_then(|owner| self.program.owner_of(&scope.module, owner));
        if let Some(own) = own.filter(|own| !self.is_trait(own)) {
            return match path {
                [_] => vec![own],
                [_, name] => self.program.inside(&own, name, 0),
                _ => Vec::new(),
            };
        }
        match path {
            [first, name] if first == "Self" || scope.types.contains(first) => {
                self.program.members_named(&scope.module[0], name)
            }
            _ => self.program.targets(&scope.module, path),
        }
    }

    fn is_trait(&self, target: &Target) -> bool {
        matches!(target, Target::Item(place) if matches!(self.program.item(place).item, Item::Trait))
    }

    /// A method may be each of this name that the crate sees, or the library's.
    fn look_at_method(&mut self, scope: &Scope, line: usize, name: &str) {
        let targets = self.program.members_named(&scope.module[0], name);
        if targets.is_empty() && !METHODS.contains(&name) {
            let says = format!("calls the method `{name}`, which cannot be resolved");
            self.unclear(scope, line, &says);
        }
        for target in targets {
            if let Target::Item(place) = target {
                self.look_at_item(scope, &place, true);
            }
        }
    }

    /// Whether a path that leads to this can be called, or named where it is not called.
    fn is_clear(&self, target: &Target, called: bool) -> bool {
        match target {
            Target::Item(place) => {
                !called
                    || !matches!(
                        self.program.item(place).item,
                        Item::Constant { .. } | Item::Alias { .. } | Item::Trait
                    )
            }
            Target::Variant(_) => true,
            Target::Language(path) => {
                !called || path.len() == 2 && FUNCTIONS.contains(&path[1].as_str())
            }
            Target::Module(_) => false,
        }
    }

    fn look_at_item(&mut self, scope: &Scope, place: &Place, called: bool) {
        let program = self.program;
        let inner = Scope {
            module: place.module.clone(),
            name: program.name(place),
            function: scope.function.clone(),
            types: Vec::new(),
            locals: Locals::new(),
            owner: None,
        };
        match &program.item(place).item {
            Item::Function { .. } => {
                self.calls += usize::from(called);
                self.reach(place, Some(&scope.function));
            }
            Item::Constant { .. } if program.item(place).owner.is_some() => {
                self.reach(place, Some(&scope.function));
            }
            _ if !self.seen.insert(place.clone()) => {}
            Item::Constant { declared, value } => {
                self.look_at_type_in(&inner, declared.clone());
                self.look_at_code(&inner, value.clone());
            }
            Item::Struct { fields } => fields
                .iter()
                .for_each(|(_, span)| self.look_at_type_in(&inner, span.clone())),
            Item::Enum { variants } => {
                let fields = variants.iter().flat_map(|(_, fields)| fields);
                fields.for_each(|(_, span)| self.look_at_type_in(&inner, span.clone()));
            }
            Item::Alias { stands_for } => self.look_at_type_in(&inner, stands_for.clone()),
            Item::Import { .. } | Item::Module { .. } | Item::Trait => {}
        }
    }

    fn look_at_type_in(&mut self, scope: &Scope, span: Span) {
        let line = self.program.tokens(&scope.module)[span.start].line;
        let read = types::read(self.program, &scope.module, span);
        if let Some(of) = self.readable(scope, read) {
            self.look_at_type(scope, line, &of);
        }
    }

    /// The types of a list, `<A, B>`.
    fn look_at_types_in(&mut self, scope: &Scope, span: Span) {
        let tokens = self.program.tokens(&scope.module);
        let line = tokens[span.start].line;
        let read = types::read_list(&mut Cursor::new(tokens, span));
        for of in self.readable(scope, read).unwrap_or_default() {
            self.look_at_type(scope, line, &of);
        }
    }

    fn look_at_type(&mut self, scope: &Scope, line: usize, of: &Type) {
        match of {
            Type::Reference(inner) | Type::Slice(inner) => self.look_at_type(scope, line, inner),
            Type::Tuple(fields) => fields
                .iter()
                .for_each(|field| self.look_at_type(scope, line, field)),
            Type::Array(element, _) => {
                match self.program.size(&scope.module, of, 0) {
                    Ok(size) => self.look_at_bytes(scope, line, size.bytes),
                    Err(says) => self.unclear(scope, line, &says),
                }
                self.look_at_type(scope, line, element);
            }
            Type::Path(path, types) => {
                types
                    .iter()
                    .for_each(|of| self.look_at_type(scope, line, of));
                self.look_at_type_path(scope, line, path);
            }
        }
    }

    fn look_at_type_path(&mut self, scope: &Scope, line: usize, path: &[String]) {
        if path[0] == "Self" && scope.owner.is_some() || scope.types.contains(&path[0]) {
            return;
        }
        match self.program.type_at(&scope.module, path) {
            Some(Target::Item(place)) => self.look_at_item(scope, &place, false),
            Some(_) => {}
            None if types::is_wrapper(path) => {}
            None => {
                let says = format!("names the type `{}`, which is not known", path.join("::"));
                self.unclear(scope, line, &says);
            }
        }
    }

    fn look_at_brackets(&mut self, scope: &Scope, line: usize, inside: Span) {
        let names = Names {
            program: self.program,
            module: &scope.module,
            locals: &scope.locals,
        };
        match arrays::bytes(&names, inside) {
            Ok(bytes) => self.look_at_bytes(scope, line, bytes.unwrap_or(0)),
            Err(says) => self.unclear(scope, line, &says),
        }
    }

    fn look_at_bytes(&mut self, scope: &Scope, line: usize, bytes: u64) {
        if bytes > LONGEST {
            let says = format!("has an array of {bytes} bytes, and {LONGEST} are allowed");
            self.found(scope, line, &says, true);
        }
    }
}

/// Whether a path may be a local: one name, and not with a capital, as types and constants have it.
fn may_be_local(path: &[String]) -> bool {
    path.len() == 1 && !path[0].starts_with(|c: char| c.is_ascii_uppercase())
}

/// What a signature has.
struct Signature {
    /// The names of the types and numbers that it takes in angle brackets.
    parameters: Vec<String>,
    /// The types of the parameters and of the answer.
    types: Vec<Span>,
    locals: Locals,
}

fn read_signature(program: &Program, module: &Key, signature: Span) -> Result<Signature, Trouble> {
    let mut cursor = Cursor::new(program.tokens(module), signature);
    let mut found = Signature {
        parameters: parameters(&mut cursor)?,
        types: Vec::new(),
        locals: Locals::new(),
    };
    let inside = cursor.group()?;
    let mut inner = cursor.within(inside);
    while !inner.is_end() {
        let pattern = inner.until(&[":", ","])?;
        if inner.eats(":") {
            let of = inner.type_up_to_comma()?;
            let name = cursor.tokens[pattern].last();
            let name = name.map_or(String::new(), |token| token.text.clone());
            found.locals.insert(name, of.clone());
            found.types.push(of);
        }
        inner.eats(",");
    }
    if cursor.eats("->") {
        let of = cursor.until(&["where"])?;
        found.types.push(of);
    }
    Ok(found)
}

/// Whether code binds a name anew, so that it may be of another type behind that.
fn is_bound(tokens: &[Token], name: &str) -> bool {
    let binds = ["let", "mut", "for", "ref", "|"];
    let two = tokens.windows(2);
    let mut named = two.filter(|two| two[1].text == name);
    named.any(|two| binds.contains(&two[0].text.as_str()))
}
