//! All crates as one program: files, modules with their items, and what a path names.

use crate::items::{items, Item, Named, Owner};
use crate::lexer::{tokens, Kind, Token};
use crate::types::{self, Type};
use std::collections::{BTreeMap, BTreeSet};
use std::fmt;

/// The text of each source file, by its path.
pub type Sources = BTreeMap<String, String>;

/// A module: its crate, and the names that lead to it from there.
pub type Key = Vec<String>;

pub struct File {
    pub path: String,
    pub tokens: Vec<Token>,
}

pub struct Module {
    pub file: usize,
    pub items: Vec<Named>,
}

pub struct Program {
    pub files: Vec<File>,
    pub modules: BTreeMap<Key, Module>,
    /// The crates that each names, and those that these name.
    sees: BTreeMap<String, BTreeSet<String>>,
}

/// A place in a source file, and a sentence about it.
pub struct Finding {
    pub file: String,
    pub line: usize,
    pub says: String,
    /// Whether it is a long array; else it is something that cannot be read or followed.
    pub is_array: bool,
}

impl fmt::Display for Finding {
    fn fmt(&self, f: &mut fmt::Formatter) -> fmt::Result {
        write!(f, "{}:{}: {}", self.file, self.line, self.says)
    }
}

/// A named item: the module that it stands in, and its place there.
#[derive(Clone, PartialEq, Eq, PartialOrd, Ord)]
pub struct Place {
    pub module: Key,
    pub index: usize,
}

/// What a path names.
#[derive(Clone, PartialEq)]
pub enum Target {
    Module(Key),
    /// A function, a constant or a type.
    Item(Place),
    /// A variant of the enum at a place.
    Variant(Place),
    /// A type of the language, or what belongs to it, by its path.
    Language(Vec<String>),
}

/// The numbers of the language with their bytes, and `bool`.
pub const SCALARS: [(&str, u64); 15] = [
    ("u8", 1),
    ("u16", 2),
    ("u32", 4),
    ("u64", 8),
    ("u128", 16),
    ("usize", 8),
    ("i8", 1),
    ("i16", 2),
    ("i32", 4),
    ("i64", 8),
    ("i128", 16),
    ("isize", 8),
    ("f32", 4),
    ("f64", 8),
    ("bool", 1),
];

/// Imports that lead to imports are followed so far.
const IMPORTS_MAX: usize = 16;

impl Program {
    /// Reads sources whose paths are `FOLDER/CRATE/src/..rt`.
    pub fn read(sources: &Sources) -> Result<Program, Finding> {
        let mut program = Program {
            files: Vec::new(),
            modules: BTreeMap::new(),
            sees: BTreeMap::new(),
        };
        for path in sources.keys() {
            for root in ["/src/lib.rt", "/src/main.rt"] {
                if let Some(folder) = path.strip_suffix(root) {
                    let name = folder.rsplit('/').next().unwrap_or(folder);
                    program.read_file(sources, path, vec![name.to_string()])?;
                }
            }
        }
        program.look_around();
        Ok(program)
    }

    /// Which crates each sees: those that its paths begin with, and those that these see.
    fn look_around(&mut self) {
        for (module, inside) in &self.modules {
            let tokens = &self.files[inside.file].tokens;
            let named = tokens.windows(2).filter(|two| two[1].text == "::");
            let named = named.map(|two| two[0].text.clone());
            let seen = named.filter(|name| self.modules.contains_key(&vec![name.clone()]));
            let seen = seen.collect::<Vec<String>>();
            self.sees.entry(module[0].clone()).or_default().extend(seen);
        }
        for _ in 0..self.sees.len() {
            let before = self.sees.clone();
            for seen in self.sees.values_mut() {
                let more = seen.iter().filter_map(|name| before.get(name)).flatten();
                let more = more.cloned().collect::<Vec<String>>();
                seen.extend(more);
            }
        }
    }

    /// Whether what stands in one crate may be called from another.
    pub fn is_seen(&self, from: &str, of: &str) -> bool {
        from == of || self.sees.get(from).is_some_and(|seen| seen.contains(of))
    }

    pub fn has_crate(&self, name: &str) -> bool {
        self.modules.contains_key(&vec![name.to_string()])
    }

    /// All that stands in an `impl` or a trait.
    pub fn members(&self) -> impl Iterator<Item = (Place, &Named, &Owner)> {
        self.modules.iter().flat_map(|(module, inside)| {
            let items = inside.items.iter().enumerate();
            items.filter_map(move |(index, named)| {
                let place = Place {
                    module: module.clone(),
                    index,
                };
                Some((place, named, named.owner.as_ref()?))
            })
        })
    }

    /// The members of this name in the crates that one sees: a call of it may lead to each.
    pub fn members_named(&self, from: &str, name: &str) -> Vec<Target> {
        let named = self.members().filter(|(_, named, _)| named.name == name);
        let seen = named.filter(|(place, _, _)| self.is_seen(from, &place.module[0]));
        seen.map(|(place, _, _)| Target::Item(place)).collect()
    }

    /// The type of an `impl`, or the trait whose own a member is.
    pub fn owner_of(&self, module: &Key, owner: &Owner) -> Option<Target> {
        let of = types::read(self, module, owner.of.clone()).ok()?;
        let Type::Path(path, _) = of else {
            return None;
        };
        self.targets(module, &path)
            .into_iter()
            .find(|target| match target {
                Target::Item(place) => self.is_type(place),
                Target::Language(path) => path.len() == 1,
                _ => false,
            })
    }

    /// The members of this name that a type has, or that types have by a trait.
    fn members_of(&self, target: &Target, name: &str) -> Vec<Target> {
        let named = self.members().filter(|(_, named, _)| named.name == name);
        let found = named.filter(|(place, _, owner)| {
            let by = owner.by.iter();
            let mut by = by.flat_map(|path| self.targets(&place.module, path));
            self.owner_of(&place.module, owner).as_ref() == Some(target)
                || by.any(|found| found == *target)
        });
        found.map(|(place, _, _)| Target::Item(place)).collect()
    }

    /// Reads the file of a module, and those of the modules inside it.
    fn read_file(&mut self, sources: &Sources, path: &str, key: Key) -> Result<(), Finding> {
        let at = |line: usize, says: String| Finding {
            file: path.to_string(),
            line,
            says,
            is_array: false,
        };
        let text = sources.get(path).ok_or_else(|| {
            at(
                1,
                format!("the module `{}` has no such file", key.join("::")),
            )
        })?;
        let tokens = tokens(text).map_err(|trouble| at(trouble.line, trouble.what))?;
        let found =
            items(&tokens, 0..tokens.len()).map_err(|trouble| at(trouble.line, trouble.what))?;
        self.files.push(File {
            path: path.to_string(),
            tokens,
        });
        self.add(sources, self.files.len() - 1, key, found)
    }

    /// Adds a module of a file, and the modules inside it.
    fn add(
        &mut self,
        sources: &Sources,
        file: usize,
        key: Key,
        mut items: Vec<Named>,
    ) -> Result<(), Finding> {
        for named in &mut items {
            let Item::Module { inside } = &mut named.item else {
                continue;
            };
            let mut inner = key.clone();
            inner.push(named.name.clone());
            match inside.take() {
                Some(found) => self.add(sources, file, inner, found)?,
                None => self.read_file(sources, &file_of(&self.files[file].path, &inner), inner)?,
            }
        }
        self.modules.insert(key, Module { file, items });
        Ok(())
    }

    pub fn item(&self, place: &Place) -> &Named {
        &self.modules[&place.module].items[place.index]
    }

    pub fn tokens(&self, module: &Key) -> &[Token] {
        &self.files[self.modules[module].file].tokens
    }

    pub fn path_of(&self, module: &Key) -> &str {
        &self.files[self.modules[module].file].path
    }

    /// The whole name of an item, as the compiler has it: a function of a type stands in the
    /// type's module, one of a trait behind the names of both.
    pub fn name(&self, place: &Place) -> String {
        let named = self.item(place);
        let Some(owner) = &named.owner else {
            return format!("{}::{}", place.module.join("::"), named.name);
        };
        let words = self.tokens(&place.module)[owner.of.clone()].iter();
        let mut words = words.filter(|token| token.kind == Kind::Word);
        let of = words.next_back().map_or("", |token| &token.text);
        let module = match (&owner.by, self.owner_of(&place.module, owner)) {
            (None, Some(Target::Item(of))) => of.module.join("::"),
            _ => place.module.join("::"),
        };
        match owner.by.as_ref().and_then(|by| by.last()) {
            Some(by) if by != of => format!("{module}::{}{by}::{}", capital(of), named.name),
            _ => format!("{module}::{of}::{}", named.name),
        }
    }

    /// All that a path names in a module: it can be a type and a value at once.
    pub fn targets(&self, module: &Key, path: &[String]) -> Vec<Target> {
        self.follow(module, path, 0)
    }

    fn follow(&self, module: &Key, path: &[String], depth: usize) -> Vec<Target> {
        let Some((first, rest)) = path.split_first() else {
            return Vec::new();
        };
        let starts = match first.as_str() {
            "crate" => vec![Target::Module(module[..1].to_vec())],
            "self" => vec![Target::Module(module.clone())],
            "super" => vec![Target::Module(
                module[..module.len().saturating_sub(1)].to_vec(),
            )],
            _ => self.first_names(module, first, !rest.is_empty(), depth),
        };
        let mut targets = starts;
        for name in rest {
            targets = targets
                .iter()
                .flat_map(|target| self.inside(target, name, depth))
                .collect();
        }
        targets
    }

    /// What the first name of a path stands for: an item or an import of the module, else a crate,
    /// else a type of the language. Where the path goes on, a function or a constant is not meant.
    fn first_names(&self, module: &Key, name: &str, goes_on: bool, depth: usize) -> Vec<Target> {
        let mut own = self.named(module, name, depth);
        own.retain(|target| !goes_on || self.leads_on(target));
        if !own.is_empty() {
            return own;
        }
        let root = vec![name.to_string()];
        if self.modules.contains_key(&root) {
            return vec![Target::Module(root)];
        }
        if SCALARS.iter().any(|(scalar, _)| *scalar == name) {
            return vec![Target::Language(root)];
        }
        Vec::new()
    }

    /// Whether something may be named inside what a path has led to.
    fn leads_on(&self, target: &Target) -> bool {
        match target {
            Target::Module(_) | Target::Language(_) => true,
            Target::Item(place) => self.is_type(place),
            Target::Variant(_) => false,
        }
    }

    /// What a name stands for inside a module.
    fn named(&self, module: &Key, name: &str, depth: usize) -> Vec<Target> {
        let Some(inside) = self.modules.get(module) else {
            return Vec::new();
        };
        let mut found = Vec::new();
        for (index, named) in inside
            .items
            .iter()
            .enumerate()
            .filter(|(_, named)| named.name == name && named.owner.is_none())
        {
            match &named.item {
                Item::Module { .. } => {
                    found.push(Target::Module([&module[..], &[name.to_string()]].concat()))
                }
                Item::Import { path } if depth < IMPORTS_MAX => {
                    found.extend(self.imported(module, path, depth))
                }
                Item::Import { .. } => {}
                _ => found.push(Target::Item(Place {
                    module: module.clone(),
                    index,
                })),
            }
        }
        found
    }

    /// What an import brings; one such as `use pdu::pdu` does not lead to itself.
    fn imported(&self, module: &Key, path: &[String], depth: usize) -> Vec<Target> {
        let root = path[..1].to_vec();
        if self.modules.contains_key(&root) {
            let crate_first = [&["crate".to_string()], &path[1..]].concat();
            return self.follow(&root, &crate_first, depth + 1);
        }
        self.follow(module, path, depth + 1)
    }

    /// What a name stands for inside what its path has led to so far.
    pub fn inside(&self, target: &Target, name: &str, depth: usize) -> Vec<Target> {
        match target {
            Target::Module(module) if name == "super" => {
                vec![Target::Module(
                    module[..module.len().saturating_sub(1)].to_vec(),
                )]
            }
            Target::Module(module) => self.named(module, name, depth),
            Target::Item(place) => match &self.item(place).item {
                Item::Enum { variants } if variants.iter().any(|(variant, _)| variant == name) => {
                    vec![Target::Variant(place.clone())]
                }
                Item::Alias { stands_for } if depth < IMPORTS_MAX => {
                    let of = types::read(self, &place.module, stands_for.clone());
                    let Ok(Type::Path(path, _)) = of else {
                        return Vec::new();
                    };
                    let named = self.follow(&place.module, &path, depth + 1);
                    let named = named.iter();
                    named
                        .flat_map(|to| self.inside(to, name, depth + 1))
                        .collect()
                }
                _ => self.members_of(target, name),
            },
            Target::Language(path) => {
                let own = self.members_of(target, name);
                if !own.is_empty() {
                    return own;
                }
                vec![Target::Language([&path[..], &[name.to_string()]].concat())]
            }
            Target::Variant(_) => Vec::new(),
        }
    }
}

/// A name with a capital, as the compiler puts a trait's behind it.
fn capital(name: &str) -> String {
    let (first, rest) = name.split_at(name.len().min(1));
    format!("{}{rest}", first.to_uppercase())
}

/// The file of a module that is named in this file.
fn file_of(parent: &str, key: &Key) -> String {
    let (folder, file) = parent.rsplit_once('/').unwrap_or((".", parent));
    let name = key.last().map_or("", String::as_str);
    match file {
        "lib.rt" | "main.rt" | "mod.rt" => format!("{folder}/{name}.rt"),
        _ => format!("{folder}/{}/{name}.rt", file.trim_end_matches(".rt")),
    }
}
