//! What the compiler made of each function of a library, its MIR, as the library holds it
//! (`toolchain/mir.json`): whom it calls, and which arrays it names.

use crate::json::{self, Json};
use crate::walk::LONGEST;
use std::collections::{BTreeMap, BTreeSet};

/// One function.
#[derive(Default)]
pub struct Compiled {
    calls: BTreeSet<String>,
    /// The `impl`s that it hands to what it calls: each function of these may be called.
    impls: BTreeSet<String>,
    /// What is found of its arrays and calls, in words.
    says: Vec<String>,
}

/// The functions of all crates, by their whole names, and those of each `impl`.
#[derive(Default)]
pub struct Mir {
    functions: BTreeMap<String, Compiled>,
    members: BTreeMap<String, Vec<String>>,
}

/// What the compiler calls from some functions on.
pub struct Followed {
    pub functions: BTreeSet<String>,
    /// What is found in these functions.
    pub says: Vec<String>,
}

/// Adds the functions of a library.
pub fn add(mir: &mut Mir, text: &str) -> Result<(), String> {
    let read = json::read(text)?;
    for function in read.list().ok_or("it is no list of functions")? {
        let [name, inside] = function.list().unwrap_or_default() else {
            return Err("a function is no pair".to_string());
        };
        let name = name.text().ok_or("a function has no name")?;
        if let Some(of) = impl_of(inside) {
            let members = mir.members.entry(of.to_string()).or_default();
            members.push(name.to_string());
        }
        mir.functions.insert(name.to_string(), compiled(inside));
    }
    Ok(())
}

/// The `impl` that a function stands in.
fn impl_of(function: &Json) -> Option<&str> {
    let of = function.field("generics")?.field("method_of")?;
    first(of.field("Impl")?).and_then(Json::text)
}

fn compiled(function: &Json) -> Compiled {
    let mut found = Compiled::default();
    function.each_field(&mut |name, value| match name {
        "Fn" => match first(value).and_then(Json::text) {
            Some(called) => {
                found.calls.insert(called.to_string());
            }
            None => found.says.push("calls what has no name".to_string()),
        },
        // Where a function says what it stands in itself, a number is behind the name.
        "Impl"
            if value
                .list()
                .is_some_and(|of| of.get(1).is_some_and(is_number)) => {}
        "Impl" => match first(value).and_then(Json::text) {
            Some(of) => {
                found.impls.insert(of.to_string());
            }
            None => found.says.push("hands on what has no name".to_string()),
        },
        "Call" | "CallV" if !is_direct(value) => found.says.push("calls a value".to_string()),
        "Array" => found.says.extend(array(value)),
        _ => {}
    });
    found
}

fn is_number(value: &Json) -> bool {
    value.number().is_some()
}

fn first(value: &Json) -> Option<&Json> {
    value.list().and_then(<[Json]>::first)
}

/// Whether a call names its function, or is of a function of an `impl` that is handed in.
fn is_direct(call: &Json) -> bool {
    let head = first(call).and_then(Json::alone);
    head.is_some_and(|(name, _)| ["Fn", "Method"].contains(&name))
}

/// What there is to say of an array's type, if anything.
fn array(value: &Json) -> Option<String> {
    match array_bytes(value) {
        Some(bytes) if bytes <= LONGEST => None,
        Some(bytes) => Some(format!(
            "has an array of {bytes} bytes, and {LONGEST} are allowed"
        )),
        None => Some("has an array whose size cannot be told".to_string()),
    }
}

fn array_bytes(value: &Json) -> Option<u64> {
    let [element, length] = value.list()? else {
        return None;
    };
    let (_, count) = length.alone().filter(|(name, _)| *name == "Lit")?;
    Some(bytes(element)?.saturating_mul(count.number()?))
}

/// The bytes of a type, where it tells them; of fields side by side never too few.
fn bytes(of: &Json) -> Option<u64> {
    match of.text() {
        Some("Unit") => return Some(0),
        Some("Bool") => return Some(1),
        Some("Ptr") => return Some(8),
        _ => {}
    }
    match of.alone()? {
        ("Int" | "Float", bits) => Some(bits.number()?.div_ceil(8)),
        ("Ref", _) => Some(8),
        ("Array", inner) => array_bytes(inner),
        ("Struct", named) => {
            let fields = named.list()?.get(1)?.list()?.iter().map(bytes);
            fields
                .map(|field| Some(field?.next_multiple_of(16)))
                .sum::<Option<u64>>()
        }
        _ => None,
    }
}

/// Follows the calls from these functions on, through all that they reach.
pub fn follow(mir: &Mir, from: impl IntoIterator<Item = String>) -> Followed {
    let mut waiting = from.into_iter().collect::<Vec<String>>();
    let mut followed = Followed {
        functions: BTreeSet::new(),
        says: Vec::new(),
    };
    while let Some(name) = waiting.pop() {
        if !followed.functions.insert(name.clone()) {
            continue;
        }
        match mir.functions.get(&name) {
            Some(function) => {
                let says = function.says.iter();
                followed
                    .says
                    .extend(says.map(|says| format!("`{name}` {says}")));
                waiting.extend(function.calls.iter().cloned());
                for of in &function.impls {
                    match mir.members.get(of) {
                        Some(members) => waiting.extend(members.iter().cloned()),
                        None => followed
                            .says
                            .push(format!("the compiler has no functions of `{of}`")),
                    }
                }
            }
            None => followed.says.push(format!("the compiler has no `{name}`")),
        }
    }
    followed
}
