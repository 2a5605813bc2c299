//! Tests of the test: the sources with something planted in them, in memory, walked again. What is
//! planted must be found at its place, and what is allowed must not be.

use crate::items::Item;
use crate::program::{Finding, Program, Sources};
use crate::walk::{functions, walk};

/// Where a text is planted.
pub enum Where {
    /// At the start of the body of a function, by its whole name.
    Inside(&'static str),
    /// Behind all that stands in the file of a module, by its whole name.
    Behind(&'static str),
}

pub struct Planting {
    pub place: Where,
    pub text: &'static str,
}

pub struct Plant {
    pub what: &'static str,
    pub plantings: &'static [Planting],
    /// Which of the plantings must be found, and what is said of it; nothing where nothing may be.
    pub found: Option<(usize, &'static str)>,
}

/// A file, and a line in it.
type Spot = (String, usize);

/// Whether a walk from this crate finds what is planted; else what went wrong.
pub fn holds(sources: &Sources, from: &str, plant: &Plant) -> Result<(), String> {
    let mut sources = sources.clone();
    let mut spots = Vec::new();
    for planting in plant.plantings {
        spots.push(put(&mut sources, planting)?);
    }
    let findings = match Program::read(&sources) {
        Ok(program) => walk(&program, from).findings,
        Err(finding) => vec![finding],
    };
    match plant.found {
        None => findings
            .first()
            .map_or(Ok(()), |first| Err(format!("found {first}"))),
        Some((which, says)) => right(&findings, &spots[which], says),
    }
}

/// Whether there are findings, all at this spot, and one says this.
fn right(findings: &[Finding], spot: &Spot, says: &str) -> Result<(), String> {
    let (file, line) = spot;
    if let Some(other) = findings
        .iter()
        .find(|finding| finding.file != *file || finding.line != *line)
    {
        return Err(format!("looked for {file}:{line}, found {other}"));
    }
    if findings.iter().any(|finding| finding.says.contains(says)) {
        return Ok(());
    }
    let first = findings
        .first()
        .map_or("nothing".to_string(), Finding::to_string);
    Err(format!(
        "looked for '{says}' at {file}:{line}, found {first}"
    ))
}

/// Plants a text; where it stands then.
fn put(sources: &mut Sources, planting: &Planting) -> Result<Spot, String> {
    let program = Program::read(sources).map_err(|finding| finding.to_string())?;
    let (file, at) = match planting.place {
        Where::Inside(function) => body_of(&program, function)?,
        Where::Behind(module) => end_of(&program, sources, module)?,
    };
    let text = sources.get_mut(&file).ok_or("no such file")?;
    let line = text[..at].matches('\n').count() + 1;
    text.insert_str(at, &format!(" {}\n", planting.text));
    Ok((file, line))
}

/// The file of a function, and the byte behind the brace that opens its body.
fn body_of(program: &Program, name: &str) -> Result<(String, usize), String> {
    let of = name.split("::").next().unwrap_or(name);
    let place = functions(program, of, false)
        .into_iter()
        .find(|place| program.name(place) == name)
        .ok_or_else(|| format!("there is no function `{name}` to plant in"))?;
    let Item::Function { body, .. } = &program.item(&place).item else {
        return Err(format!("`{name}` is no function"));
    };
    let brace = &program.tokens(&place.module)[body.start - 1];
    Ok((program.path_of(&place.module).to_string(), brace.at + 1))
}

/// The file of a module, and its end.
fn end_of(program: &Program, sources: &Sources, name: &str) -> Result<(String, usize), String> {
    let key = name.split("::").map(str::to_string).collect();
    if !program.modules.contains_key(&key) {
        return Err(format!("there is no module `{name}` to plant behind"));
    }
    let file = program.path_of(&key).to_string();
    let end = sources.get(&file).map_or(0, String::len);
    Ok((file, end))
}
