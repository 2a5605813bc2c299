//! Reading the source files of a folder of crates, and the MIR of libraries.

use crate::mir::{self, Mir};
use crate::program::Sources;
use std::ffi::OsString;
use std::io::Error;
use std::path::Path;

/// The text of each file `FOLDER/CRATE/src/..rt`.
pub fn read(folder: &Path) -> Result<Sources, String> {
    let mut sources = Sources::new();
    for name in names_in(folder)? {
        let src = folder.join(name).join("src");
        if src.is_dir() {
            read_folder(&src, &mut sources)?;
        }
    }
    if sources.is_empty() {
        return Err(format!("there is no crate in '{}'", folder.display()));
    }
    Ok(sources)
}

/// The functions in each file `FOLDER/..json`.
pub fn read_mir(folder: &Path) -> Result<Mir, String> {
    let mut found = Mir::default();
    for name in names_in(folder)? {
        let path = folder.join(name);
        if path
            .extension()
            .is_some_and(|extension| extension == "json")
        {
            let added = mir::add(&mut found, &read_text(&path)?);
            added.map_err(|says| format!("cannot read '{}': {says}", path.display()))?;
        }
    }
    Ok(found)
}

fn read_text(path: &Path) -> Result<String, String> {
    std::fs::read_to_string(path).map_err(|error| told(path, &error))
}

fn read_folder(folder: &Path, sources: &mut Sources) -> Result<(), String> {
    for name in names_in(folder)? {
        let path = folder.join(name);
        if path.is_dir() {
            read_folder(&path, sources)?;
        } else if path.extension().is_some_and(|extension| extension == "rt") {
            sources.insert(path.to_string_lossy().into_owned(), read_text(&path)?);
        }
    }
    Ok(())
}

fn names_in(folder: &Path) -> Result<Vec<OsString>, String> {
    let entries = std::fs::read_dir(folder).map_err(|error| told(folder, &error))?;
    let names = entries.map(|entry| entry.map(|entry| entry.file_name()));
    names
        .collect::<Result<_, _>>()
        .map_err(|error| told(folder, &error))
}

fn told(path: &Path, error: &Error) -> String {
    format!("cannot read '{}': {error}", path.display())
}
