//! The test of the source that document 02 asks for: from the public functions of the writer
//! through every function that they call, in every crate, no array is longer than 32 bytes.

mod arrays;
#[path = "../second/check.rs"]
mod check;
mod cursor;
mod files;
mod items;
mod json;
mod lengths;
mod lexer;
mod mentions;
mod mir;
mod mir_planted;
mod planted;
mod plants;
mod program;
mod test;
mod types;
mod walk;

use std::path::Path;
use std::process::ExitCode;

const USAGE: &str = "usage:
  source-test FOLDER MIR   the crates in this folder: no long array in what the writer calls;
                           MIR is a folder with the MIR of the writer's library, of each
                           below it and of the language's, a file CRATE.json for each";

const BAD_ARGUMENTS: u8 = 2;

fn main() -> ExitCode {
    let words: Vec<String> = std::env::args().skip(1).collect();
    match run(&words) {
        Ok(status) => status,
        Err(message) => {
            eprintln!("source-test: {message}\n{USAGE}");
            ExitCode::from(BAD_ARGUMENTS)
        }
    }
}

fn run(words: &[String]) -> Result<ExitCode, String> {
    match words {
        [folder, mir] => {
            let sources = files::read(Path::new(folder))?;
            let mir = files::read_mir(Path::new(mir))?;
            Ok(test::run(&sources, &mir))
        }
        [] => Err("no folder is named".to_string()),
        [_] => Err("no folder of MIR is named".to_string()),
        _ => Err(format!("cannot read '{}'", words.join(" "))),
    }
}
