//! Runs another program.

use std::io::Write;
use std::path::Path;
use std::process::{Command, Stdio};
use std::thread;

/// What the program prints with these arguments and this standard input. Where it does not end
/// well, a last line says so. The error is that it cannot be run at all.
pub fn run(program: &Path, arguments: &[&str], input: &[u8]) -> Result<String, String> {
    let failed = |error| format!("cannot run '{}': {error}", program.display());
    let mut child = Command::new(program)
        .args(arguments)
        .stdin(Stdio::piped())
        .stdout(Stdio::piped())
        .spawn()
        .map_err(failed)?;
    let mut stdin = child.stdin.take().expect("it is piped");
    let output = thread::scope(|scope| {
        // The program may stop before it has read all; then the rest cannot be written.
        scope.spawn(move || stdin.write_all(input));
        child.wait_with_output()
    });
    let output = output.map_err(failed)?;
    let mut text = String::from_utf8_lossy(&output.stdout).into_owned();
    if !output.status.success() {
        text += &format!("{}\n", output.status);
    }
    Ok(text)
}
