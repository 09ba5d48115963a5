//! Programs run on a given input.
use std::io::Write;
use std::path::Path;
use std::process::{Command, Stdio};

/// All that a program prints, or what kept it from running to its end.
pub fn output(program: &Path, input: &[u8]) -> Result<Vec<u8>, String> {
    let mut child = Command::new(program)
        .stdin(Stdio::piped())
        .stdout(Stdio::piped())
        .spawn()
        .map_err(|error| format!("{} does not start: {error}", program.display()))?;
    let mut stdin = child.stdin.take().expect("stdin is piped");
    let output = std::thread::scope(|scope| {
        // A program may stop before it has read everything, so a broken pipe is no fault.
        scope.spawn(move || stdin.write_all(input).ok());
        child.wait_with_output()
    });
    let output = output.map_err(|error| error.to_string())?;
    match output.status.code() {
        Some(_) => Ok(output.stdout),
        None => Err(format!("{} stopped: {}", program.display(), output.status)),
    }
}
