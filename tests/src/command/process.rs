//! Runs `ql batch` on an input.

use std::io::Write;
use std::path::Path;
use std::process::{Command, Output, Stdio};
use std::thread;

/// What it writes, and its exit status. The input is written by a thread of its own: the pipes hold only a part.
pub fn batch(command: &Path, input: &[u8]) -> Result<Output, String> {
    let failed = |error| format!("{} cannot be run: {error}", command.display());
    let mut child = Command::new(command)
        .arg("batch")
        .stdin(Stdio::piped())
        .stdout(Stdio::piped())
        .stderr(Stdio::piped())
        .spawn()
        .map_err(failed)?;
    let mut stdin = child.stdin.take().expect("a pipe was asked for");
    thread::scope(|scope| {
        // If it ends early, writing fails; the answers that it leaves out are seen as missing lines.
        scope.spawn(move || stdin.write_all(input));
        child.wait_with_output().map_err(failed)
    })
}
