//! One run of `ql batch`: every answer line, how many there are, standard error and the exit status.

use crate::process::batch;
use crate::tally::Tally;
use quebralua_reference::batch::answer::expected;
use std::path::Path;

/// Compares the answers to the lines, the last of which has `end` behind it: a newline, or nothing if it is not empty.
/// The difference, if there is one.
pub fn run(command: &Path, lines: &[String], end: &str, tally: &mut Tally) -> Result<(), String> {
    let input = if lines.is_empty() { String::new() } else { lines.join("\n") + end };
    let output = batch(command, input.as_bytes())?;
    let status = compare(lines, &output.stdout, tally)?;
    if !output.stderr.is_empty() {
        let got = String::from_utf8_lossy(&output.stderr);
        return Err(format!("DIFFERENCE\nexpected: nothing on standard error\ngot:      {got}"));
    }
    if output.status.code() != Some(status) {
        let count = lines.len();
        return Err(format!("DIFFERENCE\nexpected: status {status} after {count} lines\ngot:      {}", output.status));
    }
    tally.status(status);
    Ok(())
}

/// The exit status to expect: that of the worst answer.
fn compare(lines: &[String], answers: &[u8], tally: &mut Tally) -> Result<i32, String> {
    let mut status = 0;
    let mut rest = answers.split_inclusive(|&byte| byte == b'\n');
    for (i, line) in lines.iter().enumerate() {
        let expected = expected(line);
        let answer = rest.next().and_then(|answer| answer.strip_suffix(b"\n"));
        if !answer.is_some_and(|answer| expected.is_met_by(answer)) {
            let got = answer.map_or("no line".into(), String::from_utf8_lossy);
            return Err(format!("DIFFERENCE in line {}\n{line}\nexpected: {expected}\ngot:      {got}", i + 1));
        }
        status = status.max(expected.status());
        tally.line(line, &expected);
    }
    match rest.next() {
        None => Ok(status),
        Some(answer) => {
            let (count, got) = (lines.len(), String::from_utf8_lossy(answer));
            Err(format!("DIFFERENCE after {count} lines\nexpected: no more answers\ngot:      {got}"))
        }
    }
}
