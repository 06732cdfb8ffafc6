//! Compares `ql batch` with the second implementation, line by line, and its exit status. Links no C library.
//! Ends with status 1 at the first difference, and where some operation or kind of answer was never seen.

mod compare;
mod flonum_tally;
mod options;
mod process;
mod statuses;
mod tally;

use options::{Options, USAGE};
use quebralua_reference::batch::lines::line;
use quebralua_reference::random::Random;
use std::process::exit;
use std::time::Instant;
use tally::Tally;

fn main() {
    let options = match Options::parse(std::env::args().skip(1)) {
        Ok(options) => options,
        Err(message) => {
            eprintln!("{message}\n{USAGE}");
            exit(2);
        }
    };
    println!("seed {}", options.seed);
    let mut tally = Tally::new();
    match compared(&options, &mut tally) {
        Ok(()) => println!("no difference"),
        Err(message) => {
            println!("{message}");
            exit(1);
        }
    }
}

fn compared(options: &Options, tally: &mut Tally) -> Result<(), String> {
    let (mut random, begin) = (Random::new(options.seed), Instant::now());
    for lines in statuses::runs(&mut random) {
        compare::run(&options.command, &lines, "\n", tally)?;
        if lines.last().is_some_and(|line| !line.is_empty()) {
            compare::run(&options.command, &lines, "", tally)?;
        }
    }
    let lines: Vec<String> = (0..options.calls).map(|_| line(&mut random)).collect();
    compare::run(&options.command, &lines, "\n", tally)?;
    println!("{tally}\n{:.1} s", begin.elapsed().as_secs_f64());
    let missing = tally.missing();
    if missing.is_empty() {
        Ok(())
    } else {
        Err(format!("NOT SEEN\n{}", missing.join("\n")))
    }
}
