//! The command line.

use quebralua_reference::random::clock;
use std::path::PathBuf;

pub const USAGE: &str = "\
usage: quebralua-command [--command PATH] [--calls N] [--seed N]
  --command PATH  the program (default: target/bin/ql in the project's root)
  --calls N       how many lines, beside those that show the exit statuses (default 300000)
  --seed N        the seed of every random choice (default: from the clock); it is printed";

pub struct Options {
    pub command: PathBuf,
    pub calls: u64,
    pub seed: u64,
}

impl Options {
    fn default() -> Options {
        let command = PathBuf::from(concat!(env!("CARGO_MANIFEST_DIR"), "/../target/bin/ql"));
        Options { command, calls: 300_000, seed: clock() }
    }

    pub fn parse(mut args: impl Iterator<Item = String>) -> Result<Options, String> {
        let mut options = Options::default();
        while let Some(name) = args.next() {
            let mut value = || args.next().ok_or(format!("{name} needs a value"));
            let number = |text: String| text.parse().map_err(|_| format!("{name}: {text} is not a number"));
            match name.as_str() {
                "--command" => options.command = PathBuf::from(value()?),
                "--calls" => options.calls = number(value()?)?,
                "--seed" => options.seed = number(value()?)?,
                _ => return Err(format!("unknown option {name}")),
            }
        }
        Ok(options)
    }
}
