//! The command line.

use quebralua_reference::random::clock;

pub const USAGE: &str = "\
usage: quebralua-tests [--seed N] [--calls N] [--lists N] [--folds N] [--rules N] [--flonums N]
                       [--all-changes] [--edges-every N] [--no-guards] [--trace]
  --seed N         the seed of every random choice (default: from the clock); it is printed
  --calls N        how many random calls, a twentieth as many at every width, and a hundredth as many spellings of
                   integers (default 2000000)
  --lists N        how many random lists of fixnum rotations and reversals, and four times fewer of limbs (default 20000)
  --folds N        how many random folds at each width, and as many of each of their laws (default 500)
  --rules N        how many accepted random rules, each changed and cut in many ways (default 1000)
  --flonums N      how many random flonums, each given to every call of one flonum, a quarter as many fixnums and
                   lists of flonums, and a fiftieth as many samples for their laws (default 10000000)
  --all-changes    gives each byte of those rules every other value, also in long rules
  --edges-every N  makes one of N edge calls, chosen at random (default 1: all of them)
  --no-guards      gives each output buffer, record, chunk, rule and list of inputs an allocation of its own, without
                   guards, for a memory checker
  --trace          prints each call before it is made, so that the last one shows where a run broke off";

pub struct Options {
    pub seed: u64,
    pub calls: u64,
    pub lists: u64,
    pub folds: u64,
    pub rules: u64,
    pub flonums: u64,
    pub all_changes: bool,
    pub edges_every: u64,
    pub no_guards: bool,
    pub trace: bool,
}

impl Options {
    fn default() -> Options {
        Options {
            seed: clock(),
            calls: 2_000_000,
            lists: 20_000,
            folds: 500,
            rules: 1_000,
            flonums: 10_000_000,
            all_changes: false,
            edges_every: 1,
            no_guards: false,
            trace: false,
        }
    }

    pub fn parse(mut args: impl Iterator<Item = String>) -> Result<Options, String> {
        let mut options = Options::default();
        while let Some(name) = args.next() {
            let place = match name.as_str() {
                "--seed" => &mut options.seed,
                "--calls" => &mut options.calls,
                "--lists" => &mut options.lists,
                "--folds" => &mut options.folds,
                "--rules" => &mut options.rules,
                "--flonums" => &mut options.flonums,
                "--edges-every" => &mut options.edges_every,
                "--all-changes" => {
                    options.all_changes = true;
                    continue;
                }
                "--no-guards" => {
                    options.no_guards = true;
                    continue;
                }
                "--trace" => {
                    options.trace = true;
                    continue;
                }
                _ => return Err(format!("unknown option {name}")),
            };
            let text = args.next().ok_or(format!("{name} needs a number"))?;
            *place = text.parse().map_err(|_| format!("{name}: {text} is not a number"))?;
        }
        if options.edges_every == 0 {
            return Err("--edges-every needs a number from 1".to_string());
        }
        Ok(options)
    }
}
