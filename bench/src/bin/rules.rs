//! Stored rules for bench/rules: writes them as Scheme expressions, or evaluates them by ql_rule_evaluate.
//!
//!     rules write DIRECTORY   # a file for each size and shape: the inputs, then the expressions; prints the names
//!     rules time              # a line for each file: the nanoseconds for all its rules, and the value of each

#[allow(dead_code)] // All calls of the header are there.
#[path = "../../../tests/src/binding.rs"]
mod binding;
#[allow(dead_code)] // The other program draws limbs too.
#[path = "../random.rs"]
mod random;
#[path = "../rule_draw.rs"]
mod rule_draw;
#[path = "../rule_form.rs"]
mod rule_form;
#[allow(dead_code)] // The other program measures sides beside each other.
#[path = "../timing.rs"]
mod timing;

use std::path::Path;
use std::rc::Rc;
use std::{env, fs};

use binding::rule_evaluate;
use random::Random;
use rule_draw::{rules, Rules, Shape, SIZES};
use timing::Side;

const SEED: u64 = 20_261_117;
const ROUNDS: usize = 200;

fn main() {
    let arguments: Vec<String> = env::args().skip(1).collect();
    match arguments.iter().map(String::as_str).collect::<Vec<_>>()[..] {
        ["write", directory] => all().iter().for_each(|(name, rules)| write(Path::new(directory), name, rules)),
        ["time"] => all().into_iter().for_each(|(_, rules)| println!("{}", line(rules))),
        _ => panic!("usage: rules write DIRECTORY, or rules time"),
    }
}

/// All rules, with the names of their files.
fn all() -> Vec<(String, Rules)> {
    let mut random = Random::new(SEED);
    let files = [Shape::Balanced, Shape::List].into_iter().flat_map(|shape| SIZES.map(|forms| (shape, forms)));
    files.map(|(shape, forms)| (format!("{}-{forms}", shape.name()), rules(&mut random, shape, forms))).collect()
}

fn write(directory: &Path, name: &str, rules: &Rules) {
    let inputs = rules.inputs.map(|x| x.to_string()).join(" ");
    let expressions: String = rules.rules.iter().map(|(form, _, _)| format!("{form}\n")).collect();
    fs::write(directory.join(name), format!("({inputs})\n{expressions}")).expect("the file can be written");
    println!("{name}");
}

fn line(drawn: Rules) -> String {
    let inputs = drawn.inputs;
    let rules: Vec<Vec<u8>> = drawn.rules.into_iter().map(|(_, rule, _)| rule).collect();
    let values = rules.iter().map(|rule| rule_evaluate(rule, &inputs).result().expect("the evaluation is done"));
    let values = values.map(|value| value.to_string()).collect::<Vec<_>>().join(" ");
    let number = rules.len() as f64;
    let mut side = Side::new(&Rc::new(rules), move |rule| rule_evaluate(rule, &inputs).result().unwrap_or_default());
    side.calibrate();
    (0..ROUNDS).for_each(|_| side.round());
    format!("{:.0} {values}", side.least * number)
}
