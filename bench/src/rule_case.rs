//! The two sides of reading and of evaluating stored rules. Making the cases compares them first.

use std::hint::black_box;
use std::rc::Rc;

use crate::binding::{rule_evaluate, rule_read, RuleRefusal, INPUTS};
use crate::plain_rule;
use crate::random::Random;
use crate::rule_compare;
use crate::rule_draw::{rules, Shape, SIZES};
use crate::timing::{require, Case, Side};

type Read = fn(&[u8]) -> Result<u64, RuleRefusal>;
type Evaluate = fn(&[u8], &[i64; INPUTS]) -> Result<i64, RuleRefusal>;

/// A row of the table.
pub struct RuleCases {
    pub shape: Shape,
    pub forms: usize,
    /// Of a rule, on average.
    pub bytes: f64,
    pub read: Case,
    pub evaluate: Case,
}

impl RuleCases {
    pub fn both(&mut self) -> [&mut Case; 2] {
        [&mut self.read, &mut self.evaluate]
    }
}

/// By shape, and by size in each.
pub fn cases(random: &mut Random) -> Vec<RuleCases> {
    rule_compare::draws(random);
    let shapes = [Shape::Balanced, Shape::List].into_iter();
    shapes.flat_map(|shape| SIZES.map(|forms| (shape, forms))).map(|(shape, forms)| row(random, shape, forms)).collect()
}

fn row(random: &mut Random, shape: Shape, forms: usize) -> RuleCases {
    let drawn = rules(random, shape, forms);
    for (_, rule, value) in &drawn.rules {
        rule_compare::reading(rule);
        let same = rule_compare::evaluation(rule, &drawn.inputs) == Some(*value);
        require(same, "evaluating a rule", "its calls one by one");
    }
    let rules: Rc<Vec<Vec<u8>>> = Rc::new(drawn.rules.into_iter().map(|(_, rule, _)| rule).collect());
    let bytes = rules.iter().map(Vec::len).sum::<usize>() as f64 / rules.len() as f64;
    let name = format!("{forms} forms {}", shape.name());
    RuleCases {
        shape,
        forms,
        bytes,
        read: read_case(&name, &rules),
        evaluate: evaluate_case(&name, &rules, drawn.inputs),
    }
}

/// The compiler must not know which function of plain Rust is called. Both sides read the answer as a caller does.
fn read_case(name: &str, rules: &Rc<Vec<Vec<u8>>>) -> Case {
    let plain = black_box(plain_rule::read as Read);
    let ours = Side::new(rules, |rule| rule_read(rule).result().unwrap_or_default());
    let plain = Side::new(rules, move |rule| plain(rule).unwrap_or_default());
    Case::new(name, ours, None, plain)
}

fn evaluate_case(name: &str, rules: &Rc<Vec<Vec<u8>>>, inputs: [i64; INPUTS]) -> Case {
    let plain = black_box(plain_rule::evaluate as Evaluate);
    let ours = Side::new(rules, move |rule| rule_evaluate(rule, &inputs).result().unwrap_or_default());
    let plain = Side::new(rules, move |rule| plain(rule, &inputs).unwrap_or_default());
    Case::new(name, ours, None, plain)
}
