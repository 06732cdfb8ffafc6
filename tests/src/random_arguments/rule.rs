//! Random rules that are accepted, with inputs.

use super::fixnum::arguments;
use super::rule_refused::refused;
use crate::fixnum_arguments::{kind, random_fixnum, random_width, Kind};
use crate::random::Random;
use crate::reference::rule::evaluator::call;
use crate::reference::rule::reader::read;
use crate::reference::rule::writer::write;
use crate::reference::rule::{rule_calls, Form, Rule, INPUTS, MOST_DEPTH};
use crate::reference::width::is_fixnum;

/// A rule and the inputs that it was made for.
pub struct Made {
    pub rule: Rule,
    pub bytes: Vec<u8>,
    pub inputs: [i64; INPUTS],
}

/// An accepted rule. Half of them are done on their inputs, a quarter hold one form that is refused, and the others are
/// of any kind.
pub fn accepted(random: &mut Random) -> Made {
    loop {
        let stored_width = if random.one_in(8) { 0 } else { random_width(random) };
        let mut rule = Rule { stored_width, form: Form::Constant(0) };
        let mut maker = Maker::new(random, rule.width());
        let depth = maker.depth();
        rule.form = maker.form(depth).0;
        let (inputs, is_done) = (maker.inputs, maker.is_done);
        if is_done && random.one_in(3) {
            let refused = refused(random, rule.width());
            let leaves = leaves(&rule.form).max(1);
            replace_leaf(&mut rule.form, &mut random.below(leaves), &refused);
        }
        let bytes = write(&rule);
        if read(&bytes).is_ok() {
            return Made { rule, bytes, inputs };
        }
    }
}

/// How many constants and inputs a form holds.
fn leaves(form: &Form) -> u64 {
    let mut leaves = 0;
    form.each(1, &mut |form, _| leaves += u64::from(!matches!(form, Form::Call { .. })));
    leaves
}

/// Puts the form in the place of a constant or an input, after leaving that many of them, if there are so many.
fn replace_leaf(form: &mut Form, leave: &mut u64, with: &Form) {
    match form {
        Form::Call { args, .. } => args.iter_mut().for_each(|arg| replace_leaf(arg, leave, with)),
        _ => {
            if *leave == 0 {
                *form = with.clone();
            }
            *leave = leave.wrapping_sub(1);
        }
    }
}

/// Makes one form from the inside out, so that it knows what each part comes to.
struct Maker<'a> {
    random: &'a mut Random,
    width: u64,
    inputs: [i64; INPUTS],
    /// Whether an input has the value that some form needs.
    is_named: [bool; INPUTS],
    /// How many more calls the rule may hold.
    calls: u64,
    /// Whether the rule goes down one argument as far as it may.
    is_deep: bool,
    /// Whether the rule is to be done on its inputs.
    is_done: bool,
}

/// A form, and its value if it has one.
type Valued = (Form, Option<i64>);

impl Maker<'_> {
    fn new(random: &mut Random, width: u64) -> Maker<'_> {
        let inputs = std::array::from_fn(|_| input(random, width));
        let calls = match random.below(32) {
            0 | 1 => 0,
            2..=15 => 1 + random.below(3),
            16..=27 => 2 + random.below(10),
            28..=30 => 10 + random.below(30),
            _ => 100 + random.below(200),
        };
        let (is_deep, is_done) = (random.one_in(10), !random.one_in(4));
        Maker { random, width, inputs, is_named: [false; INPUTS], calls, is_deep, is_done }
    }

    /// How deep the rule may become.
    fn depth(&mut self) -> usize {
        if self.is_deep {
            self.calls = MOST_DEPTH as u64;
        }
        match self.random.below(4) {
            0 if self.is_deep => MOST_DEPTH - 1 - self.random.below(5) as usize,
            1 if !self.is_deep => 2 + self.random.below(6) as usize,
            _ => MOST_DEPTH,
        }
    }

    /// A form of at most that depth.
    fn form(&mut self, depth: usize) -> Valued {
        if depth == 1 || self.calls == 0 {
            let value = random_fixnum(self.random, self.width);
            return self.leaf(value);
        }
        self.calls -= 1;
        self.call(depth)
    }

    fn call(&mut self, depth: usize) -> Valued {
        let (code, count) = self.code_and_count();
        let guide = arguments(self.random, self.width, code);
        let deep = if self.is_deep { Some(self.random.below(count.max(1))) } else { None };
        let mut args = Vec::new();
        let mut values = Some([0; 4]);
        for place in 0..count as usize {
            let (form, value) = match deep {
                Some(deep) if deep == place as u64 => self.form(depth - 1),
                None if self.goes_on(code, place) => self.form(depth - 1),
                _ => self.leaf(guide[place]),
            };
            args.push(form);
            if let (Some(values), Some(value)) = (&mut values, value) {
                values[place] = value;
            }
            values = value.and(values);
        }
        self.valued(code, args, values)
    }

    /// The call with these arguments, or if it is refused and should not be, another that never is.
    fn valued(&mut self, code: u64, args: Vec<Form>, values: Option<[i64; 4]>) -> Valued {
        let count = args.len() as u64;
        let Some(values) = values else {
            return (Form::Call { code, args }, None);
        };
        let value = call(self.width, code, values, count).ok();
        if value.is_some() || !self.is_done {
            return (Form::Call { code, args }, value);
        }
        let code = self.random.choose(&[26, 27, 28]);
        let value = call(self.width, code, values, count).ok();
        (Form::Call { code, args }, value)
    }

    /// A code with one of its counts. Those that answer only yes or no come less often.
    fn code_and_count(&mut self) -> (u64, u64) {
        let calls: Vec<(u64, u64)> = rule_calls().collect();
        let first = self.random.choose(&calls);
        if first.0 <= 10 && self.random.one_in(2) {
            self.random.choose(&calls)
        } else {
            first
        }
    }

    /// Whether an argument is to be any form. Positions and new bits seldom are.
    fn goes_on(&mut self, code: u64, place: usize) -> bool {
        match kind(code, place) {
            Kind::Number => !self.random.one_in(4),
            _ => self.random.one_in(12),
        }
    }

    /// A constant or an input with that value. Where the rule is to be done, the value is made a fixnum.
    fn leaf(&mut self, value: i64) -> Valued {
        let is_good = is_fixnum(self.width, i128::from(value));
        let value = if is_good || !self.is_done { value } else { value >> (64 - self.width) };
        let known = is_fixnum(self.width, i128::from(value)).then_some(value);
        let index = self.random.below(INPUTS as u64) as usize;
        if self.random.one_in(2) {
            return (Form::Constant(value), known);
        }
        if !self.is_named[index] {
            self.inputs[index] = value;
            self.is_named[index] = true;
        }
        if self.inputs[index] == value {
            (Form::Input(index), known)
        } else {
            (Form::Constant(value), known)
        }
    }
}

/// An input: a fixnum, a small number, or any number.
fn input(random: &mut Random, width: u64) -> i64 {
    match random.below(8) {
        0 | 1 => random.next_i64(),
        2..=4 => random.between(-2, 40),
        _ => random_fixnum(random, width),
    }
}

/// Sixteen numbers of any size.
pub fn any_inputs(random: &mut Random) -> [i64; INPUTS] {
    std::array::from_fn(|_| random.next_i64() >> random.below(64))
}

#[cfg(test)]
mod tests {
    use super::*;
    use crate::reference::rule::evaluator::evaluate;
    use std::collections::BTreeMap;

    /// What is made is accepted, as the same tree. Most rules are done, and of a hundred at least one is refused in each way.
    #[test]
    fn made_rules() {
        let mut random = Random::new(43);
        let mut answers = BTreeMap::new();
        let mut deepest = 0;
        for _ in 0..10_000 {
            let Made { rule, bytes, inputs } = accepted(&mut random);
            assert_eq!(read(&bytes).as_ref(), Ok(&rule));
            *answers.entry(evaluate(&rule, &inputs).err()).or_insert(0) += 1;
            rule.form.each(1, &mut |_, depth| deepest = deepest.max(depth));
        }
        assert_eq!(deepest, MOST_DEPTH);
        let done = answers.remove(&None);
        assert!((6_000..9_000).contains(&done.unwrap_or(0)), "{done:?}");
        for answer in [(4, 0), (5, 0), (5, 2), (5, 3), (5, 4), (6, 0)] {
            let times = answers.remove(&Some(answer));
            assert!(times >= Some(100), "refusal {answer:?} came {times:?} times");
        }
        assert!(answers.is_empty(), "{answers:?}");
    }
}
