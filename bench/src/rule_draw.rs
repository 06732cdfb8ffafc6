//! Random rules whose evaluation is done: balanced ones, and ones that are like a list.

use crate::binding::{fixnum, INPUTS};
use crate::random::Random;
use crate::rule_form::{Form, Operation, Places};

/// That of Chez's fixnums. Guile's have a bit more.
pub const WIDTH: u64 = 61;
pub const SIZES: [usize; 3] = [10, 100, 1000];
/// All rules of one size together have so many forms.
const ALL_FORMS: usize = 4000;

const LONGEST: usize = 4096;
const DEEPEST: usize = 32;
/// A rule that is like a list nests so many calls, each the first argument of the one before, where it has forms enough.
/// Their other arguments are balanced.
const LIST: usize = 20;
const MOST_GROUPS: i64 = 5;

#[derive(Clone, Copy, Debug, PartialEq)]
pub enum Shape {
    Balanced,
    List,
}

impl Shape {
    pub fn name(self) -> &'static str {
        match self {
            Shape::Balanced => "balanced",
            Shape::List => "list-like",
        }
    }
}

/// Rules of one size and shape, and the inputs that all of them are evaluated on.
pub struct Rules {
    pub inputs: [i64; INPUTS],
    /// The forms, their bytes and their values.
    pub rules: Vec<(Form, Vec<u8>, i64)>,
}

const fn operation(code: u8, name: &'static str, numbers: (usize, usize), places: Places) -> Operation {
    Operation { code, name, numbers, places }
}

/// Those that identifiers are made with.
static OPERATIONS: [Operation; 14] = [
    operation(1, "fx=?", (2, 2), Places::None),
    operation(3, "fx<?", (2, 2), Places::None),
    operation(4, "fx>=?", (2, 2), Places::None),
    operation(13, "fx+", (2, 2), Places::None),
    operation(25, "fxnot", (1, 1), Places::None),
    operation(26, "fxand", (2, 4), Places::None),
    operation(27, "fxior", (2, 4), Places::None),
    operation(28, "fxxor", (2, 4), Places::None),
    operation(29, "fxif", (3, 3), Places::None),
    operation(35, "fxbit-field", (1, 1), Places::Field),
    operation(38, "fxarithmetic-shift-left", (1, 1), Places::Distance),
    operation(39, "fxarithmetic-shift-right", (1, 1), Places::Distance),
    operation(40, "fxrotate-bit-field", (1, 1), Places::FieldAndCount),
    operation(41, "fxreverse-bit-field", (1, 1), Places::Field),
];

pub fn rules(random: &mut Random, shape: Shape, forms: usize) -> Rules {
    let inputs = [(); INPUTS].map(|()| number(random, WIDTH as i64 - 1));
    let mut draw = Draw { random, inputs };
    let list = if shape == Shape::List { LIST } else { 0 };
    Rules { inputs, rules: (0..ALL_FORMS / forms).map(|_| draw.rule(forms, list)).collect() }
}

/// A number of either sign, of so many random bits at most beside the sign.
fn number(random: &mut Random, most_bits: i64) -> i64 {
    let least = -1 << random.between(0, most_bits);
    random.between(least, !least)
}

struct Draw<'a> {
    random: &'a mut Random,
    inputs: [i64; INPUTS],
}

impl Draw<'_> {
    /// A rule with its bytes and its value, drawn again until it is within the limits.
    fn rule(&mut self, forms: usize, list: usize) -> (Form, Vec<u8>, i64) {
        loop {
            let (form, value) = self.form(forms, list);
            let bytes = form.stored(WIDTH as u8);
            if bytes.len() <= LONGEST && form.depth() <= DEEPEST {
                return (form, bytes, value);
            }
        }
    }

    /// A form of so many forms with its value. `list` is how many calls are yet to be nested.
    fn form(&mut self, forms: usize, list: usize) -> (Form, i64) {
        if forms == 1 {
            return self.leaf();
        }
        let (operation, numbers) = self.operation(forms);
        let sizes = split(forms - 1 - operation.places.number(), numbers, list);
        let (mut arguments, mut values) = (Vec::new(), Vec::new());
        for (i, size) in sizes.into_iter().enumerate() {
            let (argument, value) = self.form(size, if i == 0 { list.saturating_sub(1) } else { 0 });
            arguments.push(argument);
            values.push(value);
        }
        for place in self.places(operation.places) {
            arguments.push(Form::Constant(place));
            values.push(place);
        }
        let (operation, value) = done(operation, &values);
        (Form::Call(operation, arguments), value)
    }

    fn leaf(&mut self) -> (Form, i64) {
        if self.random.between(0, 1) == 0 {
            let index = self.random.between(0, INPUTS as i64 - 1);
            return (Form::Input(index as u8), self.inputs[index as usize]);
        }
        let least = -1 << (7 * self.random.between(1, MOST_GROUPS) - 1);
        let x = self.random.between(least, !least);
        (Form::Constant(x), x)
    }

    /// An operation that so many forms are enough for, and how many numbers it gets.
    fn operation(&mut self, forms: usize) -> (&'static Operation, usize) {
        loop {
            let operation = &OPERATIONS[self.random.between(0, OPERATIONS.len() as i64 - 1) as usize];
            let (least, most) = operation.numbers;
            let numbers = self.random.between(least as i64, most as i64) as usize;
            if 1 + numbers + operation.places.number() <= forms {
                return (operation, numbers);
            }
        }
    }

    /// Fields are not empty, and counts are less than their size, which Guile asks for.
    fn places(&mut self, places: Places) -> Vec<i64> {
        let last = WIDTH as i64 - 1;
        let start = self.random.between(0, last - 1);
        let end = self.random.between(start + 1, last);
        match places {
            Places::None => vec![],
            Places::Distance => vec![self.random.between(0, last / 2)],
            Places::Field => vec![start, end],
            Places::FieldAndCount => vec![start, end, self.random.between(0, end - start - 1)],
        }
    }
}

/// How many forms each argument gets: about the same, or the first the most.
fn split(forms: usize, arguments: usize, list: usize) -> Vec<usize> {
    let others = match (arguments, list) {
        (1, _) => 0,
        (_, 0) => forms - forms.div_ceil(arguments),
        _ => (forms / list).clamp(arguments - 1, forms - 1),
    };
    let other = |i| (others + i) / (arguments - 1);
    [forms - others].into_iter().chain((0..arguments - 1).map(other)).collect()
}

/// The operation and its value, or those of another one with the same arguments where the value would be too large.
fn done(operation: &'static Operation, values: &[i64]) -> (&'static Operation, i64) {
    let mut places = [0; 4];
    places[..values.len()].copy_from_slice(values);
    let call = |operation: &Operation| fixnum(WIDTH, operation.code.into(), values.len() as u64, places).result();
    let other = if operation.name == "fx+" { "fxxor" } else { "fxarithmetic-shift-right" };
    let other = OPERATIONS.iter().find(|operation| operation.name == other);
    let mut tried = [Some(operation), other].into_iter().flatten();
    let done = tried.find_map(|operation| call(operation).ok().map(|(value, _)| (operation, value)));
    done.expect("a call in its domain is done")
}
