//! The laws of rules, each on an accepted rule and inputs, by the library's answers alone.

use crate::checker::Checker;
use crate::report::difference;
use quebralua_reference::call::FixnumCall;
use quebralua_reference::random_arguments::fixnum::arguments;
use quebralua_reference::random_arguments::rule::Made;
use quebralua_reference::reference::rule::writer::write;
use quebralua_reference::reference::rule::{rule_calls, Form, Rule, DEFAULT_WIDTH, INPUTS, MOST_BYTES};
use quebralua_reference::reference::width::{is_fixnum, WIDTHS};
use quebralua_reference::refusal::{DONE, NOT_FIXNUM};
use quebralua_reference::rule_call::{RuleAnswer, RuleCall};

/// Compares a law, and answers how many times: 0 where it says nothing of this rule.
type Law = fn(&mut Checker, &Made) -> u64;

pub const LAWS: [(&str, Law); 6] = [
    ("greater widths", greater_widths),
    ("width 0", width_0),
    ("inputs that are not named", unnamed_inputs),
    ("inputs as constants", inputs_as_constants),
    ("the first form refused", first_refused),
    ("one call", one_call),
];

/// fxcopy-bit may change the sign, which is another bit at another width.
const COPY_BIT: u64 = 34;

/// A rule without fxcopy-bit that is done at one width is done at every greater one, with the same value.
fn greater_widths(checker: &mut Checker, made: &Made) -> u64 {
    if holds(&made.rule.form, |form| matches!(form, Form::Call { code: COPY_BIT, .. })) {
        return 0;
    }
    let mut bytes = made.bytes.clone();
    let mut smaller: Option<(u64, i64)> = None;
    let mut compared = 0;
    for width in WIDTHS {
        bytes[0] = width as u8;
        let answer = checker.ask_rule(&RuleCall::Evaluate(&bytes, &made.inputs));
        if let Some((done, value)) = smaller {
            compared += 1;
            let expected = RuleAnswer { refusal: DONE, place: 0, offset: 0, value };
            require(&bytes, &made.inputs, || format!("as at width {done}"), expected, answer);
        } else if answer.refusal == DONE {
            smaller = Some((width, answer.value));
        }
    }
    compared
}

/// A width of 0 means 30.
fn width_0(checker: &mut Checker, made: &Made) -> u64 {
    let mut bytes = made.bytes.clone();
    let [zero, thirty] = [0, DEFAULT_WIDTH as u8].map(|width| {
        bytes[0] = width;
        checker.ask_rule(&RuleCall::Evaluate(&bytes, &made.inputs))
    });
    require(&bytes, &made.inputs, || "and with width 0".to_string(), thirty, zero);
    1
}

/// Inputs that the rule does not name have no influence.
fn unnamed_inputs(checker: &mut Checker, made: &Made) -> u64 {
    let expected = checker.ask_rule(&RuleCall::Evaluate(&made.bytes, &made.inputs));
    let is_named = |index: usize| holds(&made.rule.form, |form| *form == Form::Input(index));
    let mut compared = 0;
    for replace in [i64::MIN, i64::MAX, 0].map(Some).into_iter().chain([None, None]) {
        let mut inputs = made.inputs;
        for (index, input) in inputs.iter_mut().enumerate().filter(|&(index, _)| !is_named(index)) {
            *input = replace.unwrap_or_else(|| checker.random.next_i64() >> (index % 16));
            compared += 1;
        }
        let got = checker.ask_rule(&RuleCall::Evaluate(&made.bytes, &inputs));
        require(&made.bytes, &inputs, || format!("as on {:?}", made.inputs), expected, got);
    }
    compared
}

/// An input may be written into the rule as a constant.
fn inputs_as_constants(checker: &mut Checker, made: &Made) -> u64 {
    let form = with_constants(&made.rule.form, &made.inputs);
    let bytes = write(&Rule { form, ..made.rule });
    if bytes == made.bytes || bytes.len() > MOST_BYTES {
        return 0;
    }
    let expected = checker.ask_rule(&RuleCall::Evaluate(&made.bytes, &made.inputs));
    let got = checker.ask_rule(&RuleCall::Evaluate(&bytes, &[i64::MIN; INPUTS]));
    require(&bytes, &[i64::MIN; INPUTS], || format!("as {:?} on {:?}", made.bytes, made.inputs), expected, got);
    1
}

fn with_constants(form: &Form, inputs: &[i64; INPUTS]) -> Form {
    match form {
        Form::Constant(n) => Form::Constant(*n),
        Form::Input(index) => Form::Constant(inputs[*index]),
        Form::Call { code, args } => {
            Form::Call { code: *code, args: args.iter().map(|arg| with_constants(arg, inputs)).collect() }
        }
    }
}

/// The first argument that is refused by itself gives its answer to the call, whatever the call is.
fn first_refused(checker: &mut Checker, made: &Made) -> u64 {
    let Form::Call { args, .. } = &made.rule.form else {
        return 0;
    };
    for arg in args {
        let alone = write(&Rule { stored_width: made.rule.stored_width, form: arg.clone() });
        let expected = checker.ask_rule(&RuleCall::Evaluate(&alone, &made.inputs));
        if expected.refusal != DONE {
            let got = checker.ask_rule(&RuleCall::Evaluate(&made.bytes, &made.inputs));
            require(&made.bytes, &made.inputs, || format!("as its argument {alone:?}"), expected, got);
            return 1;
        }
    }
    0
}

/// A rule of one call on constants answers as the fixnum call does. A constant that is no fixnum has place 0 in a rule.
fn one_call(checker: &mut Checker, made: &Made) -> u64 {
    let width = made.rule.width();
    let calls: Vec<(u64, u64)> = rule_calls().collect();
    let (code, count) = checker.random.choose(&calls);
    let args = arguments(&mut checker.random, width, code);
    let fixnum = checker.ask(&FixnumCall { width, code, count, args });
    let is_beyond = args[..count as usize].iter().any(|&n| !is_fixnum(width, i128::from(n)));
    let expected = if is_beyond {
        RuleAnswer { refusal: NOT_FIXNUM, place: 0, offset: 0, value: 0 }
    } else {
        RuleAnswer { refusal: fixnum.refusal, place: fixnum.place, offset: 0, value: fixnum.first }
    };
    let args = args[..count as usize].iter().map(|&n| Form::Constant(n)).collect();
    let bytes = write(&Rule { stored_width: width, form: Form::Call { code, args } });
    let got = checker.ask_rule(&RuleCall::Evaluate(&bytes, &made.inputs));
    require(&bytes, &made.inputs, || format!("as code {code}"), expected, got);
    1
}

/// Whether the form or one inside it is such.
fn holds(form: &Form, is: impl Fn(&Form) -> bool) -> bool {
    let mut found = false;
    form.each(1, &mut |form, _| found |= is(form));
    found
}

/// Ends the program if the rule answered otherwise on these inputs.
fn require(rule: &[u8], inputs: &[i64], manner: impl FnOnce() -> String, expected: RuleAnswer, got: RuleAnswer) {
    if expected != got {
        let call = format!("{}\n/* {} */", RuleCall::Evaluate(rule, inputs).as_c(), manner());
        difference(&call, &format!("{expected:?}"), &format!("{got:?}"));
    }
}
