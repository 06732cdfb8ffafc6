//! Lists of rotate and reverse calls on one field, for both parts: the number at the end is the first number reversed
//! or not and rotated once by the net count; bit count, sign and the bits outside the field are kept; the list commutes
//! with not and distributes over and, ior and xor; rotations by differing counts differ. Each call is done or refused as
//! its count says: the number at the end would be the same if a full rotation were refused. From padded limbs every call
//! is refused.

mod fixnum;
mod limbs;
mod part;

use crate::checker::Checker;
use crate::report::difference;
use part::{end_of, Bitwise, Part};
use quebralua_reference::random::Random;
use quebralua_reference::reference::integer::Integer;
use quebralua_reference::reference::limb_results::{reverse, rotate};
use quebralua_reference::reference::lists::{net, Net, Step};

/// What the random lists of a part held.
#[derive(Default)]
struct Held {
    lists: u64,
    done: u64,
    refused: u64,
    full: u64,
    reversed: u64,
}

/// Compares that many random lists of fixnum calls, and a quarter as many of limb calls.
pub fn run(checker: &mut Checker, lists: u64) {
    let (mut fixnum_lists, mut limb_lists) = (Held::default(), Held::default());
    let mut refused_from_padded = 0;
    for round in 0..lists {
        let part = fixnum::Fixnums::random(&mut checker.random);
        check_field(checker, &part, &mut fixnum_lists);
        if round % 4 == 0 {
            let part = limbs::Limbs::random(&mut checker.random);
            check_field(checker, &part, &mut limb_lists);
            let steps = random_steps(&mut checker.random, &part);
            refused_from_padded += part.check_padded(checker, &steps);
        }
    }
    for (name, held) in [("fixnum", fixnum_lists), ("limb", limb_lists)] {
        let Held { lists, done, refused, full, reversed } = held;
        println!(
            "{lists} lists of {name} calls: {done} done, {full} of them full rotations, {refused} refused; \
             {reversed} lists reverse the field"
        );
    }
    println!("lists from padded limbs: {refused_from_padded} calls, all of them refused");
}

impl Held {
    fn count<P: Part>(&mut self, part: &P, steps: &[Step]) {
        let (start, end) = part.field();
        let done = steps.iter().filter(|&&step| part.is_done(step)).count() as u64;
        self.lists += 1;
        self.done += done;
        self.refused += steps.len() as u64 - done;
        self.full += steps.iter().filter(|&&step| step == Step::Rotate(end - start)).count() as u64;
        self.reversed += u64::from(net(steps, end - start, |count| part.accepts(count)).reversed);
    }
}

fn check_field<P: Part>(checker: &mut Checker, part: &P, held: &mut Held) {
    let steps = random_steps(&mut checker.random, part);
    held.count(part, &steps);
    let x = part.random_number(&mut checker.random);
    check_done(checker, part, &x, &steps);
    check_end(checker, part, &x, &steps);
    check_kept(checker, part, &x, &steps);
    check_not(checker, part, &x, &steps);
    check_distribution(checker, part, &steps);
    check_short_lists(checker, part, &x);
    check_differing_counts(checker, part);
}

fn random_steps<P: Part>(random: &mut Random, part: &P) -> Vec<Step> {
    let steps = random.below(9);
    let step = |_| if random.one_in(3) { Step::Reverse } else { Step::Rotate(part.random_count(random)) };
    (0..steps).map(step).collect()
}

/// Each call is done exactly where its count is accepted.
fn check_done<P: Part>(checker: &mut Checker, part: &P, x: &P::Number, steps: &[Step]) {
    let mut x = x.clone();
    for &step in steps {
        let answer = part.step(checker, &x, step);
        let (expected, got) = (part.is_done(step), answer.is_some());
        if expected != got {
            let [expected, got] = [expected, got].map(|done| if done { "done" } else { "refused" });
            difference(&part.step_text(&x, step), expected, got);
        }
        x = answer.unwrap_or(x);
    }
}

/// The end is one rotation by the net count, after a reversal if the done reversals are odd in number: by the
/// definitions, and by the library's own calls. Those end at the same limbs too, as one integer has one legal spelling.
fn check_end<P: Part>(checker: &mut Checker, part: &P, x: &P::Number, steps: &[Step]) {
    let (start, end) = part.field();
    let Net { reversed, count } = net(steps, end - start, |count| part.accepts(count));
    let (low, high) = (start as usize, end as usize);
    let first = part.integer(x);
    let first = if reversed { reverse(&first, low, high) } else { first };
    let expected = rotate(&first, low, high, count as usize);
    let got = end_of(checker, part, x, steps);
    require(checker, part, x, steps, "the first number rotated once", &expected, &part.integer(&got));
    let once = if reversed { vec![Step::Reverse, Step::Rotate(count)] } else { vec![Step::Rotate(count)] };
    let single = end_of(checker, part, x, &once);
    require(checker, part, x, steps, "the library's own single calls", &part.integer(&single), &part.integer(&got));
    if single != got {
        difference(&part.text(checker, x, steps), &format!("{single:?}"), &format!("{got:?}"));
    }
}

/// Bit count, sign and each bit outside the field stay.
fn check_kept<P: Part>(checker: &mut Checker, part: &P, x: &P::Number, steps: &[Step]) {
    let last = end_of(checker, part, x, steps);
    let counts = (part.bit_count(checker, x), part.bit_count(checker, &last));
    if counts.0 != counts.1 {
        let text = part.text(checker, x, steps);
        difference(&text, &format!("bit count {}", counts.0), &format!("bit count {}", counts.1));
    }
    let (a, b) = (part.integer(x), part.integer(&last));
    let (start, end) = part.field();
    let outside = |i: usize| (i as i64) < start || (i as i64) >= end;
    let width = a.length().max(b.length()) + 1;
    if a.is_negative() != b.is_negative() || (0..width).any(|i| outside(i) && a.bit(i) != b.bit(i)) {
        require(checker, part, x, steps, "the same sign and bits outside the field", &a, &b);
    }
}

fn check_not<P: Part>(checker: &mut Checker, part: &P, x: &P::Number, steps: &[Step]) {
    let not_x = part.not(checker, x);
    let last = end_of(checker, part, x, steps);
    let not_last = part.not(checker, &last);
    let got = end_of(checker, part, &not_x, steps);
    require(checker, part, &not_x, steps, "not of the end", &part.integer(&not_last), &part.integer(&got));
}

/// From the and of some numbers the list ends at the and of where it ends from each; likewise ior and xor.
fn check_distribution<P: Part>(checker: &mut Checker, part: &P, steps: &[Step]) {
    let numbers: Vec<P::Number> =
        (0..part.random_operands(&mut checker.random)).map(|_| part.random_number(&mut checker.random)).collect();
    let ends: Vec<P::Number> = numbers.iter().map(|x| end_of(checker, part, x, steps)).collect();
    for operation in [Bitwise::And, Bitwise::Ior, Bitwise::Xor] {
        let combined = part.combine(checker, operation, &numbers);
        let expected = part.combine(checker, operation, &ends);
        let got = end_of(checker, part, &combined, steps);
        let text = format!("{operation:?} of the ends");
        require(checker, part, &combined, steps, &text, &part.integer(&expected), &part.integer(&got));
    }
}

/// Rotation by a and then b is rotation by (a + b) mod f; reverse, rotate by a, reverse is rotation by (f - a) mod f;
/// reversing twice changes nothing; nor does a full rotation, in one call or in two. All these calls are done.
fn check_short_lists<P: Part>(checker: &mut Checker, part: &P, x: &P::Number) {
    let (start, end) = part.field();
    let f = end - start;
    let (a, b) = (short_count(&mut checker.random, f), short_count(&mut checker.random, f));
    let pairs = [
        (vec![Step::Rotate(a), Step::Rotate(b)], vec![Step::Rotate((a + b) % f)]),
        (vec![Step::Reverse, Step::Rotate(a), Step::Reverse], vec![Step::Rotate((f - a) % f)]),
        (vec![Step::Reverse, Step::Reverse], vec![]),
        (vec![Step::Rotate(f)], vec![]),
        (vec![Step::Rotate(a), Step::Rotate(f - a)], vec![]),
        (vec![Step::Rotate(a), Step::Rotate((f - a) % f)], vec![]),
    ];
    for (long, short) in pairs {
        check_done(checker, part, x, &long);
        let expected = end_of(checker, part, x, &short);
        let got = end_of(checker, part, x, &long);
        require(checker, part, x, &long, "the shorter list", &part.integer(&expected), &part.integer(&got));
    }
}

/// A count from 0 to f, often one of these two.
fn short_count(random: &mut Random, f: i64) -> i64 {
    if random.one_in(4) {
        random.choose(&[0, f])
    } else {
        random.between(0, f)
    }
}

/// Rotations by two differing counts differ on the number whose only 1 is at the field's start.
fn check_differing_counts<P: Part>(checker: &mut Checker, part: &P) {
    let (start, end) = part.field();
    let f = end - start;
    if f < 2 {
        return;
    }
    let c = checker.random.between(0, f - 1);
    let d = (c + checker.random.between(1, f - 1)) % f;
    let x = part.power_of_two(start);
    let rotated = [c, d].map(|count| end_of(checker, part, &x, &[Step::Rotate(count)]));
    if part.integer(&rotated[0]) == part.integer(&rotated[1]) {
        let text = part.text(checker, &x, &[Step::Rotate(c)]) + &part.text(checker, &x, &[Step::Rotate(d)]);
        difference(&text, "two different numbers", "the same number");
    }
}

fn require<P: Part>(
    checker: &mut Checker,
    part: &P,
    x: &P::Number,
    steps: &[Step],
    meaning: &str,
    expected: &Integer,
    got: &Integer,
) {
    if expected != got {
        let expected = format!("{:x?} ({meaning})", expected.to_limbs());
        difference(&part.text(checker, x, steps), &expected, &format!("{:x?}", got.to_limbs()));
    }
}
