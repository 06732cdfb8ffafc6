//! The second implementation's own answers agree at every pair of widths, and answers that are changed do not.

use super::answer;
use crate::call::FixnumCall;
use crate::random::Random;
use crate::random_arguments::fixnum::call;
use crate::reference::fixnum::{fixnum, Answer};
use crate::reference::wider::{agree, Answered};
use crate::reference::width::WIDTHS;
use crate::refusal::{DONE, SIZE};

fn at(width: u64, call: &FixnumCall) -> Answered {
    (FixnumCall { width, ..*call }, fixnum(width, call.code, call.args, call.count))
}

#[test]
fn all_widths() {
    let mut random = Random::new(11);
    let mut compared = [0; 42];
    for _ in 0..20_000 {
        let call = call(&mut random);
        let answers: Vec<Answered> = WIDTHS.map(|width| at(width, &call)).collect();
        for (i, smaller) in answers.iter().enumerate().filter(|(_, (_, answer))| answer.refusal == DONE) {
            for greater in &answers[i + 1..] {
                assert!(agree(smaller, greater), "{smaller:?}\n{greater:?}");
                compared[call.code as usize] += 1;
            }
        }
    }
    assert!(compared[1..].iter().all(|&count| count > 0), "{compared:?}");
}

/// The answers to a call at two widths.
fn pair([v, w]: [u64; 2], code: u64, args: &[i64]) -> [Answered; 2] {
    let mut all = [0; 4];
    all[..args.len()].copy_from_slice(args);
    [v, w].map(|width| (FixnumCall { width, code, count: args.len() as u64, args: all }, answer(width, code, args)))
}

#[test]
fn a_changed_answer_is_noticed() {
    for (code, args) in [(13, &[1, 2][..]), (18, &[-7, 2]), (22, &[1 << 61, 1 << 61, 5]), (34, &[5, 62, 1]), (25, &[9])]
    {
        let [smaller, (call, right)] = pair([63, 64], code, args);
        assert!(agree(&smaller, &(call, right)));
        for wrong in [
            Answer { refusal: SIZE, ..right },
            Answer { first: right.first - 1, ..right },
            Answer { first: !right.first, ..right },
            Answer { second: right.second + 1, ..right },
            Answer { place: 1, ..right },
        ] {
            assert!(!agree(&smaller, &(call, wrong)), "code {code}: {wrong:?}");
        }
    }
}

#[test]
fn the_sign_of_the_smaller_width() {
    for (x, bit, smaller, greater) in [(5, 1, 5 - (1 << 62), 5 + (1 << 62)), (-6, 0, (1 << 62) - 6, -6 - (1 << 62))] {
        let answers = pair([63, 64], 34, &[x, 62, bit]);
        assert_eq!(answers.map(|(_, answer)| answer.first), [smaller, greater]);
        let [_, (call, wide)] = answers;
        assert!(!agree(&answers[0], &(call, Answer { first: smaller, ..wide })));
    }
}
