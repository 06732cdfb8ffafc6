//! Random forms that are refused by themselves, each refusal and place as often as any other.

use crate::fixnum_arguments::{beyond, greatest, least};
use crate::random::Random;
use crate::reference::fixnum::argument_counts;
use crate::reference::rule::Form;

/// A form that is refused at that width, where 64 has no number that is no fixnum.
pub fn refused(random: &mut Random, width: u64) -> Form {
    let (w, least, greatest) = (width as i64, least(width), greatest(width));
    let start = random.between(0, w - 2);
    let calls: &[(u64, [i64; 4])] = match random.below(7) {
        0 | 1 => return Form::Constant(random.choose(&beyond(width))),
        2 => &[(15, [least, 1, 0, 0]), (15, [greatest, -1, 0, 0]), (15, [0, least, 0, 0])],
        3 => &[(16, [1, 0, 0, 0]), (20, [1, 0, 0, 0]), (33, [1, w, 0, 0]), (36, [1, -1, 2, 0]), (37, [0, -w, 0, 0])],
        4 => &[(34, [1, start, 2, 0]), (35, [1, start, w, 0]), (41, [1, start + 1, start, 0])],
        5 => &[(40, [1, start, w - 1, w - start]), (40, [1, start, start, -1])],
        _ => &[(13, [greatest, 1, 0, 0]), (14, [least, -1, 0, 0]), (19, [least, -1, 0, 0]), (38, [1, w - 1, 0, 0])],
    };
    let (code, args) = random.choose(calls);
    let count = *argument_counts(code).end() as usize;
    Form::Call { code, args: args[..count].iter().map(|&value| Form::Constant(value)).collect() }
}

#[cfg(test)]
mod tests {
    use super::*;
    use crate::reference::rule::evaluator::evaluate;
    use crate::reference::rule::{Rule, INPUTS};
    use crate::reference::width::{WHOLE_WORD, WIDTHS};

    #[test]
    fn they_are_refused() {
        let mut random = Random::new(45);
        for width in WIDTHS {
            for _ in 0..1_000 {
                let rule = Rule { stored_width: width, form: refused(&mut random, width) };
                let is_fixnum = width == WHOLE_WORD && matches!(rule.form, Form::Constant(_));
                assert_eq!(evaluate(&rule, &[0; INPUTS]).is_ok(), is_fixnum, "{rule:?}");
            }
        }
    }
}
