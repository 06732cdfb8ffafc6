//! Lists of rotate and reverse calls on one field, and the single calls that they come to.

/// One call of a list.
#[derive(Clone, Copy, Debug, PartialEq, Eq)]
pub enum Step {
    Rotate(i64),
    Reverse,
}

/// What a whole list comes to: a reversal or none, then one rotation by the net count.
#[derive(Clone, Copy, Debug, PartialEq, Eq)]
pub struct Net {
    pub reversed: bool,
    pub count: i64,
}

/// The net of a list on a field of f bits, f at least 1. A rotate call is done where `accepted` says so of its count,
/// and every reverse call is done.
pub fn net(steps: &[Step], f: i64, accepted: impl Fn(i64) -> bool) -> Net {
    let mut net = Net { reversed: false, count: 0 };
    for step in steps {
        match *step {
            Step::Rotate(count) if accepted(count) => {
                let sum = i128::from(net.count) + i128::from(count);
                net.count = sum.rem_euclid(i128::from(f)) as i64;
            }
            Step::Rotate(_) => {}
            Step::Reverse => {
                net.count = (f - net.count).rem_euclid(f);
                net.reversed = !net.reversed;
            }
        }
    }
    net
}
