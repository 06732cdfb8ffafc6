//! Inputs that show each exit status, and that the worst answer decides, wherever it stands.

use quebralua_reference::batch::answer::expected;
use quebralua_reference::batch::lines::line;
use quebralua_reference::random::Random;

/// How many random lines of each status there are.
const POOL: usize = 200;

pub fn runs(random: &mut Random) -> Vec<Vec<String>> {
    let [good, refused, bad] = [0, 1, 2].map(|status| pool(random, status));
    vec![
        vec![],
        vec![String::new()],
        good.clone(),
        [&refused[..1], &good].concat(),
        [&good, &refused[..1]].concat(),
        [&refused[..], &good].concat(),
        refused.clone(),
        [&bad[..1], &good].concat(),
        [&bad[..1], &refused, &good].concat(),
        [&refused, &good, &bad[..1]].concat(),
        bad,
    ]
}

/// Random lines whose answers have that status.
fn pool(random: &mut Random, status: i32) -> Vec<String> {
    let lines = std::iter::repeat_with(|| line(random));
    lines.filter(|line| expected(line).status() == status).take(POOL).collect()
}
