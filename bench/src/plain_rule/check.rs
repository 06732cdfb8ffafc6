//! Checks a whole rule.

use crate::binding::INPUTS;

const LONGEST: usize = 4096;
const DEEPEST: usize = 32;
const DEFAULT_WIDTH: u64 = 30;

const UNSIGNED_GROUPS: usize = 9;
const SIGNED_GROUPS: usize = 10;

/// The width that the rule runs at, or the offset of what is not allowed.
pub fn width(rule: &[u8]) -> Result<u64, usize> {
    if rule.len() > LONGEST {
        return Err(LONGEST);
    }
    let mut reader = Reader { rule, at: 0 };
    let width = reader.number(|n| n == 0 || (24..=64).contains(&n))?;
    reader.form(1)?;
    if reader.at < rule.len() {
        return Err(reader.at);
    }
    Ok(if width == 0 { DEFAULT_WIDTH } else { width.into() })
}

struct Reader<'a> {
    rule: &'a [u8],
    at: usize,
}

impl Reader<'_> {
    fn form(&mut self, depth: usize) -> Result<(), usize> {
        if depth > DEEPEST {
            return Err(self.at);
        }
        match self.number(|tag| tag <= 2)? {
            0 => self.constant(),
            1 => self.number(|index| usize::from(index) < INPUTS).map(|_| ()),
            _ => {
                let code = self.number(|code| COUNTS[usize::from(code)] != NONE)?;
                let (least, most) = COUNTS[usize::from(code)];
                let count = self.number(|count| least <= count && count <= most)?;
                (0..count).try_for_each(|_| self.form(depth + 1))
            }
        }
    }

    /// An unsigned number. None that is allowed has more than one group.
    fn number(&mut self, allowed: impl Fn(u8) -> bool) -> Result<u8, usize> {
        match self.rule.get(self.at) {
            Some(&n) if allowed(n) => {
                self.at += 1;
                Ok(n)
            }
            _ => Err(self.breach(UNSIGNED_GROUPS)),
        }
    }

    fn constant(&mut self) -> Result<(), usize> {
        let rest = &self.rule[self.at..];
        match rest.iter().take(SIGNED_GROUPS).position(|&group| group < 0x80) {
            Some(last) if last == 0 || is_needed(rest[last - 1], rest[last], last) => {
                self.at += last + 1;
                Ok(())
            }
            _ => Err(self.breach(SIGNED_GROUPS)),
        }
    }

    /// The offset of a number that is not allowed, or the rule's length where the end cuts it off.
    #[cold]
    fn breach(&self, most_groups: usize) -> usize {
        let rest = &self.rule[self.at..];
        if rest.len() < most_groups && rest.iter().all(|&group| group >= 0x80) {
            self.rule.len()
        } else {
            self.at
        }
    }
}

/// Whether the last group says more than the sign of the one before. A tenth has room for bit 63 and copies of it.
fn is_needed(before: u8, group: u8, index: usize) -> bool {
    let sign = if before & 0x40 == 0 { 0 } else { 0x7F };
    group != sign && (index + 1 < SIGNED_GROUPS || group == 0 || group == 0x7F)
}

/// How many arguments an operation takes, at least and at most.
type Counts = (u8, u8);
/// Of a code that rules do not have.
const NONE: Counts = (1, 0);

/// For each byte that may be a code. Looking them up is quicker than the `match` below.
static COUNTS: [Counts; 256] = {
    let (mut table, mut code) = ([NONE; 256], 0);
    while code < table.len() {
        table[code] = counts(code);
        code += 1;
    }
    table
};

const fn counts(code: usize) -> Counts {
    match code {
        1..=5 => (2, 4),
        6..=10 | 25 | 30..=32 => (1, 1),
        11 | 12 => (1, 4),
        13 | 14 | 16 | 17 | 19 | 20 | 33 | 37..=39 => (2, 2),
        15 => (1, 2),
        26..=28 => (0, 4),
        29 | 34 | 35 | 41 => (3, 3),
        36 | 40 => (4, 4),
        _ => NONE,
    }
}
