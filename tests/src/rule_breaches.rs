//! How often each breach came: every item that can offend, with every way in which it can.

use quebralua_reference::reference::rule::leb128::NumberFault::*;
use quebralua_reference::reference::rule::leb128::{SIGNED_GROUPS, UNSIGNED_GROUPS};
use quebralua_reference::reference::rule::reader::{Breach, Fault, Item};
use std::fmt;

const ITEMS: [(Item, &str); 9] = [
    (Item::Length, "length"),
    (Item::Width, "width"),
    (Item::Tag, "tag"),
    (Item::Constant, "constant"),
    (Item::Input, "input"),
    (Item::Code, "code"),
    (Item::Count, "count"),
    (Item::Depth, "depth"),
    (Item::Ending, "ending"),
];

/// Ways to offend: the first are to end early after 0, 1, 2 groups and so on.
const WAYS: usize = SIGNED_GROUPS + 4;
const PADDED: usize = SIGNED_GROUPS;
const TOO_MANY_GROUPS: usize = SIGNED_GROUPS + 1;
const TOO_MANY_GROUPS_AT_END: usize = SIGNED_GROUPS + 2;
const NOT_ALLOWED: usize = SIGNED_GROUPS + 3;

pub struct RuleBreaches {
    /// By item, in the order of `ITEMS`, and by way.
    counts: [[u64; WAYS]; ITEMS.len()],
}

impl RuleBreaches {
    pub fn new() -> RuleBreaches {
        RuleBreaches { counts: [[0; WAYS]; ITEMS.len()] }
    }

    pub fn count(&mut self, breach: &Breach) {
        self.counts[breach.item as usize][way(breach.fault)] += 1;
    }

    /// Every possible breach that did not come.
    pub fn missing(&self) -> impl Iterator<Item = String> + '_ {
        self.rows().flat_map(|(name, counts, possible)| {
            let without = possible.into_iter().filter(|&way| counts[way] == 0);
            without.map(move |way| format!("rules: no breach of the kind: {name} {}", said(way)))
        })
    }

    /// The name of each item, its counts, and the ways in which it can offend.
    fn rows(&self) -> impl Iterator<Item = (&'static str, &[u64; WAYS], Vec<usize>)> {
        ITEMS.iter().map(|&(item, name)| (name, &self.counts[item as usize], possible(item)))
    }
}

fn way(fault: Fault) -> usize {
    match fault {
        Fault::Number(EndsEarly { groups }) => groups,
        Fault::Number(Padded) => PADDED,
        Fault::Number(TooManyGroups { at_end: false }) => TOO_MANY_GROUPS,
        Fault::Number(TooManyGroups { at_end: true }) => TOO_MANY_GROUPS_AT_END,
        Fault::Number(TooLarge) | Fault::NotAllowed => NOT_ALLOWED,
    }
}

/// Depth, length and ending are no numbers that are read. A constant is not allowed where it is no 64-bit number.
fn possible(item: Item) -> Vec<usize> {
    let most = match item {
        Item::Length | Item::Depth | Item::Ending => return vec![NOT_ALLOWED],
        Item::Constant => SIGNED_GROUPS,
        _ => UNSIGNED_GROUPS,
    };
    (0..most).chain([PADDED, TOO_MANY_GROUPS, TOO_MANY_GROUPS_AT_END, NOT_ALLOWED]).collect()
}

fn said(way: usize) -> String {
    match way {
        PADDED => "padded".to_string(),
        TOO_MANY_GROUPS => "of too many groups".to_string(),
        TOO_MANY_GROUPS_AT_END => "of too many groups at the rule's end".to_string(),
        NOT_ALLOWED => "not allowed".to_string(),
        groups => format!("cut off after {groups} groups"),
    }
}

impl fmt::Display for RuleBreaches {
    fn fmt(&self, f: &mut fmt::Formatter) -> fmt::Result {
        write!(
            f,
            "breaches of rules{:>19}{:>10}{:>12}{:>12}{:>12}",
            "cut off", "padded", "too many", "at the end", "else"
        )?;
        for (name, counts, _) in self.rows() {
            let cut: u64 = counts[..SIGNED_GROUPS].iter().sum();
            let [padded, many, at_end, other] =
                [PADDED, TOO_MANY_GROUPS, TOO_MANY_GROUPS_AT_END, NOT_ALLOWED].map(|way| counts[way]);
            write!(f, "\n  {name:22}{cut:>12}{padded:>10}{many:>12}{at_end:>12}{other:>12}")?;
        }
        Ok(())
    }
}
