// A second implementation of the price rules: the check of a table, and the price of a selection.

use std::cmp::Reverse;
use std::ops::RangeInclusive;

pub const ACCEPTED: usize = 0;
pub const OUT_OF_RANGE: usize = 2;
pub const UNCOVERED: usize = 17;
pub const DISPUTED: usize = 18;

pub const SELECTIONS: RangeInclusive<usize> = 1..=99;

const MOST_RULES: usize = 200;

#[derive(Clone, Debug)]
pub struct Rule {
    pub first: u8,
    pub last: u8,
    pub price: u32,
}

impl Rule {
    fn selections(&self) -> RangeInclusive<usize> {
        self.first as usize..=self.last as usize
    }

    fn is_wrong(&self) -> bool {
        let ends = [self.first, self.last];
        ends.iter().any(|end| !SELECTIONS.contains(&(*end as usize))) || self.last < self.first
    }

    fn at_fault(&self) -> usize {
        let first = self.first as usize;
        if SELECTIONS.contains(&first) { first } else { 1 }
    }
}

// Each selection at fault with its answer. A wrong rule covers nothing here.
fn faults(rules: &[Rule]) -> Vec<(usize, usize)> {
    let mut covered = [0; 100];
    let mut found = Vec::new();
    for rule in rules {
        if rule.is_wrong() {
            found.push((rule.at_fault(), DISPUTED));
        } else {
            rule.selections().for_each(|selection| covered[selection] += 1);
        }
    }
    for selection in SELECTIONS {
        match covered[selection] {
            0 => found.push((selection, UNCOVERED)),
            1 => {}
            _ => found.push((selection, DISPUTED)),
        }
    }
    found
}

// Answer, and the smallest selection at fault; of two answers for it, 18.
pub fn check(rules: &[Rule]) -> (usize, usize) {
    if rules.len() > MOST_RULES {
        return (OUT_OF_RANGE, 0);
    }
    let smallest = faults(rules).into_iter().min_by_key(|(selection, answer)| (*selection, Reverse(*answer)));
    smallest.map_or((ACCEPTED, 0), |(selection, answer)| (answer, selection))
}

// Answer and price.
pub fn price(rules: &[Rule], selection: usize) -> (usize, u32) {
    if !SELECTIONS.contains(&selection) {
        return (OUT_OF_RANGE, 0);
    }
    let (answer, _) = check(rules);
    let found = rules.iter().find(|rule| answer == ACCEPTED && rule.selections().contains(&selection));
    (answer, found.map_or(0, |rule| rule.price))
}
