// Tables of price rules, chosen and drawn, right and damaged: the library's answers and results beside the second ones.

use super::prices::*;
use super::*;

const DRAWN: usize = 10_000;

extern "C" {
    fn price_rules_check(
        first: *const u8, first_len: usize, last: *const u8, last_len: usize,
        price: *const u32, price_len: usize, fault: *mut usize, fault_len: usize,
    ) -> usize;
    fn price_rules_price(
        first: *const u8, first_len: usize, last: *const u8, last_len: usize,
        price: *const u32, price_len: usize, selection: usize, found: *mut u32, found_len: usize,
    ) -> usize;
}

// The rules as three slices, which may have other lengths.
#[derive(Clone, Debug)]
struct Table {
    first: Vec<u8>,
    last: Vec<u8>,
    price: Vec<u32>,
}

impl Table {
    fn new(rules: &[Rule]) -> Table {
        Table {
            first: rules.iter().map(|rule| rule.first).collect(),
            last: rules.iter().map(|rule| rule.last).collect(),
            price: rules.iter().map(|rule| rule.price).collect(),
        }
    }

    // None where the lengths differ.
    fn rules(&self) -> Option<Vec<Rule>> {
        let ends = self.first.iter().zip(&self.last);
        let rules = ends.zip(&self.price).map(|((first, last), price)| Rule { first: *first, last: *last, price: *price });
        let same = self.first.len() == self.last.len() && self.last.len() == self.price.len();
        same.then(|| rules.collect())
    }
}

// What is expected of a result that goes into a buffer: with other than one element it stays.
fn written<T: Clone>((answer, result): (usize, T), buffer: &[T]) -> (usize, Vec<T>) {
    if buffer.len() == 1 { (answer, vec![result]) } else { (BAD_BUFFER, buffer.to_vec()) }
}

fn compare_check(run: &mut Run, table: &Table, places: usize) {
    let mut fault = vec![0xABCD; places];
    let result = table.rules().map_or((OUT_OF_RANGE, 0), |rules| check(&rules));
    let expected = written(result, &fault);
    // The buffers are as long as said and none overlaps another.
    let answer = unsafe {
        price_rules_check(
            table.first.as_ptr(), table.first.len(), table.last.as_ptr(), table.last.len(),
            table.price.as_ptr(), table.price.len(), fault.as_mut_ptr(), fault.len(),
        )
    };
    run.count(CHECK, expected.0);
    if (answer, &fault) != (expected.0, &expected.1) {
        run.fail(&format!("{table:?}: {expected:?} here, {answer} {fault:?} by the library"));
    }
}

fn compare_price(run: &mut Run, table: &Table, selection: usize, places: usize) {
    let mut found = vec![0xABCD; places];
    let result = table.rules().map_or((OUT_OF_RANGE, 0), |rules| price(&rules, selection));
    let expected = written(result, &found);
    // As above.
    let answer = unsafe {
        price_rules_price(
            table.first.as_ptr(), table.first.len(), table.last.as_ptr(), table.last.len(),
            table.price.as_ptr(), table.price.len(), selection, found.as_mut_ptr(), found.len(),
        )
    };
    run.count(PRICE, expected.0);
    if (answer, &found) != (expected.0, &expected.1) {
        run.fail(&format!("{table:?}, selection {selection}: {expected:?} here, {answer} {found:?} by the library"));
    }
}

// ---- chosen tables ----

// One rule with any ends, alone and beside rules for the rest of its selections where it is right.
fn every_rule(run: &mut Run) {
    let ends = || (0..=101).chain([128, 254, 255]);
    for first in ends() {
        for last in ends() {
            run.origin = format!("a rule from {first} to {last}");
            let mut rules = vec![Rule { first, last, price: 7 }];
            compare_check(run, &Table::new(&rules), 1);
            rules.push(Rule { first: 1, last: first.saturating_sub(1), price: 8 });
            rules.push(Rule { first: last.saturating_add(1), last: 99, price: 9 });
            rules.retain(|rule| rule.price == 7 || rule.first <= rule.last);
            compare_check(run, &Table::new(&rules), 1);
        }
    }
}

// Up to 201 rules, of which those past the first are equal and wrong or right.
fn every_length(run: &mut Run) {
    for count in 0..=201 {
        run.origin = format!("{count} rules");
        for (first, last) in [(1, 99), (99, 99), (0, 0)] {
            let mut rules = vec![Rule { first, last, price: 5 }; count];
            rules.iter_mut().take(1).for_each(|rule| (rule.first, rule.last) = (1, 99));
            compare_check(run, &Table::new(&rules), 1);
            compare_price(run, &Table::new(&rules), 50, 1);
        }
    }
}

// A rule for each selection; every selection's price, and what lies outside.
fn every_selection(run: &mut Run) {
    run.origin = "a rule for each selection".to_string();
    let rules: Vec<Rule> = SELECTIONS.rev().map(|s| Rule { first: s as u8, last: s as u8, price: 3 * s as u32 }).collect();
    for selection in (0..=300).chain([1 << 16, 1 << 32, usize::MAX]) {
        compare_price(run, &Table::new(&rules), selection, 1);
    }
}

// ---- drawn tables ----

// Rules that cover each selection once, in any order.
fn right_rules(random: &mut Random) -> Vec<Rule> {
    let mut rules: Vec<Rule> = Vec::new();
    let longest = 1 + random.below(99);
    let mut first = 1;
    while first <= 99 {
        let last = (first + random.below(longest)).min(99);
        let rule = Rule { first: first as u8, last: last as u8, price: random.next() as u32 };
        rules.insert(random.below(rules.len() + 1), rule);
        first = last + 1;
    }
    rules
}

fn damage(random: &mut Random, rules: &mut Vec<Rule>) {
    let place = random.below(rules.len());
    let end = random.pick(&[0, 1, 2, 50, 98, 99, 100, 255]);
    match random.below(8) {
        0 => drop(rules.remove(place)),
        1 => rules.push(rules[place].clone()),
        2 => rules[place].first = rules[place].first.wrapping_add(1),
        3 => rules[place].last = rules[place].last.wrapping_sub(1),
        4 => rules[place].last = rules[place].last.wrapping_add(1),
        5 => rules[place].first = end,
        6 => rules[place].last = end,
        _ => rules.insert(place, Rule { first: random.byte(), last: random.byte(), price: 1 }),
    }
    if rules.is_empty() || random.one_in(50) {
        let count = 195 + random.below(10);
        rules.resize(count, Rule { first: end, last: end, price: 2 });
    }
}

fn other_lengths(random: &mut Random, table: &mut Table) {
    let mut length = || random.below(5);
    table.first.truncate(table.first.len().saturating_sub(length()));
    table.last.resize(table.last.len() + length(), 99);
    table.price.resize(table.price.len() + length(), 1);
}

fn one_table(run: &mut Run, random: &mut Random) {
    let mut rules = right_rules(random);
    for _ in 0..random.below(4) {
        damage(random, &mut rules);
    }
    let mut table = Table::new(&rules);
    if random.one_in(20) {
        other_lengths(random, &mut table);
    }
    let places = if random.one_in(20) { random.below(4) } else { 1 };
    compare_check(run, &table, places);
    for _ in 0..2 {
        let far = random.next() as usize;
        let within = random.below(100);
        let selection = random.pick(&[within, within, within, within, within, within, 100, 256 + within, far]);
        compare_price(run, &table, selection, places);
    }
}

pub fn price_tables(run: &mut Run) {
    every_rule(run);
    every_length(run);
    every_selection(run);
    let mut random = Random::new(9);
    for place in 0..DRAWN {
        run.origin = format!("drawn table {place} of price rules");
        one_table(run, &mut random);
    }
}
