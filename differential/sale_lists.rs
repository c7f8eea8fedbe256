// Lists of sales held against each other, chosen and drawn, right and damaged: the library's totals beside the second ones.

use super::sales::*;
use super::*;

const DRAWN: usize = 20_000;

extern "C" {
    fn reconcile_lists(
        box_numbers: *const u32, box_numbers_len: usize, box_amounts: *const u32, box_amounts_len: usize,
        mechanism_numbers: *const u32, mechanism_numbers_len: usize,
        mechanism_amounts: *const u32, mechanism_amounts_len: usize,
        totals: *mut u64, totals_len: usize, difference: *mut i64, difference_len: usize,
    ) -> usize;
}

fn by_library(in_box: &Sales, in_mechanism: &Sales, mut lent: Reconciled) -> Reconciled {
    let (totals, difference) = (&mut lent.totals, &mut lent.difference);
    // The buffers are as long as said and none overlaps another.
    lent.answer = unsafe {
        reconcile_lists(
            in_box.numbers.as_ptr(), in_box.numbers.len(), in_box.amounts.as_ptr(), in_box.amounts.len(),
            in_mechanism.numbers.as_ptr(), in_mechanism.numbers.len(),
            in_mechanism.amounts.as_ptr(), in_mechanism.amounts.len(),
            totals.as_mut_ptr(), totals.len(), difference.as_mut_ptr(), difference.len(),
        )
    };
    lent
}

// The box's sum minus the mechanism's is the second total minus the third plus the fourth.
fn balances(in_box: &Sales, in_mechanism: &Sales, found: &Reconciled) -> bool {
    let total = |place: usize| found.totals[place] as i128;
    in_box.sum() - in_mechanism.sum() == total(1) - total(2) + found.difference[0] as i128
}

// A buffer of another length than three totals or one difference: 100, and both stay.
fn compare_with(run: &mut Run, in_box: &Sales, in_mechanism: &Sales, totals: usize, differences: usize) {
    let lent = Reconciled { answer: BAD_BUFFER, totals: vec![0xABCD; totals], difference: vec![-0xABCD; differences] };
    let right = totals == 3 && differences == 1;
    let expected = if right { reconcile(in_box, in_mechanism) } else { lent.clone() };
    let found = by_library(in_box, in_mechanism, lent);
    run.count(RECONCILE, expected.answer);
    if found != expected {
        let shown = if in_box.numbers.len() < 100 { format!("{in_box:?} {in_mechanism:?}") } else { String::new() };
        run.fail(&format!("{shown} {expected:?} here, {found:?} by the library"));
    }
    if found.answer == RECONCILED && !balances(in_box, in_mechanism, &found) {
        run.fail(&format!("{in_box:?} {in_mechanism:?}: the totals do not balance"));
    }
}

fn compare_lists(run: &mut Run, in_box: &Sales, in_mechanism: &Sales) {
    compare_with(run, in_box, in_mechanism, 3, 1);
}

// ---- chosen lists ----

// Lists of up to three numbers, rising or not, with two sets of amounts.
fn short_lists() -> Vec<Sales> {
    let mut numbers = vec![vec![]];
    for place in 0..40 {
        let next: Vec<u32> = numbers[place].clone();
        if next.len() < 3 {
            numbers.extend([0, 1, 2].map(|number| [next.clone(), vec![number]].concat()));
        }
    }
    let amounts = |long: usize, step: u32| (0..long as u32).map(|place| 5 + step * place).collect();
    let with = |step| move |list: &Vec<u32>| Sales { numbers: list.clone(), amounts: amounts(list.len(), step) };
    numbers.iter().map(with(0)).chain(numbers.iter().map(with(2))).collect()
}

fn every_short_pair(run: &mut Run) {
    run.origin = "every pair of short lists".to_string();
    let lists = short_lists();
    for in_box in &lists {
        for in_mechanism in &lists {
            compare_lists(run, in_box, in_mechanism);
        }
    }
}

fn counted(long: usize, amount: u32) -> Sales {
    Sales { numbers: (0..long as u32).collect(), amounts: vec![amount; long] }
}

// Lists about the limit of their length, with the least and the greatest amounts.
fn longest_lists(run: &mut Run) {
    for long in [MOST_SALES - 1, MOST_SALES, MOST_SALES + 1] {
        for (ours, theirs) in [(u32::MAX, 0), (0, u32::MAX), (u32::MAX, u32::MAX)] {
            run.origin = format!("{long} sales of {ours} against {theirs}");
            compare_lists(run, &counted(long, ours), &counted(long, theirs));
            compare_lists(run, &counted(long, ours), &Sales::default());
            compare_lists(run, &Sales::default(), &counted(long, theirs));
        }
    }
}

// ---- drawn lists ----

fn amount(random: &mut Random) -> u32 {
    let any = random.next() as u32;
    let small = random.below(500) as u32;
    random.pick(&[0, 1, small, small, small, any, u32::MAX])
}

// Two lists that have most sales in common, most of them with the same amount.
fn right_lists(random: &mut Random) -> [Sales; 2] {
    let mut lists = [Sales::default(), Sales::default()];
    let widest = random.pick(&[1, 3, 1 << 26]);
    let mut number = random.pick(&[0, 1, u32::MAX - 20]);
    for _ in 0..random.below(40) {
        let same = amount(random);
        for list in &mut lists {
            if !random.one_in(4) {
                list.numbers.push(number);
                list.amounts.push(if random.one_in(3) { amount(random) } else { same });
            }
        }
        let Some(next) = number.checked_add(1 + random.below(widest) as u32) else { break };
        number = next;
    }
    lists
}

fn damage(random: &mut Random, list: &mut Sales) {
    let long = list.numbers.len();
    let place = random.below(long.max(1));
    match random.below(6) {
        0 if long > 1 => list.numbers[long - 1] = list.numbers[long - 2],
        1 if long > 1 => list.numbers.swap(place, (place + 1) % long),
        2 if long > 0 => list.numbers[place] = random.next() as u32,
        3 => drop(list.amounts.pop()),
        4 => drop(list.numbers.pop()),
        _ => list.amounts.push(1),
    }
}

fn one_pair(run: &mut Run, random: &mut Random) {
    let mut lists = right_lists(random);
    if random.one_in(3) {
        let place = random.below(2);
        damage(random, &mut lists[place]);
    }
    let [in_box, in_mechanism] = &lists;
    match random.below(20) {
        0 => compare_with(run, in_box, in_mechanism, random.below(6), random.below(3)),
        _ => compare_lists(run, in_box, in_mechanism),
    }
}

pub fn sale_lists(run: &mut Run) {
    every_short_pair(run);
    longest_lists(run);
    let mut random = Random::new(12);
    for place in 0..DRAWN {
        run.origin = format!("drawn pair {place} of lists of sales");
        one_pair(run, &mut random);
    }
}
