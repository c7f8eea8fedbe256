// A second implementation of the box's sales against the coin mechanism's: four totals, number by number.

use std::collections::BTreeMap;

pub const RECONCILED: usize = 0;
pub const REFUSED: usize = 2;

pub const MOST_SALES: usize = 65_535;

#[derive(Clone, Default, Debug)]
pub struct Sales {
    pub numbers: Vec<u32>,
    pub amounts: Vec<u32>,
}

impl Sales {
    fn is_accepted(&self) -> bool {
        let rises = self.numbers.windows(2).all(|pair| pair[0] < pair[1]);
        rises && self.numbers.len() <= MOST_SALES && self.amounts.len() == self.numbers.len()
    }

    pub fn sum(&self) -> i128 {
        self.amounts.iter().map(|amount| *amount as i128).sum()
    }
}

// `totals`: agreed, only in the box, only in the mechanism. `difference`: box minus mechanism.
#[derive(Clone, PartialEq, Eq, Debug)]
pub struct Reconciled {
    pub answer: usize,
    pub totals: Vec<u64>,
    pub difference: Vec<i64>,
}

// What each list has for a sale number.
fn by_number(in_box: &Sales, in_mechanism: &Sales) -> BTreeMap<u32, [Option<u32>; 2]> {
    let mut sales = BTreeMap::new();
    for (place, list) in [in_box, in_mechanism].iter().enumerate() {
        for (number, amount) in list.numbers.iter().zip(&list.amounts) {
            sales.entry(*number).or_insert([None, None])[place] = Some(*amount);
        }
    }
    sales
}

pub fn reconcile(in_box: &Sales, in_mechanism: &Sales) -> Reconciled {
    let (mut totals, mut difference) = (vec![0; 3], 0);
    if !in_box.is_accepted() || !in_mechanism.is_accepted() {
        return Reconciled { answer: REFUSED, totals, difference: vec![0] };
    }
    for sale in by_number(in_box, in_mechanism).into_values() {
        match sale {
            [Some(ours), Some(theirs)] if ours == theirs => totals[0] += ours as u64,
            [Some(ours), Some(theirs)] => difference += ours as i64 - theirs as i64,
            [ours, theirs] => {
                totals[1] += ours.unwrap_or(0) as u64;
                totals[2] += theirs.unwrap_or(0) as u64;
            }
        }
    }
    Reconciled { answer: RECONCILED, totals, difference: vec![difference] }
}
