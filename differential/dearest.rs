// A second implementation of the dearest write: it tries every operation that can fail, every share of the failures between data and
// table fills, and several pages, and takes the dearest.

use super::store::*;

// One busy status read more, and an operation counts as silent.
const BUSY_READS: u32 = 255;
const FAILS: u32 = 1 << 16;

// The status before the first fill: 70h and a status read.
const STATUS_CYCLES: u64 = 2;

#[derive(Clone, PartialEq, Eq, Debug)]
pub struct Told {
    pub answer: usize,
    pub words: Vec<u32>,
    pub cycles: Vec<u64>,
}

// Bus cycles of the operations of a fill, in order, and whether each can fail: reads cannot.
#[derive(Clone)]
struct Fill(Vec<(u64, bool)>);

// 70h, then status reads until the last one reports ready.
const HEARD: u64 = 1 + BUSY_READS as u64 + 1;

impl Fill {
    // An erase and a program of each page; a read before it where the page is kept.
    fn new(geometry: &Geometry, kept: impl Fn(usize) -> bool) -> Fill {
        let erase = 1 + 3 + 1 + HEARD;
        let read = 1 + 5 + 1 + HEARD + 1 + geometry.main as u64;
        let program = 1 + 5 + geometry.page_bytes() as u64 + 1 + HEARD;
        let mut operations = vec![(erase, true)];
        for page in 0..geometry.pages {
            if kept(page) {
                operations.push((read, false));
            }
            operations.push((program, true));
        }
        Fill(operations)
    }

    fn cycles(&self) -> u64 {
        self.0.iter().map(|(cycles, _)| cycles).sum()
    }

    fn words(&self) -> Vec<u32> {
        vec![BUSY_READS; self.0.len()]
    }

    // The fill up to an operation that fails.
    fn failing_at(&self, place: usize) -> (u64, Vec<u32>) {
        let part = Fill(self.0[..=place].to_vec());
        let mut words = part.words();
        words[place] |= FAILS;
        (part.cycles(), words)
    }

    // The dearest way in which it can fail.
    fn failing(&self) -> (u64, Vec<u32>) {
        let places = (0..self.0.len()).filter(|place| self.0[*place].1);
        places.map(|place| self.failing_at(place)).max_by_key(|(cycles, _)| *cycles).expect("an erase can fail")
    }
}

// So many data fills fail, then so many table fills; there are table fills only after a data fill that failed.
fn with_failures(data: &Fill, table: &Fill, failed_data: usize, failed_tables: usize) -> (u64, Vec<u32>) {
    let mut cycles = STATUS_CYCLES;
    let mut words = Vec::new();
    let mut add = |more: (u64, Vec<u32>)| {
        cycles += more.0;
        words.extend(more.1);
    };
    (0..failed_data).for_each(|_| add(data.failing()));
    add((data.cycles(), data.words()));
    (0..failed_tables).for_each(|_| add(table.failing()));
    if failed_data > 0 {
        add((table.cycles(), table.words()));
    }
    (cycles, words)
}

// The words and cycles of the dearest write: pages given first, in the middle and last, every share of the failures.
pub fn dearest_write(geometry: &Geometry, failed: usize) -> (u64, Vec<u32>) {
    let table = Fill::new(geometry, |_| false);
    let shares = if failed == 0 { 0..=0 } else { 1..=failed };
    let mut all = Vec::new();
    for given in [0, geometry.pages / 2, geometry.pages - 1] {
        let data = Fill::new(geometry, |page| page != given);
        all.extend(shares.clone().map(|share| with_failures(&data, &table, share, failed - share)));
    }
    all.into_iter().max_by_key(|(cycles, _)| *cycles).expect("some share")
}

// What the call gives, of two lent buffers.
pub fn told(geometry: &Geometry, failed: usize, lent: &Told) -> Told {
    let refused = |answer: usize| Told { answer, words: lent.words.clone(), cycles: vec![0] };
    if lent.cycles.len() != 1 {
        return Told { answer: BAD_BUFFER, ..lent.clone() };
    }
    if !geometry.within_limits() {
        return refused(GEOMETRY);
    }
    if failed > geometry.blocks - 3 {
        return refused(ADDRESS);
    }
    let (cycles, words) = dearest_write(geometry, failed);
    if lent.words.len() != words.len() {
        return refused(LENGTH);
    }
    Told { answer: DONE, words, cycles: vec![cycles] }
}
