// The dearest writes of many chips: what the library tells beside the second implementation, the writes themselves with those words on
// both, and random writes, of which none that is acknowledged sends more.

use super::dearest::*;
use super::*;

const DRAWN: usize = 20_000;

extern "C" {
    fn flash_store_dearest_write(
        main: usize, spare: usize, pages: usize, blocks: usize, logical: usize, failed: usize,
        words: *mut u32, words_len: usize, cycles: *mut u64, cycles_len: usize,
    ) -> usize;
}

fn by_library(geometry: &Geometry, failed: usize, mut lent: Told) -> Told {
    let Geometry { main, spare, pages, blocks, logical } = *geometry;
    let (words, cycles) = (&mut lent.words, &mut lent.cycles);
    // The buffers are as long as said and none overlaps another.
    lent.answer = unsafe {
        flash_store_dearest_write(
            main, spare, pages, blocks, logical, failed,
            words.as_mut_ptr(), words.len(), cycles.as_mut_ptr(), cycles.len(),
        )
    };
    lent
}

// What both tell of two lent buffers.
fn compare_told(run: &mut Run, geometry: &Geometry, failed: usize, words: usize, cycles: usize) -> Told {
    let lent = Told { answer: BAD_BUFFER, words: vec![0xABCD; words], cycles: vec![0xABCD; cycles] };
    let expected = told(geometry, failed, &lent);
    let found = by_library(geometry, failed, lent);
    run.count(DEAREST, expected.answer);
    if found != expected {
        let (here, there) = ((expected.answer, &expected.cycles), (found.answer, &found.cycles));
        run.fail(&format!("{geometry:?} {failed} failed fills: {here:?} here, {there:?} by the library, or other words"));
    }
    found
}

fn length(geometry: &Geometry, failed: usize) -> usize {
    2 * geometry.pages * (failed + 1) + if failed == 0 { 0 } else { geometry.pages + 1 }
}

// Right and wrong lengths, within the limits and past them.
fn every_answer(run: &mut Run, geometry: &Geometry, failed: usize) {
    let right = length(geometry, failed);
    for words in [0, right.saturating_sub(1), right, right + 1] {
        for cycles in [0, 1, 2] {
            compare_told(run, geometry, failed, words, cycles);
        }
    }
}

// Formatted, logical block 0 written once; then page `page` of it with the words told.
fn run_dearest(run: &mut Run, geometry: Geometry, failed: usize, page: usize) {
    let told = compare_told(run, &geometry, failed, length(&geometry, failed), 1);
    let mut world = World::fresh(geometry);
    let answers = (world.format(run), world.write(run, 0, 0, 0xA5));
    expect(run, "a formatting and a write", answers, (DONE, DONE));
    let call = Call { fates: told.words, ..world.plain() };
    world.watch = Watch { on: true, ..Watch::default() };
    let answer = world.right(run, &Request::Write { block: 0, page }, &call, &vec![0x5A; geometry.main]);
    expect(run, "the dearest write", (answer, world.own.sent[0]), (DONE, told.cycles[0]));
    expect(run, "its failed fills", world.watch.failed.len(), failed);
}

// A write with drawn fates on a chip that was formatted and written a few times: where it is acknowledged, no more cycles than told.
fn no_dearer(run: &mut Run, random: &mut Random) {
    let geometry = random_geometry(random);
    let mut world = World::fresh(geometry);
    world.format(run);
    for _ in 0..random.below(4) {
        world.write(run, random.below(geometry.logical), 0, random.byte());
    }
    let request = Request::Write { block: random.below(geometry.logical), page: random.below(geometry.pages) };
    let busy = random.pick(&[255, 255, 254]);
    let failing = random.pick(&[8, 16, 30]);
    let fates = (0..6 * geometry.pages).map(|_| if random.one_in(failing) { busy | 1 << 16 } else { busy }).collect();
    let call = Call { fates, ..world.plain() };
    world.watch = Watch { on: true, ..Watch::default() };
    if world.right(run, &request, &call, &vec![0x5A; geometry.main]) != DONE {
        return;
    }
    let (most, _) = dearest_write(&geometry, world.watch.failed.len());
    if world.own.sent[0] > most {
        run.fail(&format!("{request:?} sent {} cycles, and {most} are told as the most", world.own.sent[0]));
    }
}

pub fn dearest_writes(run: &mut Run) {
    for geometry in chips_at_limits() {
        run.origin = format!("dearest writes at {geometry:?}");
        for failed in [0, 1, 2, 3, 4] {
            every_answer(run, &geometry, failed);
        }
    }
    for geometry in [SMALL, Geometry { blocks: 7, ..SMALL }, Geometry { pages: 8, main: 40, spare: 17, blocks: 6, logical: 3 }] {
        run.origin = format!("dearest writes on {geometry:?}");
        for failed in 0..=geometry.blocks - 3 {
            (0..geometry.pages).for_each(|page| run_dearest(run, geometry, failed, page));
        }
    }
    for seed in 0..DRAWN as u64 {
        run.origin = format!("a write drawn from {seed}");
        no_dearer(run, &mut Random::new(seed));
    }
}
