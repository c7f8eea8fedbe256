// Formattings of chips that hold a table: what is carried over and what is not, under which numbers, and that no cut loses an entry.

use super::*;

pub fn formattings(run: &mut Run) {
    carried_figures(run);
    formatted_twice(run);
    lists_of_calls(run);
    tables_for_other_chips(run);
    every_carried(run);
    numbers_go_on(run);
    numbers_end(run);
    cut_formattings(run);
}

// Of every formatting: blocks that are marked or carried over are as they were. Where pages are as this store leaves them, and a list is
// carried over, a table is current afterwards that would be carried over in its turn and lists as much.
pub fn keeps_carried(run: &Run, geometry: &Geometry, before: &Chip, after: &Chip, left: bool) {
    if before.array.len() != geometry.chip_bytes() {
        return;
    }
    let carried = carried_in(geometry, &before.array);
    for block in 0..geometry.blocks {
        let listed = carried.as_ref().is_some_and(|carried| carried.lists(block));
        let spared = listed || summary_of(geometry, &before.array, block).marked;
        let part = geometry.page_start(block, 0)..geometry.page_start(block + 1, 0);
        let same = before.array[part.clone()] == after.array[part] && before.history[block] == after.history[block];
        if spared && !same {
            run.fail(&format!("a formatting has changed block {block}, which is marked or carried over"));
        }
    }
    let Some(carried) = carried.filter(|_| left) else { return };
    let kept = carried_in(geometry, &after.array);
    let keeps = |kept: Carried| (0..geometry.blocks).all(|block| kept.lists(block) || !carried.lists(block));
    if !kept.is_some_and(keeps) {
        run.fail("a formatting has lost an entry");
    }
}

// ---- figures ----

const FAILS: u32 = 1 << 16;

const ONE: Geometry = Geometry { logical: 1, ..SMALL };

// A table of the chip under a number; the bits of the bitmap's first byte are the blocks that it lists.
fn table(geometry: &Geometry, listed: u8, number: u64) -> Vec<u8> {
    let mut invalid = [0; 512];
    invalid[0] = listed;
    table_with(&table_main(geometry, &invalid), &[0xFF; 32], table_label(Version::Wide, 0, number))
}

// The small chip with this table in block 0, its other blocks with copies.
fn chip_with(table: Vec<u8>) -> World {
    let copies = [(0, 3), (1, 4), (0, 5)].map(|(logical, number)| {
        copy_block(&mut Random::new(number), &SMALL, data_label(Version::White, logical, 0, number))
    });
    World::new(ONE, [table, copies.concat()].concat())
}

// Table's block, number and list of a state.
fn table_line(world: &World) -> (u64, u64, u8) {
    let state = world.state();
    (state.table, state.number, state.invalid[0])
}

// A table of number 7 in block 0, of which some list block 3: cycles and free blocks, then where the new table is, its number and its list.
fn carried_figures(run: &mut Run) {
    let late = [0, 0, 0, 0, 0, 0, 0, FAILS];
    for (name, old, fates, wanted, after) in [
        ("a table that lists block 3", table(&ONE, 8, 7), &[][..], (0, 1189, 2), (1, 8, 8)),
        ("its late erase fails", table(&ONE, 8, 7), &late, (0, 1424, 1), (2, 9, 9)),
        ("a table for two logical blocks", table(&SMALL, 8, 7), &[], (0, 1189, 2), (1, 8, 8)),
        ("a table that lists nothing", table(&ONE, 0, 7), &[], (0, 1196, 3), (1, 8, 0)),
        ("a table that lists itself", table(&ONE, 9, 7), &[], (0, 1196, 3), (0, 8, 0)),
        ("a table that lists two blocks", table(&ONE, 12, 7), &[], (8, 940, 0), (0, 0, 0)),
    ] {
        run.origin = format!("a formatting over {name}");
        let mut world = chip_with(old);
        let call = Call { fates: after_reads(&ONE, fates), ..world.plain() };
        let answer = world.right(run, &Request::Format, &call, &[]);
        expect(run, "its line", line(&world, answer), wanted);
        expect(run, "the table", table_line(&world), after);
        mount_formatted(run, &mut world, answer);
    }
}

// The table moves from block to block, and numbers go on.
fn formatted_twice(run: &mut Run) {
    run.origin = "one formatting after the other".to_string();
    let mut world = World::fresh(SMALL);
    for round in 0..9 {
        let answer = world.format(run);
        expect(run, "a formatting", line(&world, answer), (0, 1196, 3));
        expect(run, "the table", table_line(&world), (round % 2, round + 1, 0));
    }
}

// ---- lists ----

// Lists in which an entry, or an old table in a failed block, would be taken wrongly.
fn lists_of_calls(run: &mut Run) {
    for cut in [1182, 1189] {
        run.origin = format!("a formatting cut at {cut}, the table with an entry");
        let mut world = worn(run, 5, &[&[FAILS]]);
        let call = Call { allowed: cut, mask: world.mask(0xFF), ..world.plain() };
        let answer = world.format_for(run, 1, &call);
        expect(run, "the cut formatting", answer, CUT);
        let answer = world.mount(run);
        expect(run, "a mount", (answer, world.state().invalid[0]), (DONE, 2));
    }
    run.origin = "a failed table fill that is complete".to_string();
    let mut world = worn(run, 6, &[&[FAILS, 0, 0, 0, 0, 0, 0, 0, 0, 0, FAILS]]);
    let lists = world.state().invalid[0];
    let answer = world.format(run);
    mount_formatted(run, &mut world, answer);
    expect(run, "the list", (answer, world.state().invalid[0]), (DONE, lists));
}

// A chip of so many blocks and one logical block, formatted and then written with each of these fates and all bits taken.
fn worn(run: &mut Run, blocks: usize, writes: &[&[u32]]) -> World {
    let mut world = World::fresh(Geometry { blocks, ..ONE });
    world.watch.on = true;
    let plain = world.plain();
    let answer = world.format_for(run, 1, &plain);
    expect(run, "a formatting", answer, DONE);
    for fates in writes {
        let call = Call { mask: world.mask(0xFF), fates: fates.to_vec(), ..world.plain() };
        let answer = world.right(run, &Request::Write { block: 0, page: 0 }, &call, &[0x11; 32]);
        expect(run, "a write", answer, DONE);
    }
    world.watch.failed.clear();
    world
}

// ---- what is carried over ----

// Only the number of blocks must be the chip's; the number of logical blocks that the table names may be any.
fn tables_for_other_chips(run: &mut Run) {
    for logical in [0, 1, 2, 3, 4, 255, 256, 65_535] {
        for blocks in [4, 3, 5, 12, 260] {
            run.origin = format!("a table for {blocks} blocks and {logical} logical blocks");
            let mut world = chip_with(table(&Geometry { blocks, logical, ..SMALL }, 8, 7));
            let answer = world.format(run);
            let wanted = if blocks == 4 { (1, 8, 8) } else { (0, 8, 0) };
            expect(run, "the table", (answer, table_line(&world)), (DONE, wanted));
        }
    }
}

// Tables with every first byte of the bitmap, and with a bit changed of the main bytes of page 0, of the others, and of the logical block,
// block 3 marked or not.
fn every_carried(run: &mut Run) {
    for listed in 0..=255 {
        run.origin = format!("a formatting over a table with bitmap {listed:02X}");
        format_over(run, table(&ONE, listed, 7));
    }
    for bit in 0..8 * SMALL.main {
        run.origin = format!("a formatting over a table with bit {bit} changed");
        let (mut first, mut others) = (table(&ONE, 4, 7)[..SMALL.main].to_vec(), [0xFF; SMALL.main]);
        let (right, blank) = (first.clone(), others);
        first[bit / 8] ^= 1 << (bit % 8);
        others[bit / 8] ^= 1 << (bit % 8);
        let label = table_label(Version::Wide, 0, 7);
        format_over(run, table_with(&first, &blank, label));
        format_over(run, table_with(&right, &others, label));
        format_over(run, table_with(&right, &blank, Label { logical: 1 << (bit % 16), ..label }));
    }
}

fn format_over(run: &mut Run, table: Vec<u8>) {
    for marked in [false, true] {
        let mut world = chip_with(table.clone());
        if marked {
            world.both(|side| side.chip.array[SMALL.page_start(3, 0) + SMALL.main] = 0);
        }
        let answer = world.format(run);
        mount_formatted(run, &mut world, answer);
    }
}

// ---- numbers ----

// The greatest number of either reading: on a page of a block that is erased, of one that is carried over, of one whose erase fails, and
// there also on a page that is whole only before the erase, or only after it.
fn numbers_go_on(run: &mut Run) {
    let geometry = Geometry { blocks: 6, ..ONE };
    let page = encode_page(&geometry, &[0x0E; 32], &data_label(Version::Wide, 0, 1, 90));
    let mut half = page.clone();
    half[0] = 0x0A;
    for (block, bytes, raised) in [(2, &page, 0), (5, &page, 0), (4, &page, 0), (4, &page, 0xFF), (4, &half, 0x04)] {
        run.origin = format!("a formatting that finds its greatest number in block {block}, bits {raised:02X} raised there");
        let mut array = table(&geometry, 1 << 5, 7);
        array.resize(geometry.chip_bytes(), 0xFF);
        let from = geometry.page_start(block, 1);
        array[from..from + geometry.page_bytes()].copy_from_slice(bytes);
        let mut world = World::new(geometry, array);
        // The erase of block 4 fails, and takes effect on these bits of one byte.
        let mut mask = world.mask(0);
        mask[geometry.page_start(0, 1)] = raised;
        let call = Call { mask, fates: after_reads(&geometry, &[0, 0, 0, FAILS]), ..world.plain() };
        let answer = world.right(run, &Request::Format, &call, &[]);
        expect(run, "the table", (answer, table_line(&world)), (DONE, (1, 91, 1 << 4 | 1 << 5)));
        mount_formatted(run, &mut world, answer);
    }
}

// The last number on a copy: the formatting that finds it erases it and has none left, and the next one goes on from the table. The last
// number on the table stays.
fn numbers_end(run: &mut Run) {
    run.origin = "formattings that find the last number".to_string();
    let (mut world, _) = written();
    let state = State { number: u64::MAX - 1, ..world.state() };
    world.both(|side| side.state = state.to_bytes());
    let answer = world.write(run, 0, 0, 0x77);
    expect(run, "the last number", answer, DONE);
    let answer = world.format(run);
    expect(run, "a formatting", line(&world, answer), (9, 954, 0));
    let answer = world.format(run);
    expect(run, "the next formatting", (line(&world, answer), table_line(&world)), ((0, 1196, 3), (1, 2, 0)));

    let mut world = chip_with(table(&ONE, 8, u64::MAX));
    for _ in 0..3 {
        let answer = world.format(run);
        expect(run, "a formatting under the last table", line(&world, answer), (9, 947, 0));
    }
}

// ---- cuts ----

// Fate words after the page reads, on a chip of 7 blocks of which 1 and 4 are listed and 6 holds the table. Where none fails they are of
// the erases of blocks 0, 2, 3 and 5, the table's erase and programs in block 0, and the late erase.
const FATES: [&[u32]; 6] = [
    &[],
    &[0, 0, 0, 0, 0, 0, 0, 0, FAILS],
    &[0, 0, 0, 0, 0, 0, 0, 0, 0, FAILS],
    &[0, FAILS, 0, 0, 0, 0, 0, 0, FAILS],
    &[0, 0, 0, 0, 0, 0, 0, 0, FAILS, 0, 0, 0, 0, 0, FAILS],
    &[0, 0, 0, 0, 0, 0, 0, 0, 0, FAILS, 0, 0, 0, 0, FAILS],
];

// Every second cut after the page reads of formattings of a chip with two entries, so that one falls between each confirm cycle and its
// first status read; and two formattings after each, the first cut too.
fn cut_formattings(run: &mut Run) {
    let base = worn(run, 7, &[&[FAILS], &[FAILS]]);
    let reads = cycles_of_reads(&base.geometry);
    let random = Random::new(41).bytes(base.geometry.block_bytes());
    for (place, fates) in FATES.iter().enumerate() {
        for mask in [base.mask(0xFF), base.mask(0), random.clone()] {
            let call = Call { mask, fates: after_reads(&base.geometry, fates), ..base.plain() };
            let cycles = usual(&base, &Request::Format, &call.fates, 0).0 as u32;
            for allowed in (reads..=cycles).step_by(2) {
                run.origin = format!("a formatting with fates {place} cut at {allowed}, and formattings after it");
                formatted_again(run, &base, &Call { allowed, ..call.clone() }, reads);
            }
        }
    }
}

fn formatted_again(run: &mut Run, base: &World, call: &Call, reads: u32) {
    let mut world = base.duplicate();
    let mut random = Random::new(call.allowed as u64);
    for allowed in [call.allowed, reads + random.below(600) as u32, u32::MAX] {
        let logical = random.pick(&[1, 1, 2]);
        world.watch.failed.clear();
        let answer = world.format_for(run, logical, &Call { allowed, ..call.clone() });
        check_spared(run, &world);
        mount_formatted(run, &mut world, answer);
    }
}
