// Pages of all versions on one chip: raised bits, numbers of either width, and boxes that are updated once or twice, with copies of
// every kind, cut at every cycle before and after.

use super::*;

fn table(version: Version, number: u64) -> Vec<u8> {
    table_with(&table_main(&SMALL, &[0; 512]), &[0xFF; 32], table_label(version, 0, number))
}

fn copy(version: Version, logical: usize, number: u64) -> Vec<u8> {
    copy_block(&mut Random::new(number ^ 3), &SMALL, data_label(version, logical, 0, number))
}

fn erased() -> Vec<u8> {
    vec![0xFF; SMALL.block_bytes()]
}

// ---- raised pages ----

// Bytes of a page of the small chip that belong together in one of the layouts: main bytes, kind, logical block, place, the
// number's four low bytes, then what is the check or the number's next two bytes, FFh or its last two, FFh or the check.
const PARTS: [(usize, usize); 8] = [(0, 32), (33, 34), (34, 36), (36, 37), (37, 41), (41, 43), (43, 45), (45, 47)];

// No bit, and the kind's bits that tell versions apart.
fn kind_masks() -> [Vec<u8>; 4] {
    [0, KIND_BITS[0], KIND_BITS[1], KIND_BITS[2]].map(|bits| {
        let mut mask = vec![0; SMALL.page_bytes()];
        mask[SMALL.main + 1] = bits;
        mask
    })
}

// Every bit, every set of parts, and random bits, each without the kind's and with them.
fn risen_bits() -> Vec<Vec<u8>> {
    let mut masks = Vec::new();
    let mut random = Random::new(29);
    for base in kind_masks() {
        for bit in 0..8 * SMALL.page_bytes() {
            let mut mask = base.clone();
            mask[bit / 8] |= 1 << (bit % 8);
            masks.push(mask);
        }
        for set in 0..1 << PARTS.len() {
            let mut mask = base.clone();
            for (_, (from, to)) in PARTS.iter().enumerate().filter(|(place, _)| set >> place & 1 == 1) {
                mask[*from..*to].fill(0xFF);
            }
            masks.push(mask);
        }
        for _ in 0..300 {
            masks.push(base.iter().map(|bits| bits | random.byte() & random.byte() & random.byte()).collect());
        }
    }
    masks
}

// Raises bits of a block's page 1; whether any was clear.
fn raise(array: &mut [u8], block: usize, mask: &[u8]) -> bool {
    let from = SMALL.page_start(block, 1);
    let page = &mut array[from..from + SMALL.page_bytes()];
    let clear = page.iter().zip(mask).any(|(byte, bits)| !byte & bits != 0);
    page.iter_mut().zip(mask).for_each(|(byte, bits)| *byte |= bits);
    clear
}

// A copy and the later of two tables, of which one page has bits raised: they count only if no bit was clear.
pub fn every_raise(run: &mut Run) {
    for version in ALL {
        let chip = [table(Version::White, 1), copy(*version, 0, 7), table(*version, 9), erased()].concat();
        for (place, mask) in risen_bits().iter().enumerate() {
            run.origin = format!("raised bits {place} of pages of version {version:?}");
            let mut array = chip.clone();
            let wanted_copy = if raise(&mut array, 1, mask) { 0xFFFF } else { 1 };
            let wanted_table = if raise(&mut array, 2, mask) { 0 } else { 2 };
            let mut world = World::new(SMALL, array);
            let answer = world.mount(run);
            let state = world.state();
            expect(run, "a mount", (answer, state.map[0], state.table), (DONE, wanted_copy, wanted_table));
        }
    }
}

// ---- pages of several versions under one label ----

// The block with each page as its version writes it.
fn mixture(block: &[u8], versions: &[Version]) -> Vec<u8> {
    let pages = block.chunks(SMALL.page_bytes());
    pages.zip(versions).flat_map(|(page, version)| relaid(&SMALL, page, *version).unwrap()).collect()
}

fn all_alike(kinds: &[u8]) -> bool {
    kinds.iter().all(|kind| *kind == kinds[0])
}

// A copy and the later of two tables, each page as of any version: they count only if all their pages are of one kind. Then the pages
// mean the same in every kind.
pub fn every_mixture(run: &mut Run) {
    let (copy, later) = (copy(Version::Narrow, 0, 7), table(Version::Narrow, 9));
    for place in 0..ALL.len().pow(4) {
        let versions = [place, place / 3, place / 9, place / 27].map(|place| ALL[place % 3]);
        run.origin = format!("pages of {versions:?}");
        let array = [table(Version::White, 1), mixture(&copy, &versions), mixture(&later, &versions), erased()].concat();
        let mut world = World::new(SMALL, array);
        let answer = world.mount(run);
        let state = world.state();
        let (kind, copies) = (versions[0].data_kind(), all_alike(&versions.map(Version::data_kind)));
        let wanted = if copies { (1, kind) } else { (0xFFFF, 0) };
        expect(run, "a mount", (answer, state.number, (state.map[0], state.kinds[0])), (DONE, 9, wanted));
        let tables = all_alike(&versions.map(Version::table_kind));
        expect(run, "its table", state.table, if tables { 2 } else { 0 });
        for page in 0..SMALL.pages {
            world.read(run, 0, page);
            let from = SMALL.page_start(0, page);
            let wanted = if copies { &copy[from..from + SMALL.main] } else { &[0xFF; SMALL.main] };
            expect(run, "a read", &world.own.buffer[..], wanted);
        }
    }
}

// ---- numbers ----

// Each version with the numbers that it has room for, of those around the ends of one, two, four and eight bytes.
fn numbers() -> Vec<(Version, u64)> {
    let mut numbers = vec![0, 1, 2, 1 << 40, 1 << 63, u64::MAX - 1, u64::MAX];
    for end in [1 << 8, 1 << 16, 1 << 32] {
        numbers.extend([end - 2, end - 1, end, end + 1]);
    }
    let all = ALL.iter().flat_map(|version| numbers.iter().map(|number| (*version, *number)));
    all.filter(|(version, number)| *number <= version.last_number()).collect()
}

// Two copies, and two tables, under any two numbers of any two versions: the greater number counts, an equal one is a clash.
pub fn every_number(run: &mut Run) {
    for first in numbers() {
        for second in numbers() {
            run.origin = format!("numbers {first:?} and {second:?}");
            let copies = [table(first.0, 3), copy(first.0, 0, first.1), copy(second.0, 0, second.1), erased()];
            let state = numbered(run, copies.concat(), first.1, second.1);
            let newer = if first.1 > second.1 { 1 } else { 2 };
            expect(run, "the current copy", state.map_or(newer, |state| state.map[0]), newer);

            let tables = [table(first.0, first.1), table(second.0, second.1), copy(second.0, 0, 3), erased()];
            let state = numbered(run, tables.concat(), first.1, second.1);
            let newer = if first.1 > second.1 { 0 } else { 1 };
            expect(run, "the current table", state.map_or(newer, |state| state.table), newer);
        }
    }
}

// A mount of a chip with number 3 and these two, and a write under the next number; the state of the mount, none at a clash.
fn numbered(run: &mut Run, array: Vec<u8>, first: u64, second: u64) -> Option<State> {
    let mut world = World::new(SMALL, array);
    let answer = world.mount(run);
    expect(run, "a mount", answer, if first == second { CLASH } else { DONE });
    if answer != DONE {
        return None;
    }
    let state = world.state();
    let greatest = first.max(second).max(3);
    expect(run, "the greatest number", state.number, greatest);
    world.read(run, 0, 2);
    let answer = world.write(run, 1, 2, 0x5A);
    let wanted = greatest.checked_add(1).map_or((SPENT, 0), |next| (DONE, next));
    expect(run, "a write", (answer, world.state().number), wanted);
    let answer = world.mount(run);
    expect(run, "a mount after the write", (answer, world.state().number), (DONE, wanted.1.max(greatest)));
    world.read(run, 0, 2);
    world.read(run, 1, 2);
    Some(state)
}

// Formattings that find a number in a table for other blocks, whose erase fails, with table fills that fail: each takes a number, as
// long as there is one.
pub fn every_formatting(run: &mut Run) {
    let geometry = Geometry { blocks: 8, logical: 1, ..SMALL };
    for (version, found) in numbers() {
        for failing in 0..4 {
            run.origin = format!("a formatting that finds {found} of version {version:?}, {failing} fills fail");
            let mut array = table(version, found);
            array.resize(geometry.chip_bytes(), 0xFF);
            let mut world = World::new(geometry, array);
            let answer = world.right(run, &Request::Format, &failing_fills(&world, failing), &[]);
            let number = found.checked_add(failing as u64 + 1);
            let wanted = number.map_or((SPENT, 0), |number| (DONE, number));
            expect(run, "answer and number", (answer, world.state().number), wanted);
            // The table in block 0 is one of another geometry.
            let answer = world.mount(run);
            let wanted = number.map_or((WRONG_TABLE, 0), |number| (DONE, number));
            expect(run, "a mount", (answer, world.state().number), wanted);
        }
    }
}

// The erase of block 0 fails, and with it the erases of the first fills; none takes effect.
fn failing_fills(world: &World, failing: usize) -> Call {
    let Geometry { blocks, pages, .. } = world.geometry;
    let mut fates = after_reads(&world.geometry, &[1 << 16]);
    fates.resize(fates.len() + pages + blocks - 1, 0);
    fates.resize(fates.len() + failing, 1 << 16);
    Call { fates, ..world.plain() }
}

// ---- updated boxes ----

pub fn updates(run: &mut Run) {
    cut_before(run);
    cut_after(run);
    narrow_end(run);
    old_journals(run);
}

// The box after its update to the present version, and a mount.
pub fn updated(run: &mut Run, base: (World, Book)) -> (World, Book) {
    let (mut world, book) = base;
    if world.version != Version::White {
        world.update(run, Version::White);
    }
    world.mount(run);
    (world, book)
}

// A box of three logical blocks that is updated twice, with a page written to each block by the version that it has by then: a copy of
// each kind, and a block that no version wrote.
fn updated_twice(run: &mut Run) -> (World, Book) {
    let geometry = Geometry { blocks: 7, logical: 4, ..SMALL };
    let mut world = World::fresh(geometry);
    world.version = Version::Narrow;
    world.watch.on = true;
    let mut book = Book::new(&geometry);
    let plain = world.plain();
    world.format_for(run, geometry.logical, &plain);
    for (block, version) in ALL.iter().enumerate() {
        if *version != world.version {
            world.update(run, *version);
            noted(run, &mut world, &mut book, &Request::Mount, &plain);
        }
        noted(run, &mut world, &mut book, &Request::Write { block, page: block }, &plain);
    }
    expect(run, "a copy of each kind", &world.state().kinds[..4], &[0x44, 0x64, 0x6C, 0]);
    (world, book)
}

// The kinds that a mount finds, what a kept page is stored as, whichever kind the old copy has, and the kinds after it.
pub fn bench_kept(run: &mut Run) {
    for version in ALL {
        run.origin = format!("a write over copies of version {version:?}");
        let (mut world, _) = updated(run, written_by(*version));
        let kind = version.data_kind();
        let stored = begins(&world, world.state().map[0] as usize, 0);
        let plain = u128::from_be_bytes([0x11; 16]);
        expect(run, "page 0 as it was written", stored, if kind == 0x6C { plain ^ STREAMS[0].1 } else { plain });
        expect(run, "kinds of a mount", &world.state().kinds[..3], &[kind, kind, 0]);
        world.quick_mount(run);
        expect(run, "kinds of a quick mount", &world.state().kinds[..3], &[kind, kind, 0]);
        reads(run, &mut world, &[(0, 0, 0x11), (0, 1, 0xFF), (1, 2, 0x3C)]);
        let mut opened = world.duplicate();
        world.write(run, 0, 1, 0x22);
        expect(run, "kinds after a write", &world.state().kinds[..3], &[0x6C, kind, 0]);
        opened.open(run, 0, 1, 0x22);
        for pages in 0..4 {
            expect(run, &format!("kinds after {pages} pages"), &opened.state().kinds[..3], &[kind, kind, 0]);
            opened.advance(run, 1);
        }
        expect(run, "the state of both", opened.own.state == world.own.state, true);
        expect(run, "the array of both", opened.own.chip.array == world.own.chip.array, true);
        let block = world.state().map[0] as usize;
        expect(run, "page 0, kept", begins(&world, block, 0), plain ^ STREAMS[0].1);
        expect(run, "page 1, new", begins(&world, block, 1), u128::from_be_bytes([0x22; 16]) ^ STREAMS[1].1);
        expect(run, "page 2, kept", begins(&world, block, 2), !STREAMS[2].1);
        reads(run, &mut world, &[(0, 0, 0x11), (0, 1, 0x22), (0, 2, 0xFF), (1, 2, 0x3C)]);
        world.erase(run, 1);
        expect(run, "kinds after an erase", &world.state().kinds[..3], &[0x6C, 0x6C, 0]);
        world.format(run);
        expect(run, "kinds after a formatting", &world.state().kinds[..3], &[0, 0, 0]);
    }
}

// Logical pages, each with the byte that it is full of.
fn reads(run: &mut Run, world: &mut World, pages: &[(usize, usize, u8)]) {
    for (block, page, byte) in pages {
        let answer = world.read(run, *block, *page);
        expect(run, "a read", (answer, world.own.buffer == [*byte; SMALL.main]), (DONE, true));
    }
}

fn changes() -> impl Iterator<Item = Request> {
    requests().into_iter().filter(|request| matches!(request, Request::Write { .. } | Request::Erase { .. }))
}

// Every cut of the last request before the update.
fn cut_before(run: &mut Run) {
    for version in [Version::Narrow, Version::Wide] {
        let base = written_by(version);
        for request in changes() {
            run.origin = format!("an update after every cut of {request:?} by version {version:?}");
            let (cycles, _) = usual(&base.0, &request, &[], 0);
            for mask in masks(&base.0, &request) {
                for allowed in 0..=cycles as u32 {
                    let call = Call { mask: mask.clone(), allowed, ..base.0.plain() };
                    updated_after(run, &base, &request, &call);
                }
            }
        }
    }
}

// One call before the update; then the box goes on with a write.
fn updated_after(run: &mut Run, base: &(World, Book), request: &Request, call: &Call) {
    let mut world = base.0.duplicate();
    let mut book = base.1.clone();
    noted(run, &mut world, &mut book, request, call);
    world.update(run, Version::White);
    let plain = world.plain();
    noted(run, &mut world, &mut book, &Request::Mount, &plain);
    book.compare_all(run, &world);
    noted(run, &mut world, &mut book, &Request::Write { block: 1, page: 0 }, &plain);
    noted(run, &mut world, &mut book, &Request::Mount, &plain);
    book.compare_all(run, &world);
}

// A call and its step in the book; the answer.
fn noted(run: &mut Run, world: &mut World, book: &mut Book, request: &Request, call: &Call) -> usize {
    let buffer = buffer_for(world, request);
    let answer = world.right(run, request, call, &buffer);
    book.step(run, world, request, answer, &buffer);
    answer
}

// Every cut of the first request after the update, where all goes well and where the first block fails; and of requests to a box with
// copies of all kinds.
fn cut_after(run: &mut Run) {
    for version in [Version::Narrow, Version::Wide] {
        let base = updated(run, written_by(version));
        for request in changes() {
            for mask in masks(&base.0, &request) {
                for fates in [vec![], vec![1 << 16]] {
                    cuts_of(run, &base, &request, &Call { mask: mask.clone(), fates, ..base.0.plain() });
                }
            }
        }
    }
    let base = updated_twice(run);
    for block in 0..4 {
        let request = Request::Write { block, page: 3 };
        let mask = masks(&base.0, &request).swap_remove(0);
        cuts_of(run, &base, &request, &Call { mask, ..base.0.plain() });
        failures_of(run, &base, &request);
    }
    cuts_of(run, &base, &Request::Erase { block: 0 }, &base.0.plain());
}

// A box whose 32-bit numbers ran out goes on after its update.
fn narrow_end(run: &mut Run) {
    run.origin = "an update after the last number of 32 bits".to_string();
    let last = Version::Narrow.last_number();
    let (mut world, mut book) = written_by(Version::Narrow);
    let state = State { number: last - 1, ..world.state() };
    world.both(|side| side.state = state.to_bytes());
    let (plain, write) = (world.plain(), Request::Write { block: 1, page: 3 });
    let answer = noted(run, &mut world, &mut book, &Request::Write { block: 0, page: 1 }, &plain);
    expect(run, "the last number of 32 bits", answer, DONE);
    let answer = noted(run, &mut world, &mut book, &write, &plain);
    expect(run, "no number of 32 bits left", answer, SPENT);
    world.update(run, Version::White);
    for (request, number) in [(&Request::Mount, last), (&write, last + 1), (&Request::Mount, last + 1)] {
        let answer = noted(run, &mut world, &mut book, request, &plain);
        expect(run, "the updated box", (answer, world.state().number), (DONE, number));
        book.compare_all(run, &world);
    }
}

// A journal that an earlier version began: its takings, and a record more in its block and in the next.
fn old_journals(run: &mut Run) {
    for version in [Version::Narrow, Version::Wide] {
        run.origin = format!("a journal begun by version {version:?}");
        let (mut world, _) = updated(run, sold_by(version, 2, 3));
        let kind = version.data_kind();
        for (number, takings, kinds) in [(4, 275, [0x6C, 0]), (5, 280, [0x6C, 0x6C])] {
            let found = world.takings(run);
            expect(run, "takings", found, (DONE, takings - 5));
            expect(run, "the kind of its block", world.state().kinds[0], if number == 4 { kind } else { 0x6C });
            let found = world.append(run, Sale { selection: 4, count: 1, price: 5, replaces: 0 });
            expect(run, "an append", found, (DONE, number));
            let found = world.takings(run);
            expect(run, "takings after it", found, (DONE, takings));
            expect(run, "kinds after it", &world.state().kinds[..2], &kinds);
        }
    }
}
