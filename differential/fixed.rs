// The fixed selection: the paper's bench figures, then every cut, failure and silence of requests on small chips, with the
// write-protect line high and low, writes that are opened and advanced, the journal of sales, forged states and interfaces, wrong
// lengths, pages of many lengths, formattings of chips that hold a table, chips with pages of every version and updated boxes,
// parameter pages, a chip with rows past sixteen bits, random lists and the dearest writes; and beside the store the draws of the test
// load, price rules and lists of sales.

use super::*;
use crate::draws::drawn;

const RANDOM_CALLS: usize = 100_000;

pub fn fixed_selection(run: &mut Run) {
    bench_figures(run);
    every_cut(run);
    every_failure(run);
    every_silence(run);
    interface_in_any_phase(run);
    unready_chips(run);
    busy_chips(run);
    open_writes(run);
    journals(run);
    changed_states(run);
    changed_kinds(run);
    wrong_lengths(run);
    limits(run);
    every_length(run);
    every_bit(run);
    every_table(run);
    every_arrangement(run);
    every_raise(run);
    every_mixture(run);
    every_number(run);
    every_formatting(run);
    formattings(run);
    updates(run);
    parameter_pages(run);
    large_chip(run);
    random_lists(run, RANDOM_CALLS, 1);
    dearest_writes(run);
    draws_alike(run);
    price_tables(run);
    sale_lists(run);
}

extern "C" {
    fn test_load_draw(last: u32) -> u32;
}

// The draws after the least and the greatest numbers, each the start of a thousand.
fn draws_alike(run: &mut Run) {
    for seed in (0..100).chain(u32::MAX - 100..=u32::MAX) {
        run.origin = format!("draws from {seed}");
        let mut last = seed;
        for _ in 0..1000 {
            // It takes a number and gives one; nothing is lent.
            let library = unsafe { test_load_draw(last) };
            last = drawn(last);
            expect(run, "a draw", library, last);
        }
    }
}

// ---- bench figures ----

pub type Line = (usize, u64, usize);

// Answer, cycles and free blocks after a call.
pub fn line(world: &World, answer: usize) -> Line {
    (answer, world.own.sent[0], world.state().free_blocks(&world.geometry))
}

pub fn expect<T: PartialEq + std::fmt::Debug>(run: &Run, what: &str, found: T, wanted: T) {
    if found != wanted {
        run.fail(&format!("{what}: {found:?}, the paper says {wanted:?}"));
    }
}

pub fn bench_figures(run: &mut Run) {
    run.origin = "the bench figures".to_string();
    bench_program(run);
    bench_pages(run);
    bench_streams(run);
    bench_whitened(run);
    bench_limits(run);
    bench_silence(run);
    bench_replacement(run);
    bench_numbers(run);
    bench_column(run);
    bench_line(run);
    bench_open(run);
    bench_kept(run);
}

fn bench_program(run: &mut Run) {
    let mut world = World::fresh(SMALL);
    let answer = world.format(run);
    expect(run, "F", line(&world, answer), (0, 1196, 3));
    let page = &world.own.chip.array[..SMALL.page_bytes()];
    expect(run, "check of the table", (page[45], page[46]), (160, 0));
    let answer = world.write(run, 0, 0, 0xA5);
    expect(run, "W 0 0 A5", line(&world, answer), (0, 237, 2));
    let answer = world.read(run, 0, 0);
    expect(run, "R 0 0", line(&world, answer), (0, 42, 2));
    let answer = world.read(run, 1, 3);
    expect(run, "R 1 3", line(&world, answer), (0, 0, 2));
    let answer = world.erase(run, 0);
    expect(run, "E 0", line(&world, answer), (0, 237, 2));
    let answer = world.write(run, 0, 1, 0x5A);
    expect(run, "W 0 1 5A", line(&world, answer), (0, 363, 2));
    let answer = world.write(run, 2, 0, 0);
    expect(run, "W 2 0 00", line(&world, answer), (2, 0, 2));
}

fn bench_pages(run: &mut Run) {
    for (version, place, check) in [(Version::Narrow, 41, 61), (Version::Wide, 45, 92), (Version::White, 45, 172)] {
        let label = data_label(version, 0, 0, 2);
        let mut page = encode_page(&SMALL, &[0xFF; 32], &label);
        expect(run, "check of a data page", (page[place], page[place + 1]), (check, 0));
        expect(run, "a data page", whole_page(&SMALL, &page), Some(label));
        page[32 + 4] = 1;
        expect(run, "a raised page", whole_page(&SMALL, &page), None);
    }
    let table = encode_page(&SMALL, &table_main(&SMALL, &[0; 512]), &table_label(Version::Narrow, 0, 1));
    expect(run, "check of a table with a 32-bit number", (table[41], table[42]), (129, 0));
    expect(run, "an erased page", whole_page(&SMALL, &[0xFF; 48]), None);
}

// The first sixteen bytes of the streams of some pages.
pub const STREAMS: [(usize, u128); 4] = [
    (0, 0x0002_000c_0028_00f0_0220_0cc0_2a80_ff02),
    (1, 0x0004_0018_0050_01e0_0440_1980_5501_fe04),
    (2, 0x0006_0014_0078_0110_0660_1540_7f81_0106),
    (63, 0x0080_0300_0a00_3c00_8803_300a_a03f_c080),
];

// The first sixteen bytes of a page on the chip.
pub fn begins(world: &World, block: usize, page: usize) -> u128 {
    let from = world.geometry.page_start(block, page);
    u128::from_be_bytes(world.own.chip.array[from..from + 16].try_into().unwrap())
}

// Pages of zeros are stored as their streams.
fn bench_streams(run: &mut Run) {
    let mut world = World::fresh(Geometry { pages: 64, ..SMALL });
    world.format(run);
    for (page, wanted) in STREAMS {
        let answer = world.write(run, 0, page, 0);
        let found = begins(&world, world.state().map[0] as usize, page);
        expect(run, &format!("the stream of page {page}"), (answer, found), (DONE, wanted));
    }
    let block = world.state().map[0] as usize;
    for (page, wanted) in STREAMS {
        expect(run, &format!("the stream of page {page}, kept"), begins(&world, block, page), wanted);
    }
}

// Page 0 of logical block 0 after W 0 0 A5, under number 2, and after E 0, under number 3.
const A5_WHITENED: [u8; 48] = [
    0xA5, 0xA7, 0xA5, 0xA9, 0xA5, 0x8D, 0xA5, 0x55, 0xA7, 0x85, 0xA9, 0x65, 0x8F, 0x25, 0x5A, 0xA7, //
    0xA7, 0xA9, 0xA9, 0x8D, 0x8D, 0x55, 0x57, 0x87, 0x89, 0x69, 0x4F, 0x0F, 0xDA, 0x58, 0xA5, 0xAB, //
    0xFF, 0x6C, 0x00, 0x00, 0x00, 0x02, 0x00, 0x00, 0x00, 0x00, 0x00, 0x00, 0x00, 0xD6, 0x00, 0xFF,
];
const FF_WHITENED: [u8; 48] = [
    0xFF, 0xFD, 0xFF, 0xF3, 0xFF, 0xD7, 0xFF, 0x0F, 0xFD, 0xDF, 0xF3, 0x3F, 0xD5, 0x7F, 0x00, 0xFD, //
    0xFD, 0xF3, 0xF3, 0xD7, 0xD7, 0x0F, 0x0D, 0xDD, 0xD3, 0x33, 0x15, 0x55, 0x80, 0x02, 0xFF, 0xF1, //
    0xFF, 0x6C, 0x00, 0x00, 0x00, 0x03, 0x00, 0x00, 0x00, 0x00, 0x00, 0x00, 0x00, 0xAB, 0x00, 0xFF,
];

// Pages of the chip as they are stored, and the kinds that the state has of them.
fn bench_whitened(run: &mut Run) {
    let mut world = World::fresh(SMALL);
    world.format(run);
    expect(run, "the table is plain", begins(&world, 0, 0), 0x0400_0200_0000_0800_00ff_ffff_ffff_ffff);
    expect(run, "its other pages are plain", begins(&world, 0, 3), u128::MAX);
    expect(run, "no kinds after F", world.state().kinds == [0; 4096], true);
    world.write(run, 0, 0, 0xA5);
    let from = SMALL.page_start(1, 0);
    expect(run, "W 0 0 A5, stored", &world.own.chip.array[from..from + 48], &A5_WHITENED[..]);
    expect(run, "its page 2, stored", begins(&world, 1, 2), !STREAMS[2].1);
    expect(run, "its kind", (world.state().kinds[0], world.state().kinds[1]), (0x6C, 0));
    world.erase(run, 0);
    let from = SMALL.page_start(2, 0);
    expect(run, "E 0, stored", &world.own.chip.array[from..from + 48], &FF_WHITENED[..]);
    let read = |world: &mut World, run: &mut Run, wanted: u8| {
        world.read(run, 0, 0);
        expect(run, "what it means", world.own.buffer == [wanted; 32], true);
    };
    read(&mut world, run, 0xFF);
    world.mount(run);
    read(&mut world, run, 0xFF);
    expect(run, "kinds after a mount", (world.state().kinds[0], world.state().kinds[1]), (0x6C, 0));
    world.both(|side| side.chip.array[0] ^= 1);
    let answer = world.mount(run);
    expect(run, "a mount without a table", (answer, world.own.state == [0; STATE_BYTES]), (NO_TABLE, true));
}

fn bench_limits(run: &mut Run) {
    let mut world = World::fresh(SMALL);
    let call = world.plain();
    let answer = world.call(run, Geometry { logical: 3, ..SMALL }, &Request::Format, &call, &[]);
    expect(run, "N 3 on 4 blocks", line(&world, answer), (1, 0, 0));
    let answer = world.read(run, 0, 0);
    expect(run, "R before F", line(&world, answer), (7, 0, 0));
    let answer = world.mount(run);
    expect(run, "a mount of an erased chip", answer, NO_TABLE);
    world.both(|side| side.chip.array[SMALL.page_start(2, 1) + 32] = 0x7F);
    let answer = world.format(run);
    expect(run, "one marked block of four", line(&world, answer), (8, 954, 0));
}

// A formatted small chip with one page written to each logical block.
pub fn written() -> (World, Book) {
    written_by(Version::White)
}

// The same by a store of this version.
pub fn written_by(version: Version) -> (World, Book) {
    written_on(SMALL, version)
}

// The same on a chip that is like the small one.
pub fn written_on(geometry: Geometry, version: Version) -> (World, Book) {
    let mut run = Run::of_setting();
    let mut world = World::fresh(geometry);
    world.version = version;
    world.watch.on = true;
    let mut book = Book::new(&geometry);
    let call = world.plain();
    world.format_for(&mut run, geometry.logical, &call);
    for (block, page, byte) in [(0, 0, 0x11), (1, 2, 0x3C)] {
        let answer = world.write(&mut run, block, page, byte);
        book.step(&mut run, &world, &Request::Write { block, page }, answer, &vec![byte; geometry.main]);
    }
    (world, book)
}

fn bench_silence(run: &mut Run) {
    let (world, _) = written();
    let request = Request::Read { block: 0, page: 0 };
    let buffer = vec![0; SMALL.main];
    // 8 cycles up to 70h, the status reads, then 00h and the bytes.
    for (busy, allowed, wanted) in [
        (255, u32::MAX, (DONE, 42 + 255)),
        (255, 42 + 255, (DONE, 42 + 255)),
        (255, 41 + 255, (CUT, 41 + 255)),
        (256, u32::MAX, (SILENT, 8 + 256)),
        (256, 8 + 256, (SILENT, 8 + 256)),
        (256, 7 + 256, (CUT, 7 + 256)),
        (0, 0, (CUT, 0)),
    ] {
        let mut world = world.duplicate();
        let call = Call { fates: vec![busy], allowed, ..world.plain() };
        let answer = world.right(run, &request, &call, &buffer);
        expect(run, &format!("{busy} busy reads"), (answer, world.own.sent[0]), wanted);
    }
    bench_no_cycle(run);
}

fn bench_no_cycle(run: &mut Run) {
    let mut world = World::fresh(SMALL);
    world.format(run);
    let call = Call { allowed: 0, ..world.plain() };
    let buffer = vec![0; SMALL.main];
    let answer = world.right(run, &Request::Read { block: 1, page: 0 }, &call, &buffer);
    expect(run, "a blank read with no cycle allowed", line(&world, answer), (0, 0, 3));
    let answer = world.right(run, &Request::Read { block: 2, page: 0 }, &call, &buffer);
    expect(run, "a refusal with no cycle allowed", line(&world, answer), (2, 0, 3));
}

fn bench_replacement(run: &mut Run) {
    let mut world = World::fresh(SMALL);
    world.format(run);
    world.write(run, 0, 0, 0x22);
    world.write(run, 1, 0, 0x33);
    let call = Call { mask: world.mask(0xFF), allowed: 70, ..world.plain() };
    let request = Request::Write { block: 0, page: 0 };
    let answer = world.right(run, &request, &call, &[0x44; 32]);
    expect(run, "a write cut at 70", line(&world, answer), (11, 70, 0));
    world.mount(run);
    let answer = world.write(run, 0, 0, 0x55);
    expect(run, "the block filled last is the last candidate", line(&world, answer), (0, 363, 1));

    let mut world = World::fresh(SMALL);
    world.format(run);
    world.write(run, 0, 0, 0x11);
    let call = Call { fates: vec![1 << 16], ..world.plain() };
    let answer = world.right(run, &request, &call, &[0x66; 32]);
    expect(run, "the old copy's block is free for the table", line(&world, answer), (0, 605, 1));
}

fn bench_numbers(run: &mut Run) {
    let last = Version::White.last_number();
    let (mut world, _) = written();
    let state = State { number: last - 1, ..world.state() };
    world.both(|side| side.state = state.to_bytes());
    let answer = world.write(run, 0, 0, 0x77);
    expect(run, "the last number", (answer, world.state().number), (DONE, last));
    let answer = world.write(run, 0, 0, 0x78);
    expect(run, "no number left", line(&world, answer), (9, 2, 0));
    let answer = world.mount(run);
    expect(run, "a mount after the last number", (answer, world.state().number), (DONE, last));
    let answer = world.read(run, 0, 0);
    expect(run, "the page under the last number", (answer, world.own.buffer[0]), (DONE, 0x77));
    bench_formatting(run, 1, (9, 1186, 0));
    bench_formatting(run, 2, (8, 1186, 0));
}

// A formatting of a chip whose table bears the last number, and of which an erase fails: it counts its blocks before it takes a number.
fn bench_formatting(run: &mut Run, logical: usize, wanted: Line) {
    let label = table_label(Version::White, 0, Version::White.last_number());
    let mut array = table_with(&table_main(&SMALL, &[0; 512]), &[0xFF; 32], label);
    array.resize(SMALL.chip_bytes(), 0xFF);
    let mut world = World::new(Geometry { logical, ..SMALL }, array);
    let call = Call { fates: after_reads(&SMALL, &[1 << 16]), ..world.plain() };
    let answer = world.right(run, &Request::Format, &call, &[]);
    expect(run, "a formatting over the last number", line(&world, answer), wanted);
}

// A reset and a read of every page, unbusied, with which a formatting begins.
pub fn cycles_of_reads(geometry: &Geometry) -> u32 {
    (3 + geometry.blocks * geometry.pages * (geometry.page_bytes() + 10)) as u32
}

// The words of a formatting, after those of its page reads.
pub fn after_reads(geometry: &Geometry, fates: &[u32]) -> Vec<u32> {
    let mut all = vec![0; geometry.blocks * geometry.pages];
    all.extend(fates);
    all
}

// A quick mount asks for the mark byte of page 1 after its first two pages.
fn bench_column(run: &mut Run) {
    let mut world = World::fresh(Geometry { main: 2048, ..SMALL });
    let call = Call { allowed: 3 + 2 * (2064 + 10) + 6, ..world.plain() };
    let answer = world.right(run, &Request::QuickMount, &call, &[]);
    expect(run, "a quick mount cut after the address of a mark byte", answer, CUT);
    expect(run, "column 2,048 of page 1", world.own.chip.interface[ADDRESS_REGISTER], 0x1_0800);
}

// With the write-protect line low: the requests that write get 13 and change nothing, the others pass.
fn bench_line(run: &mut Run) {
    let (base, _) = written();
    let write = Request::Write { block: 0, page: 0 };
    for (request, cut, wanted) in [
        (&write, u32::MAX, (13, 2)),
        (&write, 2, (13, 2)),
        (&write, 1, (11, 1)),
        (&write, 0, (11, 0)),
        (&Request::Erase { block: 1 }, u32::MAX, (13, 2)),
        (&Request::Format, u32::MAX, (13, 933)),
        (&Request::Format, 932, (11, 932)),
        (&Request::Mount, u32::MAX, (0, 931)),
        (&Request::Read { block: 0, page: 0 }, u32::MAX, (0, 42)),
        (&Request::Identify, u32::MAX, (0, ASKED)),
        (&Request::Write { block: 2, page: 0 }, u32::MAX, (2, 0)),
    ] {
        let mut world = base.duplicate();
        let call = Call { allowed: cut, protected: 1, ..world.plain() };
        let buffer = buffer_for(&world, request);
        let answer = world.right(run, request, &call, &buffer);
        expect(run, &format!("{request:?}, the line low"), (answer, world.own.sent[0]), wanted);
    }
    bench_line_first(run, &base);
}

// 13 comes after 3 and 7, before 8 and 9; the same call passes once the line is released.
fn bench_line_first(run: &mut Run, base: &World) {
    let low = Call { protected: u64::MAX, ..base.plain() };
    let write = Request::Write { block: 0, page: 0 };
    let mut world = base.duplicate();
    let answer = world.right(run, &write, &low, &[0; SMALL.main - 1]);
    expect(run, "a short page", answer, LENGTH);
    let state = State { number: u64::MAX, ..world.state() };
    world.both(|side| side.state = state.to_bytes());
    let answer = world.right(run, &write, &low, &[0x79; SMALL.main]);
    expect(run, "no number left, the line low", answer, PROTECTED);
    world.both(|side| side.state.fill(0));
    let answer = world.right(run, &write, &low, &[0x79; SMALL.main]);
    expect(run, "not mounted, the line low", answer, MOUNT_FIRST);
    world.both(|side| side.chip.array[SMALL.page_start(2, 1) + 32] = 0x7F);
    let answer = world.right(run, &Request::Format, &low, &[]);
    expect(run, "a marked block, the line low", answer, PROTECTED);

    let mut world = base.duplicate();
    world.right(run, &write, &low, &[0x79; SMALL.main]);
    let answer = world.write(run, 0, 0, 0x79);
    expect(run, "the line released", line(&world, answer), (0, 363, 1));
}

// ---- every place of a request ----

pub fn requests() -> [Request; 12] {
    [
        Request::Format,
        Request::Mount,
        Request::QuickMount,
        Request::Read { block: 0, page: 0 },
        Request::Write { block: 0, page: 1 },
        Request::Write { block: 1, page: 3 },
        Request::Erase { block: 0 },
        Request::Erase { block: 1 },
        Request::Identify,
        Request::Open { block: 0, page: 1 },
        Request::Append(Sale { selection: 7, count: 2, price: 150, replaces: 0 }),
        Request::Takings,
    ]
}

// All bits, none and random ones; one mask where the request changes nothing.
pub fn masks(world: &World, request: &Request) -> Vec<Vec<u8>> {
    let random = Random::new(77).bytes(world.geometry.block_bytes());
    match request {
        Request::Mount | Request::QuickMount | Request::Read { .. } => vec![random],
        Request::Identify | Request::Open { .. } | Request::Takings => vec![random],
        _ => vec![random, world.mask(0xFF), world.mask(0)],
    }
}

pub fn buffer_for(world: &World, request: &Request) -> Vec<u8> {
    match request {
        Request::Read { .. } => vec![0x5C; world.geometry.main],
        Request::Write { .. } | Request::Open { .. } => (0..world.geometry.main).map(|place| place as u8 ^ 0x69).collect(),
        Request::Identify => parameter_page(&world.geometry),
        _ => Vec::new(),
    }
}

// One call on a copy of the chip, then a mount and, where the book stands, a reading of all pages.
fn try_call(run: &mut Run, base: &(World, Book), request: &Request, call: &Call) {
    let mut world = base.0.duplicate();
    let mut book = base.1.clone();
    world.watch.failed.clear();
    let buffer = buffer_for(&world, request);
    let answer = world.right(run, request, call, &buffer);
    if matches!(request, Request::Format) {
        mount_formatted(run, &mut world, answer);
        return;
    }
    book.step(run, &world, request, answer, &buffer);
    let (mut quick, mut beside) = (world.duplicate(), book.clone());
    let answer = world.mount(run);
    book.step(run, &world, &Request::Mount, answer, &[]);
    book.compare_all(run, &world);
    let answer = quick.quick_mount(run);
    beside.step(run, &quick, &Request::QuickMount, answer, &[]);
    beside.compare_all(run, &quick);
}

// A mount of the chip that a formatting left; after an acknowledged one it gives the same state.
pub fn mount_formatted(run: &mut Run, world: &mut World, answer: usize) {
    let state = world.own.state.clone();
    let mounted = world.mount(run);
    if answer == DONE && (mounted != DONE || world.own.state != state) {
        run.fail("a mount does not give the state of the formatting before it");
    }
}

// Cycles and fate words of a request that is not cut, with these words at hand and this line.
pub fn usual(base: &World, request: &Request, fates: &[u32], protected: u64) -> (u64, usize) {
    let mut world = base.duplicate();
    let call = Call { fates: fates.to_vec(), protected, ..world.plain() };
    let buffer = buffer_for(&world, request);
    world.right(&mut Run::of_setting(), request, &call, &buffer);
    (world.own.sent[0], world.own.chip.interface[FATES_USED] as usize)
}

fn operations(base: &World, request: &Request) -> usize {
    usual(base, request, &[0; 1000], 0).1
}

// The operation from which on failures can count: a formatting begins with a read of every page, and the last of them is tried.
fn first_change(base: &World, request: &Request) -> usize {
    match request {
        Request::Format => base.geometry.blocks * base.geometry.pages - 1,
        _ => 0,
    }
}

// A chip with eight pages a block, six blocks, one of them marked and one invalid.
fn larger() -> (World, Book) {
    let geometry = Geometry { main: 40, spare: 17, pages: 8, blocks: 6, logical: 2 };
    let mut run = Run::of_setting();
    let mut world = World::fresh(geometry);
    world.watch.on = true;
    world.both(|side| side.chip.array[geometry.page_start(2, 0) + 40] = 0);
    let mut book = Book::new(&geometry);
    let call = Call { fates: after_reads(&geometry, &[1 << 16]), ..world.plain() };
    world.format_for(&mut run, geometry.logical, &call);
    let answer = world.write(&mut run, 0, 1, 0x10);
    book.step(&mut run, &world, &Request::Write { block: 0, page: 1 }, answer, &vec![0x10; 40]);
    (world, book)
}

fn every_cut(run: &mut Run) {
    for (base, fates) in [(written(), vec![]), (written(), vec![1 << 16, 2]), (larger(), vec![0, 0, 1 << 16])] {
        for request in requests() {
            for mask in masks(&base.0, &request) {
                for protected in [0, 1] {
                    cuts_of(run, &base, &request, &Call { mask: mask.clone(), fates: fates.clone(), allowed: 0, protected });
                }
            }
        }
    }
}

// The call with every allowance up to the cycles that it sends, but for most of those that end in a long reading.
pub fn cuts_of(run: &mut Run, base: &(World, Book), request: &Request, call: &Call) {
    let Call { fates, protected, .. } = call;
    let geometry = base.0.geometry;
    run.origin = format!("every cut of {request:?} on {geometry:?} with fates {fates:X?} and line {protected}");
    let (cycles, _) = usual(&base.0, request, fates, *protected);
    let every = every_cycle_from(&geometry, request);
    for allowed in (0..=cycles as u32).filter(|allowed| *allowed >= every || allowed % 7 == 0) {
        try_call(run, base, request, &Call { allowed, ..call.clone() });
    }
}

// Of the longest mount, and of the page reads of a formatting, every seventh cycle is enough.
fn every_cycle_from(geometry: &Geometry, request: &Request) -> u32 {
    match request {
        Request::Mount | Request::QuickMount if geometry.pages > 4 => u32::MAX,
        Request::Format => cycles_of_reads(geometry),
        _ => 0,
    }
}

fn every_failure(run: &mut Run) {
    for base in [written(), larger()] {
        for request in requests() {
            failures_of(run, &base, &request);
        }
    }
}

pub fn failures_of(run: &mut Run, base: &(World, Book), request: &Request) {
    let count = operations(&base.0, request);
    run.origin = format!("every failure of {request:?} on {:?}", base.0.geometry);
    for mask in masks(&base.0, request) {
        for first in first_change(&base.0, request)..count.min(80) {
            for second in [first, first + 1, first + 2, first + 5, count] {
                let mut fates = vec![0; second + 1];
                fates[first] = 1 << 16;
                fates[second] = 1 << 16;
                try_call(run, base, request, &Call { mask: mask.clone(), fates, ..base.0.plain() });
            }
        }
    }
}

fn every_silence(run: &mut Run) {
    let base = written();
    for request in requests() {
        silences_of(run, &base, &request);
    }
}

pub fn silences_of(run: &mut Run, base: &(World, Book), request: &Request) {
    run.origin = format!("every silence of {request:?}");
    for place in 0..operations(&base.0, request) {
        for busy in [1, 254, 255, 256, 257, 511, 512, 65535, 0x1_00FF, 0x1_0100, 0xFFFE_0002] {
            let mut fates = vec![0; place];
            fates.push(busy);
            let (sent, _) = usual(&base.0, request, &fates, 0);
            let mask = &masks(&base.0, request)[0];
            for allowed in [sent as u32 - 1, sent as u32, u32::MAX] {
                let call = Call { mask: mask.clone(), fates: fates.clone(), allowed, protected: 0 };
                try_call(run, base, request, &call);
            }
        }
    }
}

// ---- forged interfaces, states and lengths ----

fn interface_in_any_phase(run: &mut Run) {
    let (base, _) = written();
    for phase in (0..10).chain([255, 256, 1 << 32, u64::MAX]) {
        for loaded in [0, 1, 2, u64::MAX] {
            for others in [0, 1, 5, 47, 48, 49, 1 << 40, u64::MAX] {
                run.origin = format!("interface in phase {phase}, loaded {loaded}, others {others}");
                let mut interface = vec![others; INTERFACE_WORDS];
                interface[PHASE] = phase;
                interface[LOADED] = loaded;
                let mut forged = base.duplicate();
                forged.both(|side| side.chip.interface = interface.clone());
                calls_in_phase(run, &forged, 0);
                calls_in_phase(run, &forged, others.max(1));
            }
        }
    }
}

fn calls_in_phase(run: &mut Run, base: &World, protected: u64) {
    for request in requests() {
        for allowed in [0, 1, 2, 3, 4, 6, 7, 8, 9, 10, 20, 65, u32::MAX] {
            let mut world = base.duplicate();
            let call = Call { allowed, protected, ..world.plain() };
            let buffer = buffer_for(&world, &request);
            world.right(run, &request, &call, &buffer);
        }
    }
}

// The small chip in a phase, with busy reads left of an operation on a row.
pub fn in_phase(base: &World, phase: u64, operation: u64, busy: u64, failed: u64, row: u64) -> World {
    let mut interface = vec![0; INTERFACE_WORDS];
    interface[PHASE] = phase;
    interface[COUNT] = 5;
    interface[ADDRESS_REGISTER] = row << 16;
    interface[OPERATION] = operation;
    interface[BUSY_LEFT] = busy;
    interface[FAILED] = failed;
    let mut world = base.duplicate();
    world.both(|side| side.chip.interface = interface.clone());
    world
}

// A write begins with 70h and a status read, which ends what a busy chip is at if no busy read is left.
fn unready_chips(run: &mut Run) {
    let (base, _) = written();
    let mut cases = vec![(READY, 0, (DONE, 363)), (STATUS, 0, (DONE, 363)), (DATA_OUTPUT, 0, (DONE, 363))];
    for phase in [READ_ADDRESS, PROGRAM_ADDRESS, ERASE_ADDRESS, PROGRAM_DATA, PARAMETER_ADDRESS] {
        cases.push((phase, 0, (ILLEGAL, 1)));
    }
    for phase in [BUSY, BUSY_STATUS] {
        cases.extend([(phase, 0, (DONE, 363)), (phase, 1, (ILLEGAL, 3)), (phase, 2, (ILLEGAL, 3))]);
    }
    for (phase, busy, wanted) in cases {
        run.origin = format!("a write on a chip in phase {phase}, {busy} busy reads left");
        let mut world = in_phase(&base, phase, 1, busy, 0, 0);
        let answer = world.write(run, 0, 0, 0x42);
        expect(run, "answer and cycles", (answer, world.own.sent[0]), wanted);
    }
}

// Every operation that a chip can be busy with, and two that it cannot, on rows of the chip and past its last.
fn busy_chips(run: &mut Run) {
    let (base, _) = written();
    for phase in [BUSY, BUSY_STATUS] {
        for operation in 0..6 {
            for (busy, failed) in [(0, 0), (0, 1), (1, 0), (1, 1)] {
                for row in [5, 15, 16, 1 << 24] {
                    run.origin = format!("phase {phase}, operation {operation}, {busy} busy reads, failed {failed}, row {row}");
                    let forged = in_phase(&base, phase, operation, busy, failed, row);
                    calls_in_phase(run, &forged, 0);
                    calls_in_phase(run, &forged, 1);
                }
            }
        }
    }
}

fn changed_states(run: &mut Run) {
    let (base, _) = written();
    let state = base.state();
    let mut states = Vec::new();
    for number in [0, 1, 2, 3, 4, 5, 255, 256, 1 << 16, (1 << 32) - 1, 1 << 32, u64::MAX - 1, u64::MAX] {
        states.push(State { status: number, ..state.clone() });
        states.push(State { table: number, ..state.clone() });
        states.push(State { last: number, ..state.clone() });
        states.push(State { number, ..state.clone() });
        for logical in [0, 1, 2, 3, 4095] {
            let mut changed = state.clone();
            changed.map[logical] = number as u16;
            states.push(changed);
        }
    }
    for bit in (0..12).chain([4094, 4095]) {
        let (mut marked, mut invalid) = (state.clone(), state.clone());
        marked.marks[bit / 8] |= 1 << (bit % 8);
        invalid.invalid[bit / 8] |= 1 << (bit % 8);
        let mut twice = marked.clone();
        twice.invalid[bit / 8] |= 1 << (bit % 8);
        states.extend([marked, invalid, twice]);
    }
    for (place, state) in states.iter().enumerate() {
        run.origin = format!("changed state {place}");
        calls_with_state(run, &base, state);
    }
}

// Any kind in a state only tells whether bytes are undone: those of copies, those near the whitened one, and others.
pub const FORGED_KINDS: [u8; 14] = [0, 1, 0x44, 0x4C, 0x54, 0x64, 0x6C, 0x6D, 0x6E, 0x74, 0x7C, 0x2C, 0xEC, 0xFF];

// Logical block 2 has no copy, and there is no logical block 3.
fn changed_kinds(run: &mut Run) {
    for version in [Version::Narrow, Version::White] {
        let base = updated(run, written_on(Geometry { blocks: 6, logical: 3, ..SMALL }, version)).0;
        for kind in FORGED_KINDS {
            for logical in [0, 1, 2, 3, 4095] {
                run.origin = format!("kind {kind:02X} forged for logical block {logical}, {version:?}");
                let mut state = base.state();
                state.kinds[logical] = kind;
                calls_with_state(run, &base, &state);
                first_copy(run, &base, &state);
            }
        }
    }
}

// Logical block 2 is read, and gets its first copy by a write and by one that is opened.
fn first_copy(run: &mut Run, base: &World, state: &State) {
    let mut world = base.duplicate();
    world.both(|side| side.state = state.to_bytes());
    let mut opened = world.duplicate();
    world.read(run, 2, 0);
    expect(run, "a block without a copy", world.own.buffer == [0xFF; 32], true);
    world.write(run, 2, 1, 0x6B);
    opened.open(run, 2, 1, 0x6B);
    opened.advance(run, 9);
    expect(run, "the state after both", opened.own.state == world.own.state, true);
    for page in 0..SMALL.pages {
        world.read(run, 2, page);
        opened.read(run, 2, page);
        let wanted = if page == 1 { 0x6B } else { 0xFF };
        expect(run, "its pages", (world.own.buffer[31], opened.own.buffer[31]), (wanted, wanted));
    }
}

fn calls_with_state(run: &mut Run, base: &World, state: &State) {
    for request in requests() {
        for (fates, protected) in [(vec![], 0), (vec![], 1), (vec![1 << 16], 0), (vec![0, 1 << 16, 1 << 16], 0)] {
            let mut world = base.duplicate();
            world.both(|side| side.state = state.to_bytes());
            let call = Call { fates, protected, ..world.plain() };
            let buffer = buffer_for(&world, &request);
            world.right(run, &request, &call, &buffer);
            world.read(run, 0, 0);
            world.mount(run);
        }
    }
}

fn wrong_lengths(run: &mut Run) {
    let (mut world, _) = written();
    run.origin = "wrong lengths".to_string();
    for request in requests() {
        for kind in 0..10 {
            for place in 0..5 {
                let call = world.plain();
                let buffer = buffer_for(&world, &request);
                world.wrong(run, &request, &call, &buffer, wrong_length(&SMALL, kind, place));
            }
        }
        for length in [0, 1, 31, 33, 48, 4096] {
            world.simple(run, &request, &vec![3; length]);
        }
    }
}

fn wrong_length(geometry: &Geometry, kind: usize, place: usize) -> Wrong {
    let length = |right: usize| [0, right - 1, right + 1, 2 * right, right][place];
    match kind {
        0 => Wrong::State(length(STATE_BYTES)),
        1 => Wrong::Interface(length(INTERFACE_WORDS)),
        2 => Wrong::Sent(length(1)),
        3 => Wrong::Array(length(geometry.chip_bytes())),
        4 => Wrong::Register(length(geometry.page_bytes())),
        5 => Wrong::History(length(geometry.blocks)),
        6 => Wrong::Sizes(length(SIZE_WORDS)),
        7 => Wrong::Finished(length(1)),
        8 => Wrong::Told(length(1)),
        _ => Wrong::Mask(length(geometry.block_bytes())),
    }
}

// ---- limits ----

// Chips on both sides of each limit.
pub fn chips_at_limits() -> Vec<Geometry> {
    let mut chips = Vec::new();
    for logical in 0..=4 {
        chips.extend((3..=6).map(|blocks| Geometry { blocks, logical, ..SMALL }));
    }
    chips.extend((0..=130).map(|pages| Geometry { pages, ..SMALL }));
    chips.extend([0, 1, 15, 16, 17, 255, 256, 257].map(|spare| Geometry { spare, ..SMALL }));
    chips.extend([0, 7, 8, 9, 31, 32, 33, 4095, 4096, 4097].map(|main| Geometry { main, ..SMALL }));
    chips.extend([191, 192, 193].map(|blocks| Geometry { blocks, ..SMALL }));
    chips.extend([4095, 4096, 4097].map(|blocks| Geometry { blocks, main: 521, ..SMALL }));
    chips.extend([4095, 4096].map(|blocks| Geometry { blocks, main: 519, ..SMALL }));
    chips
}

fn limits(run: &mut Run) {
    for geometry in chips_at_limits() {
        at_limit(run, geometry);
    }
}

// Buffers of the right lengths: only the limits can refuse.
fn at_limit(run: &mut Run, geometry: Geometry) {
    run.origin = format!("limits at {geometry:?}");
    for request in [Request::Mount, Request::QuickMount, Request::Format] {
        for allowed in [0, 11] {
            let mut world = World::fresh(geometry);
            let call = Call { allowed, ..world.plain() };
            let answer = world.right(run, &request, &call, &[]);
            expect(run, "a limit", answer, if geometry.within_limits() { CUT } else { GEOMETRY });
        }
    }
}

// ---- lengths of a page ----

// Pages of many lengths, in blocks of 4 pages and of 64: the stream repeats after 32,767 bits, within the longest page.
fn every_length(run: &mut Run) {
    let long = [119, 120, 121, 127, 128, 129, 135, 136, 239, 240, 241, 255, 256, 257, 511, 520, 1023, 2048, 4094, 4095, 4096];
    for main in (32..80).chain(long) {
        written_and_read(run, Geometry { main, ..SMALL });
    }
    for main in [32, 135, 2048, 4095, 4096] {
        written_and_read(run, Geometry { main, pages: 64, ..SMALL });
    }
}

// A page written, read, kept by another write, mounted, kept by an open write and read.
fn written_and_read(run: &mut Run, geometry: Geometry) {
    run.origin = format!("pages of {geometry:?}");
    let mut world = World::fresh(geometry);
    let last = geometry.pages - 1;
    let bytes = Random::new(geometry.main as u64).bytes(geometry.main);
    world.format(run);
    let answer = world.simple(run, &Request::Write { block: 1, page: last }, &bytes);
    expect(run, "a write", answer, DONE);
    world.write(run, 1, 0, 0x5A);
    world.quick_mount(run);
    world.open(run, 1, 1, 0xC3);
    world.advance(run, u64::MAX);
    let answer = world.read(run, 1, last);
    expect(run, "a page kept twice", (answer, world.own.buffer == bytes), (DONE, true));
}

// ---- chips for a mount ----

fn mount_array(run: &mut Run, array: Vec<u8>) {
    let mut world = World::new(SMALL, array);
    for request in [Request::Mount, Request::QuickMount] {
        world.simple(run, &request, &[]);
        for block in 0..SMALL.logical {
            world.read(run, block, 1);
        }
    }
}

// Of a chip of each version.
fn every_bit(run: &mut Run) {
    for version in ALL {
        let (world, _) = written_by(*version);
        for place in 0..SMALL.chip_bytes() {
            for bit in 0..8 {
                run.origin = format!("bit {bit} of byte {place} changed, {version:?}");
                let mut array = world.own.chip.array.clone();
                array[place] ^= 1 << bit;
                mount_array(run, array);
            }
        }
    }
}

// A table block with these main bytes of page 0 and of the other pages, each page with its own place.
pub fn table_with(first: &[u8], others: &[u8], label: Label) -> Vec<u8> {
    let mains = (0..SMALL.pages).map(|page| if page == 0 { first } else { others });
    mains.enumerate().flat_map(|(page, main)| encode_page(&SMALL, main, &Label { page: page as u8, ..label })).collect()
}

fn mount_table(run: &mut Run, table: &[u8]) {
    let (world, _) = written();
    let mut array = world.own.chip.array.clone();
    array[..table.len()].copy_from_slice(table);
    mount_array(run, array.clone());
    array[SMALL.page_start(3, 1) + SMALL.main] = 0;
    mount_array(run, array);
}

fn every_table(run: &mut Run) {
    for version in [Version::Narrow, Version::White] {
        every_table_by(run, version);
    }
}

fn every_table_by(run: &mut Run, version: Version) {
    let blank = [0xFF; 32];
    let right = table_main(&SMALL, &[0; 512]);
    let label = table_label(version, 0, 9);
    for bitmap in 0..=255 {
        run.origin = format!("a table with bitmap {bitmap:02X}, {version:?}");
        let mut invalid = [0; 512];
        invalid[0] = bitmap;
        mount_table(run, &table_with(&table_main(&SMALL, &invalid), &blank, label));
    }
    for bit in 0..256 {
        run.origin = format!("a table with bit {bit} changed, {version:?}");
        let (mut first, mut others) = (right.clone(), blank);
        first[bit / 8] ^= 1 << (bit % 8);
        others[bit / 8] ^= 1 << (bit % 8);
        mount_table(run, &table_with(&first, &blank, label));
        mount_table(run, &table_with(&right, &others, label));
    }
    for bit in 0..16 {
        run.origin = format!("a table with bit {bit} of its logical block, {version:?}");
        mount_table(run, &table_with(&right, &blank, Label { logical: 1 << bit, ..label }));
    }
}

// What a block may hold where all arrangements are tried: tables and copies of every version under few numbers.
fn contents() -> Vec<Vec<u8>> {
    let (narrow, wide, white) = (Version::Narrow, Version::Wide, Version::White);
    let mut random = Random::new(5);
    let table = |version, bitmap: u8, number| {
        let mut invalid = [0; 512];
        invalid[0] = bitmap;
        table_with(&table_main(&SMALL, &invalid), &[0xFF; 32], table_label(version, 0, number))
    };
    let mut marked = table(wide, 0, 3);
    marked[SMALL.page_bytes() + SMALL.main] = 0xFE;
    let mut contents = vec![vec![0xFF; SMALL.block_bytes()], marked];
    for (version, bitmap, number) in [(wide, 0, 1), (wide, 0, 2), (narrow, 0, 2), (narrow, 2, 2), (wide, 12, 2)] {
        contents.push(table(version, bitmap, number));
    }
    for (version, logical, number) in [(narrow, 0, 1), (white, 0, 2), (wide, 0, 2), (white, 1, 2), (white, 2, 3)] {
        contents.push(copy_block(&mut random, &SMALL, data_label(version, logical, 0, number)));
    }
    contents
}

// All are mounted, and every seventh is formatted.
fn every_arrangement(run: &mut Run) {
    let contents = contents();
    let count = contents.len();
    for place in 0..count.pow(4) {
        run.origin = format!("arrangement {place}");
        let chosen = [place, place / count, place / count.pow(2), place / count.pow(3)];
        let array: Vec<u8> = chosen.iter().flat_map(|block| contents[block % count].clone()).collect();
        if place % 7 == 0 {
            format_array(run, array.clone());
        }
        mount_array(run, array);
    }
}

// For as many logical blocks as the tables name, and for one.
fn format_array(run: &mut Run, array: Vec<u8>) {
    for logical in [SMALL.logical, 1] {
        let mut world = World::new(Geometry { logical, ..SMALL }, array.clone());
        let answer = world.format(run);
        mount_formatted(run, &mut world, answer);
    }
}

// ---- rows past sixteen bits ----

const LARGE: Geometry = Geometry { main: 520, spare: 16, pages: 64, blocks: 4096, logical: 4000 };

fn large_chip(run: &mut Run) {
    run.origin = "the chip of 4,096 blocks".to_string();
    let mut world = World::fresh(LARGE);
    world.both(|side| side.chip.array[LARGE.page_start(1025, 1) + LARGE.main] = 0);
    let call = Call { fates: vec![0, 3, 7], ..world.plain() };
    let answer = world.right(run, &Request::Format, &call, &[]);
    expect(run, "formatting", answer, DONE);
    for (last, block, page) in [(1022, 5, 63), (1023, 6, 0), (1024, 7, 1), (4094, 3999, 63)] {
        start_after(&mut world, last);
        let answer = world.write(run, block, page, page as u8 + 1);
        expect(run, "a write", answer, DONE);
        let answer = world.read(run, block, page);
        expect(run, "its read", answer, DONE);
    }
    large_rows(run, &mut world);
    large_replacement(run, &mut world);
    let answer = world.mount(run);
    expect(run, "a mount", answer, DONE);
    for (block, page) in [(5, 63), (6, 0), (7, 1), (3999, 63), (3999, 62), (0, 0)] {
        let answer = world.read(run, block, page);
        expect(run, "a read", answer, DONE);
    }
    let state = world.state();
    let answer = world.format(run);
    expect(run, "a formatting", (answer, world.state().number), (DONE, state.number + 1));
    expect(run, "its list", world.state().invalid == state.invalid && state.invalid != [0; 512], true);
}

// The state with another block filled last.
fn start_after(world: &mut World, last: u64) {
    let state = State { last, ..world.state() };
    world.both(|side| side.state = state.to_bytes());
}

fn large_rows(run: &mut Run, world: &mut World) {
    for (block, page, row) in [(5, 63, 65_535), (6, 0, 65_536), (7, 1, 1026 * 64 + 1), (3999, 63, 262_143)] {
        world.read(run, block, page);
        expect(run, "a row", world.own.chip.interface[ADDRESS_REGISTER] >> 16, row);
    }
}

fn large_replacement(run: &mut Run, world: &mut World) {
    start_after(world, 1500);
    let mut mask = world.mask(0);
    mask[..40_000.min(LARGE.block_bytes())].fill(0xF3);
    let call = Call { mask, fates: vec![0, 0, 1 << 16, 5], ..world.plain() };
    let bytes = vec![0xC3; LARGE.main];
    let answer = world.right(run, &Request::Write { block: 6, page: 9 }, &call, &bytes);
    expect(run, "a failed write", answer, DONE);
    let answer = world.erase(run, 7);
    expect(run, "an erase", answer, DONE);
    let cut = Call { allowed: 20_000, ..call };
    let answer = world.right(run, &Request::Write { block: 3999, page: 0 }, &cut, &bytes);
    expect(run, "a cut write", answer, CUT);
}
