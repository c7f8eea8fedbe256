// Writes that are opened and advanced: refusals in their place, what gives an open write up, every cut of every advance, forged words,
// chips that are not ready, and portions beside the plain write.

use super::*;

const FORGED: u64 = 6_000;
const PORTIONS: u64 = 12_000;

pub fn open_writes(run: &mut Run) {
    refusals(run);
    outside_geometry(run);
    giving_up(run);
    line_low(run);
    every_advance_cut(run);
    every_word(run);
    every_kind(run);
    advances_in_phase(run);
    for seed in 0..FORGED {
        run.origin = format!("an open write forged from {seed}");
        forged(run, &mut Random::new(seed));
    }
    for seed in 0..PORTIONS {
        run.origin = format!("portions drawn from {seed}");
        portions(run, &mut Random::new(seed));
    }
}

// ---- bench figures ----

pub fn bench_open(run: &mut Run) {
    let mut world = World::fresh(SMALL);
    world.format(run);
    let mut plain = world.duplicate();
    let answer = world.open(run, 0, 0, 0xA5);
    expect(run, "O 0 0 A5", line(&world, answer), (0, 2, 3));
    for (most, wanted, finished) in [
        (1, (0, 64, 3), false),
        (1, (0, 57, 3), false),
        (0, (0, 0, 3), false),
        (5, (0, 114, 2), true),
        (1, (15, 0, 2), false),
    ] {
        let answer = world.advance(run, most);
        expect(run, &format!("A {most}"), (line(&world, answer), world.finished()), (wanted, finished));
    }
    let answer = plain.write(run, 0, 0, 0xA5);
    expect(run, "the plain write", line(&plain, answer), (0, 2 + 64 + 57 + 114, 2));
    expect(run, "the same state and array", world.own.state == plain.own.state, true);
    expect(run, "the same array", world.own.chip.array == plain.own.chip.array, true);
    bench_open_failed(run);
}

// A failed erase uses up no page; the table's number and erase come with its first page, and the old copy's block is free for it.
fn bench_open_failed(run: &mut Run) {
    let mut world = World::fresh(SMALL);
    world.format(run);
    world.write(run, 0, 0, 0x11);
    world.open(run, 0, 0, 0x66);
    for (fates, wanted, shown) in [
        (vec![1 << 16], (0, 71, 1), 0x11),
        (vec![], (0, 99, 1), 0x11),
        (vec![], (0, 99, 1), 0x11),
        (vec![], (0, 99, 1), 0x66),
        (vec![], (0, 64, 1), 0x66),
        (vec![], (0, 57, 1), 0x66),
        (vec![], (0, 57, 1), 0x66),
        (vec![], (0, 57, 1), 0x66),
    ] {
        let call = Call { fates, ..world.plain() };
        let answer = world.right(run, &Request::Advance { most: 1 }, &call, &[]);
        expect(run, "A 1 after a failed erase", line(&world, answer), wanted);
        let finished = world.finished();
        expect(run, "finished", finished, !world.open_write().is_open());
        world.read(run, 0, 0);
        expect(run, "the page between", world.own.buffer[0], shown);
    }
    expect(run, "open after the table", world.open_write().is_open(), false);
}

// ---- refusals ----

// Barred while a write is open, with wrong addresses and lengths too; each with its buffer's length.
fn barred() -> Vec<(Request, usize)> {
    let mut barred = vec![(Request::Format, 0), (Request::Erase { block: 0 }, 0), (Request::Erase { block: 2 }, 0)];
    for replaces in [0, 1, 65_535] {
        barred.push((Request::Append(Sale { selection: 1, count: 1, price: 100, replaces }), 0));
    }
    for (block, page, length) in [(0, 0, 32), (2, 0, 32), (0, 4, 32), (1, 1, 31), (9, 9, 33)] {
        barred.push((Request::Write { block, page }, length));
        barred.push((Request::Open { block, page }, length));
    }
    barred
}

fn refusals(run: &mut Run) {
    run.origin = "refusals while a write is open".to_string();
    let (base, _) = written();
    let mut world = base.duplicate();
    let answer = world.advance(run, 1);
    expect(run, "an advance with none open", (answer, world.own.sent[0]), (WRITE_OPEN, 0));
    let answer = world.open(run, 0, 1, 0x77);
    expect(run, "a write opened", answer, DONE);
    let kept = world.own.state.clone();
    let broken = Geometry { spare: 15, ..SMALL };
    for (request, length) in barred() {
        let buffer = vec![7; length];
        let answer = world.simple(run, &request, &buffer);
        expect(run, "15 before 2, 3 and 16", (answer, world.own.sent[0]), (WRITE_OPEN, 0));
        let call = world.plain();
        let answer = world.call(run, broken, &request, &call, &buffer);
        expect(run, "1 before 15", (answer, world.own.sent[0]), (GEOMETRY, 0));
    }
    let answer = world.read(run, 2, 0);
    expect(run, "a read past the last block", answer, ADDRESS);
    let answer = world.simple(run, &Request::Read { block: 0, page: 0 }, &[0; 31]);
    expect(run, "a read of a short page", answer, LENGTH);
    let call = world.plain();
    let answer = world.call(run, broken, &Request::Mount, &call, &[]);
    expect(run, "a mount of no geometry", answer, GEOMETRY);
    expect(run, "what the refusals leave", world.own.state == kept, true);
    world.both(|side| side.state[0] = 2);
    not_mounted(run, &world);
}

// All that needs a mount gets 7; a formatting goes on and leaves none open.
fn not_mounted(run: &mut Run, base: &World) {
    for (request, length) in barred() {
        let mut world = base.duplicate();
        let answer = world.simple(run, &request, &vec![7; length]);
        let wanted = if matches!(request, Request::Format) { DONE } else { MOUNT_FIRST };
        expect(run, "not mounted, with an open write", answer, wanted);
        expect(run, "open after it", world.open_write().is_open(), wanted != DONE && base.open_write().is_open());
    }
    let mut world = base.duplicate();
    let answer = world.advance(run, 1);
    expect(run, "an advance", answer, MOUNT_FIRST);
    let answer = world.read(run, 0, 0);
    expect(run, "a read", answer, MOUNT_FIRST);
    let found = world.takings(run);
    expect(run, "takings", found, (MOUNT_FIRST, 0));
}

// The logical block, its page, the block being filled and its page: at its limit and beyond each counts as not mounted.
fn outside_geometry(run: &mut Run) {
    run.origin = "an open write outside the geometry".to_string();
    let (mut base, _) = written();
    base.open(run, 0, 1, 0x77);
    base.advance(run, 1);
    for (place, limit) in [(3, 2), (4, 4), (6, 4), (8, 4)] {
        for value in [limit, limit + 1, 1 << 16, 1 << 32, u64::MAX] {
            let mut world = base.duplicate();
            let mut words = world.open_write().words();
            words[place] = value;
            world.both(|side| OpenWrite::from_words(words).put(&mut side.state));
            not_mounted(run, &world);
            // Where none is open the words say nothing.
            words[0] = 0;
            world.both(|side| OpenWrite::from_words(words).put(&mut side.state));
            let answer = world.read(run, 0, 0);
            expect(run, "a read", answer, DONE);
            let answer = world.write(run, 1, 0, 0x21);
            expect(run, "a write", answer, DONE);
        }
    }
}

// ---- what gives an open write up ----

// As the small chip with one page in each logical block, and one block more: a block may fail.
fn roomy() -> (World, Book) {
    written_on(Geometry { blocks: 5, ..SMALL }, Version::White)
}

// The write opened and advanced so far, with these words for its operations; none where it is finished by then.
fn advanced(base: &(World, Book), write: (usize, usize), fates: &[u32], most: u64) -> Option<(World, Book)> {
    let mut run = Run::of_setting();
    let (mut world, mut book) = (base.0.duplicate(), base.1.clone());
    let request = Request::Open { block: write.0, page: write.1 };
    let bytes = buffer_for(&world, &request);
    let answer = world.simple(&mut run, &request, &bytes);
    book.step(&mut run, &world, &request, answer, &bytes);
    let request = Request::Advance { most };
    let call = Call { fates: fates.to_vec(), ..world.plain() };
    let answer = world.right(&mut run, &request, &call, &[]);
    book.step(&mut run, &world, &request, answer, &[]);
    expect(&run, "an advance that leads to a chip", answer, DONE);
    world.open_write().is_open().then_some((world, book))
}

// One call while a write is open, by the paper's rule; then either mount, with what it must show.
fn call_while_open(run: &mut Run, base: &(World, Book), request: &Request, call: &Call) {
    let (mut world, mut book) = (base.0.duplicate(), base.1.clone());
    let buffer = buffer_for(&world, request);
    let answer = world.right(run, request, call, &buffer);
    let stopped = stops(answer);
    let finished = matches!(request, Request::Advance { .. }) && answer == DONE && world.finished();
    let open = !(stopped || finished || request.mounts());
    expect(run, "whether it is still open", world.open_write().is_open(), open);
    if !open {
        expect(run, "words and page are 0", world.own.state[WORDS_AT..KINDS_AT].iter().all(|byte| *byte == 0), true);
    }
    if stopped {
        let next = world.duplicate().advance(run, 1);
        expect(run, "an advance of one that was given up", next, MOUNT_FIRST);
    }
    book.step(run, &world, request, answer, &buffer);
    if open || finished || request.mounts() && answer == DONE {
        book.compare_all(run, &world);
    }
    let (mut quick, mut beside) = (world.duplicate(), book.clone());
    let answer = world.mount(run);
    book.step(run, &world, &Request::Mount, answer, &[]);
    book.compare_all(run, &world);
    let answer = quick.quick_mount(run);
    beside.step(run, &quick, &Request::QuickMount, answer, &[]);
    beside.compare_all(run, &quick);
    let answer = quick.advance(run, 1);
    expect(run, "an advance after a mount", answer, WRITE_OPEN);
}

// A write over an old copy, after each page, in a first block and after one that failed: each request passed, silent, and cut at once.
fn giving_up(run: &mut Run) {
    let base = roomy();
    for fates in [vec![], vec![1 << 16]] {
        for most in 0..9 {
            let Some(base) = advanced(&base, (0, 1), &fates, most) else { continue };
            let mut all = requests().to_vec();
            all.extend([0, 1, 2, u64::MAX].map(|most| Request::Advance { most }));
            for request in all {
                run.origin = format!("{request:?} after {most} pages of an open write, fates {fates:X?}");
                for (fates, allowed) in [(vec![], u32::MAX), (vec![256; 2], u32::MAX), (vec![], 0), (vec![], 1), (vec![], 40)] {
                    call_while_open(run, &base, &request, &Call { fates, allowed, ..base.0.plain() });
                }
            }
        }
    }
}

// The line is low in an advance, which the paper excludes: nothing is written, and the write is given up.
fn line_low(run: &mut Run) {
    run.origin = "the line low while a write is open".to_string();
    let base = written();
    for most in 0..4 {
        let Some((mut world, _)) = advanced(&base, (0, 1), &[], most) else { continue };
        let before = world.own.chip.array.clone();
        let low = Call { protected: 1, ..world.plain() };
        let answer = world.right(run, &Request::Advance { most: 0 }, &low, &[]);
        expect(run, "an advance by nothing", (answer, world.open_write().is_open()), (DONE, true));
        let answer = world.right(run, &Request::Advance { most: 1 }, &low, &[]);
        expect(run, "an advance", (answer, world.open_write().is_open()), (ILLEGAL, false));
        expect(run, "the array", world.own.chip.array == before, true);
    }
    let (mut world, _) = written();
    let before = world.own.state.clone();
    let low = Call { protected: 1, ..world.plain() };
    let request = Request::Open { block: 0, page: 0 };
    for (allowed, wanted) in [(u32::MAX, (PROTECTED, 2)), (2, (PROTECTED, 2)), (1, (CUT, 1)), (0, (CUT, 0))] {
        let mut world = world.duplicate();
        let answer = world.right(run, &request, &Call { allowed, ..low.clone() }, &[0x79; SMALL.main]);
        expect(run, "an opening", (answer, world.own.sent[0]), wanted);
    }
    let answer = world.right(run, &request, &low, &[0x79; SMALL.main]);
    expect(run, "an opening", (answer, world.own.state == before), (PROTECTED, true));
}

// ---- cuts ----

fn every_advance_cut(run: &mut Run) {
    let mut bases = vec![(written(), vec![]), (roomy(), vec![1 << 16]), (roomy(), vec![0, 0, 1 << 16])];
    for version in [Version::Narrow, Version::Wide] {
        bases.push((updated(run, written_by(version)), vec![]));
    }
    for (base, fates) in bases {
        for write in [(0, 1), (1, 3)] {
            for done in 0..12 {
                let Some(opened) = advanced(&base, write, &fates, done) else { break };
                cuts_of_advance(run, &opened, done);
            }
        }
    }
}

fn cuts_of_advance(run: &mut Run, base: &(World, Book), done: u64) {
    let advance = Request::Advance { most: 1 };
    let (cycles, _) = usual(&base.0, &advance, &[], 0);
    for mask in masks(&base.0, &advance) {
        run.origin = format!("every cut of an advance after {done} pages, mask begins {:X?}", &mask[..2]);
        for allowed in 0..=cycles as u32 {
            call_while_open(run, base, &advance, &Call { mask: mask.clone(), allowed, ..base.0.plain() });
        }
    }
}

// ---- forged words ----

// Each word at its limits, in a write that was opened, one page on, before its table and within it.
fn every_word(run: &mut Run) {
    let base = roomy();
    let values = [0, 1, 2, 3, 4, 5, 255, 256, 65534, 65535, 65536, 1 << 32, u64::MAX - 1, u64::MAX];
    for (fates, most) in [(vec![], 0), (vec![], 1), (vec![1 << 16], 4), (vec![1 << 16], 5)] {
        let Some((opened, _)) = advanced(&base, (0, 1), &fates, most) else { continue };
        for place in 0..OPEN_WORDS {
            for value in values {
                run.origin = format!("word {place} is {value} after {most} pages");
                let mut words = opened.open_write().words();
                words[place] = value;
                let mut world = opened.duplicate();
                world.both(|side| OpenWrite::from_words(words).put(&mut side.state));
                calls_on_words(run, &world);
            }
        }
    }
}

// The kind of the old copy, and of another, forged while a write is open: over whitened pages and plain ones.
fn every_kind(run: &mut Run) {
    for (version, logical) in [(Version::White, 0), (Version::Wide, 0), (Version::Wide, 1)] {
        let base = updated(run, written_on(Geometry { blocks: 5, ..SMALL }, version));
        for most in [0, 1, 3] {
            let Some((opened, _)) = advanced(&base, (0, 1), &[], most) else { continue };
            for kind in FORGED_KINDS {
                run.origin = format!("kind {kind:02X} forged for logical block {logical} after {most} pages, {version:?}");
                let mut world = opened.duplicate();
                world.both(|side| side.state[KINDS_AT + logical] = kind);
                calls_on_words(run, &world);
            }
        }
    }
}

fn calls_on_words(run: &mut Run, base: &World) {
    let mut all = requests().to_vec();
    all.extend([0, 1, 2, u64::MAX].map(|most| Request::Advance { most }));
    for request in all {
        for fates in [vec![], vec![1 << 16], vec![0, 1 << 16, 0, 1 << 16]] {
            let mut world = base.duplicate();
            let call = Call { fates, ..world.plain() };
            let buffer = buffer_for(&world, &request);
            world.right(run, &request, &call, &buffer);
            world.read(run, 0, 1);
        }
    }
}

// Any words on a mounted state of any chip, and a few calls.
fn forged(run: &mut Run, random: &mut Random) {
    let geometry = random_geometry(random);
    let mut world = World::new(geometry, random_array(random, &geometry));
    let history = if random.one_in(2) { vec![0; geometry.blocks] } else { random.bytes(geometry.blocks) };
    let (state, write) = (made_state(random, &geometry).to_bytes(), random_open(random, &geometry));
    let state = with_open(random, &state, &write);
    world.both(|side| side.chip.history = history.clone());
    world.both(|side| side.state = state.clone());
    for _ in 0..1 + random.below(6) {
        let most = random_portion(random, &geometry);
        let (block, page) = (random.below(geometry.logical), random.below(geometry.pages));
        let request = random.pick(&[0, 0, 0, 1, 2]);
        let request = [Request::Advance { most }, Request::Read { block, page }, Request::Open { block, page }][request].clone();
        let mut call = random_call(random, &geometry, &request);
        if random.one_in(2) {
            call = Call { allowed: u32::MAX, protected: 0, ..call };
        }
        let buffer = buffer_for(&world, &request);
        world.right(run, &request, &call, &buffer);
    }
}

// ---- chips that are not ready ----

fn advances_in_phase(run: &mut Run) {
    let base = written();
    let Some((opened, _)) = advanced(&base, (0, 1), &[], 1) else { return };
    for phase in (0..10).chain([255, u64::MAX]) {
        for loaded in [0, 1, u64::MAX] {
            for others in [0, 1, 5, 48, u64::MAX] {
                run.origin = format!("an open write, interface in phase {phase}, loaded {loaded}, others {others}");
                let mut interface = vec![others; INTERFACE_WORDS];
                (interface[PHASE], interface[LOADED]) = (phase, loaded);
                let mut world = opened.duplicate();
                world.both(|side| side.chip.interface = interface.clone());
                advance_calls(run, &world);
            }
        }
    }
    for phase in [BUSY, BUSY_STATUS] {
        for operation in 0..6 {
            for (busy, failed) in [(0, 0), (0, 1), (1, 0)] {
                for row in [5, 16] {
                    run.origin = format!("an open write, phase {phase}, operation {operation}, {busy} busy reads, row {row}");
                    advance_calls(run, &in_phase(&opened, phase, operation, busy, failed, row));
                }
            }
        }
    }
}

fn advance_calls(run: &mut Run, base: &World) {
    let read = Request::Read { block: 0, page: 1 };
    for request in [Request::Advance { most: 0 }, Request::Advance { most: 1 }, read] {
        for (allowed, protected) in [(0, 0), (1, 0), (2, 0), (7, 0), (65, 0), (u32::MAX, 0), (u32::MAX, 1)] {
            let mut world = base.duplicate();
            let call = Call { allowed, protected, ..world.plain() };
            let buffer = buffer_for(&world, &request);
            world.right(run, &request, &call, &buffer);
            world.advance(run, 1);
        }
    }
}

// ---- portions beside the plain write ----

// A chip that was formatted and written a few times, by an earlier version too, or any chip with a state of one's own making.
fn drawn_chip(run: &mut Run, random: &mut Random, wild: bool) -> World {
    let geometry = random_geometry(random);
    if wild {
        let mut world = World::new(geometry, random_array(random, &geometry));
        let state = made_state(random, &geometry).to_bytes();
        world.both(|side| side.state = state.clone());
        return world;
    }
    let mut world = World::fresh(geometry);
    world.version = random.pick(ALL);
    world.format(run);
    few_writes(run, random, &mut world);
    if world.version != Version::White {
        world.update(run, Version::White);
        world.mount(run);
        few_writes(run, random, &mut world);
    }
    if random.one_in(12) {
        let state = State { number: u64::MAX - random.below(4) as u64, ..world.state() };
        world.both(|side| side.state = state.to_bytes());
    }
    world
}

fn few_writes(run: &mut Run, random: &mut Random, world: &mut World) {
    let geometry = world.geometry;
    for _ in 0..random.below(2 * geometry.logical) {
        world.write(run, random.below(geometry.logical), random.below(geometry.pages), random.byte());
    }
}

// The same write plain and in portions, each operation with the same word and mask, and power lost at the same cycle, if at all.
fn portions(run: &mut Run, random: &mut Random) {
    let wild = random.one_in(3);
    let mut world = drawn_chip(run, random, wild);
    let geometry = world.geometry;
    let (block, page) = (random.below(geometry.logical), random.below(geometry.pages));
    let write = Request::Write { block, page };
    let bytes = random.bytes(geometry.main);
    let mut call = Call { protected: 0, ..random_call(random, &geometry, &write) };
    if random.one_in(2) {
        call.allowed = u32::MAX;
    }
    let mut plain = world.duplicate();
    let wanted = plain.right(run, &write, &call, &bytes);
    world.watch.on = true;
    let reads = !wild && random.one_in(2);
    let answer = world.right(run, &Request::Open { block, page }, &call, &bytes);
    let (answer, sent) = all_portions(run, random, &mut world, &call, answer, reads);
    expect(run, "answer and cycles of all portions", (answer, sent), (wanted, plain.own.sent[0]));
    let (own, other) = (&world.own, &plain.own);
    let same = own.state == other.state && own.chip.array == other.chip.array && own.chip.history == other.chip.history;
    expect(run, "state and array as the plain write leaves them", same, true);
    if !reads {
        expect(run, "the register", own.chip.register == other.chip.register, true);
        expect(run, "the interface", own.chip.interface[..FATES_USED] == other.chip.interface[..FATES_USED], true);
    }
}

// Answer and cycles once the write is finished or stopped.
fn all_portions(
    run: &mut Run,
    random: &mut Random,
    world: &mut World,
    call: &Call,
    opened: usize,
    reads: bool,
) -> (usize, u64) {
    let (mut answer, mut sent, mut used) = (opened, world.own.sent[0], 0);
    while answer == DONE && world.open_write().is_open() {
        let most = random_portion(random, &world.geometry);
        let allowed = if call.allowed == u32::MAX { u32::MAX } else { call.allowed - sent as u32 };
        let fates = call.fates[used..].to_vec();
        answer = world.right(run, &Request::Advance { most }, &Call { fates, allowed, ..call.clone() }, &[]);
        sent += world.own.sent[0];
        used += world.own.chip.interface[FATES_USED] as usize;
        check_portion(run, world, answer, most);
        if reads && answer == DONE {
            read_between(run, random, world);
        }
    }
    (answer, sent)
}

// Exactly so many page programs, fewer only where the write finishes or stops; nothing after the last.
fn check_portion(run: &Run, world: &World, answer: usize, most: u64) {
    let confirmed = &world.watch.confirmed;
    let programs = confirmed.iter().filter(|sent| sent.program).count() as u64;
    let open = answer == DONE && !world.finished();
    if programs > most || open && programs != most {
        run.fail(&format!("an advance by {most} pages sent {programs}"));
    }
    if answer == DONE && !confirmed.last().map_or(most == 0, |last| last.program) {
        run.fail("an advance ends with an erase, or sends something for nothing");
    }
}

fn read_between(run: &mut Run, random: &mut Random, world: &mut World) {
    let watch = std::mem::take(&mut world.watch);
    let (block, page) = (random.below(world.geometry.logical), random.below(world.geometry.pages));
    let answer = world.read(run, block, page);
    expect(run, "a read between two advances", answer, DONE);
    world.watch = watch;
}
