// Random lists of calls.

use super::*;

// While a write is open every other request advances it.
fn random_request(random: &mut Random, world: &World) -> Request {
    let geometry = &world.geometry;
    if world.open_write().is_open() && random.one_in(2) {
        return Request::Advance { most: random_portion(random, geometry) };
    }
    if world.sells && random.one_in(2) {
        return random_sale_request(random, world);
    }
    let odd = random.one_in(30);
    let mut block = random.below(geometry.logical);
    let mut page = random.below(geometry.pages);
    if odd {
        let far = random.next() as usize;
        block = random.pick(&[block, geometry.logical, geometry.blocks, far, usize::MAX]);
        page = random.pick(&[page, geometry.pages, far, usize::MAX]);
    }
    match random.below(16) {
        0 => Request::Mount,
        1 => Request::QuickMount,
        2 | 3 | 4 => Request::Read { block, page },
        5 | 6 | 7 => Request::Write { block, page },
        8 => Request::Erase { block },
        9 => Request::Identify,
        10 | 11 => Request::Open { block, page },
        12 => Request::Advance { most: random_portion(random, geometry) },
        13 | 14 => random_sale_request(random, world),
        _ => Request::Format,
    }
}

fn either_mount(random: &mut Random) -> Request {
    if random.one_in(2) {
        Request::Mount
    } else {
        Request::QuickMount
    }
}

// Every other write of a box that sells is one of a record.
fn random_buffer(random: &mut Random, world: &World, request: &Request) -> Vec<u8> {
    let geometry = &world.geometry;
    let mut length = geometry.main;
    if random.one_in(40) {
        length = random.pick(&[0, length - 1, length + 1, geometry.page_bytes()]);
    }
    match request {
        Request::Read { .. } => vec![0x5C; length],
        Request::Write { block, page } | Request::Open { block, page } if world.sells && random.one_in(2) => {
            let mut bytes = random_record(random, geometry, block.wrapping_mul(geometry.pages).wrapping_add(*page) & 0xFFFF);
            bytes.resize(length, 0xFF);
            bytes
        }
        Request::Write { .. } | Request::Open { .. } if random.one_in(2) => vec![random.byte(); length],
        Request::Write { .. } | Request::Open { .. } => random.bytes(length),
        Request::Identify => random_parameters(random, geometry),
        _ => Vec::new(),
    }
}

// Any call on any chip, state and interface.
fn wild_list(run: &mut Run, random: &mut Random) {
    let geometry = random_geometry(random);
    let mut world = World::new(geometry, random_array(random, &geometry));
    world.sells = random.one_in(3);
    let history = if random.one_in(2) { vec![0; geometry.blocks] } else { random.bytes(geometry.blocks) };
    let register = random.bytes(geometry.page_bytes());
    world.both(|side| side.chip.history = history.clone());
    world.both(|side| side.chip.register = register.clone());
    if random.one_in(2) {
        let request = either_mount(random);
        world.simple(run, &request, &[]);
    }
    for _ in 0..1 + random.below(10) {
        forge(random, &mut world);
        wild_call(run, random, &mut world);
    }
}

pub fn forge(random: &mut Random, world: &mut World) {
    if random.one_in(3) {
        let state = random_state(random, &world.geometry, &world.own.state);
        world.both(|side| side.state = state.clone());
    }
    if random.one_in(4) {
        let write = random_open(random, &world.geometry);
        let state = with_open(random, &world.own.state, &write);
        world.both(|side| side.state = state.clone());
    }
    if random.one_in(4) {
        let interface = random_interface(random);
        world.both(|side| side.chip.interface = interface.clone());
    }
}

fn wild_call(run: &mut Run, random: &mut Random, world: &mut World) {
    let request = random_request(random, world);
    let call = random_call(random, &world.geometry, &request);
    let buffer = random_buffer(random, world, &request);
    if matches!(request, Request::Format) && random.one_in(2) {
        let logical = other_logical(random, &world.geometry);
        world.call(run, Geometry { logical, ..world.geometry }, &request, &call, &buffer);
        return;
    }
    match random.below(12) {
        0 => {
            let wrong = random_wrong(random, &world.geometry);
            world.wrong(run, &request, &call, &buffer, wrong);
        }
        1 => {
            let other = other_geometry(random, &world.geometry);
            world.call(run, other, &request, &call, &buffer);
        }
        2 => {
            let wrong = random_wrong(random, &world.geometry);
            let right = world.geometry;
            world.geometry = other_geometry(random, &right);
            world.wrong(run, &request, &call, &buffer, wrong);
            world.geometry = right;
        }
        _ => {
            world.right(run, &request, &call, &buffer);
        }
    }
}

// A list after an acknowledged formatting, with the book kept. Every other box is updated in the middle of it, some of them twice.
fn book_list(run: &mut Run, random: &mut Random) {
    let geometry = random_geometry(random);
    let version = random.pick(&[Version::Narrow, Version::Wide, Version::White, Version::White]);
    let mut world = World::new(geometry, used_array(random, &geometry, version));
    world.version = version;
    world.sells = random.one_in(2);
    world.watch.on = true;
    if !acknowledged_formatting(run, random, &mut world) {
        return;
    }
    skip_numbers(random, &mut world);
    run.books += 1;
    let mut book = Book::new(&world.geometry);
    let mut stands = book_calls(run, random, &mut world, &mut book);
    while stands && world.version != Version::White {
        let middle = world.version == Version::Narrow && random.one_in(2);
        world.update(run, if middle { Version::Wide } else { Version::White });
        book.give_up(run);
        stands = book_calls(run, random, &mut world, &mut book);
    }
    if stands {
        last_mount(run, random, &mut world, &mut book);
        book.compare_all(run, &world);
    }
}

// As if many writes had taken numbers: few are left, or few of 32 bits.
fn skip_numbers(random: &mut Random, world: &mut World) {
    let last = match random.below(8) {
        0 => world.version.last_number(),
        1 => Version::Narrow.last_number(),
        _ => return,
    };
    let mut state = world.state();
    state.number = state.number.max(last - random.below(12) as u64);
    world.both(|side| side.state = state.to_bytes());
}

// Whether the book stands at the end.
fn book_calls(run: &mut Run, random: &mut Random, world: &mut World, book: &mut Book) -> bool {
    (0..1 + random.below(25)).all(|_| {
        if random.one_in(20) {
            return book_formatting(run, random, world, book);
        }
        book_call(run, random, world, book);
        true
    })
}

// Mostly the same number of logical blocks.
fn other_logical(random: &mut Random, geometry: &Geometry) -> usize {
    if random.one_in(3) {
        return 1 + random.below(geometry.blocks - 2);
    }
    geometry.logical
}

fn random_formatting(run: &mut Run, random: &mut Random, world: &mut World) -> usize {
    let logical = other_logical(random, &world.geometry);
    let call = random_call(random, &world.geometry, &Request::Format);
    let (left, failed) = (world.left, std::mem::take(&mut world.watch.failed));
    let answer = world.format_for(run, logical, &call);
    if left {
        check_spared(run, world);
    }
    if [PROTECTED, WRITE_OPEN].contains(&answer) {
        world.watch.failed = failed;
    }
    answer
}

// Up to three; between them a mount of what the last one left.
fn acknowledged_formatting(run: &mut Run, random: &mut Random, world: &mut World) -> bool {
    for _ in 0..3 {
        if random_formatting(run, random, world) == DONE {
            return true;
        }
        let request = either_mount(random);
        world.simple(run, &request, &[]);
    }
    false
}

// A formatting within a list. One that is not acknowledged promises nothing of the pages, and is made again: then the book is new.
// Whether it stands.
fn book_formatting(run: &mut Run, random: &mut Random, world: &mut World, book: &mut Book) -> bool {
    let answer = random_formatting(run, random, world);
    if [PROTECTED, WRITE_OPEN].contains(&answer) {
        return true;
    }
    if answer != DONE && !acknowledged_formatting(run, random, world) {
        return false;
    }
    mount_formatted(run, &mut world.duplicate(), DONE);
    run.formatted += 1;
    *book = Book::new(&world.geometry);
    true
}

fn book_call(run: &mut Run, random: &mut Random, world: &mut World, book: &mut Book) {
    let geometry = world.geometry;
    let mounted = world.state().status == 1;
    let mut request = random_request(random, world);
    if matches!(request, Request::Format) || !mounted && random.one_in(2) {
        request = either_mount(random);
    }
    let opens = matches!(request, Request::Open { .. } | Request::Advance { .. });
    if opens && world.version == Version::Narrow {
        request = Request::Erase { block: random.below(geometry.logical) };
    }
    let mut call = random_call(random, &geometry, &request);
    if matches!(request, Request::Advance { .. }) {
        // The line does not change while a write is open.
        call.protected = 0;
    }
    let buffer = random_buffer(random, world, &request);
    let answer = match random.below(25) {
        0 => {
            let wrong = random_wrong(random, &geometry);
            world.wrong(run, &request, &call, &buffer, wrong)
        }
        1 => {
            let broken = broken_geometry(random, &geometry);
            world.call(run, broken, &request, &call, &buffer)
        }
        _ => world.right(run, &request, &call, &buffer),
    };
    book.step(run, world, &request, answer, &buffer);
    if answer == CUT && random.one_in(2) {
        power_on(random, world);
    }
    if request.mounts() && answer == DONE {
        world.watch.failed.clear();
        if random.one_in(4) {
            book.compare_all(run, world);
        }
    }
    if random.one_in(30) {
        lose_power(run, random, world, book);
    }
}

// Between two calls.
fn lose_power(run: &mut Run, random: &mut Random, world: &mut World, book: &mut Book) {
    world.both(|side| side.state.fill(0));
    power_on(random, world);
    book.give_up(run);
}

// The interface as it is after power came on, and any bytes in the page register.
fn power_on(random: &mut Random, world: &mut World) {
    let register = random.bytes(world.geometry.page_bytes());
    world.both(|side| side.chip.interface = vec![0; INTERFACE_WORDS]);
    world.both(|side| side.chip.register = register.clone());
}

// A mount that is neither cut nor silent, with any other fates.
fn last_mount(run: &mut Run, random: &mut Random, world: &mut World, book: &mut Book) {
    let request = either_mount(random);
    let mut call = random_call(random, &world.geometry, &request);
    call.allowed = u32::MAX;
    call.fates.iter_mut().for_each(|fate| *fate &= 0xFFFF_00FF);
    let answer = world.right(run, &request, &call, &[]);
    book.step(run, world, &request, answer, &[]);
    if answer != DONE {
        run.fail("the mount after a list is refused");
    }
}

pub fn one_list(run: &mut Run, seed: u64) {
    let mut random = Random::new(seed);
    run.origin = format!("seed {seed} (repeat with: compare 1 {seed})");
    if random.one_in(2) {
        wild_list(run, &mut random);
    } else {
        book_list(run, &mut random);
    }
}

// Lists with rising seeds until `count` calls were made.
pub fn random_lists(run: &mut Run, count: usize, seed: u64) {
    let last = run.calls + count;
    let mut list = seed;
    while run.calls < last {
        one_list(run, list);
        list = list.wrapping_add(1);
    }
}
