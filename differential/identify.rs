// Parameter pages, chosen and drawn, and what a chip that puts them out is found to tell.

use super::store::parameters::*;
use super::*;

// Cycles of a question that is not busy: a reset, ECh with its address, 70h, a status read and 00h, then all bytes.
pub const ASKED: u64 = 3 + 5 + PARAMETER_BYTES as u64;

// ---- pages ----

// The copy with the CRC of its other bytes.
fn sealed(mut copy: Vec<u8>) -> Vec<u8> {
    let crc = crc(&copy[..CRC_AT]);
    copy[CRC_AT..].copy_from_slice(&crc.to_le_bytes());
    copy
}

// A good copy that tells these sizes; the other bytes are as given.
fn good_copy(geometry: &Geometry, mut copy: Vec<u8>) -> Vec<u8> {
    copy[..4].copy_from_slice(b"ONFI");
    copy[SPARE_AT..SPARE_AT + 2].copy_from_slice(&(geometry.spare as u16).to_le_bytes());
    for (place, size) in [(MAIN_AT, geometry.main), (PAGES_AT, geometry.pages), (BLOCKS_AT, geometry.blocks)] {
        copy[place..place + 4].copy_from_slice(&(size as u32).to_le_bytes());
    }
    sealed(copy)
}

fn plain_copy(geometry: &Geometry) -> Vec<u8> {
    good_copy(geometry, vec![0; COPY_BYTES])
}

// Three equal copies that tell these sizes.
pub fn parameter_page(geometry: &Geometry) -> Vec<u8> {
    plain_copy(geometry).repeat(3)
}

fn one_bit_wrong(copy: &mut Vec<u8>, bit: usize) {
    copy[bit / 8] ^= 1 << (bit % 8);
}

// Another start, with the right CRC.
fn another_start(copy: &mut Vec<u8>, place: usize, byte: u8) {
    copy[place] = byte;
    *copy = sealed(copy.clone());
}

fn other_sizes(random: &mut Random, geometry: &Geometry) -> Geometry {
    if random.one_in(2) {
        return other_geometry(random, geometry);
    }
    let mut other = *geometry;
    let high = 1 << (8 + random.below(24));
    match random.below(3) {
        0 => other.main += high,
        1 => other.pages += high,
        _ => other.blocks += high,
    }
    other
}

fn random_copy(random: &mut Random, geometry: &Geometry) -> Vec<u8> {
    let told = if random.one_in(4) { other_sizes(random, geometry) } else { *geometry };
    let others = if random.one_in(2) { vec![0; COPY_BYTES] } else { random.bytes(COPY_BYTES) };
    good_copy(&told, others)
}

fn spoil_copy(random: &mut Random, copy: &mut Vec<u8>) {
    match random.below(5) {
        0 | 1 => one_bit_wrong(copy, random.below(8 * COPY_BYTES)),
        2 => another_start(copy, random.below(4), random.byte()),
        3 => copy[CRC_AT..].reverse(),
        _ => *copy = random.bytes(COPY_BYTES),
    }
}

// Three copies, equal ones or each by itself, of which any may be spoilt; now and then another length.
pub fn random_parameters(random: &mut Random, geometry: &Geometry) -> Vec<u8> {
    let first = random_copy(random, geometry);
    let equal = random.one_in(2);
    let spoilt = random.below(8);
    let mut page = Vec::new();
    for place in 0..3 {
        let mut copy = if equal { first.clone() } else { random_copy(random, geometry) };
        if spoilt >> place & 1 == 1 {
            spoil_copy(random, &mut copy);
        }
        page.extend(copy);
    }
    if random.one_in(20) {
        page.resize(other_length(random, PARAMETER_BYTES), 0x4F);
    }
    page
}

// ---- the fixed selection ----

pub fn parameter_pages(run: &mut Run) {
    check_values(run);
    sizes_at_every_limit(run);
    first_good_copy_tells(run);
    every_bit_of_a_copy(run);
    no_good_copy_before_limits(run);
    other_lengths_send_no_cycle(run);
    state_stays_mounted(run);
    drawn_questions(run);
}

fn check_values(run: &mut Run) {
    run.origin = "the check values of the CRC".to_string();
    expect(run, "no byte", crc(&[]), 0x4F4E);
    expect(run, "254 bytes 00h", crc(&[0; 254]), 0x3EEE);
    expect(run, "254 bytes FFh", crc(&[0xFF; 254]), 0xC1E2);
}

type Told = (usize, u64, Vec<u64>);

// Answer, cycles and sizes of a question with this many logical blocks.
fn ask(run: &mut Run, logical: usize, page: &[u8]) -> Told {
    let mut world = World::fresh(SMALL);
    let call = world.plain();
    let answer = world.call(run, Geometry { logical, ..SMALL }, &Request::Identify, &call, page);
    (answer, world.own.sent[0], world.own.sizes)
}

fn sizes(geometry: &Geometry) -> Told {
    let words = [geometry.main, geometry.spare, geometry.pages, geometry.blocks];
    (DONE, ASKED, words.map(|word| word as u64).to_vec())
}

fn refused(answer: usize, cycles: u64) -> Told {
    (answer, cycles, vec![0; SIZE_WORDS])
}

fn sizes_at_every_limit(run: &mut Run) {
    let mut chips = chips_at_limits();
    for high in [1 << 8, 1 << 16, 1 << 24, 1 << 31] {
        chips.push(Geometry { main: SMALL.main + high, ..SMALL });
        chips.push(Geometry { pages: SMALL.pages + high, ..SMALL });
        chips.push(Geometry { blocks: SMALL.blocks + high, ..SMALL });
    }
    chips.extend([1 << 16, 1 << 32, usize::MAX].map(|logical| Geometry { logical, ..SMALL }));
    for geometry in chips {
        run.origin = format!("a chip that tells {geometry:?}");
        let wanted = if geometry.within_limits() { sizes(&geometry) } else { refused(GEOMETRY, ASKED) };
        let told = ask(run, geometry.logical, &parameter_page(&geometry));
        expect(run, "the sizes", told, wanted);
    }
}

// Three copies that tell different sizes, each good or spoilt in one of four ways.
fn first_good_copy_tells(run: &mut Run) {
    let chips = [32, 40, 48].map(|main| Geometry { main, ..SMALL });
    let ways: [fn(&mut Vec<u8>); 4] = [
        |copy| one_bit_wrong(copy, 8 * MAIN_AT),
        |copy| another_start(copy, 3, b'i'),
        |copy| copy[CRC_AT..].reverse(),
        |copy| copy.fill(0),
    ];
    for spoilt in 0..8 {
        for way in ways {
            run.origin = format!("spoilt copies {spoilt:03b}");
            let mut copies = chips.map(|chip| plain_copy(&chip));
            let places = (0..3).filter(|place| spoilt >> place & 1 == 1);
            places.for_each(|place| way(&mut copies[place]));
            let good = (0..3).find(|place| spoilt >> place & 1 == 0);
            let wanted = good.map_or(refused(NO_SIZES, ASKED), |place| sizes(&chips[place]));
            let told = ask(run, SMALL.logical, &copies.concat());
            expect(run, "the first good copy", told, wanted);
        }
    }
}

fn every_bit_of_a_copy(run: &mut Run) {
    for bit in 0..8 * COPY_BYTES {
        run.origin = format!("a copy with bit {bit} wrong");
        let mut page = parameter_page(&SMALL);
        one_bit_wrong(&mut page, bit);
        let told = ask(run, SMALL.logical, &page);
        expect(run, "the second copy", told, sizes(&SMALL));
        page[COPY_BYTES..].fill(0xFF);
        let told = ask(run, SMALL.logical, &page);
        expect(run, "no good copy", told, refused(NO_SIZES, ASKED));
    }
}

fn no_good_copy_before_limits(run: &mut Run) {
    run.origin = "a bad page and a broken limit".to_string();
    let told = ask(run, 3, &[0x4F; PARAMETER_BYTES]);
    expect(run, "no good copy", told, refused(NO_SIZES, ASKED));
    let small = plain_copy(&SMALL);
    let page = [plain_copy(&Geometry { main: 31, ..SMALL }), small.clone(), small].concat();
    let told = ask(run, SMALL.logical, &page);
    expect(run, "a first copy that breaks a limit", told, refused(GEOMETRY, ASKED));
}

fn other_lengths_send_no_cycle(run: &mut Run) {
    for length in [0, 1, 255, 256, 512, 767, 769, 1024, 1536] {
        run.origin = format!("a parameter page of {length} bytes");
        let mut page = parameter_page(&SMALL);
        page.resize(length, 0);
        let told = ask(run, SMALL.logical, &page);
        expect(run, "another length", told, refused(GEOMETRY, 0));
    }
}

// Between requests on a mounted state the question changes nothing that they answer.
fn state_stays_mounted(run: &mut Run) {
    run.origin = "a question between requests".to_string();
    let mut world = World::fresh(SMALL);
    world.format(run);
    for page in [parameter_page(&SMALL), vec![0; PARAMETER_BYTES], Vec::new()] {
        world.simple(run, &Request::Identify, &page);
        let answer = world.write(run, 0, 0, 0xA5);
        expect(run, "a write after a question", answer, DONE);
        world.simple(run, &Request::Identify, &page);
        let answer = world.read(run, 0, 0);
        expect(run, "a read after a question", (answer, world.own.buffer.clone()), (DONE, vec![0xA5; SMALL.main]));
    }
    let call = Call { allowed: ASKED as u32 - 1, ..world.plain() };
    let answer = world.right(run, &Request::Identify, &call, &parameter_page(&SMALL));
    expect(run, "a cut before the last byte", (answer, world.state().status), (CUT, 2));
}

// Drawn pages, fates and allowances, on chips of any kind and with any words left on them.
fn drawn_questions(run: &mut Run) {
    let mut random = Random::new(768);
    for place in 0..500 {
        run.origin = format!("drawn questions, chip {place}");
        let geometry = random_geometry(&mut random);
        let mut world = World::new(geometry, random_array(&mut random, &geometry));
        for _ in 0..10 {
            forge(&mut random, &mut world);
            let call = random_call(&mut random, &geometry, &Request::Identify);
            let page = random_parameters(&mut random, &geometry);
            world.right(run, &Request::Identify, &call, &page);
        }
    }
}
