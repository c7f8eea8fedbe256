// Random chips of pages of every kind, states, interfaces, masks, fates and lengths.

use super::*;

pub const SMALL: Geometry = Geometry { main: 32, spare: 16, pages: 4, blocks: 4, logical: 2 };

pub fn random_geometry(random: &mut Random) -> Geometry {
    let mut pages = random.pick(&[4, 4, 4, 8]);
    let mut main = random.pick(&[32, 32, 33, 40, 48, 64]);
    let mut spare = random.pick(&[16, 16, 17, 20, 24]);
    let mut blocks = 4 + random.below(6);
    match random.below(60) {
        0 => blocks = 10 + random.below(30),
        1 => pages = random.pick(&[16, 32, 64]),
        2 => main = random.pick(&[240, 256, 300, 520]),
        3 => spare = random.pick(&[64, 255, 256]),
        _ => {}
    }
    let logical = 1 + random.below(blocks - 2);
    Geometry { main, spare, pages, blocks, logical }
}

// Versions that the pages of a chip may be from: one, or several side by side.
const NARROW: &[Version] = &[Version::Narrow];
const WIDE: &[Version] = &[Version::Wide];
const WHITE: &[Version] = &[Version::White];
const OLD: &[Version] = &[Version::Narrow, Version::Wide];
pub const ALL: &[Version] = &[Version::Narrow, Version::Wide, Version::White];

// Of a chip that a store of this version finds.
fn random_versions(random: &mut Random, store: Version) -> &'static [Version] {
    match store {
        Version::Narrow => NARROW,
        Version::Wide => random.pick(&[NARROW, WIDE, OLD]),
        Version::White => random.pick(&[NARROW, WIDE, WHITE, OLD, ALL, ALL]),
    }
}

// Small ones, any, and those where the layouts end.
pub fn random_number(random: &mut Random) -> u64 {
    match random.below(12) {
        0 => u64::MAX,
        1 => u64::MAX - random.below(3) as u64,
        2 => Version::Narrow.last_number() - 2 + random.below(5) as u64,
        3 => random.next() >> random.below(64),
        4 => random.below(12) as u64 | 1 << (32 + random.below(32)),
        _ => random.below(12) as u64,
    }
}

// What the pages of a chip are drawn from: their versions and the greatest number.
#[derive(Clone, Copy)]
struct Drawn {
    versions: &'static [Version],
    most: u64,
}

// One of the versions, and the number as far as there is room for it.
fn in_version(random: &mut Random, drawn: Drawn, number: u64) -> (Version, u64) {
    let version = random.pick(drawn.versions);
    (version, (number & version.last_number()).min(drawn.most))
}

fn random_main(random: &mut Random, geometry: &Geometry) -> Vec<u8> {
    match random.below(4) {
        0 => vec![0xFF; geometry.main],
        1 => vec![random.byte(); geometry.main],
        _ => random.bytes(geometry.main),
    }
}

fn random_label(random: &mut Random, geometry: &Geometry, drawn: Drawn) -> Label {
    let page = random.below(geometry.pages + 1);
    let number = random_number(random);
    let (version, number) = in_version(random, drawn, number);
    if random.one_in(3) {
        return table_label(version, page, number);
    }
    data_label(version, random.below(geometry.logical + 2), page, number)
}

// A copy whose pages bear the label, each with its own place.
pub fn copy_block(random: &mut Random, geometry: &Geometry, label: Label) -> Vec<u8> {
    let mut block = Vec::new();
    let journal = random.one_in(3);
    for page in 0..geometry.pages {
        let place = label.logical as usize * geometry.pages + page;
        let main = if journal { random_record(random, geometry, place) } else { random_main(random, geometry) };
        block.extend(encode_page(geometry, &main, &Label { page: page as u8, ..label }));
    }
    block
}

// A table over a random bitmap that mostly leaves its own block and the unused bits aside.
fn table_block(random: &mut Random, geometry: &Geometry, own: usize, label: Label) -> Vec<u8> {
    let mut invalid = vec![0u8; 512];
    let wild = random.one_in(12);
    let places = if wild { (geometry.blocks + 7) / 8 * 8 } else { geometry.blocks };
    for place in 0..places {
        if random.one_in(6) && (wild || place != own) {
            invalid[place / 8] |= 1 << (place % 8);
        }
    }
    table_of(random, geometry, &invalid, label)
}

fn table_of(random: &mut Random, geometry: &Geometry, invalid: &[u8], label: Label) -> Vec<u8> {
    let named = if random.one_in(6) { random_word(random) as u16 as usize } else { geometry.logical };
    let mut main = table_main(&Geometry { logical: named, ..*geometry }, invalid);
    if random.one_in(5) {
        spoil_table(random, geometry, &mut main);
    }
    let logical = if random.one_in(20) { random.below(3) as u16 } else { 0 };
    let other = if random.one_in(20) { random.below(geometry.pages) } else { 0 };
    let mut block = Vec::new();
    for page in 0..geometry.pages {
        let mut bytes = if page == 0 { main.clone() } else { vec![0xFF; geometry.main] };
        if page == other && page > 0 {
            bytes[random.below(geometry.main)] = 0x7F;
        }
        block.extend(encode_page(geometry, &bytes, &Label { logical, page: page as u8, ..label }));
    }
    block
}

fn spoil_table(random: &mut Random, geometry: &Geometry, main: &mut [u8]) {
    let place = match random.below(3) {
        0 => random.below(8),
        1 => 8 + random.below((geometry.blocks + 7) / 8),
        _ => random.below(geometry.main),
    };
    main[place] ^= 1 << random.below(8);
}

// Pages that do not belong together.
fn mixed_block(random: &mut Random, geometry: &Geometry, drawn: Drawn) -> Vec<u8> {
    let mut block = Vec::new();
    for _ in 0..geometry.pages {
        let main = random_main(random, geometry);
        let label = random_label(random, geometry, drawn);
        block.extend(encode_page(geometry, &main, &label));
    }
    block
}

fn random_block(random: &mut Random, geometry: &Geometry, drawn: Drawn, own: usize, number: u64) -> Vec<u8> {
    let size = geometry.block_bytes();
    let (version, number) = in_version(random, drawn, number);
    let mut block = match random.below(12) {
        0 | 1 => vec![0xFF; size],
        2 => random.bytes(size),
        3 | 4 => table_block(random, geometry, own, table_label(version, 0, number)),
        5 => mixed_block(random, geometry, drawn),
        6 => copy_block(random, geometry, data_label(version, geometry.logical, 0, number)),
        _ => {
            let logical = random.below(geometry.logical);
            copy_block(random, geometry, data_label(version, logical, 0, number))
        }
    };
    if random.one_in(4) {
        damage(random, geometry, &mut block);
    }
    if drawn.versions.len() > 1 && random.one_in(10) {
        relay_page(random, geometry, drawn, &mut block);
    }
    block
}

// Bits raised or cleared, a kind raised to a later one, a missing tail, a mark, or a wrong byte past the number.
fn damage(random: &mut Random, geometry: &Geometry, block: &mut [u8]) {
    let size = geometry.page_bytes();
    let page = random.below(geometry.pages) * size;
    match random.below(9) {
        0 => block[page..].fill(0xFF),
        1 => (page..page + size).for_each(|place| block[place] |= random.byte() & random.byte()),
        2 => block[random.below(geometry.block_bytes())] |= 1 << random.below(8),
        3 => block[random.below(geometry.block_bytes())] &= !(1 << random.below(8)),
        4 => block[random.below(2) * size + geometry.main] = random.byte(),
        5 => block[page + geometry.main] = random.byte(),
        6 => {
            let bits = random.pick(&KIND_BITS);
            (0..geometry.pages).for_each(|page| block[page * size + geometry.main + 1] |= bits);
        }
        7 => {
            block[page + geometry.main + 1] |= random.pick(&KIND_BITS);
            (page..page + size).for_each(|place| block[place] |= random.byte() & random.byte() & random.byte());
        }
        _ => block[page + geometry.main + 11 + random.below(geometry.spare - 11)] = random.byte(),
    }
}

// Bits that the kinds of later versions have and those of earlier ones have not: from the narrow layout to the wide one, from plain pages
// to whitened ones, and both.
pub const KIND_BITS: [u8; 3] = [0x20, 0x08, 0x28];

// The whole page as another version writes it, with the same meaning and as much of its number as there is room for.
pub fn relaid(geometry: &Geometry, page: &[u8], version: Version) -> Option<Vec<u8>> {
    let label = whole_page(geometry, page)?;
    let main = formed(label.kind, label.page as usize, &page[..geometry.main]);
    let kind = if label.is_data() { version.data_kind() } else { version.table_kind() };
    Some(encode_page(geometry, &main, &Label { kind, ..label }))
}

// One whole page as of another version.
fn relay_page(random: &mut Random, geometry: &Geometry, drawn: Drawn, block: &mut [u8]) {
    let from = geometry.page_start(0, random.below(geometry.pages));
    let page = &mut block[from..from + geometry.page_bytes()];
    if let Some(relaid) = relaid(geometry, page, random.pick(drawn.versions)) {
        page.copy_from_slice(&relaid);
    }
}

pub fn random_array(random: &mut Random, geometry: &Geometry) -> Vec<u8> {
    let versions = random_versions(random, Version::White);
    array_of(random, geometry, Drawn { versions, most: u64::MAX })
}

fn array_of(random: &mut Random, geometry: &Geometry, drawn: Drawn) -> Vec<u8> {
    match random.below(12) {
        0 => vec![0xFF; geometry.chip_bytes()],
        1 => random.bytes(geometry.chip_bytes()),
        2 => vec![0; geometry.chip_bytes()],
        3 => (0..geometry.blocks).flat_map(|_| mixed_block(random, geometry, drawn)).collect(),
        _ => {
            let numbers = random_numbers(random, geometry.blocks);
            let all = numbers.into_iter().enumerate();
            all.flat_map(|(block, number)| random_block(random, geometry, drawn, block, number)).collect()
        }
    }
}

// A number for each block: mostly different ones, few that come often, or any.
fn random_numbers(random: &mut Random, count: usize) -> Vec<u64> {
    let few = [random_number(random), random_number(random)];
    let often = random.pick(&[2, 5, 1000]);
    let (count, narrow_last) = (count as u64, Version::Narrow.last_number());
    let start = random.pick(&[1, 20, narrow_last - count, narrow_last - count / 2, u64::MAX - count]);
    let mut numbers: Vec<u64> = (1..=count).map(|place| start + place).collect();
    for place in (1..numbers.len()).rev() {
        numbers.swap(place, random.below(place + 1));
    }
    for number in &mut numbers {
        match random.below(often) {
            0 => *number = random.pick(&few),
            1 => *number = random_number(random),
            _ => {}
        }
    }
    numbers
}

// A chip of which few blocks are marked and few hold one of the last numbers, so that a formatting mostly succeeds; its pages
// are of no later version than the store.
pub fn used_array(random: &mut Random, geometry: &Geometry, store: Version) -> Vec<u8> {
    let versions = random_versions(random, store);
    let room = if random.one_in(8) { 0 } else { 100 };
    let mut array = array_of(random, geometry, Drawn { versions, most: store.last_number() - room });
    let size = geometry.page_bytes();
    for block in 0..geometry.blocks {
        let from = geometry.page_start(block, 0) + geometry.main;
        if !random.one_in(10) {
            array[from] = 0xFF;
            array[from + size] = 0xFF;
        }
    }
    array
}

pub fn random_mask(random: &mut Random, geometry: &Geometry) -> Vec<u8> {
    let size = geometry.block_bytes();
    match random.below(6) {
        0 | 1 => vec![0xFF; size],
        2 => vec![0; size],
        3 => (0..size).map(|_| random.byte() | random.byte() | random.byte()).collect(),
        4 => masked_part(random, size),
        _ => random.bytes(size),
    }
}

fn masked_part(random: &mut Random, size: usize) -> Vec<u8> {
    let (first, second) = (random.byte(), random.byte());
    let middle = random.below(size);
    let mut mask = vec![if first & 1 == 0 { 0 } else { 0xFF }; size];
    mask[middle..].fill(if second & 1 == 0 { 0xFF } else { 0 });
    mask
}

fn random_fate(random: &mut Random, failing: usize) -> u32 {
    let busy = match random.below(12) {
        0 => random.below(5),
        1 if random.one_in(4) => random.pick(&[254, 255]),
        2 if random.one_in(20) => random.pick(&[256, 257, 300, 511, 512, 65535]),
        _ => 0,
    };
    let fail = if random.one_in(failing) { 1 << 16 } else { 0 };
    let ignored = if random.one_in(3) { (random.next() as u32) << 17 } else { 0 };
    busy as u32 | fail | ignored
}

pub fn random_fates(random: &mut Random, geometry: &Geometry) -> Vec<u32> {
    if random.one_in(2) {
        return Vec::new();
    }
    let most = 3 * geometry.pages * geometry.blocks;
    let count = if random.one_in(2) { random.below(6) } else { random.below(most) };
    let failing = random.pick(&[2, 4, 10, 40]);
    (0..count).map(|_| random_fate(random, failing)).collect()
}

// About as many cycles as the request sends unbusied.
fn usual_cycles(geometry: &Geometry, request: &Request) -> usize {
    let page = geometry.page_bytes() + 10;
    match request {
        Request::Format => cycles_of_reads(geometry) as usize + 9 + geometry.blocks * 7 + geometry.pages * page,
        Request::Mount => cycles_of_reads(geometry) as usize,
        Request::QuickMount => 3 + geometry.blocks * (geometry.pages * page + 11),
        Request::Read { .. } => 10 + geometry.main,
        Request::Identify => ASKED as usize,
        Request::Open { .. } => 2,
        Request::Advance { most } => 7 + (*most).min(2 * geometry.pages as u64) as usize * 2 * page,
        Request::Append(_) => 9 + geometry.pages * 4 * page,
        Request::Takings => geometry.pages * 2 * page,
        _ => 9 + geometry.pages * 2 * page,
    }
}

pub fn random_allowance(random: &mut Random, geometry: &Geometry, request: &Request) -> u32 {
    match random.below(10) {
        0 => random.below(14) as u32,
        1 | 2 => random.below(usual_cycles(geometry, request) + 5) as u32,
        3 => random.below(2 * usual_cycles(geometry, request)) as u32,
        4 | 5 | 6 if matches!(request, Request::Format) => cut_late(random, geometry),
        _ => u32::MAX,
    }
}

// A formatting cut after its page reads.
fn cut_late(random: &mut Random, geometry: &Geometry) -> u32 {
    let reads = cycles_of_reads(geometry);
    reads + random.below(2 * (usual_cycles(geometry, &Request::Format) - reads as usize)) as u32
}

pub fn random_call(random: &mut Random, geometry: &Geometry, request: &Request) -> Call {
    let mut fates = random_fates(random, geometry);
    if matches!(request, Request::Format) && !random.one_in(4) {
        fates = after_reads(geometry, &fates);
    }
    Call {
        mask: random_mask(random, geometry),
        fates,
        allowed: random_allowance(random, geometry, request),
        protected: random_line(random),
    }
}

// The write-protect line is low in one call of five.
fn random_line(random: &mut Random) -> u64 {
    if random.one_in(5) {
        random_word(random).max(1)
    } else {
        0
    }
}

// ---- wrong arguments ----

pub fn other_length(random: &mut Random, right: usize) -> usize {
    match random.below(5) {
        0 => 0,
        1 => right - 1,
        2 => right + 1,
        3 => right / 2,
        _ => random.below(2 * right + 2),
    }
}

pub fn random_wrong(random: &mut Random, geometry: &Geometry) -> Wrong {
    match random.below(10) {
        0 => Wrong::State(other_length(random, STATE_BYTES)),
        1 => Wrong::Interface(other_length(random, INTERFACE_WORDS)),
        2 => Wrong::Sent(other_length(random, 1)),
        3 => Wrong::Array(other_length(random, geometry.chip_bytes())),
        4 => Wrong::Register(other_length(random, geometry.page_bytes())),
        5 => Wrong::History(other_length(random, geometry.blocks)),
        6 => Wrong::Sizes(other_length(random, SIZE_WORDS)),
        7 => Wrong::Finished(other_length(random, 1)),
        8 => Wrong::Told(other_length(random, 1)),
        _ => Wrong::Mask(other_length(random, geometry.block_bytes())),
    }
}

fn odd_number(random: &mut Random, right: usize) -> usize {
    match random.below(8) {
        0 => 0,
        1 => random.below(20),
        2 => usize::MAX - random.below(3),
        3 => right.wrapping_add(1),
        4 => right.wrapping_sub(1),
        5 => random.next() as usize,
        6 => 1usize << random.below(64),
        _ => random.pick(&[15, 31, 257, 4095, 4097, 65536, usize::MAX / 2 + 1]),
    }
}

pub fn other_geometry(random: &mut Random, geometry: &Geometry) -> Geometry {
    let mut other = *geometry;
    match random.below(7) {
        0 => other.main = odd_number(random, other.main),
        1 => other.spare = odd_number(random, other.spare),
        2 => other.pages = odd_number(random, other.pages),
        3 => other.blocks = odd_number(random, other.blocks),
        4 => other.logical = odd_number(random, other.logical),
        5 => (other.main, other.spare) = (other.main + 1, other.spare - 1),
        _ => (other.pages, other.blocks) = (other.pages * 2, other.blocks / 2),
    }
    other
}

// A geometry that breaks a limit.
pub fn broken_geometry(random: &mut Random, geometry: &Geometry) -> Geometry {
    loop {
        let other = other_geometry(random, geometry);
        if !other.within_limits() {
            return other;
        }
    }
}

// ---- states and interfaces ----

pub fn random_interface(random: &mut Random) -> Vec<u64> {
    let mut interface: Vec<u64> = (0..INTERFACE_WORDS).map(|_| random_word(random)).collect();
    interface[PHASE] = match random.below(4) {
        0 | 1 => random.below(3) as u64,
        2 => random.below(10) as u64,
        _ => random_word(random),
    };
    interface
}

fn random_word(random: &mut Random) -> u64 {
    match random.below(4) {
        0 => 0,
        1 => 1,
        2 => random.below(70) as u64,
        _ => random.next() >> random.below(64),
    }
}

// Those of copies, those near the whitened one, and any.
pub fn random_kind(random: &mut Random) -> u8 {
    let near = WHITE_KIND ^ 1 << random.below(8);
    let any = random.byte();
    random.pick(&[0, 0x44, 0x64, WHITE_KIND, WHITE_KIND, WHITE_KIND, near, any])
}

// A mounted state of one's own making, which any chip may belie.
pub fn made_state(random: &mut Random, geometry: &Geometry) -> State {
    let mut state = State::from_bytes(&vec![0; STATE_BYTES]);
    let mut blocks: Vec<usize> = (0..geometry.blocks).collect();
    for place in (1..blocks.len()).rev() {
        blocks.swap(place, random.below(place + 1));
    }
    state.status = 1;
    state.table = blocks.pop().unwrap() as u64;
    state.last = random.below(geometry.blocks) as u64;
    state.number = if random.one_in(3) { random_number(random) } else { 100 };
    state.map.fill(0xFFFF);
    for logical in 0..geometry.logical {
        if random.one_in(2) {
            state.map[logical] = blocks.pop().unwrap() as u16;
        }
        state.kinds[logical] = random_kind(random);
    }
    for block in blocks {
        match random.below(8) {
            0 => state.marks[block / 8] |= 1 << (block % 8),
            1 => state.invalid[block / 8] |= 1 << (block % 8),
            _ => {}
        }
    }
    state
}

// One field changed.
pub fn change_state(random: &mut Random, geometry: &Geometry, state: &mut State) {
    let block = random.below(geometry.blocks + 2);
    let place = if random.one_in(3) { random.below(4096) } else { block };
    let word = random_word(random);
    match random.below(11) {
        0 => state.status = word,
        1 => state.table = random.pick(&[block as u64, word]),
        2 => state.last = random.pick(&[block as u64, word]),
        3 => state.number = if random.one_in(2) { random_number(random) } else { word },
        4 => state.marks[place / 8] ^= 1 << (place % 8),
        5 => state.invalid[place / 8] ^= 1 << (place % 8),
        6 => state.map[random.below(geometry.logical)] = random.pick(&[block as u16, word as u16]),
        7 => state.map[geometry.logical] = random.pick(&[0xFFFF, block as u16, 0]),
        8 => state.kinds[random.below(geometry.logical)] = random_kind(random),
        9 => state.kinds[random.below(4096)] = random_kind(random),
        _ => state.map[random.below(4096)] = word as u16,
    }
}

pub fn random_state(random: &mut Random, geometry: &Geometry, present: &[u8]) -> Vec<u8> {
    match random.below(6) {
        0 => random.bytes(STATE_BYTES),
        1 => vec![random.pick(&[0, 1, 2, 0xFF]); STATE_BYTES],
        2 | 3 => made_state(random, geometry).to_bytes(),
        4 => {
            let mut state = made_state(random, geometry);
            change_state(random, geometry, &mut state);
            state.to_bytes()
        }
        _ => {
            let mut state = State::from_bytes(present);
            change_state(random, geometry, &mut state);
            state.to_bytes()
        }
    }
}

// ---- open writes ----

// Mostly one that this geometry allows; each word also at its limits and beyond.
pub fn random_open(random: &mut Random, geometry: &Geometry) -> OpenWrite {
    let Geometry { pages, blocks, logical, .. } = *geometry;
    let (old, page) = (random_place(random, blocks), random_place(random, pages));
    OpenWrite {
        opened: random.pick(&[1, 1, 1, 1, 0, 2, u64::MAX]),
        table: random.pick(&[0, 0, 0, 1, 2, u64::MAX]),
        filling: random.pick(&[0, 0, 1, 2, 2, 3, u64::MAX]),
        logical: random_place(random, logical),
        first: random_place(random, pages),
        old: random.pick(&[0xFFFF, blocks as u64, old, old]),
        block: random_place(random, blocks),
        number: random_number(random),
        page: random.pick(&[0, page, page]),
        failed: random.pick(&[0, 0, 1, 2, u64::MAX]),
    }
}

// Below the limit, now and then not.
fn random_place(random: &mut Random, limit: usize) -> u64 {
    if random.one_in(30) {
        let word = random_word(random);
        return random.pick(&[limit as u64, limit as u64 + 1, u64::MAX, word]);
    }
    random.below(limit) as u64
}

// The state with these words and any page.
pub fn with_open(random: &mut Random, state: &[u8], write: &OpenWrite) -> Vec<u8> {
    let mut state = state.to_vec();
    write.put(&mut state);
    let page = if random.one_in(4) { vec![random.byte(); MOST_MAIN] } else { random.bytes(MOST_MAIN) };
    state[PAGE_AT..KINDS_AT].copy_from_slice(&page);
    state
}

// How many page programs an advance is given.
pub fn random_portion(random: &mut Random, geometry: &Geometry) -> u64 {
    match random.below(8) {
        0 => 0,
        1 => random.next() >> random.below(64),
        2 => u64::MAX,
        3 => random.below(3 * geometry.pages) as u64,
        _ => 1 + random.below(3) as u64,
    }
}
