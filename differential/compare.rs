// Compares the library, call by call and byte for byte, with the second implementation in store.rs, dearest.rs, prices.rs, sales.rs
// and draws.rs.
// `compare` runs a fixed selection, `compare COUNT SEED` random lists until COUNT calls were made.

mod book;
mod chips;
mod dearest;
mod dearest_writes;
#[allow(dead_code)]
mod draws;
mod fixed;
mod formattings;
mod identify;
mod journals;
mod library;
mod lists;
mod open_writes;
mod price_tables;
mod prices;
mod sale_lists;
mod sales;
mod store;
mod updates;

use book::*;
use chips::*;
use dearest_writes::*;
use fixed::*;
use formattings::*;
use identify::*;
use journals::*;
use library::*;
use lists::*;
use open_writes::*;
use price_tables::*;
use sale_lists::*;
use std::process::exit;
use store::*;
use updates::*;

fn restore<T: Clone>(part: &mut Vec<T>, kept: &[T]) {
    if part.len() != kept.len() {
        *part = kept.to_vec();
    }
}

impl Side {
    // A copy, without an array that is too long to be shown.
    fn shown_part(&self) -> Side {
        let array = if self.chip.array.len() <= LARGEST_SHOWN { self.chip.array.clone() } else { Vec::new() };
        let interface = self.chip.interface.clone();
        let (register, history) = (self.chip.register.clone(), self.chip.history.clone());
        let chip = Chip { interface, array, register, history };
        let (sent, sizes, finished) = (self.sent.clone(), self.sizes.clone(), self.finished.clone());
        Side { state: self.state.clone(), chip, buffer: self.buffer.clone(), sent, sizes, finished, told: self.told.clone() }
    }

    // Whether state, array and history are as before. A chip that was handed in busy may have ended what it was at.
    fn is_unwritten(&self, before: &Side) -> bool {
        let busy = [BUSY, BUSY_STATUS].contains(&before.chip.interface[PHASE]);
        let array = before.chip.array.is_empty() || self.chip.array == before.chip.array;
        self.state == before.state && (busy || array && self.chip.history == before.chip.history)
    }

    fn restore_lengths(&mut self, kept: &Side) {
        restore(&mut self.state, &kept.state);
        restore(&mut self.sent, &kept.sent);
        restore(&mut self.sizes, &kept.sizes);
        restore(&mut self.finished, &kept.finished);
        restore(&mut self.told, &kept.told);
        restore(&mut self.chip.interface, &kept.chip.interface);
        restore(&mut self.chip.array, &kept.chip.array);
        restore(&mut self.chip.register, &kept.chip.register);
        restore(&mut self.chip.history, &kept.chip.history);
    }
}

// ---- random numbers ----

struct Random(u64);

impl Random {
    fn new(seed: u64) -> Random {
        let mut mixed = seed.wrapping_add(0x9E37_79B9_7F4A_7C15);
        mixed = (mixed ^ mixed >> 30).wrapping_mul(0xBF58_476D_1CE4_E5B9);
        mixed = (mixed ^ mixed >> 27).wrapping_mul(0x94D0_49BB_1331_11EB);
        Random((mixed ^ mixed >> 31) | 1)
    }

    fn next(&mut self) -> u64 {
        self.0 ^= self.0 >> 12;
        self.0 ^= self.0 << 25;
        self.0 ^= self.0 >> 27;
        self.0.wrapping_mul(0x2545_F491_4F6C_DD1D)
    }

    fn below(&mut self, limit: usize) -> usize {
        ((self.next() >> 32) as usize) % limit
    }

    fn one_in(&mut self, count: usize) -> bool {
        self.below(count) == 0
    }

    fn pick<T: Copy>(&mut self, from: &[T]) -> T {
        from[self.below(from.len())]
    }

    fn byte(&mut self) -> u8 {
        (self.next() >> 56) as u8
    }

    fn bytes(&mut self, count: usize) -> Vec<u8> {
        let mut bytes = vec![0; count];
        for part in bytes.chunks_mut(8) {
            part.copy_from_slice(&self.next().to_le_bytes()[..part.len()]);
        }
        bytes
    }
}

// ---- counting and reporting ----

const KINDS: [&str; 15] = [
    "format", "mount", "read", "write", "erase", "identify", "check", "price", "reconcile", "dearest", "quick mount", "open",
    "advance", "append", "takings",
];
const ANSWERS: [usize; 20] = [0, 1, 2, 3, 4, 5, 6, 7, 8, 9, 10, 11, 12, 13, 15, 16, 17, 18, 100, 255];

// Calls that are no requests to the store: the check of price rules, a price, sales held against each other, the dearest write.
const CHECK: usize = 6;
const PRICE: usize = 7;
const RECONCILE: usize = 8;
const DEAREST: usize = 9;

fn kind_of(request: &Request) -> usize {
    match request {
        Request::Format => 0,
        Request::Mount => 1,
        Request::Read { .. } => 2,
        Request::Write { .. } => 3,
        Request::Erase { .. } => 4,
        Request::Identify => 5,
        Request::QuickMount => 10,
        Request::Open { .. } => 11,
        Request::Advance { .. } => 12,
        Request::Append(_) => 13,
        Request::Takings => 14,
    }
}

#[derive(Default)]
struct Run {
    origin: String,
    calls: usize,
    answers: [[usize; ANSWERS.len()]; KINDS.len()],
    books: usize,
    updated: usize,
    formatted: usize,
    entered: usize,
    finished: usize,
    given_up: usize,
    sold: usize,
    halved: usize,
    kept: usize,
    progress: usize,
}

impl Run {
    // For calls that only lead to a chip or measure a request; they are not counted.
    fn of_setting() -> Run {
        Run { origin: "a chip's setting".to_string(), ..Run::default() }
    }

    fn count(&mut self, kind: usize, answer: usize) {
        self.calls += 1;
        match ANSWERS.iter().position(|known| *known == answer) {
            Some(place) => self.answers[kind][place] += 1,
            None => self.fail(&format!("answer {answer} is none of the paper's")),
        }
        if self.progress > 0 && self.calls % self.progress == 0 {
            println!("{}", self.line());
        }
    }

    // Calls by kind and answer.
    fn line(&self) -> String {
        let mut line = format!("{} calls compared", self.calls);
        for (name, answers) in KINDS.iter().zip(&self.answers) {
            line += &format!("; {name}");
            for (answer, count) in ANSWERS.iter().zip(answers).filter(|(_, count)| **count > 0) {
                line += &format!(" {answer}:{count}");
            }
        }
        line += &format!("; {} lists with a book, {} boxes updated", self.books, self.updated);
        line += &format!(", {} formatted within a list", self.formatted);
        line += &format!(", {} requests entered by a mount", self.entered);
        line += &format!("; of opened writes {} finished in portions, {} given up", self.finished, self.given_up);
        line += &format!("; of a year's sales {} acknowledged", self.sold);
        line + &format!(", {} cut, of which {} stood after a mount", self.halved, self.kept)
    }

    fn every_answer(&self) -> bool {
        (0..ANSWERS.len()).all(|place| self.answers.iter().any(|answers| answers[place] > 0))
    }

    fn fail(&self, what: &str) -> ! {
        println!("DIFFERENCE at call {} of {}: {what}", self.calls, self.origin);
        exit(1)
    }
}

// Bytes in hexadecimal, a byte that repeats with its count.
fn shown(bytes: &[u8]) -> String {
    let mut text = String::new();
    let mut place = 0;
    while place < bytes.len() {
        let same = bytes[place..].iter().take_while(|byte| **byte == bytes[place]).count();
        text += &format!("{:02X}", bytes[place]);
        if same > 1 {
            text += &format!("*{same}");
        }
        text.push(' ');
        place += same;
    }
    text
}

fn first_difference(name: &str, own: &[u8], library: &[u8]) -> Option<String> {
    if own == library {
        return None;
    }
    let place = own.iter().zip(library).position(|(a, b)| a != b).unwrap_or(0);
    Some(format!("{name} byte {place}: here {:02X}, library {:02X}", own[place], library[place]))
}

fn first_word(name: &str, own: &[u64], library: &[u64]) -> Option<String> {
    let place = own.iter().zip(library).position(|(a, b)| a != b)?;
    Some(format!("{name} word {place}: here {own:?}, library {library:?}"))
}

fn difference(own: &Side, library: &Side) -> Option<String> {
    first_word("sent", &own.sent, &library.sent)
        .or_else(|| first_word("sizes", &own.sizes, &library.sizes))
        .or_else(|| first_word("finished", &own.finished, &library.finished))
        .or_else(|| first_word("number or takings", &own.told, &library.told))
        .or_else(|| first_word("interface", &own.chip.interface, &library.chip.interface))
        .or_else(|| first_difference("state", &own.state, &library.state))
        .or_else(|| first_difference("history", &own.chip.history, &library.chip.history))
        .or_else(|| first_difference("register", &own.chip.register, &library.chip.register))
        .or_else(|| first_difference("array", &own.chip.array, &library.chip.array))
        .or_else(|| first_difference("buffer", &own.buffer, &library.buffer))
}

fn print_arguments(geometry: &Geometry, request: &Request, call: &Call, before: &Side) {
    println!("{geometry:?} {request:?} allowed {} line {} fates {:X?}", call.allowed, call.protected, call.fates);
    println!("interface {:?} sent {:?} sizes {:?}", before.chip.interface, before.sent, before.sizes);
    if before.state.len() == STATE_BYTES {
        println!("{:?}", OpenWrite::from_bytes(&before.state));
    }
    for (name, bytes) in [
        ("mask", &call.mask),
        ("buffer", &before.buffer),
        ("history", &before.chip.history),
        ("register", &before.chip.register),
        ("state", &before.state),
        ("array", &before.chip.array),
    ] {
        println!("{name} ({} bytes) {}", bytes.len(), shown(bytes));
    }
}

// ---- one chip under both ----

const LARGEST_SHOWN: usize = 200_000;

// A box, and the version of its store: while that is an earlier one, the library takes no part. `left` says that every page
// of an unmarked block that the table does not list is as this store's programs and erases leave pages, `sells` that requests are
// mostly drawn for a journal.
struct World {
    geometry: Geometry,
    version: Version,
    left: bool,
    sells: bool,
    own: Side,
    library: Side,
    watch: Watch,
}

// Lengths that one call gets instead of the right ones.
#[derive(Clone, Copy, PartialEq, Eq, Debug)]
enum Wrong {
    State(usize),
    Interface(usize),
    Sent(usize),
    Sizes(usize),
    Finished(usize),
    Told(usize),
    Array(usize),
    Register(usize),
    History(usize),
    Mask(usize),
}

impl World {
    fn new(geometry: Geometry, array: Vec<u8>) -> World {
        let chip = Chip {
            interface: vec![0; INTERFACE_WORDS],
            array,
            register: vec![0; geometry.page_bytes()],
            history: vec![0; geometry.blocks],
        };
        let (state, sizes) = (vec![0; STATE_BYTES], vec![0; SIZE_WORDS]);
        let own = Side { state, chip, buffer: Vec::new(), sent: vec![0], sizes, finished: vec![0], told: vec![0] };
        let (left, sells) = (false, false);
        World { geometry, version: Version::White, left, sells, library: own.clone(), own, watch: Watch::default() }
    }

    fn fresh(geometry: Geometry) -> World {
        World::new(geometry, vec![0xFF; geometry.chip_bytes()])
    }

    // Changes both sides alike.
    fn both(&mut self, change: impl Fn(&mut Side)) {
        change(&mut self.own);
        change(&mut self.library);
    }

    fn state(&self) -> State {
        State::from_bytes(&self.own.state)
    }

    fn open_write(&self) -> OpenWrite {
        OpenWrite::from_bytes(&self.own.state)
    }

    // Of the last advance, which was answered 0.
    fn finished(&self) -> bool {
        self.own.finished == [1]
    }

    fn mask(&self, byte: u8) -> Vec<u8> {
        vec![byte; self.geometry.block_bytes()]
    }

    fn plain(&self) -> Call {
        Call { mask: self.mask(0), fates: Vec::new(), allowed: u32::MAX, protected: 0 }
    }

    // The box is updated to a later version, with the power off: every page on its chip is of a kind that its store wrote so far, or not
    // whole.
    fn update(&mut self, run: &mut Run, version: Version) {
        let pages = self.own.chip.array.chunks(self.geometry.page_bytes());
        let mut kinds = pages.filter_map(|page| Some(whole_page(&self.geometry, page)?.kind));
        if kinds.any(|kind| !self.version.knows(kind)) {
            run.fail("a page of an earlier version passes as one of a later version");
        }
        self.version = version;
        self.own.state.fill(0);
        self.own.chip.interface.fill(0);
        self.library = self.own.clone();
        run.updated += 1;
    }

    // One call on both sides, which are alike before it; the answer. Of a formatting also what it must keep.
    fn call(&mut self, run: &mut Run, geometry: Geometry, request: &Request, call: &Call, buffer: &[u8]) -> usize {
        self.both(|side| side.buffer = buffer.to_vec());
        self.both(|side| side.sent.fill(0xABCD));
        self.both(|side| side.sizes.fill(0xABCD));
        self.both(|side| side.finished.fill(0xABCD));
        self.both(|side| side.told.fill(0xABCD));
        let before = self.own.shown_part();
        let (mask, fates) = (call.mask.clone(), call.fates.clone());
        let answer = self.own_call(&geometry, request, call);
        if matches!(request, Request::Format) && ![GEOMETRY, BAD_BUFFER].contains(&answer) {
            keeps_carried(run, &geometry, &before.chip, &self.own.chip, self.left);
        }
        if self.version != Version::White {
            return answer;
        }
        run.count(kind_of(request), answer);
        let theirs = library(&geometry, request, &mut self.library, call);
        let found = difference(&self.own, &self.library);
        if answer != theirs || found.is_some() || call.mask != mask || call.fates != fates {
            print_arguments(&geometry, request, &Call { mask, fates, ..*call }, &before);
            let found = found.unwrap_or("all bytes alike, or mask or fates written".to_string());
            run.fail(&format!("answered {answer} here, {theirs} by the library; {found}"));
        }
        if answer == PROTECTED && !self.own.is_unwritten(&before) {
            run.fail("a protected request has changed something");
        }
        answer
    }

    fn own_call(&mut self, geometry: &Geometry, request: &Request, call: &Call) -> usize {
        self.watch.confirmed.clear();
        store::call(self.version, geometry, request, &mut self.own, call, &mut self.watch)
    }

    fn right(&mut self, run: &mut Run, request: &Request, call: &Call, buffer: &[u8]) -> usize {
        self.call(run, self.geometry, request, call, buffer)
    }

    fn simple(&mut self, run: &mut Run, request: &Request, buffer: &[u8]) -> usize {
        let call = self.plain();
        self.right(run, request, &call, buffer)
    }

    fn format(&mut self, run: &mut Run) -> usize {
        self.simple(run, &Request::Format, &[])
    }

    // A formatting for so many logical blocks, the number that it goes on with where it is acknowledged: its pages are then as this
    // store leaves them.
    fn format_for(&mut self, run: &mut Run, logical: usize, call: &Call) -> usize {
        let geometry = Geometry { logical, ..self.geometry };
        let answer = self.call(run, geometry, &Request::Format, call, &[]);
        if answer == DONE {
            self.geometry = geometry;
            self.left = true;
        }
        answer
    }

    fn mount(&mut self, run: &mut Run) -> usize {
        self.simple(run, &Request::Mount, &[])
    }

    fn quick_mount(&mut self, run: &mut Run) -> usize {
        self.simple(run, &Request::QuickMount, &[])
    }

    fn write(&mut self, run: &mut Run, block: usize, page: usize, byte: u8) -> usize {
        let bytes = vec![byte; self.geometry.main];
        self.simple(run, &Request::Write { block, page }, &bytes)
    }

    fn open(&mut self, run: &mut Run, block: usize, page: usize, byte: u8) -> usize {
        let bytes = vec![byte; self.geometry.main];
        self.simple(run, &Request::Open { block, page }, &bytes)
    }

    fn advance(&mut self, run: &mut Run, most: u64) -> usize {
        self.simple(run, &Request::Advance { most }, &[])
    }

    fn read(&mut self, run: &mut Run, block: usize, page: usize) -> usize {
        let buffer = vec![0x5C; self.geometry.main];
        self.simple(run, &Request::Read { block, page }, &buffer)
    }

    fn erase(&mut self, run: &mut Run, block: usize) -> usize {
        self.simple(run, &Request::Erase { block }, &[])
    }

    // The answer, and the number of the record.
    fn append(&mut self, run: &mut Run, sale: Sale) -> (usize, u64) {
        let answer = self.simple(run, &Request::Append(sale), &[]);
        (answer, self.own.told[0])
    }

    fn takings(&mut self, run: &mut Run) -> (usize, u64) {
        let answer = self.simple(run, &Request::Takings, &[]);
        (answer, self.own.told[0])
    }

    // A call in which one buffer may have another length; such a buffer is as before afterwards.
    fn wrong(&mut self, run: &mut Run, request: &Request, call: &Call, buffer: &[u8], wrong: Wrong) -> usize {
        let kept = self.own.clone();
        let mut call = call.clone();
        match wrong {
            Wrong::State(length) => self.both(|side| side.state.resize(length, 0x11)),
            Wrong::Interface(length) => self.both(|side| side.chip.interface.resize(length, 1)),
            Wrong::Sent(length) => self.both(|side| side.sent.resize(length, 7)),
            Wrong::Sizes(length) => self.both(|side| side.sizes.resize(length, 7)),
            Wrong::Finished(length) => self.both(|side| side.finished.resize(length, 7)),
            Wrong::Told(length) => self.both(|side| side.told.resize(length, 7)),
            Wrong::Array(length) => self.both(|side| side.chip.array.resize(length, 0xFF)),
            Wrong::Register(length) => self.both(|side| side.chip.register.resize(length, 0x22)),
            Wrong::History(length) => self.both(|side| side.chip.history.resize(length, 0)),
            Wrong::Mask(length) => call.mask.resize(length, 0xF0),
        }
        let answer = self.right(run, request, &call, buffer);
        self.both(|side| side.restore_lengths(&kept));
        answer
    }

    fn duplicate(&self) -> World {
        let World { geometry, version, left, sells, .. } = *self;
        World { geometry, version, left, sells, own: self.own.clone(), library: self.own.clone(), watch: self.watch.clone() }
    }
}

fn main() {
    let arguments: Vec<String> = std::env::args().skip(1).collect();
    let mut run = Run::default();
    match arguments.as_slice() {
        [] => {
            fixed_selection(&mut run);
            if !run.every_answer() {
                run.fail("an answer never came up");
            }
        }
        [count, seed] => {
            let number = |text: &str| text.parse::<u64>().unwrap_or_else(|_| usage());
            let count = number(count) as usize;
            bench_figures(&mut run);
            run.progress = (count / 20).max(100_000);
            random_lists(&mut run, count, number(seed));
        }
        _ => usage(),
    }
    println!("{}", run.line());
}

fn usage() -> ! {
    println!("usage: compare [COUNT SEED]");
    exit(2)
}
