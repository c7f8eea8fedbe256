// Times the library against the second implementation in differential/store.rs: the same calls on equal buffers, in turn,
// on the part with 2,048 + 128 bytes a page, 64 pages a block and 4,096 blocks. Prints four tables in Markdown. The exit
// status is 1 where an answer, the cycles sent or a byte differ, or an answer is not 0.

#[path = "../differential/draws.rs"]
mod draws;
#[path = "../differential/library.rs"]
mod library;
#[allow(dead_code)]
#[path = "../differential/store.rs"]
mod store;

use draws::*;
use library::*;
use store::*;

// ---- the two sides ----

extern "C" {
    fn test_load_draw(last: u32) -> u32;
    fn clock_gettime(clock: i32, time: *mut [i64; 2]) -> i32;
}

fn library_draw(last: u32) -> u32 {
    // It takes a number and gives one; nothing is lent.
    unsafe { test_load_draw(last) }
}

fn second(geometry: &Geometry, request: &Request, side: &mut Side, call: &Call) -> usize {
    store::call(Version::White, geometry, request, side, call, &mut Watch::default())
}

// ---- one chip under both ----

const MAIN: usize = 2048;
const SPARE: usize = 128;
const PAGES: usize = 64;
const MOST: usize = 4096;

const PROCESS_TIME: i32 = 2;

// Processor time in seconds.
fn now() -> f64 {
    let mut time = [0; 2];
    // Two 64-bit numbers, seconds and nanoseconds, on x86-64 Linux.
    unsafe { clock_gettime(PROCESS_TIME, &mut time) };
    time[0] as f64 + time[1] as f64 * 1e-9
}

fn geometry(blocks: usize) -> Geometry {
    Geometry { main: MAIN, spare: SPARE, pages: PAGES, blocks, logical: blocks - 2 }
}

// Block 0 holds the table, with no invalid block; every other block a complete copy of random bytes.
fn whole_pages(geometry: &Geometry, array: &mut [u8]) {
    let mut random = 1u64;
    let table = table_main(geometry, &[0; MOST / 8]);
    for (row, page) in array.chunks_exact_mut(geometry.page_bytes()).enumerate() {
        let (block, place) = (row / PAGES, row % PAGES);
        let mut main = vec![0xFF; MAIN];
        let mut label = table_label(Version::White, place, 1);
        if block > 0 {
            for part in main.chunks_exact_mut(8) {
                random = random.wrapping_mul(6364136223846793005).wrapping_add(1442695040888963407);
                part.copy_from_slice(&random.to_le_bytes());
            }
            label = data_label(Version::White, (block - 1) % geometry.logical, place, block as u64 + 1);
        } else if place == 0 {
            main.copy_from_slice(&table);
        }
        page.copy_from_slice(&encode_page(geometry, &main, &label));
    }
}

// The time of a call on each side, best of the rounds, and what it answered.
struct Figures {
    library: f64,
    second: f64,
    answer: usize,
    cycles: u64,
}

struct Both {
    geometry: Geometry,
    call: Call,
    library: Side,
    second: Side,
    differs: bool,
}

impl Both {
    fn new(geometry: Geometry, array: Vec<u8>) -> Both {
        let register = vec![0; geometry.page_bytes()];
        let chip = Chip { interface: vec![0; INTERFACE_WORDS], array, register, history: vec![0; geometry.blocks] };
        let buffer = vec![0x5A; MAIN];
        let (sizes, finished) = (Vec::new(), Vec::new());
        let side = Side { state: vec![0; STATE_BYTES], chip, buffer, sent: vec![0], sizes, finished, told: vec![0] };
        let call = Call { mask: vec![0; geometry.block_bytes()], fates: Vec::new(), allowed: u32::MAX, protected: 0 };
        Both { geometry, call, library: side.clone(), second: side, differs: false }
    }

    // Whether the sides differ in anything but the array.
    fn parted(&self) -> bool {
        let (a, b) = (&self.library, &self.second);
        let chips = a.chip.interface != b.chip.interface || a.chip.register != b.chip.register || a.chip.history != b.chip.history;
        chips || a.state != b.state || a.buffer != b.buffer || a.sent != b.sent || a.told != b.told
    }

    // The calls of each round on both sides, the library first.
    fn measure(&mut self, rounds: usize, requests: impl Fn(usize) -> Vec<Request>) -> Figures {
        let mut figures = Figures { library: f64::MAX, second: f64::MAX, answer: 0, cycles: 0 };
        for round in 0..rounds {
            let requests = requests(round);
            let count = requests.len() as f64;
            let mut answers = (0, 0);
            let start = now();
            for request in &requests {
                answers.0 = answers.0.max(library(&self.geometry, request, &mut self.library, &self.call));
            }
            let middle = now();
            for request in &requests {
                answers.1 = answers.1.max(second(&self.geometry, request, &mut self.second, &self.call));
            }
            let end = now();
            figures.library = figures.library.min((middle - start) / count);
            figures.second = figures.second.min((end - middle) / count);
            figures.answer = answers.0;
            figures.cycles = self.library.sent[0];
            self.differs |= answers != (0, 0) || self.parted();
        }
        self.differs |= self.library.chip.array != self.second.chip.array;
        figures
    }

    fn row(&mut self, name: &str, rounds: usize, requests: impl Fn(usize) -> Vec<Request>) {
        let f = self.measure(rounds, requests);
        print_row(name, &f);
    }
}

fn grouped(number: u64) -> String {
    let digits = number.to_string();
    let parts: Vec<&str> = digits.as_bytes().rchunks(3).rev().map(|part| std::str::from_utf8(part).unwrap()).collect();
    parts.join(",")
}

fn shown(seconds: f64) -> String {
    match seconds {
        s if s < 1e-4 => format!("{:.2} µs", s * 1e6),
        s if s < 1e-2 => format!("{:.0} µs", s * 1e6),
        s => format!("{s:.3} s"),
    }
}

fn print_row(name: &str, f: &Figures) {
    let ratio = f.second / f.library;
    let (library, second) = (shown(f.library), shown(f.second));
    println!("| {name} | {} | {} | {library} | {second} | {ratio:.1} |", f.answer, grouped(f.cycles));
}

fn print_head(first: &str) {
    println!("| {first} | Answer | Cycles | Library | Second implementation | Times faster |");
    println!("|---|---|---|---|---|---|");
}

// Calls on a chip that was all FFh before it was formatted: the second and the third formatting carry over the list of the one before.
fn requests() -> bool {
    let geometry = geometry(MOST);
    let mut both = Both::new(geometry, vec![0xFF; geometry.chip_bytes()]);
    let last = geometry.logical - 1;
    let writes = |round: usize| (0..20).map(|k| Request::Write { block: 20 * round + k, page: 3 }).collect();
    let erases = |round: usize| (0..20).map(|k| Request::Erase { block: 20 * round + k }).collect();
    print_head("Call");
    both.row("format", 3, |_| vec![Request::Format]);
    both.row("write of a page without an old copy", 10, writes);
    both.row("write of a page over an old copy", 10, writes);
    both.row("read of a page with a copy", 10, |_| (0..1000).map(|_| Request::Read { block: 0, page: 3 }).collect());
    both.row("read of a page without a copy", 10, |_| (0..1000).map(|_| Request::Read { block: last, page: 3 }).collect());
    both.row("erase of a logical block", 10, erases);
    let sale = Request::Append(Sale { selection: 12, count: 2, price: 150, replaces: 0 });
    both.row("append to a journal of up to 59 records", 3, |_| vec![sale.clone(); 20]);
    both.row("takings of 60 records", 10, |_| vec![Request::Takings; 10]);
    both.row("mount, most blocks erased", 3, |_| vec![Request::Mount]);
    both.differs
}

// Mounts of chips whose pages are all whole, as the blocks double; then one formatting of each.
fn mounts_and_formattings() -> bool {
    let mut differs = false;
    let mut formattings = Vec::new();
    println!();
    print_head("Blocks, mounted");
    for blocks in [MOST / 8, MOST / 4, MOST / 2, MOST] {
        let geometry = geometry(blocks);
        let mut array = vec![0xFF; geometry.chip_bytes()];
        whole_pages(&geometry, &mut array);
        let mut both = Both::new(geometry, array);
        both.row(&grouped(blocks as u64), 3, |_| vec![Request::Mount]);
        formattings.push((blocks, both.measure(1, |_| vec![Request::Format])));
        differs |= both.differs;
    }
    println!();
    print_head("Blocks, formatted");
    for (blocks, figures) in formattings {
        print_row(&grouped(blocks as u64), &figures);
    }
    differs
}

// ---- the test load ----

const SEED: u32 = 2026;
const LOAD_REQUESTS: usize = 10_000;

// Answer and cycles of each request of a load, and the seconds that they took together.
struct Run {
    answered: Vec<(usize, u64)>,
    seconds: f64,
}

impl Run {
    fn cycles(&self) -> u64 {
        self.answered.iter().map(|(_, cycles)| cycles).sum()
    }

    fn passed(&self) -> bool {
        self.answered.iter().all(|(answer, _)| *answer == 0)
    }

    fn shown(&self) -> String {
        let each_second = self.answered.len() as f64 / self.seconds;
        format!("{} a second", grouped(each_second as u64))
    }
}

type Perform = fn(&Geometry, &Request, &mut Side, &Call) -> usize;

fn run_load(geometry: &Geometry, side: &mut Side, call: &Call, mut load: Load, perform: Perform) -> Run {
    let mut answered = Vec::with_capacity(LOAD_REQUESTS);
    let start = now();
    for _ in 0..LOAD_REQUESTS {
        let request = load.request(geometry, &mut side.buffer);
        let answer = perform(geometry, &request, side, call);
        answered.push((answer, side.sent[0]));
    }
    Run { answered, seconds: now() - start }
}

fn print_load(library: &Run, second: &Run) {
    let ratio = second.seconds / library.seconds;
    let (requests, cycles) = (grouped(LOAD_REQUESTS as u64), grouped(library.cycles()));
    println!("\n| Seed | Requests | Cycles | Library | Second implementation | Times faster |");
    println!("|---|---|---|---|---|---|");
    println!("| {SEED} | {requests} | {cycles} | {} | {} | {ratio:.1} |", library.shown(), second.shown());
}

// The test load on a chip that was all FFh before it was formatted, each side with its own draws.
fn loads() -> bool {
    let geometry = geometry(MOST);
    let mut both = Both::new(geometry, vec![0xFF; geometry.chip_bytes()]);
    both.measure(1, |_| vec![Request::Format]);
    let first = run_load(&geometry, &mut both.library, &both.call, Load::new(SEED, library_draw), library);
    let other = run_load(&geometry, &mut both.second, &both.call, Load::new(SEED, drawn), second);
    print_load(&first, &other);
    let parted = both.parted() || both.library.chip.array != both.second.chip.array;
    both.differs || parted || first.answered != other.answered || !first.passed()
}

fn main() {
    let differs = requests() | mounts_and_formattings() | loads();
    if differs {
        println!("\nThe two differ, or an answer is not 0.");
        std::process::exit(1);
    }
}
