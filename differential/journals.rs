// The journal of sales: figures, refusals in their place, pages forged by plain writes, every cut, failure and silence, years of sales
// against a sum of the test's own, and a journal of 65,535 records. Beside it what the book and the random lists need of a journal.

use super::*;
use crate::draws::drawn;

pub fn journals(run: &mut Run) {
    sale_figures(run);
    sale_refusals(run);
    forged_pages(run);
    beside_open_write(run);
    every_place(run);
    room_used_up(run);
    years(run);
    last_records(run);
}

// ---- the journal as pages tell it ----

// What each record replaces and amounts to.
pub struct Account(Vec<(usize, u128)>);

fn little(bytes: &[u8]) -> u128 {
    bytes.iter().rev().fold(0, |number, byte| number << 8 | *byte as u128)
}

impl Account {
    // Of pages in the journal's order, up to the first that is not the next record.
    pub fn of(pages: &[Vec<u8>]) -> Account {
        let mut account = Vec::new();
        for page in pages.iter().take(65_535) {
            let (number, replaces) = (little(&page[..2]), little(&page[9..11]));
            let next = account.len() as u128 + 1;
            if number != next || replaces >= next || page[11..].iter().any(|byte| *byte != 0xFF) {
                break;
            }
            account.push((replaces as usize, little(&page[3..5]) * little(&page[5..9])));
        }
        Account(account)
    }

    pub fn records(&self) -> usize {
        self.0.len()
    }

    fn in_force(&self, number: usize) -> bool {
        (1..=self.records()).contains(&number) && self.0.iter().all(|(replaces, _)| *replaces != number)
    }

    pub fn may_replace(&self, number: usize) -> bool {
        number == 0 || self.in_force(number)
    }

    pub fn takings(&self) -> u128 {
        let numbered = self.0.iter().enumerate();
        numbered.filter(|(place, _)| self.in_force(place + 1)).map(|(_, (_, amount))| amount).sum()
    }
}

// The logical pages of a world whose state names blocks of the chip, as far as it does.
fn pages_of(world: &World) -> Vec<Vec<u8>> {
    let geometry = &world.geometry;
    let state = world.state();
    let mut pages = Vec::new();
    for (entry, kind) in state.map[..geometry.logical].iter().zip(state.kinds) {
        for page in 0..geometry.pages {
            match *entry as usize {
                0xFFFF => pages.push(vec![0xFF; geometry.main]),
                block if block < geometry.blocks => {
                    let from = geometry.page_start(block, page);
                    pages.push(formed(kind, page, &world.own.chip.array[from..from + geometry.main]));
                }
                _ => return pages,
            }
        }
    }
    pages
}

// ---- drawn sales ----

fn random_sale(random: &mut Random, records: usize) -> Sale {
    let count = random.pick(&[0, 1, 1, 2, 3, 65_535]);
    let price = random.pick(&[0, 100, 150, random.0 as u32, u32::MAX]);
    let any = random.next() as u16;
    let earlier = random.below(records + 2) as u16;
    Sale { selection: random.byte(), count, price, replaces: random.pick(&[0, 0, 0, earlier, earlier, any]) }
}

// The page of a record at a place, counted from 0; now and then one that is not the next record there.
pub fn random_record(random: &mut Random, geometry: &Geometry, place: usize) -> Vec<u8> {
    let mut sale = random_sale(random, place);
    if !random.one_in(12) {
        sale.replaces = sale.replaces.min(place as u16);
    }
    let mut page = sale.page(geometry.main, place + 1);
    match random.below(40) {
        0 => page = sale.page(geometry.main, place + random.pick(&[0, 2, 257])),
        1 => page[11 + random.below(geometry.main - 11)] = random.byte(),
        2 => page.fill(0xFF),
        _ => {}
    }
    page
}

pub fn random_sale_request(random: &mut Random, world: &World) -> Request {
    if random.one_in(3) {
        return Request::Takings;
    }
    let records = Account::of(&pages_of(world)).records();
    Request::Append(random_sale(random, records))
}

// ---- figures ----

const fn sale(selection: u8, count: u16, price: u32, replaces: u16) -> Sale {
    Sale { selection, count, price, replaces }
}

// Cycles of a page read for the journal's end, and of a record read once more up to its price.
fn cycles_of_page(geometry: &Geometry) -> u64 {
    10 + geometry.main as u64
}

const AMOUNT_CYCLES: u64 = 10 + 9;

// Cycles of a write without an old copy on the small chip, and over one.
const FIRST: u64 = 237;
const OVER: u64 = 363;

fn sale_figures(run: &mut Run) {
    run.origin = "the figures of the journal".to_string();
    let mut world = World::fresh(SMALL);
    world.format(run);
    let page = cycles_of_page(&SMALL);
    let found = world.takings(run);
    expect(run, "takings of nothing", (found, world.own.sent[0]), ((DONE, 0), 0));
    for (sold, number, cycles) in [
        (sale(12, 2, 150, 0), 1, FIRST),
        (sale(7, 1, 120, 0), 2, 2 * page + OVER),
        (sale(12, 0, 150, 1), 3, 3 * page + OVER),
        (sale(12, 1, 150, 3), 4, 4 * page + OVER),
        (sale(3, 65_535, u32::MAX, 0), 5, 4 * page + FIRST),
    ] {
        let found = world.append(run, sold);
        expect(run, "an append and its number", found, (DONE, number));
        expect(run, "its cycles", world.own.sent[0], cycles);
    }
    let found = world.takings(run);
    expect(run, "takings", found, (DONE, 120 + 150 + 65_535 * u32::MAX as u64));
    expect(run, "their cycles", world.own.sent[0], 6 * page + 3 * AMOUNT_CYCLES);
    expect(run, "the bytes of record 1", &pages_of(&world)[0][..12], &[1, 0, 12, 2, 0, 150, 0, 0, 0, 0, 0, 0xFF]);
    expect(run, "the bytes of record 4", &pages_of(&world)[3][..12], &[4, 0, 12, 1, 0, 150, 0, 0, 0, 3, 0, 0xFF]);
    let bytes = [5, 0, 3, 255, 255, 255, 255, 255, 255, 0, 0, 0xFF];
    expect(run, "the bytes of record 5", &pages_of(&world)[4][..12], &bytes);
}

// ---- refusals ----

// So many sales, of which the third replaces the first, with the book kept; the chip has one block more than its logical blocks need.
fn sold_on(logical: usize, count: usize) -> (World, Book) {
    sold_by(Version::White, logical, count)
}

// The same by a store of this version.
pub fn sold_by(version: Version, logical: usize, count: usize) -> (World, Book) {
    let geometry = Geometry { blocks: logical + 3, logical, ..SMALL };
    let mut run = Run::of_setting();
    let mut world = World::fresh(geometry);
    world.version = version;
    world.watch.on = true;
    let mut book = Book::new(&geometry);
    let call = world.plain();
    world.format_for(&mut run, logical, &call);
    let sales = [sale(12, 2, 150, 0), sale(7, 1, 120, 0), sale(12, 1, 150, 1), sale(3, 4, 80, 0)];
    for place in 0..count {
        let request = Request::Append(sales[place]);
        let answer = world.simple(&mut run, &request, &[]);
        book.step(&mut run, &world, &request, answer, &[]);
        expect(&run, "a sale", answer, DONE);
    }
    (world, book)
}

// The order 100, 1, 7, 15, the reads, 16, 2, 13, 9, 8; each with all later ones due too.
fn sale_refusals(run: &mut Run) {
    run.origin = "refusals of an append".to_string();
    let (full, _) = sold_on(1, 4);
    let geometry = full.geometry;
    let (absent, twice, none) = (sale(1, 1, 1, 9), sale(1, 1, 1, 1), sale(1, 1, 1, 0));
    let low = Call { protected: 1, ..full.plain() };
    let reads = 4 * cycles_of_page(&geometry);
    for (sold, wanted) in [(absent, NOT_IN_FORCE), (twice, NOT_IN_FORCE), (none, ADDRESS)] {
        let request = Request::Append(sold);
        let mut world = full.duplicate();
        let before = world.own.state.clone();
        let answer = world.right(run, &request, &low, &[]);
        expect(run, "16 before 2, 2 before 13", (answer, world.own.sent[0]), (wanted, reads));
        expect(run, "the state and what is told", (world.own.state == before, world.own.told[0]), (true, 0));
        let answer = world.right(run, &request, &Call { allowed: reads as u32 - 1, ..low.clone() }, &[]);
        expect(run, "11 before 16 and 2", (answer, world.own.sent[0]), (CUT, reads - 1));
        let answer = world.right(run, &request, &low, &[]);
        expect(run, "7 before 16 and 2", (answer, world.own.sent[0]), (MOUNT_FIRST, 0));
    }
    let mut world = full.duplicate();
    world.open(run, 0, 0, 0x21);
    let answer = world.append(run, absent);
    expect(run, "15 before 16", (answer, world.own.sent[0]), ((WRITE_OPEN, 0), 0));
    let broken = Geometry { spare: 15, ..geometry };
    let answer = world.call(run, broken, &Request::Append(absent), &low, &[]);
    expect(run, "1 before 15", answer, GEOMETRY);
    let answer = world.wrong(run, &Request::Append(absent), &low, &[], Wrong::Told(2));
    expect(run, "100 before 15", answer, BAD_BUFFER);
    refused_as_write(run);
}

// Room is left, the number to replace is in force: 13, then 9, then 8.
fn refused_as_write(run: &mut Run) {
    let (mut world, _) = sold_on(2, 4);
    let request = Request::Append(sale(1, 1, 1, 3));
    let low = Call { protected: 1, ..world.plain() };
    let reads = 4 * cycles_of_page(&world.geometry);
    let state = State { number: u64::MAX, ..world.state() };
    world.both(|side| side.state = state.to_bytes());
    let before = world.own.state.clone();
    let answer = world.right(run, &request, &low, &[]);
    expect(run, "13 before 9", (answer, world.own.sent[0]), (PROTECTED, reads + 2));
    expect(run, "the state and what is told", (world.own.state == before, world.own.told[0]), (true, 0));
    let answer = world.simple(run, &request, &[]);
    expect(run, "9", (answer, world.own.sent[0], world.own.told[0]), (SPENT, reads + 2, 0));
    let mut state = State::from_bytes(&before);
    state.number = 9;
    let current: Vec<u64> = std::iter::once(state.table).chain(state.map[..2].iter().map(|entry| *entry as u64)).collect();
    state.invalid[0] = (0..5u8).filter(|block| !current.contains(&(*block as u64))).map(|block| 1 << block).sum();
    world.both(|side| side.state = state.to_bytes());
    let answer = world.simple(run, &request, &[]);
    expect(run, "8", (answer, world.own.sent[0], world.own.told[0]), (WORN, reads + 2, 0));
}

// ---- forged pages ----

// The takings of three records, of which the third replaces the first.
const KEPT: u64 = 120 + 150;

// What a plain write may put behind three records: the page, how many records there are with it, and the takings.
fn forgeries() -> Vec<(&'static str, Vec<u8>, u64, u64)> {
    let page = |replaces, number| sale(9, 3, 70, replaces).page(SMALL.main, number);
    let mut cases = vec![
        ("the next record", page(0, 4), 4, KEPT + 210),
        ("one that replaces record 3", page(3, 4), 4, KEPT - 150 + 210),
        ("one that replaces record 1 again", page(1, 4), 4, KEPT + 210),
        ("number 3", page(0, 3), 3, KEPT),
        ("number 5", page(0, 5), 3, KEPT),
        ("number 4 + 256", page(0, 260), 3, KEPT),
        ("number 0", page(0, 0), 3, KEPT),
        ("one that replaces itself", page(4, 4), 3, KEPT),
        ("one that replaces a later one", page(5, 4), 3, KEPT),
        ("one that replaces 65,535", page(65_535, 4), 3, KEPT),
        ("an erased page", vec![0xFF; SMALL.main], 3, KEPT),
        ("a page of zeros", vec![0; SMALL.main], 3, KEPT),
    ];
    for place in 11..SMALL.main {
        for byte in [0, 0x7F, 0xFE] {
            let mut wrong = page(0, 4);
            wrong[place] = byte;
            cases.push(("a tail that is not FFh", wrong, 3, KEPT));
        }
    }
    cases
}

fn forged_pages(run: &mut Run) {
    run.origin = "pages forged by plain writes".to_string();
    let (base, _) = sold_on(2, 3);
    for (name, bytes, records, takings) in forgeries() {
        let mut world = base.duplicate();
        let answer = world.simple(run, &Request::Write { block: 0, page: 3 }, &bytes);
        expect(run, "a plain write", answer, DONE);
        let found = world.takings(run);
        expect(run, name, found, (DONE, takings));
        let found = world.append(run, sale(1, 0, 0, 1));
        expect(run, "a record replaced twice", found, (NOT_IN_FORCE, 0));
        let found = world.append(run, sale(1, 1, 5, 2));
        expect(run, "the number after it", found, (DONE, records + 1));
        let found = world.takings(run);
        expect(run, "the takings after it", found, (DONE, takings - 120 + 5));
    }
    gaps(run, &base);
}

// A page before the end is changed: the journal ends there. One behind it waits for the record between.
fn gaps(run: &mut Run, base: &World) {
    let mut world = base.duplicate();
    world.write(run, 0, 1, 0x55);
    let found = world.takings(run);
    expect(run, "the journal ends before page 1", found, (DONE, 2 * 150));
    let mut world = base.duplicate();
    let later = sale(9, 3, 70, 2).page(SMALL.main, 5);
    world.simple(run, &Request::Write { block: 1, page: 0 }, &later);
    let found = world.takings(run);
    expect(run, "record 5 without record 4", found, (DONE, KEPT));
    let found = world.append(run, sale(1, 1, 5, 0));
    expect(run, "record 4", found, (DONE, 4));
    let found = world.takings(run);
    expect(run, "record 5 after record 4", found, (DONE, KEPT + 5 - 120 + 210));
    let found = world.append(run, sale(1, 1, 5, 2));
    expect(run, "a record that record 5 replaced", found, (NOT_IN_FORCE, 0));
    world.erase(run, 0);
    let found = world.takings(run);
    expect(run, "the takings after an erase", found, (DONE, 0));
    let found = world.append(run, sale(1, 1, 5, 1));
    expect(run, "a correction of nothing", (found, world.own.sent[0]), ((NOT_IN_FORCE, 0), cycles_of_page(&SMALL)));
}

// A write of record 2 with another price, page by page: the takings are the old ones until its copy is filled.
fn beside_open_write(run: &mut Run) {
    run.origin = "takings beside an open write".to_string();
    let (mut world, _) = sold_on(2, 3);
    let bytes = sale(7, 1, 999, 0).page(SMALL.main, 2);
    let answer = world.simple(run, &Request::Open { block: 0, page: 1 }, &bytes);
    expect(run, "a write opened", answer, DONE);
    for pages in 0..4 {
        let found = world.takings(run);
        expect(run, &format!("takings after {pages} pages"), found, (DONE, KEPT));
        let found = world.append(run, sale(1, 1, 1, 0));
        expect(run, "an append", (found, world.own.sent[0]), ((WRITE_OPEN, 0), 0));
        world.advance(run, 1);
    }
    let found = world.takings(run);
    expect(run, "takings after the last page", found, (DONE, 999 + 150));
    let found = world.append(run, sale(1, 1, 1, 0));
    expect(run, "an append", found, (DONE, 4));
}

// ---- every place ----

// A journal within its first block, one that ends with it, one that uses up its room; each cut, failed and silent anywhere.
fn every_place(run: &mut Run) {
    for base in [sold_on(2, 3), sold_on(2, 4), sold_on(1, 4), updated(run, sold_by(Version::Wide, 2, 3))] {
        let requests = [sale(5, 1, 90, 0), sale(5, 1, 90, 2), sale(5, 1, 90, 1)].map(Request::Append);
        for request in requests.into_iter().chain([Request::Takings]) {
            for mask in masks(&base.0, &request) {
                for fates in [vec![], vec![0, 3, 0, 0, 1 << 16, 1 << 16]] {
                    cuts_of(run, &base, &request, &Call { mask: mask.clone(), fates, allowed: 0, protected: 0 });
                }
            }
            cuts_of(run, &base, &request, &Call { protected: 1, ..base.0.plain() });
            failures_of(run, &base, &request);
            silences_of(run, &base, &request);
        }
    }
}

// ---- room ----

// Every page of the logical blocks takes a record, and no page more.
fn room_used_up(run: &mut Run) {
    for (pages, logical) in [(4, 1), (4, 3), (8, 2), (16, 1), (64, 3)] {
        let mut world = World::fresh(Geometry { pages, blocks: logical + 3, logical, ..SMALL });
        run.origin = format!("a journal in the pages of {logical} blocks of {pages}");
        world.format(run);
        for number in 1..=(pages * logical) as u64 {
            let found = world.append(run, sale(1, 1, number as u32, 0));
            expect(run, "an append", found, (DONE, number));
        }
        let last = (pages * logical) as u64;
        let found = world.append(run, sale(1, 1, 1, 0));
        expect(run, "one more", found, (ADDRESS, 0));
        let found = world.append(run, sale(1, 1, 1, last as u16 + 1));
        expect(run, "one more that replaces what is not there", found, (NOT_IN_FORCE, 0));
        let found = world.append(run, sale(1, 1, 1, last as u16));
        expect(run, "one more that replaces the last", found, (ADDRESS, 0));
        let found = world.takings(run);
        expect(run, "takings", found, (DONE, last * (last + 1) / 2));
    }
}

// ---- years of sales ----

const SMALL_YEARS: u32 = 400;
const LARGER_YEARS: u32 = 40;
const DAYS: usize = 365;

fn years(run: &mut Run) {
    for seed in 1..=SMALL_YEARS {
        year(run, SMALL, seed, 14);
    }
    for seed in 1..=LARGER_YEARS {
        year(run, Geometry { main: 40, spare: 17, pages: 8, blocks: 12, logical: 9 }, seed, 80);
    }
    year(run, Geometry { pages: 64, blocks: 26, logical: 23, ..SMALL }, 2026, 4 * DAYS);
}

// The sales that were acknowledged, or stood after a mount: what each amounts to, and whether it is in force.
struct Till {
    draw: u32,
    sales: Vec<(u128, bool)>,
}

impl Till {
    fn next(&mut self) -> usize {
        self.draw = drawn(self.draw);
        self.draw as usize
    }

    // Every fourth a correction, of any number up to the next.
    fn sale(&mut self) -> Sale {
        let corrects = self.next() % 4 == 0;
        let number = self.next() % (self.sales.len() + 2);
        let (count, price) = ((self.next() % 4) as u16, self.next() as u32);
        Sale { selection: (self.next() % 99) as u8 + 1, count, price, replaces: if corrects { number as u16 } else { 0 } }
    }

    fn in_force(&self, number: usize) -> bool {
        number.checked_sub(1).and_then(|place| self.sales.get(place)).is_some_and(|(_, in_force)| *in_force)
    }

    fn enter(&mut self, sale: &Sale) {
        if sale.replaces != 0 {
            self.sales[sale.replaces as usize - 1].1 = false;
        }
        self.sales.push((sale.count as u128 * sale.price as u128, true));
    }

    fn takings(&self) -> u128 {
        self.sales.iter().filter(|(_, in_force)| *in_force).map(|(amount, _)| amount).sum()
    }

    fn refusal(&self, geometry: &Geometry, sale: &Sale) -> usize {
        match sale.replaces as usize {
            number if number != 0 && !self.in_force(number) => NOT_IN_FORCE,
            _ if self.sales.len() == journal_room(geometry) => ADDRESS,
            _ => DONE,
        }
    }
}

// Cycles of an append after so many records: those of its reads, and of its write, over an old copy or not.
fn cycles_of_append(geometry: &Geometry, records: usize) -> usize {
    let (page, pages) = (10 + geometry.main, geometry.pages);
    let write = 2 + 7 + pages * (geometry.page_bytes() + 9);
    let in_block = records % pages;
    if in_block == 0 {
        return records * page + write;
    }
    (records + 1) * page + write + (pages - 1) * page
}

// Power is lost in every fourth append: at any cycle, in its write, or just before its last status read.
fn drawn_call(world: &World, till: &mut Till) -> Call {
    let call = world.plain();
    if till.next() % 4 != 0 {
        return call;
    }
    let cycles = cycles_of_append(&world.geometry, till.sales.len());
    let most = [cycles, 2 * world.geometry.block_bytes(), 4][till.next() % 3].min(cycles);
    let mask = world.mask([0, 0xFF, 0xFF, till.next() as u8][till.next() % 4]);
    Call { mask, allowed: (cycles - 1 - till.next() % most) as u32, ..call }
}

// So many sales.
fn year(run: &mut Run, geometry: Geometry, seed: u32, count: usize) {
    run.origin = format!("a year of {count} sales from seed {seed} on {geometry:?}");
    let mut world = World::fresh(geometry);
    world.format(run);
    let mut till = Till { draw: seed, sales: Vec::new() };
    for day in 0..count {
        let sold = till.sale();
        let refusal = till.refusal(&geometry, &sold);
        let call = drawn_call(&world, &mut till);
        let answer = world.right(run, &Request::Append(sold), &call, &[]);
        if answer == CUT {
            after_cut(run, &mut world, &mut till, &sold, refusal);
        } else {
            let number = if refusal == DONE { till.sales.len() as u64 + 1 } else { 0 };
            expect(run, "an append", (answer, world.own.told[0]), (refusal, number));
        }
        if answer == DONE {
            if call.allowed == u32::MAX {
                expect(run, "its cycles", world.own.sent[0], cycles_of_append(&geometry, till.sales.len()) as u64);
            }
            run.sold += 1;
            till.enter(&sold);
        }
        if answer == CUT || day % 16 == 15 || day + 1 == count {
            let (answer, takings) = world.takings(run);
            expect(run, "the takings", (answer, takings as u128), (DONE, till.takings()));
        }
    }
}

// Power returns, and a mount finds the journal with or without the sale.
fn after_cut(run: &mut Run, world: &mut World, till: &mut Till, sold: &Sale, refusal: usize) {
    expect(run, "what a cut append tells", world.own.told[0], 0);
    world.both(|side| side.state.fill(0));
    world.both(|side| side.chip.interface.fill(0));
    let answer = if till.next() % 2 == 0 { world.mount(run) } else { world.quick_mount(run) };
    expect(run, "a mount", answer, DONE);
    run.halved += 1;
    let records = Account::of(&pages_of(world)).records();
    if refusal == DONE && records == till.sales.len() + 1 {
        run.kept += 1;
        till.enter(sold);
    }
    expect(run, "the records after a cut", records, till.sales.len());
}

// ---- 65,535 records ----

// A chip whose logical blocks offer 65,536 pages.
const LONG: Geometry = Geometry { main: 137, spare: 16, pages: 64, blocks: 1026, logical: 1024 };

// Copies of all logical blocks, from each version in turn, with so many records of the greatest amount, behind them the table, then an
// erased block.
fn long_journal(records: usize) -> World {
    let (blank, greatest) = (vec![0xFF; LONG.main], sale(1, u16::MAX, u32::MAX, 0));
    let mut array = Vec::with_capacity(LONG.chip_bytes());
    for place in 0..LONG.logical * LONG.pages {
        let main = if place < records { greatest.page(LONG.main, place + 1) } else { blank.clone() };
        let (block, page) = (place / LONG.pages, place % LONG.pages);
        array.extend(encode_page(&LONG, &main, &data_label(ALL[block % 3], block, page, block as u64 + 1)));
    }
    for page in 0..LONG.pages {
        let main = if page == 0 { table_main(&LONG, &[0; 512]) } else { blank.clone() };
        array.extend(encode_page(&LONG, &main, &table_label(Version::White, page, 1 << 16)));
    }
    array.resize(LONG.chip_bytes(), 0xFF);
    World::new(LONG, array)
}

fn last_records(run: &mut Run) {
    run.origin = "a journal of 65,535 records".to_string();
    let most = u16::MAX as u64 * u32::MAX as u64;
    let mut world = long_journal(65_533);
    let answer = world.quick_mount(run);
    expect(run, "a quick mount", answer, DONE);
    let found = world.takings(run);
    expect(run, "takings of 65,533", found, (DONE, 65_533 * most));
    for number in [65_534, 65_535] {
        let found = world.append(run, sale(1, u16::MAX, u32::MAX, 0));
        expect(run, "an append", found, (DONE, number));
    }
    let found = world.takings(run);
    expect(run, "the greatest takings", found, (DONE, 65_535 * most));
    let pages = 65_535 * cycles_of_page(&LONG);
    expect(run, "their cycles", world.own.sent[0], pages + 65_535 * AMOUNT_CYCLES);
    let found = world.append(run, sale(1, 1, 1, 0));
    expect(run, "record 65,536", (found, world.own.sent[0]), ((ADDRESS, 0), pages));

    let mut world = long_journal(65_534);
    world.quick_mount(run);
    let found = world.append(run, sale(1, 0, 0, 65_534));
    expect(run, "record 65,535 replaces the one before it", found, (DONE, 65_535));
    let found = world.append(run, sale(1, 0, 0, 65_534));
    expect(run, "one more that replaces it again", found, (NOT_IN_FORCE, 0));
    let found = world.takings(run);
    expect(run, "takings", found, (DONE, 65_533 * most));
}
