// The book of acknowledged writes and erases, kept along a list of calls, and the checks that a mount must meet.

use super::*;

#[derive(Clone)]
struct Noted {
    request: Request,
    bytes: Vec<u8>,
    confirmed: Vec<Confirmed>,
}

// The bytes of all logical pages, the request under way, and the write that is open with what all its calls sent.
#[derive(Clone)]
pub struct Book {
    pages: Vec<Vec<u8>>,
    noted: Option<Noted>,
    open: Option<Noted>,
}

impl Book {
    pub fn new(geometry: &Geometry) -> Book {
        Book { pages: vec![vec![0xFF; geometry.main]; geometry.logical * geometry.pages], noted: None, open: None }
    }

    fn enter(&mut self, geometry: &Geometry, request: &Request, bytes: &[u8]) {
        match request {
            Request::Write { block, page } => self.pages[block * geometry.pages + page] = bytes.to_vec(),
            Request::Erase { block } => {
                for page in 0..geometry.pages {
                    self.pages[block * geometry.pages + page].fill(0xFF);
                }
            }
            _ => {}
        }
    }

    // The step for one call, with the checks on what it answered.
    pub fn step(&mut self, run: &mut Run, world: &World, request: &Request, answer: usize, bytes: &[u8]) {
        check_spared(run, world);
        if answer == ILLEGAL {
            run.fail("a cycle was answered illegal within a list");
        }
        self.step_open(run, world, request, answer, bytes);
        match request {
            Request::Write { .. } | Request::Erase { .. } => self.step_change(run, world, request, answer, bytes),
            Request::Read { block, page } if answer == DONE => {
                if self.noted.is_some() || world.own.buffer != self.shown(&world.geometry, *block, *page) {
                    run.fail("a read differs from the book");
                }
            }
            Request::Append(sale) => self.step_append(run, world, sale, answer),
            Request::Takings => self.step_takings(run, world, answer),
            Request::Mount | Request::QuickMount => self.step_mount(run, world, answer),
            _ => {}
        }
    }

    // A write that is opened, goes on, is finished or is given up.
    fn step_open(&mut self, run: &mut Run, world: &World, request: &Request, answer: usize, bytes: &[u8]) {
        if let Some(open) = &mut self.open {
            open.confirmed.extend(world.watch.confirmed.iter().cloned());
        }
        match request {
            Request::Open { block, page } if answer == DONE => {
                let request = Request::Write { block: *block, page: *page };
                self.open = Some(Noted { request, bytes: bytes.to_vec(), confirmed: Vec::new() });
            }
            Request::Advance { .. } if answer == DONE && world.finished() => {
                let Some(open) = self.open.take() else { run.fail("a write is finished that was not open") };
                run.finished += 1;
                self.enter(&world.geometry, &open.request, &open.bytes);
            }
            _ if stops(answer) || request.mounts() && ![GEOMETRY, BAD_BUFFER].contains(&answer) => self.give_up(run),
            _ => {}
        }
        if self.open.is_some() != world.open_write().is_open() {
            run.fail("a write is open, or none is, against the book");
        }
    }

    // The open write counts as cut here: also where power is lost.
    pub fn give_up(&mut self, run: &mut Run) {
        if let Some(open) = self.open.take() {
            run.given_up += 1;
            self.noted = Some(open);
        }
    }

    // What a read shows: the book, and of the page being rewritten the new bytes once every page of its new copy has passed.
    fn shown(&self, geometry: &Geometry, block: usize, page: usize) -> Vec<u8> {
        if let Some(Noted { request: Request::Write { block: rewritten, page: new }, bytes, confirmed }) = &self.open {
            if (block, page) == (*rewritten, *new) && filled(geometry, confirmed) {
                return bytes.clone();
            }
        }
        self.pages[block * geometry.pages + page].clone()
    }

    fn step_change(&mut self, run: &mut Run, world: &World, request: &Request, answer: usize, bytes: &[u8]) {
        if answer == DONE {
            self.enter(&world.geometry, request, bytes);
        }
        if (WORN..=CUT).contains(&answer) {
            if self.noted.is_some() {
                run.fail("a second request is under way");
            }
            let confirmed = world.watch.confirmed.clone();
            self.noted = Some(Noted { request: request.clone(), bytes: bytes.to_vec(), confirmed });
        }
    }

    // The journal as reads show it.
    fn journal(&self, geometry: &Geometry) -> Account {
        let places = 0..geometry.logical * geometry.pages;
        let pages: Vec<Vec<u8>> = places.map(|place| self.shown(geometry, place / geometry.pages, place % geometry.pages)).collect();
        Account::of(&pages)
    }

    // An append is the write of its page.
    fn step_append(&mut self, run: &mut Run, world: &World, sale: &Sale, answer: usize) {
        let geometry = &world.geometry;
        let journal = self.journal(geometry);
        let place = journal.records();
        let refused = match journal.may_replace(sale.replaces as usize) {
            false => NOT_IN_FORCE,
            true if place == geometry.logical * geometry.pages => ADDRESS,
            true => DONE,
        };
        if [DONE, NOT_IN_FORCE, ADDRESS].contains(&answer) && answer != refused
            || [PROTECTED, SPENT, WORN].contains(&answer) && refused != DONE
        {
            run.fail(&format!("an append is answered {answer}, the book says {refused}"));
        }
        let number = if answer == DONE { place as u64 + 1 } else { 0 };
        if answer != BAD_BUFFER && world.own.told[0] != number {
            run.fail("an append tells another number than the book");
        }
        let request = Request::Write { block: place / geometry.pages, page: place % geometry.pages };
        self.step_change(run, world, &request, answer, &sale.page(geometry.main, place + 1));
    }

    fn step_takings(&self, run: &Run, world: &World, answer: usize) {
        let takings = if answer == DONE { self.journal(&world.geometry).takings() } else { 0 };
        if answer != BAD_BUFFER && world.own.told[0] as u128 != takings {
            run.fail("the takings differ from the book");
        }
    }

    fn step_mount(&mut self, run: &mut Run, world: &World, answer: usize) {
        if ![DONE, GEOMETRY, SILENT, CUT, BAD_BUFFER].contains(&answer) {
            run.fail(&format!("a mount within a list is answered {answer}"));
        }
        if answer != DONE {
            return;
        }
        let Some(noted) = self.noted.take() else { return };
        if has_complete_copy(world, &noted.confirmed) {
            run.entered += 1;
            self.enter(&world.geometry, &noted.request, &noted.bytes);
        }
    }

    // Every page read in a copy of the world, and the takings, against the book.
    pub fn compare_all(&self, run: &mut Run, world: &World) {
        let mut world = world.duplicate();
        if world.takings(run) != (DONE, self.journal(&world.geometry).takings() as u64) {
            run.fail("the takings after a mount differ from the book");
        }
        for block in 0..world.geometry.logical {
            for page in 0..world.geometry.pages {
                if world.read(run, block, page) != DONE {
                    run.fail("a read after a mount is refused");
                }
                if world.own.buffer != self.shown(&world.geometry, block, page) {
                    run.fail(&format!("logical block {block} page {page} differs from the book"));
                }
            }
        }
    }
}

// Of the last call.
pub fn check_spared(run: &Run, world: &World) {
    if world.watch.confirmed.iter().any(|confirmed| confirmed.forbidden) {
        run.fail("a block was programmed or erased that is marked, listed or failed");
    }
}

fn has_complete_copy(world: &World, confirmed: &[Confirmed]) -> bool {
    let geometry = &world.geometry;
    (0..geometry.blocks).any(|block| {
        let all = (0..geometry.pages).all(|page| confirmed.iter().any(|sent| data_page(geometry, sent, block, page)));
        all && summary_of(geometry, &world.own.chip.array, block).complete.is_some()
    })
}

fn filled(geometry: &Geometry, confirmed: &[Confirmed]) -> bool {
    let passed = |block, page| confirmed.iter().any(|sent| sent.passed && data_page(geometry, sent, block, page));
    (0..geometry.blocks).any(|block| (0..geometry.pages).all(|page| passed(block, page)))
}

fn data_page(geometry: &Geometry, sent: &Confirmed, block: usize, page: usize) -> bool {
    let is_data = || whole_page(geometry, &sent.bytes).is_some_and(|label| label.is_data());
    sent.program && sent.block == block && sent.page == page && is_data()
}
