// A second implementation of the flash store: chip model, page layout, mounted state, the write that is open on it, the journal of
// sales and the eleven requests.

#[path = "parameters.rs"]
pub mod parameters;

use parameters::PARAMETER_BYTES;

// The base state but for its kinds, then the words of the open write, its page, and the kinds.
pub const WORDS_AT: usize = 9248;
pub const PAGE_AT: usize = WORDS_AT + 8 * OPEN_WORDS;
pub const KINDS_AT: usize = PAGE_AT + MOST_MAIN;
pub const STATE_BYTES: usize = KINDS_AT + MOST_BLOCKS;
pub const OPEN_WORDS: usize = 10;
pub const INTERFACE_WORDS: usize = 12;
pub const SIZE_WORDS: usize = 4;

const MOST_BLOCKS: usize = 4096;
pub const MOST_MAIN: usize = 4096;
const EMPTY: u16 = 0xFFFF;

pub const DONE: usize = 0;
pub const GEOMETRY: usize = 1;
pub const ADDRESS: usize = 2;
pub const LENGTH: usize = 3;
pub const NO_TABLE: usize = 4;
pub const WRONG_TABLE: usize = 5;
pub const CLASH: usize = 6;
pub const MOUNT_FIRST: usize = 7;
pub const WORN: usize = 8;
pub const SPENT: usize = 9;
pub const SILENT: usize = 10;
pub const CUT: usize = 11;
pub const NO_SIZES: usize = 12;
pub const PROTECTED: usize = 13;
pub const WRITE_OPEN: usize = 15;
pub const NOT_IN_FORCE: usize = 16;
pub const BAD_BUFFER: usize = 100;
pub const ILLEGAL: usize = 255;

// ---- geometry ----

#[derive(Clone, Copy, PartialEq, Eq, Debug)]
pub struct Geometry {
    pub main: usize,
    pub spare: usize,
    pub pages: usize,
    pub blocks: usize,
    pub logical: usize,
}

impl Geometry {
    pub fn page_bytes(&self) -> usize {
        self.main + self.spare
    }

    pub fn block_bytes(&self) -> usize {
        self.page_bytes() * self.pages
    }

    pub fn chip_bytes(&self) -> usize {
        self.block_bytes() * self.blocks
    }

    pub fn within_limits(&self) -> bool {
        (32..=MOST_MAIN).contains(&self.main)
            && (16..=256).contains(&self.spare)
            && [4, 8, 16, 32, 64].contains(&self.pages)
            && (4..=MOST_BLOCKS).contains(&self.blocks)
            && self.blocks <= 8 * (self.main - 8)
            && (1..=self.blocks - 2).contains(&self.logical)
    }

    pub fn page_start(&self, block: usize, page: usize) -> usize {
        (block * self.pages + page) * self.page_bytes()
    }
}

// ---- the chip ----

// Places of the interface words.
pub const PHASE: usize = 0;
pub const COUNT: usize = 1;
pub const ADDRESS_REGISTER: usize = 2;
pub const FIRST_COLUMN: usize = 3;
pub const NEXT_COLUMN: usize = 4;
pub const OPERATION: usize = 5;
pub const BUSY_LEFT: usize = 6;
pub const FAILED: usize = 7;
pub const LOADED: usize = 8;
pub const FATES_USED: usize = 9;
pub const ILLEGAL_SEEN: usize = 10;
pub const LINE_LOW: usize = 11;

// Phases.
pub const READY: u64 = 0;
pub const STATUS: u64 = 1;
pub const DATA_OUTPUT: u64 = 2;
pub const READ_ADDRESS: u64 = 3;
pub const PROGRAM_ADDRESS: u64 = 4;
pub const ERASE_ADDRESS: u64 = 5;
pub const PROGRAM_DATA: u64 = 6;
pub const BUSY: u64 = 7;
pub const BUSY_STATUS: u64 = 8;
pub const PARAMETER_ADDRESS: u64 = 9;

// Operations under way.
const READING: u64 = 1;
const PROGRAMMING: u64 = 2;
const ERASING: u64 = 3;
const TELLING: u64 = 4;

#[derive(Clone, PartialEq, Eq)]
pub struct Chip {
    pub interface: Vec<u64>,
    pub array: Vec<u8>,
    pub register: Vec<u8>,
    pub history: Vec<u8>,
}

impl Chip {
    // The write-protect line, which the caller sets before each call: not 0 where it is low.
    pub fn set_line(&mut self, protected: u64) {
        if let Some(word) = self.interface.get_mut(LINE_LOW) {
            *word = protected;
        }
    }
}

#[derive(Clone)]
pub struct Call {
    pub mask: Vec<u8>,
    pub fates: Vec<u32>,
    pub allowed: u32,
    pub protected: u64,
}

// What one side holds before and after a call. The buffer is a reader's place, a writer's bytes or the chip's parameter page; told is
// the number of a record appended, or the takings.
#[derive(Clone, PartialEq, Eq)]
pub struct Side {
    pub state: Vec<u8>,
    pub chip: Chip,
    pub buffer: Vec<u8>,
    pub sent: Vec<u64>,
    pub sizes: Vec<u64>,
    pub finished: Vec<u64>,
    pub told: Vec<u64>,
}

// A program or erase whose confirm cycle was taken, and whether it passed; `forbidden` says that its block was marked, listed or had
// failed, or that the write-protect line was low.
#[derive(Clone)]
pub struct Confirmed {
    pub program: bool,
    pub block: usize,
    pub page: usize,
    pub bytes: Vec<u8>,
    pub forbidden: bool,
    pub passed: bool,
}

// What is kept while a list is watched: blocks that failed since the mount, confirm cycles of the last call.
#[derive(Clone, Default)]
pub struct Watch {
    pub on: bool,
    pub failed: Vec<usize>,
    pub confirmed: Vec<Confirmed>,
}

#[derive(Clone, Copy, PartialEq, Eq, Debug)]
pub enum Stop {
    Protected,
    Worn,
    Spent,
    Silent,
    Cut,
    Illegal,
}

impl Stop {
    fn answer(self) -> usize {
        match self {
            Stop::Protected => PROTECTED,
            Stop::Worn => WORN,
            Stop::Spent => SPENT,
            Stop::Silent => SILENT,
            Stop::Cut => CUT,
            Stop::Illegal => ILLEGAL,
        }
    }
}

struct Bus<'a> {
    geometry: Geometry,
    chip: &'a mut Chip,
    parameters: Vec<u8>,
    call: &'a Call,
    watch: &'a mut Watch,
    sent: u64,
}

impl<'a> Bus<'a> {
    fn word(&self, place: usize) -> u64 {
        self.chip.interface[place]
    }

    fn set(&mut self, place: usize, value: u64) {
        self.chip.interface[place] = value;
    }

    fn due(&mut self) -> Result<(), Stop> {
        if self.sent == self.call.allowed as u64 {
            return Err(Stop::Cut);
        }
        self.sent += 1;
        Ok(())
    }

    fn illegal<T>(&mut self) -> Result<T, Stop> {
        self.set(ILLEGAL_SEEN, 1);
        Err(Stop::Illegal)
    }

    fn line_low(&self) -> bool {
        self.word(LINE_LOW) != 0
    }

    fn idle(&self) -> bool {
        matches!(self.word(PHASE), READY | STATUS | DATA_OUTPUT)
    }

    fn command(&mut self, code: u8) -> Result<(), Stop> {
        self.due()?;
        let taken = match code {
            0xFF => self.reset_command(),
            0x70 => self.status_command(),
            0x00 => self.read_command(),
            0x80 => self.setup_command(PROGRAM_ADDRESS, 0),
            0x60 => self.setup_command(ERASE_ADDRESS, 2),
            0xEC => self.setup_command(PARAMETER_ADDRESS, 0),
            0x30 => self.read_confirm(),
            0x10 => self.program_confirm(),
            0xD0 => self.erase_confirm(),
            _ => false,
        };
        if taken {
            Ok(())
        } else {
            self.illegal()
        }
    }

    fn reset_command(&mut self) -> bool {
        for place in PHASE..=LOADED {
            self.set(place, 0);
        }
        true
    }

    fn status_command(&mut self) -> bool {
        match self.word(PHASE) {
            READY | STATUS | DATA_OUTPUT => self.set(PHASE, STATUS),
            BUSY | BUSY_STATUS => self.set(PHASE, BUSY_STATUS),
            _ => return false,
        }
        true
    }

    fn read_command(&mut self) -> bool {
        if !self.idle() {
            return false;
        }
        if self.word(LOADED) == 1 {
            self.set(PHASE, DATA_OUTPUT);
            self.set(FIRST_COLUMN, self.word(NEXT_COLUMN));
        } else {
            self.start_address(READ_ADDRESS, 0);
        }
        true
    }

    fn setup_command(&mut self, phase: u64, count: u64) -> bool {
        if !self.idle() {
            return false;
        }
        self.start_address(phase, count);
        true
    }

    fn start_address(&mut self, phase: u64, count: u64) {
        self.set(PHASE, phase);
        self.set(COUNT, count);
        self.set(ADDRESS_REGISTER, 0);
        self.set(LOADED, 0);
    }

    fn address(&mut self, byte: u8) -> Result<(), Stop> {
        self.due()?;
        if self.word(PHASE) == PARAMETER_ADDRESS {
            return self.parameter_address(byte);
        }
        if self.word(PHASE) == DATA_OUTPUT && self.word(FIRST_COLUMN) == self.word(NEXT_COLUMN) {
            self.start_address(READ_ADDRESS, 0);
        }
        let phase = self.word(PHASE);
        let count = self.word(COUNT);
        if !matches!(phase, READ_ADDRESS | PROGRAM_ADDRESS | ERASE_ADDRESS) || count >= 5 {
            return self.illegal();
        }
        let register = self.word(ADDRESS_REGISTER) >> 8 | (byte as u64) << 32;
        if count == 4 && !self.on_chip(register) {
            return self.illegal();
        }
        self.set(ADDRESS_REGISTER, register);
        self.set(COUNT, count + 1);
        if count == 4 {
            self.set(FIRST_COLUMN, register & 0xFFFF);
            self.set(NEXT_COLUMN, register & 0xFFFF);
        }
        if count == 4 && phase == PROGRAM_ADDRESS {
            self.set(PHASE, PROGRAM_DATA);
        }
        Ok(())
    }

    // The one address byte of ECh, which starts the operation.
    fn parameter_address(&mut self, byte: u8) -> Result<(), Stop> {
        if byte != 0 {
            return self.illegal();
        }
        self.set(COUNT, 1);
        self.set(FIRST_COLUMN, 0);
        self.set(NEXT_COLUMN, 0);
        self.start(TELLING);
        Ok(())
    }

    fn on_chip(&self, register: u64) -> bool {
        let column = (register & 0xFFFF) as usize;
        let row = (register >> 16) as usize;
        column < self.geometry.page_bytes() && row < self.geometry.pages * self.geometry.blocks
    }

    fn row(&self) -> usize {
        (self.word(ADDRESS_REGISTER) >> 16) as usize
    }

    fn addressed_block(&self) -> usize {
        self.row() / self.geometry.pages
    }

    fn addressed_page(&self) -> usize {
        self.row() % self.geometry.pages
    }

    fn start(&mut self, operation: u64) {
        let used = self.word(FATES_USED);
        let fate = self.call.fates.get(used as usize).copied();
        self.set(FATES_USED, used + fate.is_some() as u64);
        let fate = fate.unwrap_or(0);
        self.set(PHASE, BUSY);
        self.set(OPERATION, operation);
        self.set(BUSY_LEFT, (fate & 0xFFFF) as u64);
        let can_fail = operation == PROGRAMMING || operation == ERASING;
        self.set(FAILED, if can_fail { (fate >> 16 & 1) as u64 } else { 0 });
    }

    // With the write-protect line low no program and no erase starts: no fate word, and the status shows a failure.
    fn refuse_start(&mut self, operation: u64) {
        self.set(PHASE, READY);
        self.set(OPERATION, operation);
        self.set(BUSY_LEFT, 0);
        self.set(FAILED, 1);
    }

    fn read_confirm(&mut self) -> bool {
        if self.word(PHASE) != READ_ADDRESS || self.word(COUNT) != 5 {
            return false;
        }
        let size = self.geometry.page_bytes();
        let from = self.row() * size;
        self.chip.register.copy_from_slice(&self.chip.array[from..from + size]);
        self.start(READING);
        true
    }

    fn program_confirm(&mut self) -> bool {
        let size = self.geometry.page_bytes() as u64;
        let whole = self.word(FIRST_COLUMN) == 0 && self.word(NEXT_COLUMN) == size;
        if self.word(PHASE) != PROGRAM_DATA || !whole {
            return false;
        }
        let (block, page) = (self.addressed_block(), self.addressed_page());
        if page < self.chip.history[block] as usize {
            return false;
        }
        self.note_confirmed(true);
        if self.line_low() {
            self.refuse_start(PROGRAMMING);
            return true;
        }
        self.clear_bits(true);
        self.chip.history[block] = page as u8 + 1;
        self.start(PROGRAMMING);
        true
    }

    fn erase_confirm(&mut self) -> bool {
        if self.word(PHASE) != ERASE_ADDRESS || self.word(COUNT) != 5 {
            return false;
        }
        let block = self.addressed_block();
        self.note_confirmed(false);
        if self.line_low() {
            self.refuse_start(ERASING);
            return true;
        }
        self.raise_bits(true);
        self.chip.history[block] = 255;
        self.start(ERASING);
        true
    }

    // Clears the bits that the register has clear: those in the mask, or all of them.
    fn clear_bits(&mut self, masked: bool) {
        let size = self.geometry.page_bytes();
        let from = self.row() * size;
        for place in 0..size {
            let taken = if masked { self.call.mask[place] } else { 0xFF };
            self.chip.array[from + place] &= self.chip.register[place] | !taken;
        }
    }

    // Sets bits of the block: those in the mask, or all of them.
    fn raise_bits(&mut self, masked: bool) {
        let size = self.geometry.block_bytes();
        let from = self.addressed_block() * size;
        let cells = &mut self.chip.array[from..from + size];
        if !masked {
            cells.fill(0xFF);
            return;
        }
        for (cell, taken) in cells.iter_mut().zip(&self.call.mask) {
            *cell |= taken;
        }
    }

    fn note_confirmed(&mut self, program: bool) {
        if !self.watch.on {
            return;
        }
        let (block, page) = (self.addressed_block(), self.addressed_page());
        let bytes = if program { self.chip.register.clone() } else { Vec::new() };
        let forbidden = forbidden_block(&self.geometry, &self.chip.array, block)
            || self.watch.failed.contains(&block)
            || self.line_low();
        self.watch.confirmed.push(Confirmed { program, block, page, bytes, forbidden, passed: false });
    }

    fn data_in(&mut self, byte: u8) -> Result<(), Stop> {
        self.due()?;
        let column = self.word(NEXT_COLUMN);
        if self.word(PHASE) != PROGRAM_DATA || column >= self.geometry.page_bytes() as u64 {
            return self.illegal();
        }
        self.chip.register[column as usize] = byte;
        self.set(NEXT_COLUMN, column + 1);
        Ok(())
    }

    fn data_out(&mut self) -> Result<u8, Stop> {
        self.due()?;
        let column = self.word(NEXT_COLUMN);
        let shown = self.word(PHASE) == DATA_OUTPUT && self.word(LOADED) == 1;
        let bytes = if self.word(OPERATION) == TELLING { &self.parameters } else { &self.chip.register };
        if !shown || column >= bytes.len() as u64 {
            return self.illegal();
        }
        let byte = bytes[column as usize];
        self.set(NEXT_COLUMN, column + 1);
        Ok(byte)
    }

    fn status(&mut self) -> Result<u8, Stop> {
        self.due()?;
        match self.word(PHASE) {
            STATUS => Ok(self.status_byte(true)),
            BUSY_STATUS if self.word(BUSY_LEFT) > 0 => {
                self.set(BUSY_LEFT, self.word(BUSY_LEFT) - 1);
                Ok(self.status_byte(false))
            }
            BUSY_STATUS if self.finish() => Ok(self.status_byte(true)),
            _ => self.illegal(),
        }
    }

    // Bit 7 not protected, bits 6 and 5 ready, bit 0 failed.
    fn status_byte(&self, ready: bool) -> u8 {
        let writable = if self.line_low() { 0 } else { 0x80 };
        let failed = if ready && self.word(FAILED) != 0 { 0x01 } else { 0 };
        writable | failed | if ready { 0x60 } else { 0 }
    }

    // Ends the operation under way; false where there is none, or its row is not on this chip.
    fn finish(&mut self) -> bool {
        let on_chip = self.row() < self.geometry.pages * self.geometry.blocks;
        match self.word(OPERATION) {
            TELLING => self.set(LOADED, 1),
            _ if !on_chip => return false,
            READING => self.set(LOADED, 1),
            _ if self.word(FAILED) != 0 => {}
            PROGRAMMING => self.clear_bits(false),
            ERASING => {
                self.raise_bits(false);
                let block = self.addressed_block();
                self.chip.history[block] = 0;
            }
            _ => return false,
        }
        self.set(PHASE, STATUS);
        true
    }

    // ---- operations ----

    fn reset(&mut self) -> Result<(), Stop> {
        self.command(0xFF)?;
        self.command(0x70)?;
        self.status()?;
        Ok(())
    }

    fn send_column(&mut self, column: usize) -> Result<(), Stop> {
        self.address(column as u8)?;
        self.address((column >> 8) as u8)
    }

    fn send_row(&mut self, block: usize, page: usize) -> Result<(), Stop> {
        let row = block * self.geometry.pages + page;
        self.address(row as u8)?;
        self.address((row >> 8) as u8)?;
        self.address((row >> 16) as u8)
    }

    // Status reads until ready; the last one.
    fn wait(&mut self) -> Result<u8, Stop> {
        self.command(0x70)?;
        for _ in 0..256 {
            let status = self.status()?;
            if status & 0x40 != 0 {
                return Ok(status);
            }
        }
        Err(Stop::Silent)
    }

    // Whether a program or erase passed; a protected chip has not failed.
    fn wait_changed(&mut self) -> Result<bool, Stop> {
        let status = self.wait()?;
        writable(status)?;
        Ok(status & 0x01 == 0)
    }

    // One status read, before anything is changed.
    fn ask_writable(&mut self) -> Result<(), Stop> {
        self.command(0x70)?;
        let status = self.status()?;
        writable(status)
    }

    fn read(&mut self, block: usize, page: usize, column: usize, count: usize) -> Result<Vec<u8>, Stop> {
        self.command(0x00)?;
        self.send_column(column)?;
        self.send_row(block, page)?;
        self.command(0x30)?;
        self.put_out(count)
    }

    fn read_parameters(&mut self) -> Result<Vec<u8>, Stop> {
        self.command(0xEC)?;
        self.address(0x00)?;
        self.put_out(PARAMETER_BYTES)
    }

    // What an operation loaded, once it is ready.
    fn put_out(&mut self, count: usize) -> Result<Vec<u8>, Stop> {
        self.wait()?;
        self.command(0x00)?;
        let mut bytes = Vec::with_capacity(count);
        for _ in 0..count {
            bytes.push(self.data_out()?);
        }
        Ok(bytes)
    }

    fn program(&mut self, block: usize, page: usize, bytes: &[u8]) -> Result<bool, Stop> {
        self.command(0x80)?;
        self.send_column(0)?;
        self.send_row(block, page)?;
        for byte in bytes {
            self.data_in(*byte)?;
        }
        self.command(0x10)?;
        let passed = self.wait_changed()?;
        self.note_result(block, passed);
        Ok(passed)
    }

    fn erase(&mut self, block: usize) -> Result<bool, Stop> {
        self.command(0x60)?;
        self.send_row(block, 0)?;
        self.command(0xD0)?;
        let passed = self.wait_changed()?;
        self.note_result(block, passed);
        Ok(passed)
    }

    fn note_result(&mut self, block: usize, passed: bool) {
        if !self.watch.on {
            return;
        }
        if !passed {
            self.watch.failed.push(block);
        }
        if let Some(last) = self.watch.confirmed.last_mut() {
            last.passed = passed;
        }
    }

    fn read_page(&mut self, block: usize, page: usize) -> Result<Vec<u8>, Stop> {
        self.read(block, page, 0, self.geometry.page_bytes())
    }
}

fn writable(status: u8) -> Result<(), Stop> {
    if status & 0x80 == 0 {
        return Err(Stop::Protected);
    }
    Ok(())
}

// ---- pages and blocks ----

fn u16_at(bytes: &[u8], place: usize) -> u16 {
    u16::from_le_bytes(bytes[place..place + 2].try_into().unwrap())
}

fn u32_at(bytes: &[u8], place: usize) -> u32 {
    u32::from_le_bytes(bytes[place..place + 4].try_into().unwrap())
}

fn u64_at(bytes: &[u8], place: usize) -> u64 {
    u64::from_le_bytes(bytes[place..place + 8].try_into().unwrap())
}

// The layouts of a page: narrow with a number of 32 bits, wide with one of 64.
#[derive(Clone, Copy, PartialEq, Eq, Debug)]
pub enum Layout {
    Narrow,
    Wide,
}

impl Layout {
    // The layout of a kind, if it is one.
    pub fn of(kind: u8) -> Option<Layout> {
        match kind {
            0x44 | 0x54 => Some(Layout::Narrow),
            0x64 | 0x6C | 0x74 => Some(Layout::Wide),
            _ => None,
        }
    }

    fn last_number(self) -> u64 {
        match self {
            Layout::Narrow => 4_294_967_295,
            Layout::Wide => 18_446_744_073_709_551_615,
        }
    }

    // Where the check stands in the spare bytes: behind the number, which begins at 5.
    fn check_at(self) -> usize {
        match self {
            Layout::Narrow => 9,
            Layout::Wide => 13,
        }
    }
}

// What versions of the store write: the first the narrow layout, the second the wide one, the present one the wide one with the main
// bytes of data whitened. Each reads what those before it wrote.
#[derive(Clone, Copy, PartialEq, Eq, Debug)]
pub enum Version {
    Narrow,
    Wide,
    White,
}

impl Version {
    pub fn data_kind(self) -> u8 {
        match self {
            Version::Narrow => 0x44,
            Version::Wide => 0x64,
            Version::White => WHITE_KIND,
        }
    }

    pub fn table_kind(self) -> u8 {
        match self {
            Version::Narrow => 0x54,
            _ => 0x74,
        }
    }

    // Whether a store of this version reads pages of this kind.
    pub fn knows(self, kind: u8) -> bool {
        match kind {
            0x44 | 0x54 => true,
            0x64 | 0x74 => self != Version::Narrow,
            _ => self == Version::White && kind == WHITE_KIND,
        }
    }

    pub fn last_number(self) -> u64 {
        match self {
            Version::Narrow => Layout::Narrow.last_number(),
            _ => Layout::Wide.last_number(),
        }
    }
}

// ---- whitened pages ----

pub const WHITE_KIND: u8 = 0x6C;

// One step of the register of fifteen bits: the bit that it gives, and the register after it.
fn step(register: u16) -> (u8, u16) {
    let (given, next) = (register >> 14 & 1, register >> 13 & 1);
    (given as u8, register << 1 & 0x7FFF | (given ^ next))
}

// So many bytes of the stream of a page, the first bit given the most significant of the first byte.
pub fn stream(page: usize, length: usize) -> Vec<u8> {
    let mut register = page as u16 + 1;
    let mut bytes = vec![0; length];
    for byte in &mut bytes {
        for _ in 0..8 {
            let (given, next) = step(register);
            *byte = *byte << 1 | given;
            register = next;
        }
    }
    bytes
}

// The main bytes of a page as a copy of this kind stores them, or what such bytes mean: the one undoes the other. They may end early.
pub fn formed(kind: u8, page: usize, main: &[u8]) -> Vec<u8> {
    if kind != WHITE_KIND {
        return main.to_vec();
    }
    main.iter().zip(stream(page, main.len())).map(|(byte, white)| byte ^ white).collect()
}

// ---- labels ----

#[derive(Clone, Copy, PartialEq, Eq, Debug)]
pub struct Label {
    pub kind: u8,
    pub logical: u16,
    pub page: u8,
    pub number: u64,
}

impl Label {
    pub fn is_data(&self) -> bool {
        matches!(self.kind, 0x44 | 0x64 | WHITE_KIND)
    }

    fn is_table(&self) -> bool {
        matches!(self.kind, 0x54 | 0x74)
    }
}

pub fn data_label(version: Version, logical: usize, page: usize, number: u64) -> Label {
    Label { kind: version.data_kind(), logical: logical as u16, page: page as u8, number }
}

pub fn table_label(version: Version, page: usize, number: u64) -> Label {
    Label { kind: version.table_kind(), logical: 0, page: page as u8, number }
}

pub fn zero_bits(bytes: &[u8]) -> u32 {
    bytes.iter().map(|byte| byte.count_zeros()).sum()
}

// The page of a label whose kind is one of the five, with as much of its number as the layout holds. The main bytes are what they
// mean, at the place that the label tells.
pub fn encode_page(geometry: &Geometry, main: &[u8], label: &Label) -> Vec<u8> {
    let layout = Layout::of(label.kind).unwrap();
    let mut page = formed(label.kind, label.page as usize, main);
    page.push(0xFF);
    page.push(label.kind);
    page.extend(label.logical.to_le_bytes());
    page.push(label.page);
    page.extend(&label.number.to_le_bytes()[..layout.check_at() - 5]);
    let check = zero_bits(&page) as u16;
    page.extend(check.to_le_bytes());
    page.resize(geometry.page_bytes(), 0xFF);
    page
}

pub fn whole_page(geometry: &Geometry, page: &[u8]) -> Option<Label> {
    let (main, spare) = page.split_at(geometry.main);
    let layout = Layout::of(spare[1])?;
    let check_at = layout.check_at();
    let check = zero_bits(main) + zero_bits(&spare[..check_at]);
    let blank = spare[0] == 0xFF && spare[check_at + 2..].iter().all(|byte| *byte == 0xFF);
    if !blank || check != u16_at(spare, check_at) as u32 {
        return None;
    }
    let number = match layout {
        Layout::Narrow => u32_at(spare, 5) as u64,
        Layout::Wide => u64_at(spare, 5),
    };
    Some(Label { kind: spare[1], logical: u16_at(spare, 2), page: spare[4], number })
}

// What the pages of one block say.
#[derive(Clone, Copy, PartialEq, Eq, Debug)]
pub struct Summary {
    pub marked: bool,
    pub complete: Option<Label>,
    pub greatest: Option<u64>,
}

pub fn summarise(geometry: &Geometry, pages: &[&[u8]]) -> Summary {
    let marked = pages[..2].iter().any(|page| page[geometry.main] != 0xFF);
    let labels: Vec<Option<Label>> = pages.iter().map(|page| whole_page(geometry, page)).collect();
    let greatest = labels.iter().flatten().map(|label| label.number).max();
    let complete = if marked { None } else { complete_label(&labels) };
    Summary { marked, complete, greatest }
}

fn complete_label(labels: &[Option<Label>]) -> Option<Label> {
    let first = labels[0]?;
    for (place, label) in labels.iter().enumerate() {
        if *label != Some(Label { page: place as u8, ..first }) {
            return None;
        }
    }
    Some(first)
}

fn block_pages<'a>(geometry: &Geometry, block: &'a [u8]) -> Vec<&'a [u8]> {
    block.chunks(geometry.page_bytes()).collect()
}

pub fn summary_of(geometry: &Geometry, array: &[u8], block: usize) -> Summary {
    let from = geometry.page_start(block, 0);
    summarise(geometry, &block_pages(geometry, &array[from..from + geometry.block_bytes()]))
}

// ---- the table ----

fn bit(bitmap: &[u8], place: usize) -> bool {
    bitmap[place / 8] >> (place % 8) & 1 == 1
}

fn set_bit(bitmap: &mut [u8], place: usize) {
    bitmap[place / 8] |= 1 << (place % 8);
}

pub fn table_main(geometry: &Geometry, invalid: &[u8]) -> Vec<u8> {
    let set: u32 = invalid.iter().map(|byte| byte.count_ones()).sum();
    let mut main = Vec::new();
    for number in [geometry.blocks as u16, geometry.logical as u16, set as u16, 8] {
        main.extend(number.to_le_bytes());
    }
    main.extend(&invalid[..(geometry.blocks + 7) / 8]);
    main.resize(geometry.main, 0xFF);
    main
}

// The bitmap of a table that is rightly laid out for this chip and does not list its own block.
fn table_bitmap(geometry: &Geometry, pages: &[&[u8]], marks: &[u8], block: usize) -> Option<Vec<u8>> {
    let main = &pages[0][..geometry.main];
    let mut bitmap = main[8..8 + (geometry.blocks + 7) / 8].to_vec();
    bitmap.resize(MOST_BLOCKS / 8, 0);
    let past = (geometry.blocks..MOST_BLOCKS).any(|place| bit(&bitmap, place));
    let marked = (0..geometry.blocks).any(|place| bit(&bitmap, place) && bit(marks, place));
    let others = pages[1..].iter().all(|page| page[..geometry.main].iter().all(|byte| *byte == 0xFF));
    let logical = u16_at(pages[0], geometry.main + 2);
    let right = main == table_main(geometry, &bitmap) && others && logical == 0;
    if !right || past || marked || bit(&bitmap, block) {
        return None;
    }
    Some(bitmap)
}

// The complete table with the greatest number, in the lower block at a tie.
fn current_table(summaries: &[Summary]) -> Option<usize> {
    let mut table: Option<(u64, usize)> = None;
    for (block, summary) in summaries.iter().enumerate() {
        let Some(label) = summary.complete.filter(Label::is_table) else { continue };
        if table.map_or(true, |(number, _)| label.number > number) {
            table = Some((label.number, block));
        }
    }
    table.map(|(_, block)| block)
}

fn marks_of(summaries: &[Summary]) -> Vec<u8> {
    let mut marks = vec![0; MOST_BLOCKS / 8];
    for (block, summary) in summaries.iter().enumerate() {
        if summary.marked {
            set_bit(&mut marks, block);
        }
    }
    marks
}

// The block and the list of a current table that is right but for the number of logical blocks, which may be any.
#[derive(Clone, PartialEq, Eq)]
pub struct Carried {
    pub table: usize,
    pub list: Vec<u8>,
}

impl Carried {
    pub fn lists(&self, block: usize) -> bool {
        bit(&self.list, block)
    }
}

fn carried_by(geometry: &Geometry, table: usize, pages: &[&[u8]], marks: &[u8]) -> Option<Carried> {
    let named = Geometry { logical: u16_at(pages[0], 2) as usize, ..*geometry };
    let list = table_bitmap(&named, pages, marks, table)?;
    Some(Carried { table, list })
}

fn summaries_of(geometry: &Geometry, array: &[u8]) -> Vec<Summary> {
    (0..geometry.blocks).map(|block| summary_of(geometry, array, block)).collect()
}

// What a formatting of this array carries over.
pub fn carried_in(geometry: &Geometry, array: &[u8]) -> Option<Carried> {
    let summaries = summaries_of(geometry, array);
    let table = current_table(&summaries)?;
    let from = geometry.page_start(table, 0);
    let pages = block_pages(geometry, &array[from..from + geometry.block_bytes()]);
    carried_by(geometry, table, &pages, &marks_of(&summaries))
}

// Whether the factory marked the block or the current table lists it.
fn forbidden_block(geometry: &Geometry, array: &[u8], block: usize) -> bool {
    let summaries = summaries_of(geometry, array);
    if summaries[block].marked {
        return true;
    }
    let Some(table) = current_table(&summaries) else { return false };
    let from = geometry.page_start(table, 0) + 8;
    bit(&array[from..from + (geometry.blocks + 7) / 8], block)
}

// ---- the mounted state ----

// `number` is one less than the next number: the greatest one found or taken, 0 for none. `kinds` are those of the current copies, 0
// for a logical block without one.
#[derive(Clone, PartialEq, Eq)]
pub struct State {
    pub status: u64,
    pub table: u64,
    pub last: u64,
    pub number: u64,
    pub marks: Vec<u8>,
    pub invalid: Vec<u8>,
    pub map: Vec<u16>,
    pub kinds: Vec<u8>,
}

const MOUNTED: u64 = 1;
const STOPPED: u64 = 2;

impl State {
    // Status and 0 in all other fields.
    fn blank(status: u64) -> State {
        let bitmap = vec![0; MOST_BLOCKS / 8];
        let (map, kinds) = (vec![0; MOST_BLOCKS], vec![0; MOST_BLOCKS]);
        State { status, table: 0, last: 0, number: 0, marks: bitmap.clone(), invalid: bitmap, map, kinds }
    }

    pub fn from_bytes(bytes: &[u8]) -> State {
        let mut map = vec![0; MOST_BLOCKS];
        for (entry, pair) in map.iter_mut().zip(bytes[1056..].chunks_exact(2)) {
            *entry = u16::from_le_bytes([pair[0], pair[1]]);
        }
        State {
            status: u64_at(bytes, 0),
            table: u64_at(bytes, 8),
            last: u64_at(bytes, 16),
            number: u64_at(bytes, 24),
            marks: bytes[32..544].to_vec(),
            invalid: bytes[544..1056].to_vec(),
            map,
            kinds: bytes[KINDS_AT..].to_vec(),
        }
    }

    // With no write open.
    pub fn to_bytes(&self) -> Vec<u8> {
        let mut bytes = vec![0; STATE_BYTES];
        for (place, number) in [self.status, self.table, self.last, self.number].into_iter().enumerate() {
            bytes[8 * place..8 * place + 8].copy_from_slice(&number.to_le_bytes());
        }
        bytes[32..544].copy_from_slice(&self.marks);
        bytes[544..1056].copy_from_slice(&self.invalid);
        for (place, entry) in bytes[1056..].chunks_exact_mut(2).zip(&self.map) {
            place.copy_from_slice(&entry.to_le_bytes());
        }
        bytes[KINDS_AT..].copy_from_slice(&self.kinds);
        bytes
    }

    // Blocks with something current, the table's block first.
    fn current(&self, geometry: &Geometry) -> Vec<u64> {
        let copies = self.map[..geometry.logical].iter().filter(|entry| **entry != EMPTY);
        std::iter::once(self.table).chain(copies.map(|entry| *entry as u64)).collect()
    }

    fn mounted(&self, geometry: &Geometry) -> bool {
        let blocks = geometry.blocks as u64;
        let current = self.current(geometry);
        self.status == MOUNTED
            && self.last < blocks
            && current.iter().all(|block| *block < blocks)
            && self.map[geometry.logical..] == [EMPTY; MOST_BLOCKS][geometry.logical..]
            && self.bitmaps_right(geometry)
            && self.current_right(&current)
    }

    fn bitmaps_right(&self, geometry: &Geometry) -> bool {
        let mut right = true;
        for (place, (marked, invalid)) in self.marks.iter().zip(&self.invalid).enumerate() {
            let on_chip = geometry.blocks.saturating_sub(8 * place).min(8);
            let past = (0xFF00u16 >> (8 - on_chip)) as u8;
            right &= marked & invalid == 0 && (marked | invalid) & past == 0;
        }
        right
    }

    fn current_right(&self, current: &[u64]) -> bool {
        let mut named = vec![false; MOST_BLOCKS];
        current.iter().all(|block| {
            let block = *block as usize;
            let again = std::mem::replace(&mut named[block], true);
            !again && !bit(&self.marks, block) && !bit(&self.invalid, block)
        })
    }

    pub fn usable(&self, block: usize) -> bool {
        !bit(&self.marks, block) && !bit(&self.invalid, block)
    }

    fn take_number(&mut self, version: Version) -> Result<u64, Stop> {
        if self.number >= version.last_number() {
            return Err(Stop::Spent);
        }
        self.number += 1;
        Ok(self.number)
    }

    // Valid unmarked blocks that hold nothing current.
    pub fn free_blocks(&self, geometry: &Geometry) -> usize {
        if !self.mounted(geometry) {
            return 0;
        }
        let current = self.current(geometry);
        (0..geometry.blocks).filter(|block| self.usable(*block) && !current.contains(&(*block as u64))).count()
    }
}

// ---- the open write ----

// The words kept of it, in the order of the buffer. Not 0: `opened` a write is open, `table` its copy is filled and the table due,
// `filling` a page is due in `block` under `number`, `failed` a block failed on the way. `old` is the block of the copy that it replaces,
// which it has none of where no such block is on the chip.
#[derive(Clone, Copy, PartialEq, Eq, Debug, Default)]
pub struct OpenWrite {
    pub opened: u64,
    pub table: u64,
    pub filling: u64,
    pub logical: u64,
    pub first: u64,
    pub old: u64,
    pub block: u64,
    pub number: u64,
    pub page: u64,
    pub failed: u64,
}

const PAGE_DUE: u64 = 2;

impl OpenWrite {
    fn begun(logical: usize, first: usize, old: u16) -> OpenWrite {
        OpenWrite { opened: 1, logical: logical as u64, first: first as u64, old: old as u64, ..OpenWrite::default() }
    }

    pub fn from_words(words: [u64; OPEN_WORDS]) -> OpenWrite {
        let [opened, table, filling, logical, first, old, block, number, page, failed] = words;
        OpenWrite { opened, table, filling, logical, first, old, block, number, page, failed }
    }

    pub fn words(&self) -> [u64; OPEN_WORDS] {
        let OpenWrite { opened, table, filling, logical, first, old, block, number, page, failed } = *self;
        [opened, table, filling, logical, first, old, block, number, page, failed]
    }

    // Of the bytes of a whole state.
    pub fn from_bytes(state: &[u8]) -> OpenWrite {
        OpenWrite::from_words(std::array::from_fn(|place| u64_at(state, WORDS_AT + 8 * place)))
    }

    pub fn put(&self, state: &mut [u8]) {
        for (word, bytes) in self.words().iter().zip(state[WORDS_AT..].chunks_exact_mut(8)) {
            bytes.copy_from_slice(&word.to_le_bytes());
        }
    }

    pub fn is_open(&self) -> bool {
        self.opened != 0
    }

    fn inside(&self, geometry: &Geometry) -> bool {
        let pages = geometry.pages as u64;
        self.logical < geometry.logical as u64
            && self.first < pages
            && self.block < geometry.blocks as u64
            && self.page < pages
    }

    // The same write in the values that an advance leaves.
    fn settled(self) -> OpenWrite {
        let (table, filling) = ((self.table != 0) as u64, if self.filling != 0 { PAGE_DUE } else { 0 });
        OpenWrite { opened: 1, table, filling, ..self }
    }

    // A number and a block are due.
    fn unfilled(self) -> OpenWrite {
        OpenWrite { filling: 0, block: 0, number: 0, page: 0, ..self }
    }
}

// ---- fills ----

enum Filling<'a> {
    Table,
    Copy { logical: usize, old: Option<usize>, page: Option<(usize, &'a [u8])> },
}

struct Store<'a> {
    version: Version,
    bus: Bus<'a>,
    state: State,
    held: Vec<u64>,
    failed: bool,
}

impl<'a> Store<'a> {
    fn geometry(&self) -> Geometry {
        self.bus.geometry
    }

    fn choose_block(&self) -> Result<usize, Stop> {
        let blocks = self.geometry().blocks;
        let last = self.state.last as usize;
        (1..=blocks)
            .map(|step| (last + step) % blocks)
            .find(|block| self.state.usable(*block) && !self.held.contains(&(*block as u64)))
            .ok_or(Stop::Worn)
    }

    // Fills block after block until one passes.
    fn fill(&mut self, what: &Filling) -> Result<(), Stop> {
        loop {
            let number = self.state.take_number(self.version)?;
            let block = self.choose_block()?;
            if self.fill_block(what, block, number)? {
                self.record(what, block);
                return Ok(());
            }
            set_bit(&mut self.state.invalid, block);
            self.failed = true;
        }
    }

    fn fill_block(&mut self, what: &Filling, block: usize, number: u64) -> Result<bool, Stop> {
        if !self.bus.erase(block)? {
            return Ok(false);
        }
        for page in 0..self.geometry().pages {
            let bytes = self.page_to_fill(what, page, number)?;
            if !self.bus.program(block, page, &bytes)? {
                return Ok(false);
            }
        }
        Ok(true)
    }

    fn page_to_fill(&mut self, what: &Filling, page: usize, number: u64) -> Result<Vec<u8>, Stop> {
        let geometry = self.geometry();
        let version = self.version;
        let blank = vec![0xFF; geometry.main];
        let (main, label) = match what {
            Filling::Table if page == 0 => (table_main(&geometry, &self.state.invalid), table_label(version, 0, number)),
            Filling::Table => (blank, table_label(version, page, number)),
            Filling::Copy { logical, old, page: new } => {
                let old = old.map(|block| (block, self.state.kinds[*logical]));
                (self.copy_main(old, page, *new)?, data_label(version, *logical, page, number))
            }
        };
        Ok(encode_page(&geometry, &main, &label))
    }

    // What the main bytes of one page of a new copy mean; without a new page the whole copy is FFh. The old copy is a block and a kind.
    fn copy_main(&mut self, old: Option<(usize, u8)>, page: usize, new: Option<(usize, &[u8])>) -> Result<Vec<u8>, Stop> {
        let main = self.geometry().main;
        match (new, old) {
            (Some((place, bytes)), _) if place == page => Ok(bytes.to_vec()),
            (Some(_), Some((block, kind))) => self.read_main(block, kind, page, main),
            _ => Ok(vec![0xFF; main]),
        }
    }

    // What the first main bytes of a page mean that a copy of this kind holds.
    fn read_main(&mut self, block: usize, kind: u8, page: usize, count: usize) -> Result<Vec<u8>, Stop> {
        Ok(formed(kind, page, &self.bus.read(block, page, 0, count)?))
    }

    // Of a page of a logical block; FFh where it has no copy.
    fn read_logical(&mut self, logical: usize, page: usize, count: usize) -> Result<Vec<u8>, Stop> {
        match self.state.map[logical] {
            EMPTY => Ok(vec![0xFF; count]),
            copy => self.read_main(copy as usize, self.state.kinds[logical], page, count),
        }
    }

    fn record(&mut self, what: &Filling, block: usize) {
        match what {
            Filling::Table => self.state.table = block as u64,
            Filling::Copy { logical, .. } => {
                self.state.map[*logical] = block as u16;
                self.state.kinds[*logical] = self.version.data_kind();
            }
        }
        self.state.last = block as u64;
        self.held = self.state.current(&self.geometry());
    }

    fn replace(&mut self, what: &Filling) -> Result<(), Stop> {
        self.bus.ask_writable()?;
        self.held = self.state.current(&self.geometry());
        self.fill(what)?;
        if self.failed {
            self.fill(&Filling::Table)?;
        }
        Ok(())
    }

    // The copy that a plain write or erase fills.
    fn copy_of<'b>(&self, logical: usize, page: Option<(usize, &'b [u8])>) -> Filling<'b> {
        let entry = self.state.map[logical];
        Filling::Copy { logical, old: (entry != EMPTY).then_some(entry as usize), page }
    }

    // ---- the open write ----

    // So many page programs of the open write, fewer where it is finished; whether it is.
    fn advance(&mut self, write: &mut OpenWrite, bytes: &[u8], most: u64) -> Result<bool, Stop> {
        *write = write.settled();
        self.held = self.state.current(&self.geometry());
        for _ in 0..most {
            while write.filling == 0 {
                self.begin_block(write)?;
            }
            if self.next_page(write, bytes)? {
                return Ok(true);
            }
        }
        Ok(false)
    }

    // A number, a block and its erase.
    fn begin_block(&mut self, write: &mut OpenWrite) -> Result<(), Stop> {
        let number = self.state.take_number(self.version)?;
        let block = self.choose_block()?;
        if self.bus.erase(block)? {
            *write = OpenWrite { filling: PAGE_DUE, block: block as u64, number, page: 0, ..*write };
        } else {
            self.fail_block(write, block);
        }
        Ok(())
    }

    fn fail_block(&mut self, write: &mut OpenWrite, block: usize) {
        set_bit(&mut self.state.invalid, block);
        *write = OpenWrite { failed: 1, ..write.unfilled() };
    }

    // The page that is due; whether it was the last one of the write.
    fn next_page(&mut self, write: &mut OpenWrite, bytes: &[u8]) -> Result<bool, Stop> {
        let geometry = self.geometry();
        let (logical, first, old) = (write.logical as usize, write.first as usize, write.old);
        let old = (old < geometry.blocks as u64).then_some(old as usize);
        let copy = Filling::Copy { logical, old, page: Some((first, bytes)) };
        let what = if write.table == 0 { copy } else { Filling::Table };
        let (block, page) = (write.block as usize, write.page as usize);
        let bytes = self.page_to_fill(&what, page, write.number)?;
        if !self.bus.program(block, page, &bytes)? {
            self.fail_block(write, block);
            return Ok(false);
        }
        if page + 1 < geometry.pages {
            write.page += 1;
            return Ok(false);
        }
        self.record(&what, block);
        if write.table != 0 || write.failed == 0 {
            return Ok(true);
        }
        *write = OpenWrite { table: 1, ..write.unfilled() };
        Ok(false)
    }

    // ---- the journal ----

    // The first bytes of the page at a place of the journal, counted from 0.
    fn journal_bytes(&mut self, place: usize, count: usize) -> Result<Vec<u8>, Stop> {
        let pages = self.geometry().pages;
        self.read_logical(place / pages, place % pages, count)
    }

    // Page after page, until one is not the next record.
    fn read_journal(&mut self) -> Result<Journal, Stop> {
        let geometry = self.geometry();
        let mut journal = Journal { records: 0, replaced: vec![false; MOST_RECORDS + 1] };
        while journal.records < journal_room(&geometry) {
            let page = self.journal_bytes(journal.records, geometry.main)?;
            let Some(replaces) = replaced_by(&page, journal.records + 1) else { break };
            journal.replaced[replaces] = true;
            journal.records += 1;
        }
        Ok(journal)
    }

    // The answer, and the number of the record where it is stored.
    fn append(&mut self, sale: &Sale, number: &mut u64) -> Result<usize, Stop> {
        let geometry = self.geometry();
        let journal = self.read_journal()?;
        if sale.replaces != 0 && !journal.in_force(sale.replaces as usize) {
            return Ok(NOT_IN_FORCE);
        }
        if journal.records == journal_room(&geometry) {
            return Ok(ADDRESS);
        }
        let page = sale.page(geometry.main, journal.records + 1);
        let place = (journal.records % geometry.pages, &page[..]);
        let copy = self.copy_of(journal.records / geometry.pages, Some(place));
        self.replace(&copy)?;
        *number = journal.records as u64 + 1;
        Ok(DONE)
    }

    // Each record in force is read once more up to its price.
    fn takings(&mut self) -> Result<u64, Stop> {
        let journal = self.read_journal()?;
        let mut sum = 0;
        for number in 1..=journal.records {
            if journal.in_force(number) {
                let bytes = self.journal_bytes(number - 1, REPLACES_AT)?;
                sum += u16_at(&bytes, COUNT_AT) as u64 * u32_at(&bytes, PRICE_AT) as u64;
            }
        }
        Ok(sum)
    }

    // ---- formatting ----

    fn format(&mut self) -> Result<(), Stop> {
        let geometry = self.geometry();
        let scan = self.scan(false)?;
        self.bus.ask_writable()?;
        let carried = scan.carried(&geometry);
        let old = carried.as_ref().map(|carried| carried.table);
        self.state = State { marks: marks_of(&scan.summaries), ..State::blank(MOUNTED) };
        self.state.map.fill(EMPTY);
        if let Some(carried) = carried {
            self.state.invalid = carried.list;
        }
        let found = self.clear_blocks(old)?;
        let usable = (0..geometry.blocks).filter(|block| self.state.usable(*block)).count();
        if usable < geometry.logical + 2 {
            return Err(Stop::Worn);
        }
        self.state.number = scan.greatest().0.max(found);
        self.state.last = geometry.blocks as u64 - 1;
        self.held = old.iter().map(|block| *block as u64).collect();
        self.fill(&Filling::Table)?;
        old.map_or(Ok(()), |block| self.give_up(block))
    }

    // The first round of erases, the old table's block left aside; the greatest number on whole pages of those that failed, else 0.
    fn clear_blocks(&mut self, old: Option<usize>) -> Result<u64, Stop> {
        let mut greatest = 0;
        for block in 0..self.geometry().blocks {
            if self.state.usable(block) && old != Some(block) {
                greatest = greatest.max(self.clear_block(block)?);
            }
        }
        Ok(greatest)
    }

    fn clear_block(&mut self, block: usize) -> Result<u64, Stop> {
        if self.bus.erase(block)? {
            return Ok(0);
        }
        set_bit(&mut self.state.invalid, block);
        let geometry = self.geometry();
        let mut greatest = 0;
        for page in 0..geometry.pages {
            let bytes = self.bus.read_page(block, page)?;
            let number = whole_page(&geometry, &bytes).map_or(0, |label| label.number);
            greatest = greatest.max(number);
        }
        Ok(greatest)
    }

    // The erase of the old table's block, once the new table is complete; another table where it fails.
    fn give_up(&mut self, block: usize) -> Result<(), Stop> {
        if self.bus.erase(block)? {
            return Ok(());
        }
        set_bit(&mut self.state.invalid, block);
        self.fill(&Filling::Table)
    }

    // ---- mounting ----

    fn scan(&mut self, quick: bool) -> Result<Scan, Stop> {
        let geometry = self.geometry();
        let mut scan = Scan { summaries: Vec::new(), table: Vec::new() };
        self.bus.reset()?;
        for block in 0..geometry.blocks {
            let pages = if quick { self.ends_first(block)? } else { self.in_order(block)? };
            scan.add(&geometry, block, pages.concat());
        }
        Ok(scan)
    }

    fn in_order(&mut self, block: usize) -> Result<Vec<Vec<u8>>, Stop> {
        (0..self.geometry().pages).map(|page| self.bus.read_page(block, page)).collect()
    }

    // The first page, the last page, the mark byte of page 1; then the others where these two are whole. A page that is not read is all
    // zeros but for its mark byte, so that it is not whole.
    fn ends_first(&mut self, block: usize) -> Result<Vec<Vec<u8>>, Stop> {
        let geometry = self.geometry();
        let mut unread = vec![0; geometry.page_bytes()];
        unread[geometry.main] = 0xFF;
        let mut pages = vec![unread; geometry.pages];
        let last = geometry.pages - 1;
        pages[0] = self.bus.read_page(block, 0)?;
        pages[last] = self.bus.read_page(block, last)?;
        pages[1][geometry.main] = self.bus.read(block, 1, geometry.main, 1)?[0];
        if whole_page(&geometry, &pages[0]).is_some() && whole_page(&geometry, &pages[last]).is_some() {
            for page in 1..last {
                pages[page] = self.bus.read_page(block, page)?;
            }
        }
        Ok(pages)
    }
}

// ---- records of the journal ----

pub const MOST_RECORDS: usize = 65_535;

// Where a record's parts begin, behind its number.
const SELECTION_AT: usize = 2;
const COUNT_AT: usize = 3;
const PRICE_AT: usize = 5;
const REPLACES_AT: usize = 9;
const RECORD_BYTES: usize = 11;

#[derive(Clone, Copy, PartialEq, Eq, Debug)]
pub struct Sale {
    pub selection: u8,
    pub count: u16,
    pub price: u32,
    pub replaces: u16,
}

impl Sale {
    // The main bytes of its page, under this number.
    pub fn page(&self, main: usize, number: usize) -> Vec<u8> {
        let mut page = vec![0xFF; main];
        page[..SELECTION_AT].copy_from_slice(&(number as u16).to_le_bytes());
        page[SELECTION_AT] = self.selection;
        page[COUNT_AT..PRICE_AT].copy_from_slice(&self.count.to_le_bytes());
        page[PRICE_AT..REPLACES_AT].copy_from_slice(&self.price.to_le_bytes());
        page[REPLACES_AT..RECORD_BYTES].copy_from_slice(&self.replaces.to_le_bytes());
        page
    }
}

// The number that the record with this number replaces, 0 for none; none where the page is not that record.
fn replaced_by(page: &[u8], number: usize) -> Option<usize> {
    let replaces = u16_at(page, REPLACES_AT) as usize;
    let blank = page[RECORD_BYTES..].iter().all(|byte| *byte == 0xFF);
    (u16_at(page, 0) as usize == number && replaces < number && blank).then_some(replaces)
}

pub fn journal_room(geometry: &Geometry) -> usize {
    (geometry.logical * geometry.pages).min(MOST_RECORDS)
}

// How many records there are, and whether one of them replaces a number.
struct Journal {
    records: usize,
    replaced: Vec<bool>,
}

impl Journal {
    fn in_force(&self, number: usize) -> bool {
        number != 0 && number <= self.records && !self.replaced[number]
    }
}

// ---- what a scan found ----

// What was found on each block, and the pages of the current table.
struct Scan {
    summaries: Vec<Summary>,
    table: Vec<u8>,
}

impl Scan {
    fn add(&mut self, geometry: &Geometry, block: usize, bytes: Vec<u8>) {
        let summary = summarise(geometry, &block_pages(geometry, &bytes));
        self.summaries.push(summary);
        let is_table = summary.complete.is_some_and(|label| label.is_table());
        if is_table && current_table(&self.summaries) == Some(block) {
            self.table = bytes;
        }
    }

    fn carried(&self, geometry: &Geometry) -> Option<Carried> {
        let table = current_table(&self.summaries)?;
        carried_by(geometry, table, &block_pages(geometry, &self.table), &marks_of(&self.summaries))
    }

    fn judge(&self, geometry: &Geometry) -> Result<State, usize> {
        let table = current_table(&self.summaries).ok_or(NO_TABLE)?;
        let marks = marks_of(&self.summaries);
        let pages = block_pages(geometry, &self.table);
        let invalid = table_bitmap(geometry, &pages, &marks, table).ok_or(WRONG_TABLE)?;
        let copies = self.copies(&invalid);
        if clash(geometry, &copies) {
            return Err(CLASH);
        }
        let (number, last) = self.greatest();
        let mut state = State { table: table as u64, marks, invalid, ..State::blank(MOUNTED) };
        state.last = last as u64;
        state.number = number;
        (state.map, state.kinds) = current_copies(geometry, &copies);
        Ok(state)
    }

    // Complete blocks that the table does not list.
    fn copies(&self, invalid: &[u8]) -> Vec<(usize, Label)> {
        let all = self.summaries.iter().enumerate();
        let complete = all.filter_map(|(block, summary)| Some((block, summary.complete?)));
        complete.filter(|(block, _)| !bit(invalid, *block)).collect()
    }

    // The greatest number on a whole page of an unmarked block, and the lowest block that holds it.
    fn greatest(&self) -> (u64, usize) {
        let mut found = None;
        for (block, summary) in self.summaries.iter().enumerate() {
            let Some(number) = summary.greatest.filter(|_| !summary.marked) else { continue };
            if found.map_or(true, |(greatest, _)| number > greatest) {
                found = Some((number, block));
            }
        }
        found.unwrap_or((0, 0))
    }
}

fn clash(geometry: &Geometry, copies: &[(usize, Label)]) -> bool {
    let mut numbers: Vec<u64> = copies.iter().map(|(_, label)| label.number).collect();
    numbers.sort();
    let twice = numbers.windows(2).any(|pair| pair[0] == pair[1]);
    let beyond = |label: &Label| label.is_data() && label.logical as usize >= geometry.logical;
    twice || copies.iter().any(|(_, label)| beyond(label))
}

// The map and its kinds.
fn current_copies(geometry: &Geometry, copies: &[(usize, Label)]) -> (Vec<u16>, Vec<u8>) {
    let (mut map, mut kinds) = (vec![EMPTY; MOST_BLOCKS], vec![0; MOST_BLOCKS]);
    let mut numbers = vec![None; geometry.logical];
    for (block, label) in copies.iter().filter(|(_, label)| label.is_data()) {
        let logical = label.logical as usize;
        if numbers[logical].map_or(true, |number| label.number > number) {
            numbers[logical] = Some(label.number);
            map[logical] = *block as u16;
            kinds[logical] = label.kind;
        }
    }
    (map, kinds)
}

// ---- requests ----

#[derive(Clone, Debug)]
pub enum Request {
    Format,
    Mount,
    QuickMount,
    Read { block: usize, page: usize },
    Write { block: usize, page: usize },
    Erase { block: usize },
    Identify,
    Open { block: usize, page: usize },
    Advance { most: u64 },
    Append(Sale),
    Takings,
}

impl Request {
    // Whether it tells a number: that of a record, or the takings.
    pub fn tells(&self) -> bool {
        matches!(self, Request::Append(_) | Request::Takings)
    }

    pub fn mounts(&self) -> bool {
        matches!(self, Request::Mount | Request::QuickMount)
    }

    fn needs_mount(&self) -> bool {
        !self.mounts() && !matches!(self, Request::Format | Request::Identify)
    }

    fn address_right(&self, geometry: &Geometry) -> bool {
        match self {
            Request::Read { block, page } | Request::Write { block, page } | Request::Open { block, page } => {
                *block < geometry.logical && *page < geometry.pages
            }
            Request::Erase { block } => *block < geometry.logical,
            _ => true,
        }
    }

    fn length_right(&self, geometry: &Geometry, buffer: &[u8]) -> bool {
        let carries = matches!(self, Request::Read { .. } | Request::Write { .. } | Request::Open { .. });
        !carries || buffer.len() == geometry.main
    }

    // Whether it may not come while a write is open, or only then.
    fn barred(&self, write: &OpenWrite) -> bool {
        match self {
            Request::Write { .. } | Request::Erase { .. } | Request::Open { .. } | Request::Format => write.is_open(),
            Request::Append(_) => write.is_open(),
            Request::Advance { .. } => !write.is_open(),
            _ => false,
        }
    }

    // Whether no write is open after an answer other than a refusal: a mount, a formatting that was not protected, and whatever stops
    // the state.
    fn gives_up(&self, answer: usize) -> bool {
        match self {
            _ if self.mounts() => true,
            Request::Format => answer != PROTECTED,
            _ => stops(answer),
        }
    }
}

fn lengths_right(geometry: &Geometry, chip: &Chip, call: &Call) -> bool {
    chip.array.len() == geometry.chip_bytes()
        && chip.register.len() == geometry.page_bytes()
        && chip.history.len() == geometry.blocks
        && call.mask.len() == geometry.block_bytes()
}

pub fn stops(answer: usize) -> bool {
    (WORN..=CUT).contains(&answer) || answer == ILLEGAL
}

// The state that a call is handed, with the write that is open on it.
struct Handed {
    state: State,
    write: OpenWrite,
    page: Vec<u8>,
}

impl Handed {
    fn from_bytes(bytes: &[u8]) -> Handed {
        let (state, write) = (State::from_bytes(bytes), OpenWrite::from_bytes(bytes));
        Handed { state, write, page: bytes[PAGE_AT..KINDS_AT].to_vec() }
    }

    fn to_bytes(&self) -> Vec<u8> {
        let mut bytes = self.state.to_bytes();
        self.write.put(&mut bytes);
        bytes[PAGE_AT..KINDS_AT].copy_from_slice(&self.page);
        bytes
    }

    // An open write outside the geometry counts as not mounted.
    fn mounted(&self, geometry: &Geometry) -> bool {
        self.state.mounted(geometry) && (!self.write.is_open() || self.write.inside(geometry))
    }

    fn open(&mut self, block: usize, page: usize, bytes: &[u8]) {
        self.write = OpenWrite::begun(block, page, self.state.map[block]);
        self.page = bytes.to_vec();
        self.page.resize(MOST_MAIN, 0);
    }

    fn close(&mut self) {
        self.write = OpenWrite::default();
        self.page.fill(0);
    }
}

fn refusal(geometry: &Geometry, request: &Request, chip: &Chip, call: &Call, handed: &Handed, buffer: &[u8]) -> usize {
    if matches!(request, Request::Identify) {
        return if buffer.len() == PARAMETER_BYTES { DONE } else { GEOMETRY };
    }
    if !geometry.within_limits() || !lengths_right(geometry, chip, call) {
        GEOMETRY
    } else if request.needs_mount() && !handed.mounted(geometry) {
        MOUNT_FIRST
    } else if request.barred(&handed.write) && handed.mounted(geometry) {
        WRITE_OPEN
    } else if !request.address_right(geometry) {
        ADDRESS
    } else if !request.length_right(geometry, buffer) {
        LENGTH
    } else {
        DONE
    }
}

// State, interface, the cycles sent and, where the chip is to tell its size, the sizes; of an advance also whether it is finished, and
// of a request on the journal what it tells.
fn lent_rightly(request: &Request, side: &Side) -> bool {
    side.state.len() == STATE_BYTES
        && side.chip.interface.len() == INTERFACE_WORDS
        && side.sent.len() == 1
        && (side.sizes.len() == SIZE_WORDS || !matches!(request, Request::Identify))
        && (side.finished.len() == 1 || !matches!(request, Request::Advance { .. }))
        && (side.told.len() == 1 || !request.tells())
}

// One call of a store of this version; the answer.
pub fn call(
    version: Version,
    geometry: &Geometry,
    request: &Request,
    side: &mut Side,
    call: &Call,
    watch: &mut Watch,
) -> usize {
    side.chip.set_line(call.protected);
    if !lent_rightly(request, side) {
        return BAD_BUFFER;
    }
    let Side { state, chip, buffer, sent, sizes, finished, told } = side;
    sent[0] = 0;
    let mut parameters = Vec::new();
    match request {
        Request::Identify => {
            sizes.fill(0);
            parameters = buffer.clone();
        }
        Request::Advance { .. } => finished.fill(0),
        _ if request.tells() => told.fill(0),
        _ => {}
    }
    let mut handed = Handed::from_bytes(state);
    let refused = refusal(geometry, request, chip, call, &handed, buffer);
    if refused != DONE {
        return refused;
    }
    if !reads_blank(request, &handed.state) {
        chip.interface[FATES_USED] = 0;
        chip.interface[ILLEGAL_SEEN] = 0;
    }
    let bus = Bus { geometry: *geometry, chip, parameters, call, watch, sent: 0 };
    let mut store = Store { version, bus, state: handed.state.clone(), held: Vec::new(), failed: false };
    let answer = match carry_out(&mut store, request, &mut handed, buffer, sizes, finished, told) {
        Ok(answer) => answer,
        Err(stop) => {
            store.state = State::blank(STOPPED);
            stop_answer(request, stop)
        }
    };
    sent[0] = store.bus.sent;
    // A protected request hands the state back as it came.
    if answer == PROTECTED {
        return answer;
    }
    handed.state = store.state;
    if request.gives_up(answer) {
        handed.close();
    }
    *state = handed.to_bytes();
    answer
}

// The line is taken not to change while a write is open: an advance that finds it low ends as one on a chip that is not ready.
fn stop_answer(request: &Request, stop: Stop) -> usize {
    match (request, stop) {
        (Request::Advance { .. }, Stop::Protected) => ILLEGAL,
        _ => stop.answer(),
    }
}

// A read of a logical block without a copy: it sends no cycle and leaves the interface as it is.
fn reads_blank(request: &Request, state: &State) -> bool {
    matches!(request, Request::Read { block, .. } if state.map[*block] == EMPTY)
}

fn carry_out(
    store: &mut Store,
    request: &Request,
    handed: &mut Handed,
    buffer: &mut Vec<u8>,
    sizes: &mut [u64],
    finished: &mut [u64],
    told: &mut [u64],
) -> Result<usize, Stop> {
    match request {
        Request::Format => store.format()?,
        Request::Mount => return mount(store, false),
        Request::QuickMount => return mount(store, true),
        Request::Read { block, page } => *buffer = store.read_logical(*block, *page, store.geometry().main)?,
        Request::Write { block, page } => {
            let copy = store.copy_of(*block, Some((*page, buffer)));
            store.replace(&copy)?
        }
        Request::Erase { block } => {
            let copy = store.copy_of(*block, None);
            store.replace(&copy)?
        }
        Request::Identify => return identify(store, sizes),
        Request::Open { block, page } => {
            store.bus.ask_writable()?;
            handed.open(*block, *page, buffer);
        }
        Request::Advance { most } => {
            let bytes = handed.page[..store.geometry().main].to_vec();
            if store.advance(&mut handed.write, &bytes, *most)? {
                finished[0] = 1;
                handed.close();
            }
        }
        Request::Append(sale) => return store.append(sale, &mut told[0]),
        Request::Takings => told[0] = store.takings()?,
    }
    Ok(DONE)
}

// The chip tells its size; the state stays.
fn identify(store: &mut Store, sizes: &mut [u64]) -> Result<usize, Stop> {
    store.bus.reset()?;
    let page = store.bus.read_parameters()?;
    match parameters::told(&page, store.geometry().logical) {
        Ok(told) => {
            let words = [told.main, told.spare, told.pages, told.blocks];
            sizes.copy_from_slice(&words.map(|word| word as u64));
            Ok(DONE)
        }
        Err(answer) => Ok(answer),
    }
}

fn mount(store: &mut Store, quick: bool) -> Result<usize, Stop> {
    let geometry = store.geometry();
    let scan = store.scan(quick)?;
    match scan.judge(&geometry) {
        Ok(state) => {
            store.state = state;
            Ok(DONE)
        }
        Err(answer) => {
            store.state = State::blank(0);
            Ok(answer)
        }
    }
}
