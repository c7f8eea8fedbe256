// The test load on the second implementation: reads `SEED COUNT` from standard input and prints the line of a formatting
// of the small chip, then COUNT lines of drawn requests. For seed 0 it prints `2 0 0`, for a malformed line nothing.

mod draws;
#[allow(dead_code)]
mod store;

use draws::*;
use std::io::{stdin, stdout, BufRead, BufWriter, Result, Write};
use store::*;

const SMALL: Geometry = Geometry { main: 32, spare: 16, pages: 4, blocks: 4, logical: 2 };

struct Bench {
    side: Side,
    call: Call,
}

impl Bench {
    fn new() -> Bench {
        let chip = Chip {
            interface: vec![0; INTERFACE_WORDS],
            array: vec![0xFF; SMALL.chip_bytes()],
            register: vec![0; SMALL.page_bytes()],
            history: vec![0; SMALL.blocks],
        };
        let call = Call { mask: vec![0; SMALL.block_bytes()], fates: Vec::new(), allowed: u32::MAX, protected: 0 };
        let buffer = vec![0; SMALL.main];
        let (sizes, finished, told) = (Vec::new(), Vec::new(), Vec::new());
        let side = Side { state: vec![0; STATE_BYTES], chip, buffer, sent: vec![0], sizes, finished, told };
        Bench { side, call }
    }

    // Answer, cycles sent, and the valid unmarked blocks that hold nothing current.
    fn line(&mut self, request: &Request) -> String {
        let answer = store::call(Version::White, &SMALL, request, &mut self.side, &self.call, &mut Watch::default());
        let free = State::from_bytes(&self.side.state).free_blocks(&SMALL);
        format!("{answer} {} {free}", self.side.sent[0])
    }
}

fn number(field: &[u8]) -> Option<u32> {
    if !field.iter().all(u8::is_ascii_digit) {
        return None;
    }
    std::str::from_utf8(field).ok()?.parse().ok()
}

// Seed and count, with one space between them and nothing else.
fn parse(line: &[u8]) -> Option<(u32, u32)> {
    let line = line.strip_suffix(b"\n").unwrap_or(line);
    let space = line.iter().position(|byte| *byte == b' ')?;
    Some((number(&line[..space])?, number(&line[space + 1..])?))
}

fn run(seed: u32, count: u32) -> Result<()> {
    let mut out = BufWriter::new(stdout().lock());
    if seed == 0 {
        return writeln!(out, "2 0 0");
    }
    let mut bench = Bench::new();
    let mut load = Load::new(seed, drawn);
    writeln!(out, "{}", bench.line(&Request::Format))?;
    for _ in 0..count {
        let request = load.request(&SMALL, &mut bench.side.buffer);
        writeln!(out, "{}", bench.line(&request))?;
    }
    out.flush()
}

fn main() -> Result<()> {
    let mut line = Vec::new();
    stdin().lock().read_until(b'\n', &mut line)?;
    let Some((seed, count)) = parse(&line) else {
        eprintln!("load: malformed line");
        return Ok(());
    };
    run(seed, count)
}
