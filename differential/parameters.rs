// The chip's parameter page (002, Table 13): its integrity CRC, its good copies, the sizes that they tell.

use super::{u16_at, u32_at, Geometry, GEOMETRY, NO_SIZES};

pub const COPY_BYTES: usize = 256;
pub const PARAMETER_BYTES: usize = 3 * COPY_BYTES;
pub const CRC_AT: usize = 254;

// The places of the sizes in a copy.
pub const MAIN_AT: usize = 80;
pub const SPARE_AT: usize = 84;
pub const PAGES_AT: usize = 92;
pub const BLOCKS_AT: usize = 96;

// What each byte leaves when it is divided, shifted up by 16 bits, by the polynomial 18005h.
const REMAINDERS: [u16; 256] = remainders();

const fn remainders() -> [u16; 256] {
    let mut table = [0; 256];
    let mut byte = 0;
    while byte < 256 {
        let mut dividend = (byte as u32) << 16;
        let mut bit = 24;
        while bit > 16 {
            bit -= 1;
            if dividend >> bit & 1 == 1 {
                dividend ^= 0x1_8005 << (bit - 16);
            }
        }
        table[byte] = dividend as u16;
        byte += 1;
    }
    table
}

pub fn crc(bytes: &[u8]) -> u16 {
    let next = |crc: u16, byte: &u8| crc << 8 ^ REMAINDERS[(crc >> 8) as usize ^ *byte as usize];
    bytes.iter().fold(0x4F4E, next)
}

fn good(copy: &&[u8]) -> bool {
    copy.starts_with(b"ONFI") && copy[CRC_AT..] == crc(&copy[..CRC_AT]).to_le_bytes()
}

// The sizes of the first good copy, with the number of logical blocks that is given.
pub fn told(page: &[u8], logical: usize) -> Result<Geometry, usize> {
    let copy = page.chunks(COPY_BYTES).find(good).ok_or(NO_SIZES)?;
    let geometry = Geometry {
        main: u32_at(copy, MAIN_AT) as usize,
        spare: u16_at(copy, SPARE_AT) as usize,
        pages: u32_at(copy, PAGES_AT) as usize,
        blocks: u32_at(copy, BLOCKS_AT) as usize,
        logical,
    };
    if geometry.within_limits() {
        Ok(geometry)
    } else {
        Err(GEOMETRY)
    }
}
