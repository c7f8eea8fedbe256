// The test load: draws from a seed, and the requests that they pick.

use crate::store::{Geometry, Request};

pub fn drawn(last: u32) -> u32 {
    let first = last ^ last << 13;
    let second = first ^ first >> 17;
    second ^ second << 5
}

// `last` is the last draw, at the start the seed; `draw` makes the next one of it.
pub struct Load {
    last: u32,
    draw: fn(u32) -> u32,
}

impl Load {
    pub fn new(seed: u32, draw: fn(u32) -> u32) -> Load {
        Load { last: seed, draw }
    }

    fn next(&mut self) -> u32 {
        self.last = (self.draw)(self.last);
        self.last
    }

    // The next request, made ready in the buffer: a write's page is filled with its byte.
    pub fn request(&mut self, geometry: &Geometry, buffer: &mut [u8]) -> Request {
        let kind = self.next() % 8;
        let block = self.next() as usize % geometry.logical;
        if kind == 0 {
            return Request::Erase { block };
        }
        let drawn = self.next();
        let page = drawn as usize % geometry.pages;
        if kind <= 3 {
            return Request::Read { block, page };
        }
        buffer.fill((drawn >> 24) as u8);
        Request::Write { block, page }
    }
}
