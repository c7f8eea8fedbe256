// The library's eleven calls from Rust.

use crate::store::*;

type Lent<T> = *mut T;

macro_rules! library_call {
    ($name:ident($($number:ident),*) $(, $extra:ident : $kind:ty)*) => {
        fn $name(
            $($number: usize,)*
            state: Lent<u8>, state_len: usize, interface: Lent<u64>, interface_len: usize,
            array: Lent<u8>, array_len: usize, page_register: Lent<u8>, page_register_len: usize,
            history: Lent<u8>, history_len: usize, mask: *const u8, mask_len: usize,
            fates: *const u32, fates_len: usize, allowed: u32, sent: Lent<u64>, sent_len: usize
            $(, $extra: $kind)*
        ) -> usize;
    };
}

// A call on a chip whose geometry is known.
macro_rules! request_call {
    ($name:ident $(, $extra:ident : $kind:ty)*) => {
        library_call!($name(main, spare, pages, blocks, logical) $(, $extra: $kind)*);
    };
}

extern "C" {
    request_call!(flash_store_format);
    request_call!(flash_store_mount);
    request_call!(flash_store_quick_mount);
    request_call!(flash_store_read, block: usize, page: usize, buffer: Lent<u8>, buffer_len: usize);
    request_call!(flash_store_write, block: usize, page: usize, bytes: *const u8, bytes_len: usize);
    request_call!(flash_store_erase, block: usize);
    request_call!(flash_store_open_write, block: usize, page: usize, bytes: *const u8, bytes_len: usize);
    request_call!(flash_store_advance, most: u64, finished: Lent<u64>, finished_len: usize);
    request_call!(
        flash_store_append,
        selection: u8, count: u16, price: u32, replaces: u16, number: Lent<u64>, number_len: usize
    );
    request_call!(flash_store_takings, takings: Lent<u64>, takings_len: usize);
    library_call!(
        flash_store_identify(logical),
        parameters: *const u8, parameters_len: usize, sizes: Lent<u64>, sizes_len: usize
    );
}

macro_rules! lend {
    ($function:ident($($number:expr),*), $s:expr, $c:expr $(, $extra:expr)*) => {
        $function(
            $($number,)*
            $s.state.as_mut_ptr(), $s.state.len(), $s.chip.interface.as_mut_ptr(), $s.chip.interface.len(),
            $s.chip.array.as_mut_ptr(), $s.chip.array.len(), $s.chip.register.as_mut_ptr(), $s.chip.register.len(),
            $s.chip.history.as_mut_ptr(), $s.chip.history.len(), $c.mask.as_ptr(), $c.mask.len(),
            $c.fates.as_ptr(), $c.fates.len(), $c.allowed, $s.sent.as_mut_ptr(), $s.sent.len()
            $(, $extra)*
        )
    };
    ($function:ident, $g:expr, $s:expr, $c:expr $(, $extra:expr)*) => {
        lend!($function($g.main, $g.spare, $g.pages, $g.blocks, $g.logical), $s, $c $(, $extra)*)
    };
}

// The library's answer. The write-protect line goes into its word, as the calls of c/flash_store.h put it.
pub fn library(geometry: &Geometry, request: &Request, side: &mut Side, call: &Call) -> usize {
    side.chip.set_line(call.protected);
    let buffer = side.buffer.as_mut_ptr();
    let length = side.buffer.len();
    let (sizes, words) = (side.sizes.as_mut_ptr(), side.sizes.len());
    let (finished, flags) = (side.finished.as_mut_ptr(), side.finished.len());
    let (told, count) = (side.told.as_mut_ptr(), side.told.len());
    // The buffers are as long as said and none overlaps another.
    unsafe {
        match request {
            Request::Format => lend!(flash_store_format, geometry, side, call),
            Request::Mount => lend!(flash_store_mount, geometry, side, call),
            Request::QuickMount => lend!(flash_store_quick_mount, geometry, side, call),
            Request::Read { block, page } => {
                lend!(flash_store_read, geometry, side, call, *block, *page, buffer, length)
            }
            Request::Write { block, page } => {
                lend!(flash_store_write, geometry, side, call, *block, *page, buffer as *const u8, length)
            }
            Request::Erase { block } => lend!(flash_store_erase, geometry, side, call, *block),
            Request::Open { block, page } => {
                lend!(flash_store_open_write, geometry, side, call, *block, *page, buffer as *const u8, length)
            }
            Request::Advance { most } => lend!(flash_store_advance, geometry, side, call, *most, finished, flags),
            Request::Append(sale) => {
                let Sale { selection, count: sold, price, replaces } = *sale;
                lend!(flash_store_append, geometry, side, call, selection, sold, price, replaces, told, count)
            }
            Request::Takings => lend!(flash_store_takings, geometry, side, call, told, count),
            Request::Identify => {
                let logical = geometry.logical;
                lend!(flash_store_identify(logical), side, call, buffer as *const u8, length, sizes, words)
            }
        }
    }
}
