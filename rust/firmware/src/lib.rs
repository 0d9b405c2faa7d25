//! Boot code that has no operating system below it: it plans a board and asks who owns an address, with `core` alone.
//!
//! The machine has to have memory functions (memcpy and its like) and nothing else; rust/run looks. It lends every
//! buffer, and nothing is kept after a call.

#![no_std]

use cartsundial::{plan, route, Arrival, Refusal};
use core::panic::PanicInfo;
use core::slice;

/// Plans a board in `sheet` and routes a header over it. `owner`: the record of the function that gets the packet, or 0
/// where every function does, or the port. Returns 0, or document 01's number, which leaves `owner` as it was.
///
/// # Safety
///
/// Each pointer has so many bytes behind it as its length says, `owner` is valid, what is written overlaps nothing, and
/// nobody else changes any of it until the call returns.
#[no_mangle]
pub unsafe extern "C" fn firmware_owner(
    board: *const u8,
    board_len: usize,
    sheet: *mut u8,
    sheet_len: usize,
    header: *const u8,
    header_len: usize,
    owner: &mut u16,
) -> u32 {
    // SAFETY: the caller's duty, as above.
    let (board, sheet, header) = unsafe {
        (
            slice::from_raw_parts(board, board_len),
            slice::from_raw_parts_mut(sheet, sheet_len),
            slice::from_raw_parts(header, header_len),
        )
    };
    match owner_of(board, sheet, header) {
        Ok(record) => {
            *owner = record;
            0
        }
        Err(refusal) => refusal.number().into(),
    }
}

fn owner_of(board: &[u8], sheet: &mut [u8], header: &[u8]) -> Result<u16, Refusal> {
    let length = plan(board, sheet)?;
    Ok(match route(header, &sheet[..length])? {
        Arrival::Function(delivery) => delivery.record,
        _ => 0,
    })
}

/// The machine stops.
#[panic_handler]
fn stop(_: &PanicInfo) -> ! {
    loop {}
}
