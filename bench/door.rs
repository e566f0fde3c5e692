//! The yardsticks as C functions, with numbers and slices as the library's own
//! `moki_run`, `moki_read` and `moki_write` have them, so that one program can call
//! both.
#![no_std]

#[path = "../judge/src/textyard.rs"]
mod textyard;
#[path = "../judge/src/writeyard.rs"]
mod writeyard;
#[path = "../judge/src/yardstick.rs"]
mod yardstick;

use core::slice::{from_raw_parts, from_raw_parts_mut};
use yardstick::{run, Lent, Session};

/// # Safety
///
/// Each pointer of a slice leads to as many places as the number after it says.
#[no_mangle]
pub unsafe extern "C" fn yardstick_run(
    length: u64,
    revision: u64,
    state: u32,
    block: *const i32,
    block_length: usize,
    lits: *mut i32,
    lits_length: usize,
    kinds: *mut u8,
    kinds_length: usize,
    reasons: *mut u32,
    reasons_length: usize,
    seen: u64,
    budget: u32,
    preferred: *const i32,
    preferred_length: usize,
    answer: &mut [u64; 5],
) -> u32 {
    let session = Session {
        length,
        revision,
        state: state.min(2) as u8,
    };
    let block = unsafe { from_raw_parts(block, block_length) };
    let lent = Lent {
        literals: unsafe { from_raw_parts_mut(lits, lits_length) },
        kinds: unsafe { from_raw_parts_mut(kinds, kinds_length) },
        reasons: unsafe { from_raw_parts_mut(reasons, reasons_length) },
    };
    let preferred = unsafe { from_raw_parts(preferred, preferred_length) };
    match run(session, block, lent, seen, budget, preferred) {
        Ok((next, count, reason)) => {
            let state = next.state.into();
            *answer = [
                next.length,
                next.revision,
                state,
                count.into(),
                reason.into(),
            ];
            0
        }
        Err(number) => number.into(),
    }
}

/// # Safety
///
/// Each pointer of a slice leads to as many places as the number after it says.
#[no_mangle]
pub unsafe extern "C" fn yardstick_read(
    bytes: *const u8,
    bytes_length: usize,
    output: *mut i32,
    output_length: usize,
    answer: &mut [u64; 1],
) -> u32 {
    let bytes = unsafe { from_raw_parts(bytes, bytes_length) };
    let output = unsafe { from_raw_parts_mut(output, output_length) };
    let (number, told) = textyard::read(bytes, output);
    *answer = [told as u64];
    number.into()
}

/// # Safety
///
/// Each pointer of a slice leads to as many places as the number after it says.
#[no_mangle]
pub unsafe extern "C" fn yardstick_write(
    block: *const i32,
    block_length: usize,
    output: *mut u8,
    output_length: usize,
    answer: &mut [u64; 1],
) -> u32 {
    let block = unsafe { from_raw_parts(block, block_length) };
    let output = unsafe { from_raw_parts_mut(output, output_length) };
    match writeyard::write(block, output) {
        (0, length) => {
            *answer = [length as u64];
            0
        }
        (number, _) => number.into(),
    }
}

#[panic_handler]
fn stop(_: &core::panic::PanicInfo) -> ! {
    loop {}
}

/// `core` as it is delivered names it, though nothing unwinds here.
#[no_mangle]
pub extern "C" fn rust_eh_personality() {}
