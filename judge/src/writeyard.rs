//! The yardstick of speed for writing texts: a plain writer. It needs `core` alone
//! and of this package nothing but the yardstick's check.
//!
//! The text is spelled twice, once to count its bytes and once to write them, so
//! that an output it doesn't fit in stays as it was.

use crate::yardstick::Parts;

/// 0 and the text's length, or the number of the refusal and 0.
pub fn write(block: &[i32], output: &mut [u8]) -> (u8, usize) {
    let parts = match Parts::of(block) {
        Ok(parts) => parts,
        Err(number) => return (number, 0),
    };
    let mut length = 0;
    spell(&parts, &mut |_| length += 1);
    if length > output.len() {
        return (30, 0);
    }
    let mut at = 0;
    spell(&parts, &mut |byte| {
        output[at] = byte;
        at += 1;
    });
    (0, length)
}

/// Every byte of the text, in order.
fn spell(parts: &Parts, put: &mut impl FnMut(u8)) {
    for &byte in b"p cnf " {
        put(byte);
    }
    number(parts.prefix.len() as u32, put);
    put(b' ');
    number(parts.ends.len() as u32, put);
    put(b'\n');
    let mut before = 0;
    for &word in parts.prefix {
        let sign = word.signum();
        if sign != before {
            if before != 0 {
                end_line(put);
            }
            put(if sign > 0 { b'e' } else { b'a' });
            put(b' ');
        }
        number(word.unsigned_abs(), put);
        put(b' ');
        before = sign;
    }
    if before != 0 {
        end_line(put);
    }
    for clause in 0..parts.ends.len() {
        for &word in parts.clause(clause) {
            if word < 0 {
                put(b'-');
            }
            number(word.unsigned_abs(), put);
            put(b' ');
        }
        end_line(put);
    }
}

fn end_line(put: &mut impl FnMut(u8)) {
    put(b'0');
    put(b'\n');
}

/// The digits of a number, the last one being the first that is known.
fn number(size: u32, put: &mut impl FnMut(u8)) {
    let mut digits = [0; 10];
    let mut first = digits.len();
    let mut rest = size;
    loop {
        first -= 1;
        digits[first] = b'0' + (rest % 10) as u8;
        rest /= 10;
        if rest == 0 {
            break;
        }
    }
    for &digit in &digits[first..] {
        put(digit);
    }
}
