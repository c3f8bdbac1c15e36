//! The yardsticks of the benchmark: a straightforward interpreter made to be fast. Each step is
//! decoded and matched, one arm an opcode; registers are locals; an operand's range is tested
//! once; nothing is allocated and nothing is unsafe. It comes in two kinds, which differ in AZ,
//! SZ, ALC and SLC alone: `BYTES`, the straightforward one, goes digit by digit and byte by byte
//! in plain loops; `WORDS` goes eight bytes at a time in 64-bit words.

use crate::model::{Ended, Machine, BUDGET_LIMIT};
use crate::model::{BINARY_OVERFLOW, DECIMAL_OVERFLOW, EQUAL, HIGH, LOW, TEST_FALSE};
use std::cell::Cell;
use std::cmp::Ordering;

/// How AZ, SZ, ALC and SLC go: the parameter of `run`.
pub const BYTES: bool = false;
pub const WORDS: bool = true;

pub type Run = fn(&mut Machine, &mut [u8], u32) -> Ended;

/// Both, by name.
pub const YARDSTICKS: [(&str, Run); 2] = [("bytes", run::<BYTES>), ("words", run::<WORDS>)];

const ORDER: u8 = HIGH | LOW | EQUAL;

/// What an instruction on storage gives: the new status, or the number of the stop.
type Outcome = Result<u8, u8>;

#[inline(always)]
fn direct(high: u8, low: u8) -> u16 {
    u16::from_be_bytes([high, low])
}

#[inline(always)]
fn based(base: u16, displacement: u8) -> u16 {
    base.wrapping_add(displacement as u16)
}

#[inline(always)]
fn set_order(status: u8, order: Ordering) -> u8 {
    let bit = match order {
        Ordering::Less => LOW,
        Ordering::Equal => EQUAL,
        Ordering::Greater => HIGH,
    };
    (status & !ORDER) | bit
}

#[inline(always)]
fn set_sum(status: u8, zero: bool, carry: bool) -> u8 {
    let bit = if zero {
        EQUAL
    } else if carry {
        HIGH
    } else {
        LOW
    };
    let overflow = if carry { BINARY_OVERFLOW } else { 0 };
    (status & !(ORDER | BINARY_OVERFLOW)) | bit | overflow
}

/// The first address of a field that ends at `address`, if the field is in storage.
#[inline(always)]
fn first_of(address: u16, length: usize, size: usize) -> Result<usize, u8> {
    let end = address as usize + 1;
    if end > size || end < length {
        return Err(7);
    }
    Ok(end - length)
}

pub fn run<const SUMS: bool>(m: &mut Machine, storage: &mut [u8], budget: u32) -> Ended {
    let size = storage.len();
    let refused = |number| Ended { number, q: 0, r: 0, steps: 0 };
    if !(256..=65_536).contains(&size) || size % 256 != 0 {
        return refused(1);
    }
    if budget > BUDGET_LIMIT {
        return refused(2);
    }
    if m.status & 0xC0 != 0 {
        return refused(3);
    }
    let Machine { mut iar, mut arr, mut xr1, mut xr2, mut wr, mut status } = *m;
    let mut steps = 0;
    let (number, q, r) = 'run: {
        macro_rules! stop {
            ($number:expr) => {
                break 'run ($number, 0, 0)
            };
        }
        // the instruction's bytes after the opcode, or stop 4
        macro_rules! text {
            ($text:ident, $pattern:pat) => {
                let $pattern = $text else { stop!(4) };
            };
        }
        macro_rules! two {
            ($text:ident, $f:path, $left:tt) => {{
                let (q, address1, address2, length) = two!(@ $left, $text);
                match $f(storage, status, q, address1, address2) {
                    Ok(new) => status = new,
                    Err(number) => stop!(number),
                }
                iar = iar.wrapping_add(length);
            }};
            (@ 0, $text:ident) => {{
                text!($text, &[_, q, h1, l1, h2, l2, ..]);
                (q, direct(h1, l1), direct(h2, l2), 6)
            }};
            (@ 1, $text:ident) => {{
                text!($text, &[_, q, h1, l1, d2, ..]);
                (q, direct(h1, l1), based(xr1, d2), 5)
            }};
            (@ 2, $text:ident) => {{
                text!($text, &[_, q, h1, l1, d2, ..]);
                (q, direct(h1, l1), based(xr2, d2), 5)
            }};
            (@ 4, $text:ident) => {{
                text!($text, &[_, q, d1, h2, l2, ..]);
                (q, based(xr1, d1), direct(h2, l2), 5)
            }};
            (@ 8, $text:ident) => {{
                text!($text, &[_, q, d1, h2, l2, ..]);
                (q, based(xr2, d1), direct(h2, l2), 5)
            }};
            (@ 5, $text:ident) => {{
                text!($text, &[_, q, d1, d2, ..]);
                (q, based(xr1, d1), based(xr1, d2), 4)
            }};
            (@ 6, $text:ident) => {{
                text!($text, &[_, q, d1, d2, ..]);
                (q, based(xr1, d1), based(xr2, d2), 4)
            }};
            (@ 9, $text:ident) => {{
                text!($text, &[_, q, d1, d2, ..]);
                (q, based(xr2, d1), based(xr1, d2), 4)
            }};
            (@ A, $text:ident) => {{
                text!($text, &[_, q, d1, d2, ..]);
                (q, based(xr2, d1), based(xr2, d2), 4)
            }};
        }
        macro_rules! itc {
            ($text:ident, $left:tt) => {{
                let (q, address1, address2, length) = two!(@ $left, $text);
                match itc(storage, q, address1, address2) {
                    Ok(end) => arr = end,
                    Err(number) => stop!(number),
                }
                iar = iar.wrapping_add(length);
            }};
        }
        // Q, the operand's address and the next address, for left digits 3/C, 7/D and B/E
        macro_rules! one {
            (direct, $text:ident) => {{
                text!($text, &[_, q, h1, l1, ..]);
                (q, direct(h1, l1), iar.wrapping_add(4))
            }};
            ($base:ident, $text:ident) => {{
                text!($text, &[_, q, d1, ..]);
                (q, based($base, d1), iar.wrapping_add(3))
            }};
        }
        macro_rules! byte {
            ($base:ident, $text:ident, $f:expr) => {{
                let (q, address1, next) = one!($base, $text);
                let Some(byte) = storage.get_mut(address1 as usize) else { stop!(7) };
                #[allow(clippy::redundant_closure_call)]
                ($f)(byte, q);
                iar = next;
            }};
        }
        // the value of the register that Q names
        macro_rules! register {
            ($q:ident, $status:expr) => {
                match $q {
                    0x01 => xr1,
                    0x02 => xr2,
                    0x04 => $status,
                    0x08 => arr,
                    0x44..=0x47 => wr[($q & 3) as usize],
                    _ => stop!(6),
                }
            };
        }
        macro_rules! set_register {
            ($q:ident, $value:expr) => {
                match $q {
                    0x01 => xr1 = $value,
                    0x02 => xr2 = $value,
                    0x08 => arr = $value,
                    _ => wr[($q & 3) as usize] = $value,
                }
            };
        }
        macro_rules! two_bytes {
            ($address:ident) => {{
                let Ok(first) = first_of($address, 2, storage.len()) else { stop!(7) };
                direct(storage[first], storage[first + 1])
            }};
        }
        macro_rules! st {
            ($base:ident, $text:ident) => {{
                let (q, address1, next) = one!($base, $text);
                let value = register!(q, status as u16);
                let Ok(first) = first_of(address1, 2, storage.len()) else { stop!(7) };
                storage[first..first + 2].copy_from_slice(&value.to_be_bytes());
                iar = next;
            }};
        }
        macro_rules! l {
            ($base:ident, $text:ident) => {{
                let (q, address1, next) = one!($base, $text);
                if !matches!(q, 0x01 | 0x02 | 0x04 | 0x08 | 0x44..=0x47) {
                    stop!(6)
                }
                let value = two_bytes!(address1);
                if q == 0x04 {
                    status = loaded_status(value as u8);
                } else {
                    set_register!(q, value);
                }
                iar = next;
            }};
        }
        macro_rules! a {
            ($base:ident, $text:ident) => {{
                let (q, address1, next) = one!($base, $text);
                let before = register!(q, stop!(6));
                let (sum, carry) = before.overflowing_add(two_bytes!(address1));
                set_register!(q, sum);
                status = set_sum(status, sum == 0, carry);
                iar = next;
            }};
        }
        macro_rules! s {
            ($base:ident, $text:ident) => {{
                let (q, address1, next) = one!($base, $text);
                let before = register!(q, stop!(6));
                let value = two_bytes!(address1);
                set_register!(q, before.wrapping_sub(value));
                status = set_order(status, before.cmp(&value));
                iar = next;
            }};
        }
        macro_rules! la {
            ($base:ident, $text:ident) => {{
                let (q, address, next) = one!($base, $text);
                if !matches!(q, 0x01 | 0x02 | 0x44..=0x47) {
                    stop!(6)
                }
                set_register!(q, address);
                iar = next;
            }};
        }
        macro_rules! bc {
            ($base:ident, $text:ident) => {{
                let (q, address, next) = one!($base, $text);
                let taken = condition(status, q);
                status &= !(q & (TEST_FALSE | DECIMAL_OVERFLOW));
                if taken {
                    (iar, arr) = (address, next);
                    steps += 1;
                    continue;
                }
                (iar, arr) = (next, address);
            }};
        }
        macro_rules! jc {
            ($text:ident, $way:ident) => {{
                text!($text, &[_, q, by, ..]);
                let next = iar.wrapping_add(3);
                let taken = condition(status, q);
                status &= !(q & (TEST_FALSE | DECIMAL_OVERFLOW));
                iar = next;
                if taken {
                    // a jump of its own: the next fetch need not wait for the status
                    iar = next.$way(by as u16);
                    steps += 1;
                    continue;
                }
            }};
        }
        macro_rules! tbn {
            ($base:ident, $text:ident) => {
                byte!($base, $text, |byte: &mut u8, q: u8| if *byte & q != q {
                    status |= TEST_FALSE
                })
            };
        }
        macro_rules! tbf {
            ($base:ident, $text:ident) => {
                byte!($base, $text, |byte: &mut u8, q: u8| if *byte & q != 0 {
                    status |= TEST_FALSE
                })
            };
        }
        macro_rules! cli {
            ($base:ident, $text:ident) => {
                byte!($base, $text, |byte: &mut u8, q: u8| status = set_order(status, (*byte).cmp(&q)))
            };
        }
        macro_rules! sli {
            ($base:ident, $text:ident) => {
                byte!($base, $text, |byte: &mut u8, q: u8| {
                    status = set_order(status, (*byte).cmp(&q));
                    *byte = byte.wrapping_sub(q);
                })
            };
        }
        macro_rules! sbn {
            ($base:ident, $text:ident) => {
                byte!($base, $text, |byte: &mut u8, q: u8| *byte |= q)
            };
        }
        macro_rules! sbf {
            ($base:ident, $text:ident) => {
                byte!($base, $text, |byte: &mut u8, q: u8| *byte &= !q)
            };
        }
        macro_rules! mvi {
            ($base:ident, $text:ident) => {
                byte!($base, $text, |byte: &mut u8, q: u8| *byte = q)
            };
        }
        while steps < budget {
            let Some(&opcode) = storage.get(iar as usize) else { stop!(4) };
            let t = &storage[iar as usize..];
            match opcode {
                0x04 => two!(t, zaz, 0),
                0x06 => two!(t, az::<SUMS>, 0),
                0x07 => two!(t, sz::<SUMS>, 0),
                0x08 => two!(t, mvx, 0),
                0x0A => two!(t, ed, 0),
                0x0B => itc!(t, 0),
                0x0C => two!(t, mvc, 0),
                0x0D => two!(t, clc, 0),
                0x0E => two!(t, alc::<SUMS>, 0),
                0x0F => two!(t, slc::<SUMS>, 0),
                0x14 => two!(t, zaz, 1),
                0x16 => two!(t, az::<SUMS>, 1),
                0x17 => two!(t, sz::<SUMS>, 1),
                0x18 => two!(t, mvx, 1),
                0x1A => two!(t, ed, 1),
                0x1B => itc!(t, 1),
                0x1C => two!(t, mvc, 1),
                0x1D => two!(t, clc, 1),
                0x1E => two!(t, alc::<SUMS>, 1),
                0x1F => two!(t, slc::<SUMS>, 1),
                0x24 => two!(t, zaz, 2),
                0x26 => two!(t, az::<SUMS>, 2),
                0x27 => two!(t, sz::<SUMS>, 2),
                0x28 => two!(t, mvx, 2),
                0x2A => two!(t, ed, 2),
                0x2B => itc!(t, 2),
                0x2C => two!(t, mvc, 2),
                0x2D => two!(t, clc, 2),
                0x2E => two!(t, alc::<SUMS>, 2),
                0x2F => two!(t, slc::<SUMS>, 2),
                0x34 => st!(direct, t),
                0x35 => l!(direct, t),
                0x36 => a!(direct, t),
                0x37 => s!(direct, t),
                0x38 => tbn!(direct, t),
                0x39 => tbf!(direct, t),
                0x3A => sbn!(direct, t),
                0x3B => sbf!(direct, t),
                0x3C => mvi!(direct, t),
                0x3D => cli!(direct, t),
                0x3F => sli!(direct, t),
                0x44 => two!(t, zaz, 4),
                0x46 => two!(t, az::<SUMS>, 4),
                0x47 => two!(t, sz::<SUMS>, 4),
                0x48 => two!(t, mvx, 4),
                0x4A => two!(t, ed, 4),
                0x4B => itc!(t, 4),
                0x4C => two!(t, mvc, 4),
                0x4D => two!(t, clc, 4),
                0x4E => two!(t, alc::<SUMS>, 4),
                0x4F => two!(t, slc::<SUMS>, 4),
                0x54 => two!(t, zaz, 5),
                0x56 => two!(t, az::<SUMS>, 5),
                0x57 => two!(t, sz::<SUMS>, 5),
                0x58 => two!(t, mvx, 5),
                0x5A => two!(t, ed, 5),
                0x5B => itc!(t, 5),
                0x5C => two!(t, mvc, 5),
                0x5D => two!(t, clc, 5),
                0x5E => two!(t, alc::<SUMS>, 5),
                0x5F => two!(t, slc::<SUMS>, 5),
                0x64 => two!(t, zaz, 6),
                0x66 => two!(t, az::<SUMS>, 6),
                0x67 => two!(t, sz::<SUMS>, 6),
                0x68 => two!(t, mvx, 6),
                0x6A => two!(t, ed, 6),
                0x6B => itc!(t, 6),
                0x6C => two!(t, mvc, 6),
                0x6D => two!(t, clc, 6),
                0x6E => two!(t, alc::<SUMS>, 6),
                0x6F => two!(t, slc::<SUMS>, 6),
                0x74 => st!(xr1, t),
                0x75 => l!(xr1, t),
                0x76 => a!(xr1, t),
                0x77 => s!(xr1, t),
                0x78 => tbn!(xr1, t),
                0x79 => tbf!(xr1, t),
                0x7A => sbn!(xr1, t),
                0x7B => sbf!(xr1, t),
                0x7C => mvi!(xr1, t),
                0x7D => cli!(xr1, t),
                0x7F => sli!(xr1, t),
                0x84 => two!(t, zaz, 8),
                0x86 => two!(t, az::<SUMS>, 8),
                0x87 => two!(t, sz::<SUMS>, 8),
                0x88 => two!(t, mvx, 8),
                0x8A => two!(t, ed, 8),
                0x8B => itc!(t, 8),
                0x8C => two!(t, mvc, 8),
                0x8D => two!(t, clc, 8),
                0x8E => two!(t, alc::<SUMS>, 8),
                0x8F => two!(t, slc::<SUMS>, 8),
                0x94 => two!(t, zaz, 9),
                0x96 => two!(t, az::<SUMS>, 9),
                0x97 => two!(t, sz::<SUMS>, 9),
                0x98 => two!(t, mvx, 9),
                0x9A => two!(t, ed, 9),
                0x9B => itc!(t, 9),
                0x9C => two!(t, mvc, 9),
                0x9D => two!(t, clc, 9),
                0x9E => two!(t, alc::<SUMS>, 9),
                0x9F => two!(t, slc::<SUMS>, 9),
                0xA4 => two!(t, zaz, A),
                0xA6 => two!(t, az::<SUMS>, A),
                0xA7 => two!(t, sz::<SUMS>, A),
                0xA8 => two!(t, mvx, A),
                0xAA => two!(t, ed, A),
                0xAB => itc!(t, A),
                0xAC => two!(t, mvc, A),
                0xAD => two!(t, clc, A),
                0xAE => two!(t, alc::<SUMS>, A),
                0xAF => two!(t, slc::<SUMS>, A),
                0xB4 => st!(xr2, t),
                0xB5 => l!(xr2, t),
                0xB6 => a!(xr2, t),
                0xB7 => s!(xr2, t),
                0xB8 => tbn!(xr2, t),
                0xB9 => tbf!(xr2, t),
                0xBA => sbn!(xr2, t),
                0xBB => sbf!(xr2, t),
                0xBC => mvi!(xr2, t),
                0xBD => cli!(xr2, t),
                0xBF => sli!(xr2, t),
                0xC0 => bc!(direct, t),
                0xC2 => la!(direct, t),
                0xD0 => bc!(xr1, t),
                0xD2 => la!(xr1, t),
                0xE0 => bc!(xr2, t),
                0xE2 => la!(xr2, t),
                0xF0 => bc!(arr, t),
                0xF1 => jc!(t, wrapping_sub),
                0xF2 => jc!(t, wrapping_add),
                0xF4 => {
                    text!(t, &[_, q, r, ..]);
                    break 'run (9, q, r);
                }
                _ => stop!(5),
            }
            steps += 1;
        }
        (0, 0, 0)
    };
    *m = Machine { iar, arr, xr1, xr2, wr, status };
    Ended { number, q, r, steps }
}

#[inline(always)]
fn condition(status: u8, q: u8) -> bool {
    (status & q & 0x3F != 0) == (q & 0x80 != 0)
}

#[inline(always)]
fn loaded_status(byte: u8) -> u8 {
    let order = if byte & EQUAL != 0 {
        EQUAL
    } else if byte & LOW != 0 {
        LOW
    } else {
        HIGH
    };
    (byte & (BINARY_OVERFLOW | TEST_FALSE | DECIMAL_OVERFLOW)) | order
}

// ---------------------------------------------------------------- zoned

/// The most digits of an operand, and one array's length.
const DIGITS: usize = 32;

/// The digits of a zoned field, right in the array, zeros before; and its sign.
#[inline(always)]
fn digits(field: &[u8]) -> Result<([u8; DIGITS], bool), u8> {
    let mut digits = [0; DIGITS];
    let mut worst = 0;
    for (digit, byte) in digits[DIGITS - field.len()..].iter_mut().zip(field) {
        *digit = byte & 0x0F;
        worst = worst.max(*digit);
    }
    if worst > 9 {
        return Err(8);
    }
    Ok((digits, field[field.len() - 1] >> 4 == 0xD))
}

#[inline(always)]
fn zoned_status(status: u8, zero: bool, minus: bool) -> u8 {
    let bit = if zero {
        EQUAL
    } else if minus {
        LOW
    } else {
        HIGH
    };
    (status & !ORDER) | bit
}

fn zaz(storage: &mut [u8], status: u8, q: u8, address1: u16, address2: u16) -> Outcome {
    let l2 = (q & 0x0F) as usize + 1;
    let l1 = (q >> 4) as usize + l2;
    let first1 = first_of(address1, l1, storage.len())?;
    let first2 = first_of(address2, l2, storage.len())?;
    let (digits2, minus) = digits(&storage[first2..first2 + l2])?;
    let zero = digits2 == [0; DIGITS];
    let field1 = &mut storage[first1..first1 + l1];
    for (byte, digit) in field1.iter_mut().zip(&digits2[DIGITS - l1..]) {
        *byte = 0xF0 | digit;
    }
    if minus && !zero {
        field1[l1 - 1] &= 0xDF;
    }
    Ok(zoned_status(status, zero, minus))
}

fn az<const SUMS: bool>(storage: &mut [u8], status: u8, q: u8, address1: u16, address2: u16) -> Outcome {
    zoned_sum::<SUMS, false>(storage, status, q, address1, address2)
}

fn sz<const SUMS: bool>(storage: &mut [u8], status: u8, q: u8, address1: u16, address2: u16) -> Outcome {
    zoned_sum::<SUMS, true>(storage, status, q, address1, address2)
}

#[inline(always)]
fn zoned_sum<const SUMS: bool, const SUBTRACT: bool>(
    storage: &mut [u8],
    status: u8,
    q: u8,
    address1: u16,
    address2: u16,
) -> Outcome {
    let l2 = (q & 0x0F) as usize + 1;
    let l1 = (q >> 4) as usize + l2;
    let first1 = first_of(address1, l1, storage.len())?;
    let first2 = first_of(address2, l2, storage.len())?;
    if SUMS == WORDS {
        zoned_by_words::<SUBTRACT>(storage, status, first1, l1, first2, l2)
    } else {
        zoned_by_digits::<SUBTRACT>(storage, status, first1, l1, first2, l2)
    }
}

/// Digit by digit from the right, straight from storage; the result waits in an array until every
/// digit is seen, for the operands may overlap and a stop writes nothing.
#[inline(always)]
fn zoned_by_digits<const SUBTRACT: bool>(
    storage: &mut [u8],
    status: u8,
    first1: usize,
    l1: usize,
    first2: usize,
    l2: usize,
) -> Outcome {
    let field1 = &storage[first1..first1 + l1];
    let field2 = &storage[first2..first2 + l2];
    let minus1 = field1[l1 - 1] >> 4 == 0xD;
    let minus2 = (field2[l2 - 1] >> 4 == 0xD) != SUBTRACT;
    let mut held = [0; DIGITS];
    let result = &mut held[DIGITS - l1..];
    let mut minus = minus1;
    let mut status = status;
    let any;
    if minus1 == minus2 {
        let add = |a: u32, b: u32, carry: u32| {
            let sum = a + b + carry;
            if sum > 9 {
                (sum - 10, 1)
            } else {
                (sum, 0)
            }
        };
        let carry;
        (any, carry) = each_digit(field1, field2, result, add)?;
        if carry != 0 {
            status |= DECIMAL_OVERFLOW;
        }
    } else {
        let subtract = |a: u32, b: u32, borrow: u32| {
            let difference = a.wrapping_sub(b + borrow);
            let borrow = difference >> 31;
            (if borrow != 0 { difference.wrapping_add(10) } else { difference }, borrow)
        };
        let borrow;
        (any, borrow) = each_digit(field1, field2, result, subtract)?;
        if borrow != 0 {
            // operand 2 is the larger, and these are the digits of 10 to the L1 less the size
            minus = minus2;
            let mut borrow = 0;
            for byte in result.iter_mut().rev() {
                let (digit, under) = subtract(0, (*byte & 0x0F) as u32, borrow);
                *byte = 0xF0 | digit as u8;
                borrow = under;
            }
        }
    }
    let zero = any == 0;
    if minus && !zero {
        result[l1 - 1] &= 0xDF;
    }
    storage[first1..first1 + l1].copy_from_slice(result);
    Ok(zoned_status(status, zero, minus))
}

/// Puts what `combine` makes of each pair of digits with the carry. Gives all digits or'ed, and
/// the last carry; or 8 for a digit above 9.
#[inline(always)]
fn each_digit(
    field1: &[u8],
    field2: &[u8],
    result: &mut [u8],
    combine: impl Fn(u32, u32, u32) -> (u32, u32),
) -> Result<(u32, u32), u8> {
    let more = field1.len() - field2.len();
    let (left1, right1) = field1.split_at(more);
    let (left, right) = result.split_at_mut(more);
    let (mut over, mut any, mut carry) = (0, 0, 0);
    for ((byte1, byte2), byte) in right1.iter().zip(field2).zip(right).rev() {
        let (a, b) = ((byte1 & 0x0F) as u32, (byte2 & 0x0F) as u32);
        // a digit above 9 and 6 pass into the zone
        over |= (a + 6) | (b + 6);
        let digit;
        (digit, carry) = combine(a, b, carry);
        any |= digit;
        *byte = 0xF0 | digit as u8;
    }
    for (byte1, byte) in left1.iter().zip(left).rev() {
        let a = (byte1 & 0x0F) as u32;
        over |= a + 6;
        let digit;
        (digit, carry) = combine(a, 0, carry);
        any |= digit;
        *byte = 0xF0 | digit as u8;
    }
    if over & 0x10 != 0 {
        return Err(8);
    }
    Ok((any, carry))
}

/// The digits of a zoned field as four words of eight bytes, the rightmost word first; and
/// whether it is minus.
#[inline(always)]
fn words(field: &[u8]) -> Result<([u64; 4], bool), u8> {
    let mut bytes = [0; DIGITS];
    bytes[DIGITS - field.len()..].copy_from_slice(field);
    let minus = bytes[DIGITS - 1] >> 4 == 0xD;
    let mut words = [0; 4];
    let mut bad = 0;
    for (word, eight) in words.iter_mut().zip(bytes.rchunks_exact(8)) {
        *word = u64::from_be_bytes(eight.try_into().unwrap_or([0; 8])) & LOW_HALVES;
        // a digit above 9 and 6 pass into the zone
        bad |= (*word + SIXES) & !LOW_HALVES;
    }
    if bad != 0 {
        return Err(8);
    }
    Ok((words, minus))
}

const LOW_HALVES: u64 = 0x0F0F_0F0F_0F0F_0F0F;
const ONES: u64 = 0x0101_0101_0101_0101;
const SIXES: u64 = 6 * ONES;

/// Bytes F6 to FF are digits 0 to 9 where no carry (or a borrow) came out; the others are digits.
#[inline(always)]
fn corrected(word: u64) -> u64 {
    (word & LOW_HALVES) - ((word >> 4) & ONES) * 6
}

#[inline(always)]
fn zoned_by_words<const SUBTRACT: bool>(
    storage: &mut [u8],
    status: u8,
    first1: usize,
    l1: usize,
    first2: usize,
    l2: usize,
) -> Outcome {
    let (words1, minus1) = words(&storage[first1..first1 + l1])?;
    let (words2, minus2) = words(&storage[first2..first2 + l2])?;
    let minus2 = minus2 != SUBTRACT;
    let mut minus = minus1;
    let mut result = [0; 4];
    let mut carry = false;
    let mut status = status;
    if minus1 == minus2 {
        for (digits, (a, b)) in result.iter_mut().zip(words1.iter().zip(&words2)) {
            let (sum, over) = (a + 0xF6 * ONES).overflowing_add(b + carry as u64);
            carry = over;
            *digits = corrected(sum);
        }
    } else {
        for (digits, (a, b)) in result.iter_mut().zip(words1.iter().zip(&words2)) {
            let (difference, under) = a.overflowing_sub(b + carry as u64);
            carry = under;
            *digits = corrected(difference);
        }
        if carry {
            minus = minus2;
            carry = false;
            for digits in &mut result {
                let (difference, under) = 0u64.overflowing_sub(*digits + carry as u64);
                carry = under;
                *digits = corrected(difference);
            }
        }
    }
    let mut bytes = [0; DIGITS];
    for (eight, word) in bytes.rchunks_exact_mut(8).zip(&result) {
        eight.copy_from_slice(&(word | (0xF0 * ONES)).to_be_bytes());
    }
    // at most one digit more than the field has: it stands left of the field
    if bytes[DIGITS - 1 - l1] != 0xF0 {
        status |= DECIMAL_OVERFLOW;
        bytes[DIGITS - 1 - l1] = 0xF0;
    }
    let zero = bytes == [0xF0; DIGITS];
    if minus && !zero {
        bytes[DIGITS - 1] = 0xD0 | (bytes[DIGITS - 1] & 0x0F);
    }
    storage[first1..first1 + l1].copy_from_slice(&bytes[DIGITS - l1..]);
    Ok(zoned_status(status, zero, minus))
}

// ---------------------------------------------------------------- the other two-address ones

#[inline(always)]
fn mvx(storage: &mut [u8], status: u8, q: u8, address1: u16, address2: u16) -> Outcome {
    if q > 3 {
        return Err(6);
    }
    let (a1, a2) = (address1 as usize, address2 as usize);
    if a1 >= storage.len() || a2 >= storage.len() {
        return Err(7);
    }
    let (byte1, byte2) = (storage[a1], storage[a2]);
    storage[a1] = match q {
        0 => (byte2 & 0xF0) | (byte1 & 0x0F),
        1 => (byte2 << 4) | (byte1 & 0x0F),
        2 => (byte1 & 0xF0) | (byte2 >> 4),
        _ => (byte1 & 0xF0) | (byte2 & 0x0F),
    };
    Ok(status)
}

fn ed(storage: &mut [u8], status: u8, q: u8, address1: u16, address2: u16) -> Outcome {
    let l1 = q as usize + 1;
    let first1 = first_of(address1, l1, storage.len())?;
    let count = storage[first1..first1 + l1].iter().filter(|byte| **byte == 0x20).count();
    if count == 0 {
        return Ok((status & !ORDER) | EQUAL);
    }
    let first2 = first_of(address2, count, storage.len())?;
    let mut held = [0; 256];
    let operand2 = &mut held[..count];
    operand2.copy_from_slice(&storage[first2..first2 + count]);
    let minus = operand2[count - 1] >> 4 == 0xD;
    let (mut worst, mut any) = (0, 0);
    for byte in operand2.iter_mut() {
        let digit = *byte & 0x0F;
        worst = worst.max(digit);
        any |= digit;
        *byte = 0xF0 | digit;
    }
    if worst > 9 {
        return Err(8);
    }
    let places = storage[first1..first1 + l1].iter_mut().rev().filter(|byte| **byte == 0x20);
    for (place, byte) in places.zip(operand2.iter().rev()) {
        *place = *byte;
    }
    Ok(zoned_status(status, any == 0, minus))
}

/// Gives what ARR takes.
fn itc(storage: &mut [u8], q: u8, address1: u16, address2: u16) -> Result<u16, u8> {
    let first = address1 as usize;
    let Some(fill) = storage.get(address2 as usize).copied() else { return Err(7) };
    let Some(field) = storage.get_mut(first..first + q as usize + 1) else { return Err(7) };
    for (i, byte) in field.iter_mut().enumerate() {
        if (0xF1..=0xF9).contains(byte) {
            return Ok(address1.wrapping_add(i as u16));
        }
        *byte = fill;
    }
    Ok(address1.wrapping_add(q as u16 + 1))
}

fn mvc(storage: &mut [u8], status: u8, q: u8, address1: u16, address2: u16) -> Outcome {
    let length = q as usize + 1;
    let first1 = first_of(address1, length, storage.len())?;
    let first2 = first_of(address2, length, storage.len())?;
    // from the right, byte by byte: a block unless operand 2 begins inside, to the right
    if first2 <= first1 || first2 - first1 >= length {
        storage.copy_within(first2..first2 + length, first1);
        return Ok(status);
    }
    let shift = first2 - first1;
    let both = &mut storage[first1..first2 + length];
    for i in (0..length).rev() {
        both[i] = both[i + shift];
    }
    Ok(status)
}

fn clc(storage: &mut [u8], status: u8, q: u8, address1: u16, address2: u16) -> Outcome {
    let length = q as usize + 1;
    let first1 = first_of(address1, length, storage.len())?;
    let first2 = first_of(address2, length, storage.len())?;
    let order = storage[first1..first1 + length].cmp(&storage[first2..first2 + length]);
    Ok(set_order(status, order))
}

/// Takes both operands from the right and puts what `wide` or `narrow` makes of each pair with
/// the carry: byte by byte, or eight bytes at a time where the operands are apart. Gives whether
/// all was zero, and the carry.
#[inline(always)]
fn carried<const SUMS: bool>(
    storage: &mut [u8],
    q: u8,
    address1: u16,
    address2: u16,
    wide: impl Fn(u64, u64, bool) -> (u64, bool),
    narrow: impl Fn(u8, u8, bool) -> (u8, bool),
) -> Result<(bool, bool), u8> {
    let length = q as usize + 1;
    let first1 = first_of(address1, length, storage.len())?;
    let first2 = first_of(address2, length, storage.len())?;
    let (mut any, mut carry) = (0, false);
    if SUMS == WORDS {
        let both = [first1..first1 + length, first2..first2 + length];
        if let Ok([field1, field2]) = storage.get_disjoint_mut(both) {
            let mut any8 = 0;
            let (rest1, eights1) = field1.as_rchunks_mut::<8>();
            let (rest2, eights2) = field2.as_rchunks::<8>();
            for (eight1, eight2) in eights1.iter_mut().zip(eights2).rev() {
                let (result, over) = wide(u64::from_be_bytes(*eight1), u64::from_be_bytes(*eight2), carry);
                *eight1 = result.to_be_bytes();
                any8 |= result;
                carry = over;
            }
            for (byte1, byte2) in rest1.iter_mut().zip(rest2).rev() {
                let (result, over) = narrow(*byte1, *byte2, carry);
                *byte1 = result;
                any |= result;
                carry = over;
            }
            return Ok((any8 == 0 && any == 0, carry));
        }
    }
    // cells, for the operands may overlap
    let cells = Cell::from_mut(storage).as_slice_of_cells();
    let (field1, field2) = (&cells[first1..first1 + length], &cells[first2..first2 + length]);
    for (byte1, byte2) in field1.iter().zip(field2).rev() {
        let (result, over) = narrow(byte1.get(), byte2.get(), carry);
        byte1.set(result);
        any |= result;
        carry = over;
    }
    Ok((any == 0, carry))
}

fn alc<const SUMS: bool>(storage: &mut [u8], status: u8, q: u8, address1: u16, address2: u16) -> Outcome {
    let wide = |a: u64, b: u64, carry: bool| {
        let (sum, over) = a.overflowing_add(b);
        let (sum, again) = sum.overflowing_add(carry as u64);
        (sum, over | again)
    };
    let narrow = |a: u8, b: u8, carry: bool| a.carrying_add(b, carry);
    let (zero, carry) = carried::<SUMS>(storage, q, address1, address2, wide, narrow)?;
    Ok(set_sum(status, zero, carry))
}

fn slc<const SUMS: bool>(storage: &mut [u8], status: u8, q: u8, address1: u16, address2: u16) -> Outcome {
    let wide = |a: u64, b: u64, borrow: bool| {
        let (difference, under) = a.overflowing_sub(b);
        let (difference, again) = difference.overflowing_sub(borrow as u64);
        (difference, under | again)
    };
    let narrow = |a: u8, b: u8, borrow: bool| a.borrowing_sub(b, borrow);
    let (zero, borrow) = carried::<SUMS>(storage, q, address1, address2, wide, narrow)?;
    let order = if zero {
        Ordering::Equal
    } else if borrow {
        Ordering::Less
    } else {
        Ordering::Greater
    };
    Ok(set_order(status, order))
}
