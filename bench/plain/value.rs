//! Values, parameters and SQL literals, after docs/RULES.md.

use crate::search::Search;
use std::collections::HashMap;
use std::io::Write;

#[derive(Clone, Debug, PartialEq)]
pub enum Value {
    Null,
    Bytes(Vec<u8>),
    Int(i64),
    UInt(u64),
    /// The bits of a number.
    Float(u32),
    /// The bits of a number.
    Double(u64),
    /// Year, month, day, hour, minute, second, microseconds.
    Date(u16, u8, u8, u8, u8, u8, u32),
    /// Negative, days, hours, minutes, seconds, microseconds.
    Time(bool, u32, u8, u8, u8, u32),
}

#[derive(Clone, Debug, PartialEq)]
pub enum Params {
    Empty,
    Named(HashMap<Vec<u8>, Value>),
    Positional(Vec<Value>),
}

impl Params {
    /// Room for the literals of all values once.
    pub fn literal_room(&self) -> usize {
        match self {
            Params::Empty => 0,
            Params::Named(values) => values.values().map(literal_room).sum(),
            Params::Positional(values) => values.iter().map(literal_room).sum(),
        }
    }
}

/// No plain or steady literal of the value is longer.
pub fn literal_room(value: &Value) -> usize {
    match value {
        Value::Bytes(bytes) => 2 * bytes.len() + 11,
        _ => 40,
    }
}

const fn escapes() -> [u8; 256] {
    let mut table = [0; 256];
    table[0] = b'0';
    table[10] = b'n';
    table[13] = b'r';
    table[26] = b'Z';
    table[b'\\' as usize] = b'\\';
    table[b'\'' as usize] = b'\'';
    table[b'"' as usize] = b'"';
    table
}

/// The byte after the backslash.
static ESCAPE: [u8; 256] = escapes();

/// Appends the literal of a value; a float has none.
#[inline(always)]
pub fn append_literal<S: Search>(text: &mut Vec<u8>, value: &Value) -> bool {
    match value {
        Value::Null => text.extend_from_slice(b"NULL"),
        Value::Bytes(bytes) => append_bytes::<S>(text, bytes),
        Value::Int(number) => append_number(text, *number < 0, number.unsigned_abs()),
        Value::UInt(number) => append_number(text, false, *number),
        Value::Float(_) | Value::Double(_) => return false,
        Value::Date(..) => append_date(text, value),
        Value::Time(..) => append_time(text, value),
    }
    true
}

/// The double of the value of a float or a double, if it is finite.
pub fn finite_double(value: &Value) -> Option<f64> {
    let double = match value {
        Value::Float(bits) => f32::from_bits(*bits).into(),
        Value::Double(bits) => f64::from_bits(*bits),
        _ => return None,
    };
    double.is_finite().then_some(double)
}

/// Appends the number of a finite double: the fewest digits that read as it, and an exponent. From 0.00001 to 10^16 the
/// exponent is 0.
pub fn append_double(text: &mut Vec<u8>, double: f64) {
    let size = double.abs();
    let written = if size == 0.0 || (1e-4..1e16).contains(&size) {
        write!(text, "{double:?}e0")
    } else if (1e-5..1e-4).contains(&size) {
        write!(text, "{double}e0")
    } else {
        write!(text, "{double:e}")
    };
    written.expect("a vector takes what is written")
}

/// Appends the steady literal of a value; a float has none.
#[inline(always)]
pub fn append_steady_literal<S: Search>(text: &mut Vec<u8>, value: &Value) -> bool {
    let Value::Bytes(bytes) = value else {
        return append_literal::<S>(text, value);
    };
    if bytes.iter().all(|byte| matches!(byte, 32..=126) && *byte != b'\\') {
        text.extend_from_slice(b"_utf8mb4'");
        for byte in bytes {
            text.push(*byte);
            if *byte == b'\'' {
                text.push(b'\'');
            }
        }
        text.push(b'\'');
    } else {
        if std::str::from_utf8(bytes).is_ok() {
            text.extend_from_slice(b"_utf8mb4 ");
        }
        append_hexadecimal(text, bytes);
    }
    true
}

/// Appends the guarded literal of a value; a float has none.
pub fn append_guarded_literal<S: Search>(text: &mut Vec<u8>, value: &Value) -> bool {
    match value {
        Value::Bytes(bytes) if has_guarded_quotes::<S>(bytes) => {
            append_in_guarded_quotes(text, bytes);
            true
        }
        _ => append_steady_literal::<S>(text, value),
    }
}

/// Whether the guarded literal of these bytes is in quotes without an introducer.
fn has_guarded_quotes<S: Search>(bytes: &[u8]) -> bool {
    let has_unescaped = S::NO_BACKSLASH_ESCAPE && bytes.contains(&b'\\');
    std::str::from_utf8(bytes).is_ok() && !has_unescaped
}

/// Appends the bytes in quotes, each quote and each backslash doubled. A backslash directly after a byte from 128 on
/// begins a string of its own.
fn append_in_guarded_quotes(text: &mut Vec<u8>, bytes: &[u8]) {
    text.push(b'\'');
    let mut before = 0;
    for byte in bytes {
        if *byte == b'\\' && before >= 128 {
            text.extend_from_slice(b"' '");
        }
        if matches!(byte, b'\'' | b'\\') {
            text.push(*byte);
        }
        text.push(*byte);
        before = *byte;
    }
    text.push(b'\'');
}

fn append_bytes<S: Search>(text: &mut Vec<u8>, bytes: &[u8]) {
    if std::str::from_utf8(bytes).is_err() {
        return append_hexadecimal(text, bytes);
    }
    text.push(b'\'');
    let mut copied = 0;
    loop {
        let at = if S::NO_BACKSLASH_ESCAPE {
            S::byte(bytes, copied, b'\'')
        } else {
            S::escaped(bytes, copied)
        };
        text.extend_from_slice(&bytes[copied..at]);
        if at == bytes.len() {
            break;
        }
        if S::NO_BACKSLASH_ESCAPE {
            text.extend_from_slice(b"''");
        } else {
            text.extend_from_slice(&[b'\\', ESCAPE[bytes[at] as usize]]);
        }
        copied = at + 1;
    }
    text.push(b'\'');
}

fn append_hexadecimal(text: &mut Vec<u8>, bytes: &[u8]) {
    const DIGITS: [u8; 16] = *b"0123456789ABCDEF";
    text.extend_from_slice(b"0x");
    for byte in bytes {
        text.extend_from_slice(&[DIGITS[(byte >> 4) as usize], DIGITS[(byte & 15) as usize]]);
    }
}

#[inline(always)]
fn append_number(text: &mut Vec<u8>, negative: bool, mut number: u64) {
    let mut digits = [0; 21];
    let mut at = digits.len();
    loop {
        at -= 1;
        digits[at] = b'0' + (number % 10) as u8;
        number /= 10;
        if number == 0 {
            break;
        }
    }
    if negative {
        at -= 1;
        digits[at] = b'-';
    }
    text.extend_from_slice(&digits[at..]);
}

/// A byte, and the number with zeros before it up to the width.
fn append_field(text: &mut Vec<u8>, before: u8, number: u64, width: usize) {
    text.push(before);
    let digits = number.checked_ilog10().unwrap_or(0) as usize + 1;
    text.extend(std::iter::repeat_n(b'0', width.saturating_sub(digits)));
    append_number(text, false, number);
}

fn append_date(text: &mut Vec<u8>, date: &Value) {
    let Value::Date(year, month, day, hour, minute, second, micros) = *date else { return };
    append_field(text, b'\'', year.into(), 4);
    append_field(text, b'-', month.into(), 2);
    append_field(text, b'-', day.into(), 2);
    if (hour, minute, second, micros) != (0, 0, 0, 0) {
        append_field(text, b' ', hour.into(), 2);
        append_field(text, b':', minute.into(), 2);
        append_field(text, b':', second.into(), 2);
    }
    if micros != 0 {
        append_field(text, b'.', micros.into(), 6);
    }
    text.push(b'\'');
}

fn append_time(text: &mut Vec<u8>, time: &Value) {
    let Value::Time(negative, days, hours, minutes, seconds, micros) = *time else { return };
    if negative {
        text.push(b'\'');
    }
    let before = if negative { b'-' } else { b'\'' };
    append_field(text, before, u64::from(days) * 24 + u64::from(hours), 3);
    append_field(text, b':', minutes.into(), 2);
    append_field(text, b':', seconds.into(), 2);
    if micros != 0 {
        append_field(text, b'.', micros.into(), 6);
    }
    text.push(b'\'');
}
