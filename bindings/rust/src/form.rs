//! The flat form: parameters as the archive reads them, and length-encoded strings.
use crate::{Date, Error, Fragment, Fragments, Item, Params, Time, Value};
use std::fmt;
use std::io::Write;

/// Numbers of column types in the protocol.
const FLOAT: u8 = 4;
const DOUBLE: u8 = 5;
const NULL: u8 = 6;
const LONGLONG: u8 = 8;
const TIME: u8 = 11;
const DATETIME: u8 = 12;
const VAR_STRING: u8 = 253;

/// Numbers of the types that the calls that bind fragments alone take.
const NUMBER: u8 = 128;
const LIST: u8 = 129;
const ROWS: u8 = 130;
const IDENTIFIER: u8 = 131;
const QUALIFIED: u8 = 132;
const KEYWORD: u8 = 133;
const IDENTIFIERS: u8 = 134;
const ASSIGNMENTS: u8 = 135;

/// Bit of the flags that says unsigned.
const UNSIGNED: u8 = 128;

/// Appends bytes, or is out of memory.
fn append(to: &mut Vec<u8>, bytes: &[u8]) -> Result<(), Error> {
    to.try_reserve(bytes.len())
        .map_err(|_| Error::OutOfMemory)?;
    to.extend_from_slice(bytes);
    Ok(())
}

/// Appends a length-encoded string.
pub(crate) fn append_string(to: &mut Vec<u8>, string: &[u8]) -> Result<(), Error> {
    let bytes = (string.len() as u64).to_le_bytes();
    match string.len() {
        0..=250 => append(to, &bytes[..1])?,
        251..=0xFFFF => append(to, &[0xFC, bytes[0], bytes[1]])?,
        0x1_0000..=0xFF_FFFF => append(to, &[0xFD, bytes[0], bytes[1], bytes[2]])?,
        _ => {
            append(to, &[0xFE])?;
            append(to, &bytes)?;
        }
    }
    append(to, string)
}

/// A date in its longest form, which says every field.
fn date_form(date: Date) -> [u8; 12] {
    let [year, century] = date.year.to_le_bytes();
    let [m0, m1, m2, m3] = date.microsecond.to_le_bytes();
    [
        11,
        year,
        century,
        date.month,
        date.day,
        date.hour,
        date.minute,
        date.second,
        m0,
        m1,
        m2,
        m3,
    ]
}

/// A time in its longest form, which says every field, the sign of zero too.
fn time_form(time: Time) -> [u8; 13] {
    let [d0, d1, d2, d3] = time.days.to_le_bytes();
    let [m0, m1, m2, m3] = time.microseconds.to_le_bytes();
    let sign = u8::from(time.negative);
    [
        12,
        sign,
        d0,
        d1,
        d2,
        d3,
        time.hours,
        time.minutes,
        time.seconds,
        m0,
        m1,
        m2,
        m3,
    ]
}

/// Appends type, flags and value.
fn append_value(to: &mut Vec<u8>, value: &Value<'_>) -> Result<(), Error> {
    let (column_type, flags) = match value {
        Value::Null => (NULL, 0),
        Value::Bytes(_) => (VAR_STRING, 0),
        Value::Int(_) => (LONGLONG, 0),
        Value::UInt(_) => (LONGLONG, UNSIGNED),
        Value::Float(_) => (FLOAT, 0),
        Value::Double(_) => (DOUBLE, 0),
        Value::Date(_) => (DATETIME, 0),
        Value::Time(_) => (TIME, 0),
    };
    append(to, &[column_type, flags])?;
    match value {
        Value::Null => Ok(()),
        Value::Bytes(bytes) => append_string(to, bytes),
        Value::Int(number) => append(to, &number.to_le_bytes()),
        Value::UInt(number) => append(to, &number.to_le_bytes()),
        Value::Float(number) => append(to, &number.to_bits().to_le_bytes()),
        Value::Double(number) => append(to, &number.to_bits().to_le_bytes()),
        Value::Date(date) => append(to, &date_form(*date)),
        Value::Time(time) => append(to, &time_form(*time)),
    }
}

/// Appends type, flags and a text.
fn append_text(to: &mut Vec<u8>, number: u8, text: &str) -> Result<(), Error> {
    append(to, &[number, 0])?;
    append_string(to, text.as_bytes())
}

/// Appends type, flags and the digits of a whole number of up to 128 bits. It allocates nothing else.
fn append_number(to: &mut Vec<u8>, number: impl fmt::Display) -> Result<(), Error> {
    // The smallest has a sign and 39 digits.
    let mut digits = [0; 40];
    let mut rest = &mut digits[..];
    write!(rest, "{number}").map_err(|_| Error::OutOfMemory)?;
    let length = 40 - rest.len();
    append(to, &[NUMBER, 0])?;
    append_string(to, &digits[..length])
}

/// Appends a count; one that has no form is out of memory.
fn append_count(to: &mut Vec<u8>, count: usize) -> Result<(), Error> {
    let count = u32::try_from(count).map_err(|_| Error::OutOfMemory)?;
    append(to, &count.to_le_bytes())
}

/// Appends type, flags and the rest of an item.
fn append_item(to: &mut Vec<u8>, item: &Item<'_>) -> Result<(), Error> {
    match item {
        Item::Value(value) => append_value(to, value),
        Item::Decimal(digits) => append_text(to, NUMBER, digits),
        Item::Int128(number) => append_number(to, number),
        Item::UInt128(number) => append_number(to, number),
    }
}

/// Appends the count of items, and these.
fn append_items(to: &mut Vec<u8>, items: &[Item<'_>]) -> Result<(), Error> {
    append_count(to, items.len())?;
    items.iter().try_for_each(|item| append_item(to, item))
}

/// Appends the count of names, and these.
fn append_names(to: &mut Vec<u8>, names: &[&str]) -> Result<(), Error> {
    append_count(to, names.len())?;
    let mut names = names.iter();
    names.try_for_each(|name| append_string(to, name.as_bytes()))
}

/// Appends type, flags and the rest of a fragment.
fn append_fragment(to: &mut Vec<u8>, fragment: &Fragment<'_>) -> Result<(), Error> {
    match fragment {
        Fragment::Value(value) => append_value(to, value),
        Fragment::Decimal(digits) => append_text(to, NUMBER, digits),
        Fragment::Int128(number) => append_number(to, number),
        Fragment::UInt128(number) => append_number(to, number),
        Fragment::Identifier(name) => append_text(to, IDENTIFIER, name),
        Fragment::Keyword(word) => append_text(to, KEYWORD, word),
        Fragment::List(items) => {
            append(to, &[LIST, 0])?;
            append_items(to, items)
        }
        Fragment::Rows(rows) => {
            append(to, &[ROWS, 0])?;
            append_count(to, rows.len())?;
            rows.iter().try_for_each(|row| append_items(to, row))
        }
        Fragment::Qualified(names) => {
            append(to, &[QUALIFIED, 0])?;
            append_names(to, names)
        }
        Fragment::Identifiers(columns) => {
            append(to, &[IDENTIFIERS, 0])?;
            append_count(to, columns.len())?;
            let mut columns = columns.iter();
            columns.try_for_each(|column| append_names(to, column.names()))
        }
        Fragment::Assignments(assignments) => {
            append(to, &[ASSIGNMENTS, 0])?;
            append_count(to, assignments.len())?;
            assignments.iter().try_for_each(|(column, item)| {
                append_names(to, column.names())?;
                append_item(to, item)
            })
        }
    }
}

/// The flat form of fragments.
pub(crate) fn form_of_fragments(fragments: &Fragments<'_>) -> Result<Vec<u8>, Error> {
    let mut form = Vec::new();
    match fragments {
        Fragments::Positional(fragments) => {
            for fragment in *fragments {
                append_string(&mut form, b"")?;
                append_fragment(&mut form, fragment)?;
            }
        }
        Fragments::Named(pairs) => {
            for (parameter, (name, fragment)) in pairs.iter().enumerate() {
                if name.is_empty() {
                    return Err(Error::EmptyName { parameter });
                }
                append_string(&mut form, name.as_bytes())?;
                append_fragment(&mut form, fragment)?;
            }
        }
    }
    Ok(form)
}

/// The flat form of parameters.
pub(crate) fn form_of(params: &Params<'_>) -> Result<Vec<u8>, Error> {
    let mut form = Vec::new();
    match params {
        Params::Empty => {}
        Params::Positional(values) => {
            for value in *values {
                append_string(&mut form, b"")?;
                append_value(&mut form, value)?;
            }
        }
        Params::Named(pairs) => {
            for (parameter, (name, value)) in pairs.iter().enumerate() {
                if name.is_empty() {
                    return Err(Error::EmptyName { parameter });
                }
                append_string(&mut form, name.as_bytes())?;
                append_value(&mut form, value)?;
            }
        }
    }
    Ok(form)
}

/// The length-encoded string at the front, and what follows it.
pub(crate) fn next_string(answer: &[u8]) -> Option<(&[u8], &[u8])> {
    let (lead, rest) = answer.split_first()?;
    let count = match lead {
        0..=250 => 0,
        0xFC => 2,
        0xFD => 3,
        0xFE => 8,
        0xFB | 0xFF => return None,
    };
    let (length, rest) = rest.split_at_checked(count)?;
    let mut bytes = [0; 8];
    bytes[..count].copy_from_slice(length);
    let length = if count == 0 {
        u64::from(*lead)
    } else {
        u64::from_le_bytes(bytes)
    };
    rest.split_at_checked(usize::try_from(length).ok()?)
}
