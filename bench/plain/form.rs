//! The flat form of parameters: each a name (a length-encoded string, empty by position), the
//! number of a column type, flags, and the value in binary form, after docs/RULES.md.

use crate::value::{Params, Value};
use std::collections::HashMap;

pub const FLOAT: u8 = 4;
pub const DOUBLE: u8 = 5;
pub const NULL: u8 = 6;
pub const LONGLONG: u8 = 8;
pub const BLOB: u8 = 252;

/// Appends one parameter, up to its value.
pub fn append_head(form: &mut Vec<u8>, name: &[u8], column: u8, unsigned: bool) {
    append_string(form, name);
    form.extend_from_slice(&[column, if unsigned { 128 } else { 0 }]);
}

/// Appends a length-encoded string.
pub fn append_string(form: &mut Vec<u8>, bytes: &[u8]) {
    let len = bytes.len() as u64;
    let tail = len.to_le_bytes();
    match len {
        0..=250 => form.push(tail[0]),
        251..=0xFFFF => form.extend_from_slice(&[0xFC, tail[0], tail[1]]),
        0x1_0000..=0xFF_FFFF => form.extend_from_slice(&[0xFD, tail[0], tail[1], tail[2]]),
        _ => {
            form.push(0xFE);
            form.extend_from_slice(&tail);
        }
    }
    form.extend_from_slice(bytes);
}

#[derive(Debug, PartialEq)]
pub enum FormError {
    End,
    LengthLead(u8),
    Type(u8),
    Mixed,
    /// Where the name begins, and its length.
    Repeated(usize, usize),
}

/// The parameters of a form, or the first refusal with the number of its parameter and where this
/// begins.
pub fn read(form: &[u8]) -> Result<Params, (FormError, usize, usize)> {
    let mut rest = Rest { form, at: 0 };
    let mut named = HashMap::new();
    let mut positional = Vec::new();
    while rest.at < form.len() {
        let start = rest.at;
        let number = named.len() + positional.len();
        let refused = |error| Err((error, number, start));
        let name = match rest.string() {
            Ok(name) => name,
            Err(error) => return refused(error),
        };
        if number > 0 && name.is_empty() != named.is_empty() {
            return refused(FormError::Mixed);
        }
        if named.contains_key(name) {
            let position = name.as_ptr().addr() - form.as_ptr().addr();
            return refused(FormError::Repeated(position, name.len()));
        }
        let value = match rest.value() {
            Ok(value) => value,
            Err(error) => return refused(error),
        };
        if name.is_empty() {
            positional.push(value);
        } else {
            named.insert(name.to_vec(), value);
        }
    }
    Ok(match (named.is_empty(), positional.is_empty()) {
        (true, true) => Params::Empty,
        (true, false) => Params::Positional(positional),
        _ => Params::Named(named),
    })
}

/// What is left of a form.
pub(crate) struct Rest<'f> {
    pub form: &'f [u8],
    pub at: usize,
}

impl<'f> Rest<'f> {
    fn bytes(&mut self, count: usize) -> Result<&'f [u8], FormError> {
        let left = &self.form[self.at..];
        let taken = left.get(..count).ok_or(FormError::End)?;
        self.at += count;
        Ok(taken)
    }

    /// A number of up to 8 bytes, least byte first.
    pub fn number(&mut self, count: usize) -> Result<u64, FormError> {
        Ok(number(self.bytes(count)?))
    }

    pub fn string(&mut self) -> Result<&'f [u8], FormError> {
        let len = match self.number(1)? {
            0xFC => self.number(2)?,
            0xFD => self.number(3)?,
            0xFE => self.number(8)?,
            lead @ (0xFB | 0xFF) => return Err(FormError::LengthLead(lead as u8)),
            len => len,
        };
        self.bytes(usize::try_from(len).map_err(|_| FormError::End)?)
    }

    /// Type, flags and value.
    pub fn value(&mut self) -> Result<Value, FormError> {
        let column = self.number(1)? as u8;
        let unsigned = self.number(1)? & 128 != 0;
        Ok(match column {
            0 | 15 | 16 | 242 | 245..=255 => Value::Bytes(self.string()?.to_vec()),
            1 => whole(self.number(1)?, 8, unsigned),
            2 | 13 => whole(self.number(2)?, 16, unsigned),
            3 | 9 => whole(self.number(4)?, 32, unsigned),
            LONGLONG => whole(self.number(8)?, 64, unsigned),
            FLOAT => Value::Float(self.number(4)? as u32),
            DOUBLE => Value::Double(self.number(8)?),
            NULL => Value::Null,
            7 | 10 | 12 | 14 => self.date()?,
            11 => self.time()?,
            _ => return Err(FormError::Type(column)),
        })
    }

    fn date(&mut self) -> Result<Value, FormError> {
        let len = self.number(1)? as usize;
        let b = self.bytes(len)?;
        let (year, month, day) =
            if len >= 4 { (number(&b[..2]) as u16, b[2], b[3]) } else { (0, 0, 0) };
        let (hour, minute, second) = if len >= 7 { (b[4], b[5], b[6]) } else { (0, 0, 0) };
        let micros = if len == 11 { number(&b[7..]) as u32 } else { 0 };
        Ok(Value::Date(year, month, day, hour, minute, second, micros))
    }

    fn time(&mut self) -> Result<Value, FormError> {
        let len = self.number(1)? as usize;
        let b = self.bytes(len)?;
        if len < 8 {
            return Ok(Value::Time(false, 0, 0, 0, 0, 0));
        }
        let micros = if len == 12 { number(&b[8..]) as u32 } else { 0 };
        Ok(Value::Time(b[0] == 1, number(&b[1..5]) as u32, b[5], b[6], b[7], micros))
    }
}

fn number(bytes: &[u8]) -> u64 {
    bytes.iter().rev().fold(0, |number, byte| number << 8 | u64::from(*byte))
}

fn whole(number: u64, bits: u32, unsigned: bool) -> Value {
    if !unsigned {
        return Value::Int((number << (64 - bits)) as i64 >> (64 - bits));
    }
    match i64::try_from(number) {
        Ok(number) => Value::Int(number),
        Err(_) => Value::UInt(number),
    }
}
