//! Plain Rust behind the archive's calls: the answer goes into room that the caller lends.

use crate::bind::BindError;
use crate::form::{self, FormError};
use crate::query::{Parsed, parse};
use crate::search::Search;
use crate::value::Params;

/// What a call tells beside its number; a field that the number doesn't name is 0.
#[repr(C)]
#[derive(Clone, Copy, Debug, Default, PartialEq)]
pub struct Report {
    pub len: usize,
    pub place: usize,
    pub position: usize,
    pub marks: usize,
    pub values: usize,
    pub byte: usize,
}

pub const DONE: i32 = 0;
pub const ROOM: i32 = 2;
pub const FORM_END: i32 = 3;
const FORM_LENGTH_LEAD: i32 = 4;
const FORM_TYPE: i32 = 5;
const FORM_MIXED: i32 = 6;
pub const FORM_REPEATED: i32 = 7;
const MIXED: i32 = 8;
const MISSING: i32 = 9;
const NAMED_FOR_POSITIONAL: i32 = 10;
const POSITIONAL_FOR_NAMED: i32 = 11;
const MARK_COUNT: i32 = 12;
const NOT_ALONE: i32 = 13;
const FLOAT: i32 = 14;
const UNSTEADY: i32 = 15;
const UNPORTABLE: i32 = 16;
pub const FAULT: i32 = 17;
const BACKSLASH: i32 = 18;
pub(crate) const UNSTEADY_FRAGMENT: i32 = 19;
pub(crate) const UNBRACKETED: i32 = 21;

/// The names of the numbers, from 0.
pub const NUMBERS: [&str; 22] = [
    "DONE",
    "OUT_OF_MEMORY",
    "ROOM",
    "FORM_END",
    "FORM_LENGTH_LEAD",
    "FORM_TYPE",
    "FORM_MIXED",
    "FORM_REPEATED",
    "MIXED",
    "MISSING",
    "NAMED_FOR_POSITIONAL",
    "POSITIONAL_FOR_NAMED",
    "MARK_COUNT",
    "NOT_ALONE",
    "FLOAT",
    "UNSTEADY",
    "UNPORTABLE",
    "FAULT",
    "BACKSLASH",
    "UNSTEADY_FRAGMENT",
    "OTHER_TABLE",
    "UNBRACKETED",
];

#[inline(always)]
pub fn names<S: Search>(query: &[u8], room: &mut [u8]) -> (i32, Report) {
    let Ok(Parsed { renamed, names }) = parse::<S>(query) else {
        return (MIXED, Report::default());
    };
    fill_names(if names.is_empty() { query } else { &renamed }, &names, room)
}

/// Writes the answer of `names` into the room, or nothing if it is longer.
pub fn fill_names<N: AsRef<[u8]>>(renamed: &[u8], names: &[N], room: &mut [u8]) -> (i32, Report) {
    let names_len: usize = names.iter().map(|name| string_len(name.as_ref())).sum();
    let len = string_len(renamed) + names_len;
    let report = Report { len, ..Report::default() };
    if room.len() < len {
        return (ROOM, report);
    }
    let mut rest = fill_string(room, renamed);
    for name in names {
        rest = fill_string(rest, name.as_ref());
    }
    (DONE, report)
}

pub(crate) fn string_len(bytes: &[u8]) -> usize {
    bytes.len()
        + match bytes.len() {
            0..=250 => 1,
            251..=0xFFFF => 3,
            0x1_0000..=0xFF_FFFF => 4,
            _ => 9,
        }
}

/// Writes a length-encoded string at the front of the room, and gives the room after it.
#[inline(always)]
pub(crate) fn fill_string<'r>(room: &'r mut [u8], bytes: &[u8]) -> &'r mut [u8] {
    let lead_len = string_len(bytes) - bytes.len();
    let (lead, rest) = room.split_at_mut(lead_len);
    let tail = (bytes.len() as u64).to_le_bytes();
    lead[0] = match lead_len {
        1 => tail[0],
        3 => 0xFC,
        4 => 0xFD,
        _ => 0xFE,
    };
    lead[1..].copy_from_slice(&tail[..lead_len - 1]);
    let (text, rest) = rest.split_at_mut(bytes.len());
    text.copy_from_slice(bytes);
    rest
}

/// Binds what a form says, and copies the text into the room.
#[inline(always)]
pub fn bind_form(
    form: &[u8],
    room: &mut [u8],
    bind: impl FnOnce(&Params) -> Result<Vec<u8>, BindError>,
) -> (i32, Report) {
    let params = match form::read(form) {
        Ok(params) => params,
        Err((error, number, start)) => return form_answer(&error, number, start),
    };
    match bind(&params) {
        Ok(text) => fill_text(&text, room),
        Err(error) => bind_answer(&error),
    }
}

/// Copies a text into the room, or nothing if it is longer.
#[inline(always)]
pub fn fill_text(text: &[u8], room: &mut [u8]) -> (i32, Report) {
    let report = Report { len: text.len(), ..Report::default() };
    if room.len() < text.len() {
        return (ROOM, report);
    }
    room[..text.len()].copy_from_slice(text);
    (DONE, report)
}

pub(crate) fn form_answer(error: &FormError, place: usize, position: usize) -> (i32, Report) {
    let at = Report { place, position, ..Report::default() };
    match *error {
        FormError::End => (FORM_END, at),
        FormError::LengthLead(lead) => (FORM_LENGTH_LEAD, Report { byte: lead.into(), ..at }),
        FormError::Type(column) => (FORM_TYPE, Report { byte: column.into(), ..at }),
        FormError::Mixed => (FORM_MIXED, at),
        FormError::Repeated(position, len) => (FORM_REPEATED, Report { position, len, ..at }),
    }
}

pub(crate) fn bind_answer(error: &BindError) -> (i32, Report) {
    let none = Report::default();
    match *error {
        BindError::Mixed => (MIXED, none),
        BindError::Missing(name) => {
            let len = name.end - name.start;
            (MISSING, Report { len, place: name.place, position: name.start, ..none })
        }
        BindError::NamedForPositional => (NAMED_FOR_POSITIONAL, none),
        BindError::PositionalForNamed => (POSITIONAL_FOR_NAMED, none),
        BindError::MarkCount { marks, values } => (MARK_COUNT, Report { marks, values, ..none }),
        BindError::NotAlone { place, position } => (NOT_ALONE, Report { place, position, ..none }),
        BindError::Float { place } => (FLOAT, Report { place, ..none }),
        BindError::Unsteady { position } => (UNSTEADY, Report { position, ..none }),
        BindError::Backslash { position } => (BACKSLASH, Report { position, ..none }),
        BindError::Unportable { number, position } => {
            (UNPORTABLE, Report { position, byte: number as usize, ..none })
        }
    }
}
