//! Random bindings, the same in each run.

use crate::compared_sides::{ANYWHERE, Asked, IN_A_MODE, IN_BOTH_MODES, WIDE_IN_A_MODE};
use crate::differences::Differences;
use crate::random::Random;
use crate::wide_names::WideNames;
use plain::TABLE;
use plain::bind::bind;
use plain::form;
use plain::query::next_place;
use plain::search::Table;
use plain::value::{Params, Value};
use std::collections::HashMap;

const TEXTS: [&[u8]; 43] = [
    b"SELECT ",
    b"a",
    b"x1",
    b" ",
    b"\n",
    b"\t",
    b"\x0c",
    b"\r",
    b"\x0b",
    b"(",
    b")",
    b", ",
    b"=",
    b" = ",
    b"+",
    b"-",
    b"*",
    b"/",
    b"%",
    b"~",
    b"!",
    b";",
    b".",
    b"1.5e+",
    b"'it''s :a ?'",
    b"'it\\'s'",
    b"\"q\\\"?\"",
    b"`i``:d`",
    b"`i\\`",
    b"/* :a ? */",
    b"/*! ",
    b"/*+ ",
    b"*/",
    b"-- ? :a\n",
    b"--\t'\n",
    b"-- x\r",
    b"# :a\r\n",
    b"--\n",
    b"# it's\n",
    b":1",
    b":A",
    b"::",
    b"\xC3\xA9\xFF",
];
/// Pieces that may leave a token open.
const OPEN: [&[u8]; 12] =
    [b"'", b"\"", b"`", b"\\", b"/*", b"--", b"-- ", b"#", b":", b"'\\", b"/*/", b"'a\\'"];
const NAMES: [&[u8]; 10] = [
    b"a",
    b"b",
    b"ab",
    b"a1",
    b"_",
    b"_x9",
    b"name",
    b"a_long_name_of_28_bytes_in_all",
    b"userId",
    b"A",
];

/// Compares so many calls of `names`, and as many of `bind`, each in both modes, and of binding for any server and for both
/// modes; all also by wide names, and by these with guarded literals.
pub fn compare(count: u64, differences: &mut Differences) {
    let mut random = Random(20_261_122);
    for _ in 0..count {
        let query = query(&mut random);
        let (form, params) = form(&mut random, &query);
        if let Some(params) = &params {
            let read = form::read(&form);
            assert!(read.as_ref() == Ok(params), "the form of {params:?} is read as {read:?}");
        }
        let len = match &params {
            Some(params) if !random.one_in(8) => {
                let text = (TABLE.bind)(&query, params);
                let text = text.or_else(|_| bind::<WideNames<Table>>(&query, params));
                text.map_or(0, |text| text.len())
            }
            _ => random.below(1024),
        };
        let room = room_for(&mut random, len);
        for mode in IN_A_MODE {
            differences.compare(Asked::Bind, mode, &query, &form, room);
        }
        // Steady literals are longer: the room may have them all, or miss some.
        let longer = room + random.below(256);
        for mode in ANYWHERE.into_iter().chain(IN_BOTH_MODES) {
            differences.compare(Asked::Bind, mode, &query, &form, longer);
        }
        // Guarded ones are often as long as plain ones.
        for mode in WIDE_IN_A_MODE {
            let room = *random.pick(&[room, longer]);
            differences.compare(Asked::Guarded, mode, &query, &form, room);
        }
        let room = query.len() + random.below(query.len() + 2);
        for mode in IN_A_MODE {
            differences.compare(Asked::Names, mode, &query, &[], room);
        }
    }
}

/// A room for an answer of so many bytes, mostly: or it has one byte less, or one more.
pub fn room_for(random: &mut Random, len: usize) -> usize {
    if random.one_in(8) { len.saturating_sub(1) } else { len + random.below(2) }
}

pub fn query(random: &mut Random) -> Vec<u8> {
    if random.one_in(50) {
        let len = random.below(64);
        return random.bytes(len);
    }
    // Names alone, marks alone, none, or both.
    let (names, marks) =
        *random.pick(&[(3, 0), (3, 0), (3, 0), (0, 3), (0, 3), (0, 3), (0, 0), (1, 1)]);
    let apart = !random.one_in(3);
    let mut query = Vec::new();
    for _ in 0..random.below(14) {
        match random.below(10) {
            place if place < names + marks => {
                if apart {
                    query.push(b' ');
                }
                if place < names {
                    query.push(b':');
                    query.extend_from_slice(random.pick::<&[u8]>(&NAMES));
                } else {
                    query.push(b'?');
                }
                if apart {
                    query.push(b' ');
                }
            }
            9 if random.one_in(6) => query.extend_from_slice(random.pick::<&[u8]>(&OPEN)),
            _ => query.extend_from_slice(random.pick::<&[u8]>(&TEXTS)),
        }
    }
    if random.one_in(1000) {
        query.extend(std::iter::repeat_n(b' ', 60_000 + random.below(10_000)));
    }
    query
}

/// Parameters in flat form, and as they are to be read if the form has no fault.
pub fn form(random: &mut Random, query: &[u8]) -> (Vec<u8>, Option<Params>) {
    let names = names_for(random, query);
    let mut form = Vec::new();
    let mut values = Vec::new();
    for name in &names {
        append_string(random, &mut form, name);
        values.push(append_value(random, &mut form));
    }
    let repeats =
        (1..names.len()).any(|at| !names[at].is_empty() && names[..at].contains(&names[at]));
    let positional = names.iter().filter(|name| name.is_empty()).count();
    let faulty = repeats || positional > 0 && positional < names.len();
    if damage(random, &mut form, &LEADS_AND_TYPES) {
        return (form, None);
    }
    let params = if names.is_empty() {
        Params::Empty
    } else if positional > 0 {
        Params::Positional(values)
    } else {
        Params::Named(HashMap::from_iter(names.into_iter().zip(values)))
    };
    (form, if faulty { None } else { Some(params) })
}

/// Leads and types that can't be read, and leads of longer strings.
const LEADS_AND_TYPES: [u8; 12] = [0xFB, 0xFF, 0xFC, 0xFD, 0xFE, 17, 18, 19, 20, 21, 243, 244];

/// Cuts off one form in 16 or changes a byte of it, also to one of these; gives whether it did.
pub fn damage(random: &mut Random, form: &mut Vec<u8>, bytes: &[u8]) -> bool {
    if !random.one_in(16) || form.is_empty() {
        return false;
    }
    let at = random.below(form.len());
    match random.below(3) {
        0 => form.truncate(at),
        1 => form[at] = random.number() as u8,
        _ => form[at] = *random.pick(bytes),
    }
    true
}

/// The names of the parameters, mostly such as the query needs by names without capitals or by wide
/// ones; an empty one is by position.
pub fn names_for(random: &mut Random, query: &[u8]) -> Vec<Vec<u8>> {
    let mut names: Vec<Vec<u8>> = Vec::new();
    let next =
        if random.one_in(2) { next_place::<Table> } else { next_place::<WideNames<Table>> };
    let mut at = 0;
    while let Some((start, end)) = next(query, at) {
        at = end;
        let name = query[start + 1..end].to_vec();
        if name.is_empty() || !names.contains(&name) {
            names.push(name);
        }
    }
    match random.below(16) {
        0 if !names.is_empty() => drop(names.remove(random.below(names.len()))),
        1 if !names.is_empty() => names.push(random.pick(&names).clone()),
        2 => names.push(Vec::new()),
        3 => names.insert(random.below(names.len() + 1), random.pick::<&[u8]>(&NAMES).to_vec()),
        4 => names.retain(|_| random.one_in(2)),
        5 => names.push(random_text(random)),
        6 if random.one_in(4) => names.clear(),
        7 if random.one_in(4) => names.iter_mut().for_each(Vec::clear),
        _ => {}
    }
    names
}

pub fn random_text(random: &mut Random) -> Vec<u8> {
    let len = match random.below(2000) {
        0 => 65_530 + random.below(12),
        1..=20 => 245 + random.below(12),
        _ => random.below(24),
    };
    match random.below(5) {
        0 => random.bytes(len),
        1 => (0..len).map(|_| *random.pick(b"\0\n\r\x1a\\'\"\x08\t%_:?")).collect(),
        2 => "\u{E9}'\u{20AC}\u{10348}".bytes().cycle().take(len).collect(),
        3 => letters_and_backslashes(random, len / 2),
        _ => (0..len).map(|_| *random.pick(b"abc 123'\\")).collect(),
    }
}

/// So many characters, mostly letters of several bytes and backslashes; the last is now and then cut off.
fn letters_and_backslashes(random: &mut Random, count: usize) -> Vec<u8> {
    let characters = ["\u{C0}", "\u{20AC}", "\u{10348}", "\\", "\\", "'", "a", "\0", "\x7F"];
    let text: String = (0..count).map(|_| *random.pick(&characters)).collect();
    let mut text = text.into_bytes();
    if random.one_in(8) {
        text.pop();
    }
    text
}

/// Appends a length-encoded string, now and then in a longer form than it needs.
pub fn append_string(random: &mut Random, form: &mut Vec<u8>, bytes: &[u8]) {
    if !random.one_in(12) {
        return form::append_string(form, bytes);
    }
    let tail = (bytes.len() as u64).to_le_bytes();
    form.push(0xFE);
    form.extend_from_slice(&tail);
    form.extend_from_slice(bytes);
}

/// Appends type, flags and value; gives the value as it is to be read.
pub fn append_value(random: &mut Random, form: &mut Vec<u8>) -> Value {
    match random.below(16) {
        0..=5 => append_text(random, form),
        6..=9 => append_whole(random, form),
        10 | 11 => append_date(random, form),
        12 | 13 => append_time(random, form),
        14 => {
            append_type(random, form, &[form::NULL], false);
            Value::Null
        }
        _ if random.one_in(2) => append_float(random, form),
        _ => {
            form.extend_from_slice(&[form::BLOB, 0, 1, b'v']);
            Value::Bytes(b"v".to_vec())
        }
    }
}

/// Appends one of these types, and flags of which all but one say nothing.
fn append_type(random: &mut Random, form: &mut Vec<u8>, columns: &[u8], unsigned: bool) {
    let flags = random.number() as u8 & 127 | if unsigned { 128 } else { 0 };
    form.extend_from_slice(&[*random.pick(columns), flags]);
}

fn append_text(random: &mut Random, form: &mut Vec<u8>) -> Value {
    let texts = [0, 15, 16, 242, 245, 246, 247, 248, 249, 250, 251, 252, 253, 254, 255];
    let unsigned = random.one_in(4);
    append_type(random, form, &texts, unsigned);
    let text = random_text(random);
    append_string(random, form, &text);
    Value::Bytes(text)
}

fn append_float(random: &mut Random, form: &mut Vec<u8>) -> Value {
    let mut bits = random.number();
    if random.one_in(4) {
        // An infinity or a NaN, of 64 and of 32 bits.
        bits |= 0x7ff0_0000_7f80_0000;
    }
    if random.one_in(2) {
        append_type(random, form, &[form::DOUBLE], false);
        form.extend_from_slice(&bits.to_le_bytes());
        return Value::Double(bits);
    }
    append_type(random, form, &[form::FLOAT], false);
    form.extend_from_slice(&(bits as u32).to_le_bytes());
    Value::Float(bits as u32)
}

fn append_whole(random: &mut Random, form: &mut Vec<u8>) -> Value {
    let edges = [0, 1, 127, 128, 255, i64::MAX as u64, i64::MIN as u64, u64::MAX];
    let bits =
        if random.one_in(2) { *random.pick(&edges) } else { random.number() >> random.below(64) };
    let unsigned = random.one_in(2);
    let (column, len) = *random.pick(&[(1, 1), (2, 2), (13, 2), (3, 4), (9, 4), (8, 8), (8, 8)]);
    append_type(random, form, &[column], unsigned);
    form.extend_from_slice(&bits.to_le_bytes()[..len]);
    match (len, unsigned) {
        (1, false) => Value::Int((bits as i8).into()),
        (2, false) => Value::Int((bits as i16).into()),
        (4, false) => Value::Int((bits as i32).into()),
        (_, false) => Value::Int(bits as i64),
        (1, true) => Value::Int((bits as u8).into()),
        (2, true) => Value::Int((bits as u16).into()),
        (4, true) => Value::Int((bits as u32).into()),
        (_, true) if bits > i64::MAX as u64 => Value::UInt(bits),
        (_, true) => Value::Int(bits as i64),
    }
}

fn append_date(random: &mut Random, form: &mut Vec<u8>) -> Value {
    append_type(random, form, &[7, 10, 12, 14], false);
    let len = *random.pick(&[0, 1, 3, 4, 4, 5, 6, 7, 7, 8, 10, 11, 11, 11, 12, 40]);
    let b = fields(random, len.max(11));
    form.push(len as u8);
    form.extend_from_slice(&b[..len]);
    let year = if len >= 4 { u16::from_le_bytes([b[0], b[1]]) } else { 0 };
    let (month, day) = if len >= 4 { (b[2], b[3]) } else { (0, 0) };
    let (hour, minute, second) = if len >= 7 { (b[4], b[5], b[6]) } else { (0, 0, 0) };
    let micros = if len == 11 { u32::from_le_bytes([b[7], b[8], b[9], b[10]]) } else { 0 };
    Value::Date(year, month, day, hour, minute, second, micros)
}

fn append_time(random: &mut Random, form: &mut Vec<u8>) -> Value {
    append_type(random, form, &[11], false);
    let len = *random.pick(&[0, 1, 7, 8, 8, 8, 9, 11, 12, 12, 12, 13, 40]);
    let mut b = fields(random, len.max(12));
    b[0] = *random.pick(&[0, 1, 1, 2, 255]);
    form.push(len as u8);
    form.extend_from_slice(&b[..len]);
    if len < 8 {
        return Value::Time(false, 0, 0, 0, 0, 0);
    }
    let days = u32::from_le_bytes([b[1], b[2], b[3], b[4]]);
    let micros = if len == 12 { u32::from_le_bytes([b[8], b[9], b[10], b[11]]) } else { 0 };
    Value::Time(b[0] == 1, days, b[5], b[6], b[7], micros)
}

/// Bytes that are small, mostly zero, or any.
fn fields(random: &mut Random, count: usize) -> Vec<u8> {
    let kind = random.below(3);
    let any = random.bytes(count);
    let field = |byte: u8| match kind {
        0 => byte % 13,
        1 if byte & 3 != 0 => 0,
        _ => byte,
    };
    any.into_iter().map(field).collect()
}
