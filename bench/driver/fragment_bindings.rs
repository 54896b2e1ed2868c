//! Random fragments in the places of a query, the same in each run.

use crate::bindings::{
    self, append_string, append_value, damage, names_for, random_text, room_for,
};
use crate::compared_sides::{ANYWHERE, Asked, IN_A_MODE, WIDE_IN_A_MODE};
use crate::differences::Differences;
use crate::random::Random;
use crate::wide_names::WideNames;
use plain::all_fragments::{
    self, ASSIGNMENTS, DECIMAL, Fragment, Given, IDENTIFIER, IDENTIFIERS, IMPLICIT_LIST,
    IMPLICIT_ROWS, Item, KEYWORD, KEYWORDS, LIST, Names, QUALIFIED, ROWS,
};
use plain::query::next_place;
use plain::search::Table;

const NO_KEYWORDS: [&[u8]; 5] = [b"NULLS LAST", b"WHERE", b"is null", b"ASC  ", b"OR 1=1"];

/// What may stand before a place, and after it: the brackets and words of a list, and others like them.
const BEFORE: [&[u8]; 32] = [
    b"IN (",
    b"a in(",
    b"iN /* c */ (-- x\n",
    b"VALUES (",
    b" value\t# (\n(",
    b"VALUES ",
    b"value/**/",
    b" row(",
    b"(",
    b"IN ((",
    b"(1), (",
    b"= ( ",
    b"<(",
    b">\n(",
    b"f(",
    b"a IN (0, ",
    b"@in (",
    b" t.values ",
    b"`in` (",
    b"'a'in(",
    b"\xC3\xA9in (",
    b"IN /*! x */ (",
    b"IN /*M! x */ (",
    b"t (a) VALUE (",
    b") value/* c */ ",
    b"CALL value(",
    b"VALUES Row (",
    b"), row(",
    b"ROW(1) = row (",
    b"a) <=> (",
    b"(a) !=\n(",
    b"a = (",
];
const AFTER: [&[u8]; 9] =
    [b")", b" )", b"/* ) */\t)", b"-- )\n))", b"# )", b", 1)", b"/*! ) */", b"')'", b"/*M! */)"];

/// How many items or names stand in a fragment at most, and how many rows.
const MOST: usize = 4;

/// Compares so many calls of fragments, each in both modes, for any server and with guarded literals.
pub fn compare(count: u64, differences: &mut Differences) {
    let mut random = Random(20_261_126);
    for _ in 0..count {
        let query = bindings::query(&mut random);
        let query = bracketed(&mut random, &query);
        let (form, given) = form(&mut random, &query);
        let read = all_fragments::read(&form);
        if let Some(given) = &given {
            assert!(read.as_ref() == Ok(given), "the form of {given:?} is read as {read:?}");
        }
        let text = read.and_then(|given| {
            let text = all_fragments::bind::<Table>(&query, &given);
            text.or_else(|_| all_fragments::bind::<WideNames<Table>>(&query, &given))
        });
        let len = text.map_or_else(|_| random.below(1024), |text| text.len());
        let room = room_for(&mut random, len);
        for mode in IN_A_MODE {
            differences.compare(Asked::Fragments, mode, &query, &form, room);
        }
        // Steady literals are longer: the room may have them all, or miss some.
        let longer = room + random.below(256);
        for mode in ANYWHERE {
            differences.compare(Asked::Fragments, mode, &query, &form, longer);
        }
        // Guarded ones are often as long as plain ones.
        for mode in WIDE_IN_A_MODE {
            let room = *random.pick(&[room, longer]);
            differences.compare(Asked::GuardedFragments, mode, &query, &form, room);
        }
    }
}

/// The query with brackets and words at most of its places.
fn bracketed(random: &mut Random, query: &[u8]) -> Vec<u8> {
    let mut bracketed = Vec::new();
    let mut copied = 0;
    while let Some((start, end)) = next_place::<WideNames<Table>>(query, copied) {
        bracketed.extend_from_slice(&query[copied..start]);
        let has_brackets = !random.one_in(4);
        if has_brackets {
            bracketed.extend_from_slice(random.pick::<&[u8]>(&BEFORE));
        }
        bracketed.extend_from_slice(&query[start..end]);
        if has_brackets {
            let after = if random.one_in(3) { *random.pick::<&[u8]>(&AFTER) } else { b")" };
            bracketed.extend_from_slice(after);
        }
        copied = end;
    }
    bracketed.extend_from_slice(&query[copied..]);
    bracketed
}

/// Fragments in flat form, and as they are to be read if the form has no fault.
fn form(random: &mut Random, query: &[u8]) -> (Vec<u8>, Option<Given>) {
    let mut form = Vec::new();
    let mut given = Given::new();
    let mut is_faulty = false;
    for name in names_for(random, query) {
        append_string(random, &mut form, &name);
        is_faulty |= given.iter().any(|(earlier, _)| match (earlier.is_empty(), name.is_empty()) {
            (true, true) => false,
            (false, false) => *earlier == name,
            _ => true,
        });
        given.push((name, append_fragment(random, &mut form)));
    }
    let bytes = [0xFB, 0xFF, 0xFC, 0xFE, 0, 1, 127, 128, 129, 130, 131, 132, 133, 134, 135, 136, 137, 138];
    is_faulty |= damage(random, &mut form, &bytes);
    (form, (!is_faulty).then_some(given))
}

fn append_fragment(random: &mut Random, form: &mut Vec<u8>) -> Fragment {
    match random.below(18) {
        0..=4 => Fragment::One(append_item(random, form)),
        5 | 6 => {
            append_type(random, form, LIST);
            Fragment::List(append_items(random, form))
        }
        7 | 8 => {
            append_type(random, form, ROWS);
            Fragment::Rows(append_rows(random, form))
        }
        9 => {
            append_type(random, form, IDENTIFIER);
            Fragment::Names(vec![append_text(random, form, random_name)])
        }
        10 => {
            append_type(random, form, QUALIFIED);
            Fragment::Names(append_names(random, form))
        }
        11 => {
            append_type(random, form, IDENTIFIERS);
            let count = append_count(random, form);
            Fragment::Identifiers((0..count).map(|_| append_names(random, form)).collect())
        }
        12 => {
            append_type(random, form, ASSIGNMENTS);
            let count = append_count(random, form);
            let assignment = |_| (append_names(random, form), append_item(random, form));
            Fragment::Assignments((0..count).map(assignment).collect())
        }
        13 | 14 => {
            append_type(random, form, IMPLICIT_LIST);
            Fragment::ImplicitList(append_items(random, form))
        }
        15 | 16 => {
            append_type(random, form, IMPLICIT_ROWS);
            Fragment::ImplicitRows(append_rows(random, form))
        }
        _ => {
            append_type(random, form, KEYWORD);
            Fragment::Keyword(append_text(random, form, random_keyword))
        }
    }
}

/// Appends a type, and flags, which say nothing.
fn append_type(random: &mut Random, form: &mut Vec<u8>, kind: u8) {
    form.extend_from_slice(&[kind, random.number() as u8]);
}

/// Appends a count, which is seldom 0.
fn append_count(random: &mut Random, form: &mut Vec<u8>) -> usize {
    let count = if random.one_in(16) { 0 } else { 1 + random.below(MOST) };
    form.extend_from_slice(&(count as u32).to_le_bytes());
    count
}

fn append_names(random: &mut Random, form: &mut Vec<u8>) -> Names {
    let count = append_count(random, form);
    (0..count).map(|_| append_text(random, form, random_name)).collect()
}

fn append_item(random: &mut Random, form: &mut Vec<u8>) -> Item {
    if !random.one_in(4) {
        return Item::Value(append_value(random, form));
    }
    append_type(random, form, DECIMAL);
    Item::Decimal(append_text(random, form, random_decimal))
}

fn append_items(random: &mut Random, form: &mut Vec<u8>) -> Vec<Item> {
    let count = append_count(random, form);
    (0..count).map(|_| append_item(random, form)).collect()
}

/// Appends rows, mostly of one length.
fn append_rows(random: &mut Random, form: &mut Vec<u8>) -> Vec<Vec<Item>> {
    let count = append_count(random, form);
    let width = 1 + random.below(MOST);
    let row = |_| {
        if random.one_in(16) {
            return append_items(random, form);
        }
        form.extend_from_slice(&(width as u32).to_le_bytes());
        (0..width).map(|_| append_item(random, form)).collect()
    };
    (0..count).map(row).collect()
}

fn append_text(
    random: &mut Random,
    form: &mut Vec<u8>,
    text: impl Fn(&mut Random) -> Vec<u8>,
) -> Vec<u8> {
    let text = text(random);
    append_string(random, form, &text);
    text
}

/// An exact number, mostly: it may have a digit too many, or a byte that it can't have there.
fn random_decimal(random: &mut Random) -> Vec<u8> {
    let len = if random.one_in(4) { 60 + random.below(9) } else { 1 + random.below(8) };
    let mut text: Vec<u8> = (0..len).map(|_| b'0' + random.below(10) as u8).collect();
    if random.one_in(2) {
        text.insert(random.below(len + 1), b'.');
    }
    if random.one_in(3) {
        text.insert(0, b'-');
    }
    match random.below(24) {
        0 => text.insert(random.below(text.len() + 1), *random.pick(b"-.+e 0x'\xB2")),
        1 => text.truncate(random.below(text.len() + 1)),
        _ => {}
    }
    text
}

/// A name, mostly: of about 64 characters now and then, and of any bytes.
fn random_name(random: &mut Random) -> Vec<u8> {
    let len = if random.one_in(4) { 62 + random.below(5) } else { 1 + random.below(8) };
    let characters: &[&str] = match random.below(4) {
        0 | 1 => &["a", "T", "_", "1", "`", " ", "?", ":a", "'"],
        2 => &["a", "\u{E9}", "\u{20AC}", "\u{10348}", "`"],
        _ => return random_text(random),
    };
    let mut name = Vec::new();
    for _ in 0..len {
        name.extend_from_slice(random.pick(characters).as_bytes());
    }
    match random.below(32) {
        0 => name.clear(),
        1 => name.push(b' '),
        2 => name.push(0),
        3 => name.push(b'\\'),
        _ => {}
    }
    name
}

/// A keyword of the list, mostly.
fn random_keyword(random: &mut Random) -> Vec<u8> {
    let mut word = random.pick(&KEYWORDS).as_bytes().to_vec();
    match random.below(24) {
        0 => word.make_ascii_lowercase(),
        1 => word.truncate(random.below(word.len())),
        2 => word.push(*random.pick(b" ,S")),
        3 => word = random.pick::<&[u8]>(&NO_KEYWORDS).to_vec(),
        _ => {}
    }
    word
}
