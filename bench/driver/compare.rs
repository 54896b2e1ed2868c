//! Compares the archive with plain Rust: on every short query and every short value over the special
//! bytes, on random bindings, rows and fragments, and on portable queries.

use crate::bindings;
use crate::compared_sides::{ANYWHERE, Asked, IN_A_MODE, IN_BOTH_MODES, Mode, WIDE_IN_A_MODE};
use crate::differences::Differences;
use crate::fragment_bindings;
use crate::other_mode::WithoutBackslashes;
use crate::portable;
use crate::wide_names::{WideNames, WideWithoutBackslashes};
use crate::row_bindings;
use plain::form;
use plain::query::next_place;
use plain::search::{Search, Table};
use std::process::ExitCode;
use std::time::Instant;

/// The bytes that begin, end or change a token; a byte that may stand only before a place, one only
/// after it, one at both sides; and one that may stand at neither and is plain everywhere.
const ALPHABET: &[u8] = b"'\"`\\#-/*:?a1 \n\t!(+\xFF";

/// The bytes that begin, continue, or stand beside a wide name, or hide one.
const WIDE_ALPHABET: &[u8] = b":aA_0'\\-/? ";

/// Bytes that a literal doubles or escapes, a letter, the last byte below 128, the two of a character that ends in 128,
/// and one that no UTF-8 has.
const VALUE_ALPHABET: &[u8] = b"'\"\\\0\na\x7F\xC3\x80\xFF";

/// The calls that bind a value, and their modes.
const BINDING: [(Asked, &[Mode]); 7] = [
    (Asked::Bind, &IN_A_MODE),
    (Asked::Bind, &ANYWHERE),
    (Asked::Bind, &IN_BOTH_MODES),
    (Asked::Fragments, &IN_A_MODE),
    (Asked::Fragments, &ANYWHERE),
    (Asked::Guarded, &WIDE_IN_A_MODE),
    (Asked::GuardedFragments, &WIDE_IN_A_MODE),
];

/// Room for each answer to a query or a value of up to 8 bytes.
const SHORT_ROOM: usize = 256;

/// Compares on every query and every value of up to `longest` bytes, and on so many random bindings,
/// rows, fragments and queries.
pub fn compare(longest: usize, count: u64) -> ExitCode {
    let mut differences = Differences::default();
    let values = example_values();
    let one_name = named_form(&[b"a"], &values);
    let by_grammar = |query: &[u8], to: &mut Differences| {
        short_query(query, &values, &one_name, to);
    };
    let by_wide_names = |query: &[u8], to: &mut Differences| {
        short_query_by_wide_names(query, &values, &one_name, to);
    };
    let alphabets: [(&str, &[u8], ShortText); 3] = [
        ("queries", ALPHABET, &by_grammar),
        ("queries by wide names", WIDE_ALPHABET, &by_wide_names),
        ("values", VALUE_ALPHABET, &short_value),
    ];
    for (kind, alphabet, compare) in alphabets {
        let (start, calls) = (Instant::now(), differences.calls);
        let texts = short_texts(alphabet, longest, compare, &mut differences);
        let (calls, seconds) = (differences.calls - calls, start.elapsed().as_secs());
        let letters = alphabet.len();
        println!("{texts} {kind} of up to {longest} of {letters} bytes: {calls} calls, {seconds} s");
    }
    let kinds: [(&str, fn(u64, &mut Differences)); 3] = [
        ("bindings", bindings::compare),
        ("rows", row_bindings::compare),
        ("fragments", fragment_bindings::compare),
    ];
    for (kind, compare) in kinds {
        let (start, calls) = (Instant::now(), differences.calls);
        compare(count, &mut differences);
        let (calls, seconds) = (differences.calls - calls, start.elapsed().as_secs());
        println!("{count} random {kind}: {calls} calls, {seconds} s");
    }
    let is_judged_alike = portable::compare(longest, count);
    let printed = differences.print();
    if is_judged_alike { printed } else { ExitCode::FAILURE }
}

/// What is compared of a query or a value.
type ShortText<'a> = &'a dyn Fn(&[u8], &mut Differences);

/// Compares the calls on every text of up to so many of these bytes; gives their number.
fn short_texts(
    alphabet: &[u8],
    longest: usize,
    compare: ShortText,
    differences: &mut Differences,
) -> u64 {
    let mut texts = 0;
    for len in 0..=longest {
        let mut letters = vec![0; len];
        loop {
            let text: Vec<u8> = letters.iter().map(|letter| alphabet[*letter]).collect();
            compare(&text, differences);
            texts += 1;
            // The next text, as one counts.
            let Some(at) = letters.iter().rposition(|letter| letter + 1 < alphabet.len()) else {
                break;
            };
            letters[at] += 1;
            letters[at + 1..].fill(0);
        }
    }
    texts
}

/// The query in the mode with backslash escapes, for any server and for both modes, and, if it has a backslash, in the other
/// mode.
fn short_query(query: &[u8], values: &[Vec<u8>], one_name: &[u8], differences: &mut Differences) {
    let calls = [
        (Asked::Bind, Mode::WithBackslashes),
        (Asked::Bind, Mode::Anywhere),
        (Asked::Bind, Mode::InBothModes),
    ];
    short_query_in::<Table>(&calls, query, values, one_name, differences);
    if query.contains(&b'\\') {
        let calls = [(Asked::Bind, Mode::WithoutBackslashes)];
        short_query_in::<WithoutBackslashes<Table>>(&calls, query, values, one_name, differences);
    }
}

/// The same by wide names, and with guarded literals in both modes.
fn short_query_by_wide_names(
    query: &[u8],
    values: &[Vec<u8>],
    one_name: &[u8],
    differences: &mut Differences,
) {
    let calls = [
        (Asked::Bind, Mode::ByWideNames),
        (Asked::Bind, Mode::AnywhereByWideNames),
        (Asked::Bind, Mode::InBothModesByWideNames),
        (Asked::Guarded, Mode::ByWideNames),
        (Asked::Guarded, Mode::WithoutBackslashesByWideNames),
        (Asked::GuardedFragments, Mode::ByWideNames),
        (Asked::GuardedFragments, Mode::WithoutBackslashesByWideNames),
    ];
    short_query_in::<WideNames<Table>>(&calls, query, values, one_name, differences);
    if query.contains(&b'\\') {
        let calls = [(Asked::Bind, Mode::WithoutBackslashesByWideNames)];
        short_query_in::<WideWithoutBackslashes<Table>>(&calls, query, values, one_name, differences);
    }
}

/// Names in the mode of the first of these calls, and all of them with nothing, with one name, with one value, and with what
/// fits the query.
fn short_query_in<S: Search>(
    calls: &[(Asked, Mode)],
    query: &[u8],
    values: &[Vec<u8>],
    one_name: &[u8],
    differences: &mut Differences,
) {
    let one_value = positional_form(1, values);
    differences.compare(Asked::Names, calls[0].1, query, &[], SHORT_ROOM);
    for form in [&[], one_name, one_value.as_slice()] {
        for (asked, mode) in calls {
            differences.compare(*asked, *mode, query, form, SHORT_ROOM);
        }
    }
    let (mut names, mut marks) = (Vec::new(), 0);
    let mut at = 0;
    while let Some((start, end)) = next_place::<S>(query, at) {
        at = end;
        match &query[start + 1..end] {
            [] => marks += 1,
            name if !names.contains(&name) => names.push(name),
            _ => {}
        }
    }
    if names.len() + marks > 1 || names.iter().any(|name| *name != b"a") {
        let form =
            if marks > 0 { positional_form(marks, values) } else { named_form(&names, values) };
        for (asked, mode) in calls {
            differences.compare(*asked, *mode, query, &form, SHORT_ROOM);
        }
    }
}

/// The bytes as the value of a mark.
fn short_value(value: &[u8], differences: &mut Differences) {
    let mut form = Vec::new();
    form::append_head(&mut form, b"", form::BLOB, false);
    form::append_string(&mut form, value);
    for (asked, modes) in BINDING {
        for mode in modes {
            differences.compare(asked, *mode, b"?", &form, SHORT_ROOM);
        }
    }
}

/// Values without their names.
fn example_values() -> Vec<Vec<u8>> {
    let mut values = vec![Vec::new(); 5];
    values[0].extend_from_slice(&[form::LONGLONG, 0]);
    values[0].extend_from_slice(&(-5i64).to_le_bytes());
    values[1].extend_from_slice(&[form::BLOB, 0]);
    form::append_string(&mut values[1], b":a'?\xC3\xA9\\");
    values[2].extend_from_slice(&[form::NULL, 0]);
    values[3].extend_from_slice(&[form::BLOB, 0]);
    form::append_string(&mut values[3], b"\xFF");
    values[4].extend_from_slice(&[form::LONGLONG, 128]);
    values[4].extend_from_slice(&u64::MAX.to_le_bytes());
    values
}

fn positional_form(count: usize, values: &[Vec<u8>]) -> Vec<u8> {
    let mut form = Vec::with_capacity(16 * count);
    for value in values.iter().cycle().take(count) {
        form.push(0);
        form.extend_from_slice(value);
    }
    form
}

fn named_form(names: &[&[u8]], values: &[Vec<u8>]) -> Vec<u8> {
    let mut form = Vec::with_capacity(16 * names.len());
    for (name, value) in names.iter().zip(values.iter().cycle()) {
        form::append_string(&mut form, name);
        form.extend_from_slice(value);
    }
    form
}
