//! The queries and values that are timed.

use crate::random::Random;
use plain::form;
use plain::value::{Params, Value};
use std::borrow::Cow;
use std::collections::HashMap;

const MEGABYTE: usize = 1 << 20;

const TEN_NAMES: &[u8] =
    b"SELECT * FROM t WHERE p_a = :p_a AND p_b = :p_b AND p_c = :p_c AND p_d = :p_d \
    AND p_e = :p_e AND p_f = :p_f AND p_g = :p_g AND p_h = :p_h AND p_i = :p_i AND p_j = :p_j";

/// As many whole pieces as a megabyte holds.
fn rows(piece: &[u8]) -> Vec<u8> {
    rows_of(MEGABYTE, piece)
}

/// As many whole pieces as so many bytes hold.
fn rows_of(len: usize, piece: &[u8]) -> Vec<u8> {
    piece.repeat(len / piece.len())
}

/// The text, a megabyte of pieces, and the end.
fn around(start: &[u8], piece: &[u8], end: &[u8]) -> Vec<u8> {
    [start, &rows(piece), end].concat()
}

const ROW_OF_NAMES: &[u8] = b"(:one, :two, 'some text', 12345, NULL),\n";

/// A megabyte of any bytes but `?`: with marks beside names the query would be refused.
fn random_bytes() -> Vec<u8> {
    let mut random = Random(12345);
    let mut bytes = Vec::with_capacity(MEGABYTE);
    while bytes.len() < MEGABYTE {
        let byte = random.below(256) as u8;
        if byte != b'?' {
            bytes.push(byte);
        }
    }
    bytes
}

/// The queries that are parsed, with their names.
pub fn queries() -> Vec<(&'static str, Vec<u8>)> {
    let select = b"SELECT `col`, \"x\" FROM t /* about t */ WHERE a = :a AND b <> 'b' -- why\n";
    vec![
        ("rows of names", rows(ROW_OF_NAMES)),
        ("rows of marks", rows(b"(?, ?, 'some text', 12345, NULL),\n")),
        ("SELECT with comments", rows(select)),
        ("one long string", around(b"SELECT '", b"abcdefgh", b"', :a")),
        ("string full of escapes", around(b"SELECT '", b"it\\'s a \\\"text\\\" ", b"', :a")),
        ("one long comment", around(b"SELECT /*", b"abc * defgh\n", b"*/ :a")),
        ("words without a place", rows(b"SELECT alpha beta gamma FROM delta ")),
        ("random bytes", random_bytes()),
        ("short query, ten names", TEN_NAMES.to_vec()),
    ]
}

/// What a caller has: a name, empty by position, and a number or a text.
pub struct Given {
    name: Cow<'static, [u8]>,
    thing: Thing,
}

enum Thing {
    Number(i64),
    Text(Vec<u8>),
}

/// A query and what is bound into it.
pub struct Binding {
    pub name: &'static str,
    pub query: Vec<u8>,
    pub given: Vec<Given>,
}

fn number(name: &'static [u8], number: i64) -> Given {
    Given { name: Cow::Borrowed(name), thing: Thing::Number(number) }
}

fn text(name: &'static [u8], text: &[u8]) -> Given {
    Given { name: Cow::Borrowed(name), thing: Thing::Text(text.to_vec()) }
}

pub fn bindings() -> Vec<Binding> {
    let marks = [b"SELECT ?".as_slice(), &b", ?".repeat(999)].concat();
    let thousand =
        (0..1000).map(|at| if at % 2 == 0 { number(b"", 5) } else { text(b"", b"v'123") });
    let quotes: Vec<u8> = b"aaaaaaaaaaaaaaaaaaa'".iter().copied().cycle().take(MEGABYTE).collect();
    let names: [&[u8]; 10] =
        [b"p_a", b"p_b", b"p_c", b"p_d", b"p_e", b"p_f", b"p_g", b"p_h", b"p_i", b"p_j"];
    let ten = names.iter().enumerate().map(|(at, name)| number(name, 1000 * at as i64));
    vec![
        Binding { name: "1000 marks", query: marks, given: thousand.collect() },
        Binding {
            name: "one text of 1 MiB",
            query: b"SELECT ?".to_vec(),
            given: vec![text(b"", &quotes)],
        },
        Binding { name: "query of 1 MiB, one mark", ..insert_with_one_mark(MEGABYTE) },
        Binding { name: "short query, ten names", query: TEN_NAMES.to_vec(), given: ten.collect() },
        rows_binding(),
    ]
}

/// A query and the rows that are bound to it. Each text is shorter than 251 bytes.
pub struct RowsInput {
    pub name: &'static str,
    pub query: Vec<u8>,
    pub rows: Vec<Vec<Given>>,
}

/// A thousand rows of each.
pub fn rows_inputs() -> Vec<RowsInput> {
    let names: [&[u8]; 3] = [b"id", b"name", b"owner"];
    let by_position = |at| vec![number(b"", at), text(b"", b"it's a name")];
    let by_name = |at| vec![number(names[0], at), text(names[1], b"it's"), text(names[2], b"ann")];
    vec![
        RowsInput {
            name: "1000 rows of two values",
            query: b"INSERT INTO t VALUES (?, ?)".to_vec(),
            rows: (0..1000).map(by_position).collect(),
        },
        RowsInput {
            name: "1000 rows of three names",
            query: b"UPDATE t SET name = :name /* 'x' */ WHERE id = :id AND owner = :owner".to_vec(),
            rows: (0..1000).map(by_name).collect(),
        },
    ]
}

/// An insert of about so many bytes, with a mark in its last row.
pub fn insert_with_one_mark(len: usize) -> Binding {
    let rows = rows_of(len, b"(12345, 'some text here', 3.25, NULL), ");
    let query = [b"INSERT INTO t VALUES ".as_slice(), &rows, b"(?, '', 0, NULL)"].concat();
    Binding { name: "insert with one mark", query, given: vec![text(b"", b"5")] }
}

/// The binding whose memory is measured.
pub fn rows_binding() -> Binding {
    rows_of_names(MEGABYTE)
}

/// The query whose names take most memory.
pub fn all_names() -> Binding {
    Binding { query: rows_of(8 * MEGABYTE, b":a "), ..one_row_binding() }
}

/// Rows of names, of at most so many bytes.
pub fn rows_of_names(len: usize) -> Binding {
    Binding { query: rows_of(len, ROW_OF_NAMES), ..one_row_binding() }
}

/// One name, and so many parameters, of which that name is the first.
pub fn many_names(count: usize) -> Binding {
    named_by(count, |at| format!("name{at:012}").into_bytes())
}

/// The same, with names that lie close together in std's hash map, which has a fixed seed, as anyone
/// can find them: among the names of hexadecimal digits those whose hash ends in a small number.
pub fn colliding_names(count: usize) -> Binding {
    let names: Vec<Vec<u8>> = (0u64..)
        .map(|at| format!("c{at:x}").into_bytes())
        .filter(|name| hash(name) & 0x3FFF < 64)
        .take(count)
        .collect();
    named_by(count, |at| names[at].clone())
}

/// The hash by which the hash map of the archive's standard library finds a name.
fn hash(name: &[u8]) -> u32 {
    const SEED: u64 = 0x243f_6a88_85a3_08d3;
    const MULTIPLIER: u64 = 0x9e37_79b9_7f4a_7c15;
    let fold = |state: u64, word: u64, len: u64| {
        let product = u128::from(state ^ word) * u128::from(MULTIPLIER ^ (2 * len));
        product as u64 ^ (product >> 64) as u64
    };
    let start = fold(SEED, name.len() as u64, 8);
    let whole = name.iter().fold(start, |state, byte| fold(state, 0x01_0101 * u64::from(*byte), 1));
    (whole ^ (whole >> 32)) as u32
}

fn named_by(count: usize, name: impl Fn(usize) -> Vec<u8>) -> Binding {
    let others =
        (1..count).map(|at| Given { name: Cow::Owned(name(at)), thing: Thing::Number(at as i64) });
    Binding {
        name: "many names",
        query: b"SELECT :one".to_vec(),
        given: std::iter::once(number(b"one", 1)).chain(others).collect(),
    }
}

pub fn one_row_binding() -> Binding {
    Binding {
        name: "rows of names",
        query: ROW_OF_NAMES.to_vec(),
        given: vec![number(b"one", 12345), text(b"two", b"it's")],
    }
}

/// The parameters of plain Rust.
pub fn params_of(given: &[Given]) -> Params {
    let value = |given: &Given| match &given.thing {
        Thing::Number(number) => Value::Int(*number),
        Thing::Text(text) => Value::Bytes(text.clone()),
    };
    if given[0].name.is_empty() {
        return Params::Positional(given.iter().map(value).collect());
    }
    let mut values = HashMap::with_capacity(given.len());
    for given in given {
        values.insert(given.name.to_vec(), value(given));
    }
    Params::Named(values)
}

/// The same in flat form.
pub fn form_of(given: &[Given]) -> Vec<u8> {
    let len = |given: &Given| match &given.thing {
        Thing::Number(_) => given.name.len() + 3 + 8,
        Thing::Text(text) => given.name.len() + 3 + 9 + text.len(),
    };
    let mut form = Vec::with_capacity(given.iter().map(len).sum());
    for given in given {
        match &given.thing {
            Thing::Number(number) => {
                form::append_head(&mut form, &given.name, form::LONGLONG, false);
                form.extend_from_slice(&number.to_le_bytes());
            }
            Thing::Text(text) => {
                form::append_head(&mut form, &given.name, form::BLOB, false);
                form::append_string(&mut form, text);
            }
        }
    }
    form
}
