//! A list of a hundred thousand numbers, one of doubles, and as many rows of three values, in one place.

use crate::archive;
use crate::time::{Input, Side};
use plain::form::{append_head, append_string, BLOB, DOUBLE, LONGLONG, NULL};
use plain::fragments::Fragment;
use plain::room::DONE;
use plain::value::Value;
use plain::{TABLE, WIDE};
use std::cell::RefCell;
use std::hint::black_box;

const COUNT: usize = 100_000;
/// The types of a list and of rows, in a form.
const LIST: u8 = 129;
const ROWS: u8 = 130;

/// The heads of the table: the call, and each side except the archive.
pub const FRAGMENTS: [&str; 4] = ["`bind_fragments`", "table", "16 bytes", "table, behind"];

/// What a caller has.
enum Things {
    Numbers(Vec<i64>),
    Doubles(Vec<f64>),
    /// A number, a text, and a number that may be missing.
    Rows(Vec<(i64, Vec<u8>, Option<i64>)>),
}

pub struct FragmentInput {
    pub name: &'static str,
    query: &'static [u8],
    things: Things,
}

pub fn inputs() -> Vec<FragmentInput> {
    let row = |at: i64| (at, format!("it's {at}").into_bytes(), (at % 3 > 0).then_some(7 * at));
    vec![
        FragmentInput {
            name: "a list of 100000 numbers",
            query: b"SELECT * FROM t WHERE id IN (?)",
            things: Things::Numbers((0..COUNT as i64).map(|at| 1000 * at).collect()),
        },
        FragmentInput {
            name: "a list of 100000 doubles",
            query: b"SELECT * FROM t WHERE x IN (?)",
            things: Things::Doubles((0..COUNT).map(|at| (at as f64).sqrt() - 100.0).collect()),
        },
        FragmentInput {
            name: "100000 rows of three values",
            query: b"INSERT INTO t VALUES ?",
            things: Things::Rows((0..COUNT as i64).map(row).collect()),
        },
    ]
}

fn append_number(form: &mut Vec<u8>, number: i64) {
    form.extend_from_slice(&[LONGLONG, 0]);
    form.extend_from_slice(&number.to_le_bytes());
}

fn append_count(form: &mut Vec<u8>, count: usize) {
    form.extend_from_slice(&(count as u32).to_le_bytes());
}

/// The flat form of the things, by position.
fn form_of(things: &Things) -> Vec<u8> {
    let mut form = Vec::new();
    match things {
        Things::Numbers(numbers) => {
            append_head(&mut form, b"", LIST, false);
            append_count(&mut form, numbers.len());
            numbers.iter().for_each(|number| append_number(&mut form, *number));
        }
        Things::Doubles(doubles) => {
            append_head(&mut form, b"", LIST, false);
            append_count(&mut form, doubles.len());
            for double in doubles {
                form.extend_from_slice(&[DOUBLE, 0]);
                form.extend_from_slice(&double.to_bits().to_le_bytes());
            }
        }
        Things::Rows(rows) => {
            append_head(&mut form, b"", ROWS, false);
            append_count(&mut form, rows.len());
            for (number, text, missing) in rows {
                append_count(&mut form, 3);
                append_number(&mut form, *number);
                form.extend_from_slice(&[BLOB, 0]);
                append_string(&mut form, text);
                match missing {
                    Some(number) => append_number(&mut form, *number),
                    None => form.extend_from_slice(&[NULL, 0]),
                }
            }
        }
    }
    form
}

fn fragment_of(things: &Things) -> Fragment {
    match things {
        Things::Numbers(numbers) => {
            Fragment::List(numbers.iter().map(|number| Value::Int(*number)).collect())
        }
        Things::Doubles(doubles) => {
            Fragment::List(doubles.iter().map(|double| Value::Double(double.to_bits())).collect())
        }
        Things::Rows(rows) => {
            let row = |(number, text, missing): &(i64, Vec<u8>, Option<i64>)| {
                let last = missing.map_or(Value::Null, Value::Int);
                vec![Value::Int(*number), Value::Bytes(text.clone()), last]
            };
            Fragment::Rows(rows.iter().map(row).collect())
        }
    }
}

/// The form in a new vector, the call, and the text in lent room.
pub fn behind_calls(
    call: impl Fn(&[u8], &[u8], &mut [u8]) -> (i32, plain::room::Report),
    input: &FragmentInput,
    room: &RefCell<Vec<u8>>,
) -> usize {
    let form = form_of(black_box(&input.things));
    let (number, report) = call(black_box(input.query), &form, &mut room.borrow_mut());
    assert_eq!(number, DONE);
    report.len
}

pub fn fragments<'a>(
    inputs: &'a [FragmentInput],
    rooms: &'a [RefCell<Vec<u8>>],
) -> Vec<Input<'a>> {
    inputs.iter().map(|input| fragment_input(input, rooms)).collect()
}

fn fragment_input<'a>(input: &'a FragmentInput, rooms: &'a [RefCell<Vec<u8>>]) -> Input<'a> {
    let text = (TABLE.bind_fragment)(input.query, &fragment_of(&input.things)).expect("a text");
    let plainly = |kind: plain::Kind| -> Side<'a> {
        Box::new(move || {
            let fragment = fragment_of(black_box(&input.things));
            let text = (kind.bind_fragment)(black_box(input.query), &fragment);
            black_box(text.expect("a text")).len()
        })
    };
    let sides: Vec<Side> = vec![
        Box::new(|| behind_calls(archive::bind_fragments, input, &rooms[0])),
        plainly(TABLE),
        plainly(WIDE),
        Box::new(|| behind_calls(TABLE.bind_fragment_form, input, &rooms[1])),
    ];
    for (side, room) in [0, 3].into_iter().zip(rooms) {
        let len = sides[side]();
        assert!(room.borrow()[..len] == text[..], "another text of {}", input.name);
    }
    Input { name: input.name, sides, last_differs: false }
}
