//! Rows: one query bound many times, by one call.

use crate::archive;
use crate::inputs::{RowsInput, form_of, params_of};
use crate::time::{Input, Side};
use plain::form::append_string;
use plain::room::DONE;
use plain::{Kind, TABLE, WIDE};
use std::cell::RefCell;
use std::hint::black_box;

/// The heads of the table: the call, and each side except the archive.
pub const ROWS: [&str; 5] =
    ["`bind_rows`", "table", "16 bytes", "table, behind", "the archive's `bind` by row"];

/// The forms of all rows in a new vector, the call, and the texts in lent room.
fn by_archive(input: &RowsInput, room: &RefCell<Vec<u8>>) -> usize {
    let mut forms = Vec::new();
    for given in black_box(&input.rows) {
        append_string(&mut forms, &form_of(given));
    }
    let room = &mut room.borrow_mut();
    let (number, rows, report) = archive::bind_rows(black_box(&input.query), &forms, room);
    assert_eq!((number, rows.count, rows.read), (DONE, input.rows.len(), forms.len()));
    report.len
}

/// The values of each row are made, and bound by places that are found once for all rows; the texts
/// are joined in one vector.
fn by_plain(kind: Kind, input: &RowsInput) -> Vec<u8> {
    let template = (kind.template)(black_box(&input.query));
    let mut texts = Vec::new();
    for given in black_box(&input.rows) {
        let text = (kind.bind_template)(&template, &params_of(given));
        append_string(&mut texts, &text.expect("a row that can be bound"));
    }
    texts
}

/// The form of each row, the call, and the text in lent room: by places that are found once, or by
/// the archive's call for one row.
fn by_row(
    input: &RowsInput,
    room: &RefCell<Vec<u8>>,
    bind: impl Fn(&[u8], &mut [u8]) -> (i32, plain::room::Report),
) -> usize {
    let room = &mut room.borrow_mut();
    let mut len = 0;
    for given in black_box(&input.rows) {
        // The length of a text that is shorter than 251 bytes is one byte, which stands before it.
        let (number, report) = bind(&form_of(given), &mut room[len + 1..]);
        assert_eq!(number, DONE);
        room[len] = report.len as u8;
        len += 1 + report.len;
    }
    len
}

pub fn rows<'a>(inputs: &'a [RowsInput], rooms: &'a [RefCell<Vec<u8>>]) -> Vec<Input<'a>> {
    inputs.iter().map(|input| rows_input(input, rooms)).collect()
}

fn rows_input<'a>(input: &'a RowsInput, rooms: &'a [RefCell<Vec<u8>>]) -> Input<'a> {
    let texts = by_plain(TABLE, input);
    assert!(by_plain(WIDE, input) == texts);
    let sides: Vec<Side> = vec![
        Box::new(|| by_archive(input, &rooms[0])),
        Box::new(|| black_box(by_plain(TABLE, input)).len()),
        Box::new(|| black_box(by_plain(WIDE, input)).len()),
        Box::new(|| {
            let template = (TABLE.template)(black_box(&input.query));
            by_row(input, &rooms[1], |form, room| (TABLE.bind_template_form)(&template, form, room))
        }),
        Box::new(|| {
            let query = black_box(&input.query);
            by_row(input, &rooms[2], |form, room| archive::bind(query, form, room))
        }),
    ];
    for (side, room) in [0, 3, 4].into_iter().zip(rooms) {
        let len = sides[side]();
        assert!(room.borrow()[..len] == texts[..], "other texts of {}", input.name);
    }
    Input { name: input.name, sides, last_differs: false }
}
