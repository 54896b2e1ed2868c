//! One query bound to row after row, after docs/RULES.md, "Answers in the caller's room".

use crate::bind::BindError;
use crate::form::{self, Rest};
use crate::room::{DONE, ROOM, Report, bind_answer, fill_string, form_answer, string_len};
use crate::value::Params;

/// How far a call has come: the rows that are bound, the bytes of their forms and of their texts.
#[repr(C)]
#[derive(Clone, Copy, Debug, Default, PartialEq)]
pub struct Rows {
    pub count: usize,
    pub read: usize,
    pub written: usize,
}

/// Binds the rows whose forms stand one after another, up to the first that is refused, and writes
/// each text as a length-encoded string behind the one before.
pub fn bind_rows(
    forms: &[u8],
    room: &mut [u8],
    bind: impl Fn(&Params) -> Result<Vec<u8>, BindError>,
) -> (i32, Rows, Report) {
    let mut rows = Rows::default();
    let mut rest = Rest { form: forms, at: 0 };
    while rest.at < forms.len() {
        let text = match next_text(&mut rest, &bind) {
            Ok(text) => text,
            Err((number, report)) => return (number, rows, report),
        };
        let len = string_len(&text);
        if room.len() - rows.written < len {
            return (ROOM, rows, Report { len, ..Report::default() });
        }
        fill_string(&mut room[rows.written..], &text);
        rows.count += 1;
        rows.read = rest.at;
        rows.written += len;
    }
    (DONE, rows, Report { len: rows.written, ..Report::default() })
}

/// The text of the row that stands next, or number and report of its refusal.
fn next_text(
    rest: &mut Rest,
    bind: impl Fn(&Params) -> Result<Vec<u8>, BindError>,
) -> Result<Vec<u8>, (i32, Report)> {
    let form = rest.string().map_err(|error| form_answer(&error, 0, 0))?;
    let params =
        form::read(form).map_err(|(error, number, start)| form_answer(&error, number, start))?;
    bind(&params).map_err(|error| bind_answer(&error))
}
