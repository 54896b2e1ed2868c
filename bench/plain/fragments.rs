//! A list or rows in the place of a query's only mark, after docs/RULES.md, "Fragments": the items
//! are written straight into the text.

use crate::bind::stands_alone;
use crate::form::{FormError, Rest};
use crate::query::next_place;
use crate::room::{DONE, Report, fill_text};
use crate::search::Search;
use crate::value::{Value, append_double, append_literal, finite_double, literal_room};

const LIST: u64 = 129;
const ROWS: u64 = 130;

/// What stands in the place.
pub enum Fragment {
    List(Vec<Value>),
    Rows(Vec<Vec<Value>>),
}

/// The text, unless there isn't one mark that stands alone, something is empty, the rows differ in
/// width, or a value is a NaN or an infinity.
#[inline(always)]
pub fn bind<S: Search>(query: &[u8], fragment: &Fragment) -> Option<Vec<u8>> {
    let (start, end) = next_place::<S>(query, 0)?;
    let fits = end == start + 1
        && stands_alone(query, start, end)
        && next_place::<S>(query, end).is_none();
    fits.then_some(())?;
    let mut text = Vec::with_capacity(query.len() + room_of(fragment)?);
    text.extend_from_slice(&query[..start]);
    match fragment {
        Fragment::List(items) => append_items::<S>(&mut text, items)?,
        Fragment::Rows(rows) => {
            for (at, row) in rows.iter().enumerate() {
                text.extend_from_slice(if at == 0 { b"(" } else { b", (" });
                append_items::<S>(&mut text, row)?;
                text.push(b')');
            }
        }
    }
    text.extend_from_slice(&query[end..]);
    Some(text)
}

/// Room for the fragment, unless it is refused for its form.
fn room_of(fragment: &Fragment) -> Option<usize> {
    let items = |items: &[Value]| items.iter().map(|item| literal_room(item) + 2).sum::<usize>();
    match fragment {
        Fragment::List(list) => (!list.is_empty()).then(|| items(list)),
        Fragment::Rows(rows) => {
            let width = rows.first()?.len();
            let fits = width > 0 && rows.iter().all(|row| row.len() == width);
            fits.then(|| rows.iter().map(|row| items(row) + 4).sum())
        }
    }
}

#[inline(always)]
fn append_items<S: Search>(text: &mut Vec<u8>, items: &[Value]) -> Option<()> {
    for (at, item) in items.iter().enumerate() {
        if at > 0 {
            text.extend_from_slice(b", ");
        }
        match finite_double(item) {
            Some(double) => append_double(text, double),
            None => append_literal::<S>(text, item).then_some(())?,
        }
    }
    Some(())
}

/// Binds what a form says, one list or rows by position, and copies the text into the room. It
/// stands for the archive's call on what can be bound alone.
#[inline(always)]
pub fn bind_form<S: Search>(query: &[u8], form: &[u8], room: &mut [u8]) -> (i32, Report) {
    let fragment = read(form).expect("a form of one fragment");
    let text = bind::<S>(query, &fragment).expect("a fragment that can be bound");
    let answer = fill_text(&text, room);
    assert_eq!(answer.0, DONE);
    answer
}

fn read(form: &[u8]) -> Result<Fragment, FormError> {
    let mut rest = Rest { form, at: 0 };
    rest.string()?;
    let column = rest.number(1)?;
    rest.number(1)?;
    match column {
        LIST => Ok(Fragment::List(items(&mut rest)?)),
        ROWS => {
            let count = rest.number(4)?;
            Ok(Fragment::Rows((0..count).map(|_| items(&mut rest)).collect::<Result<_, _>>()?))
        }
        column => Err(FormError::Type(column as u8)),
    }
}

fn items(rest: &mut Rest) -> Result<Vec<Value>, FormError> {
    let count = rest.number(4)?;
    (0..count).map(|_| rest.value()).collect()
}
