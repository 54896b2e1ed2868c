//! Plain Rust in the mode without backslash escapes, which is compared and not timed.

use crate::readings::Read;
use plain::bind::bind;
use plain::room::{self, Report};
use plain::rows::{self, Rows};
use plain::search::{Search, Table};
use plain::template::Template;

/// The searches of one kind, in the mode without backslash escapes.
pub type WithoutBackslashes<S> = Read<S, true, false>;

pub fn names<S: Search>(query: &[u8], room: &mut [u8]) -> (i32, Report) {
    room::names::<WithoutBackslashes<S>>(query, room)
}

pub fn bind_form<S: Search>(query: &[u8], form: &[u8], room: &mut [u8]) -> (i32, Report) {
    room::bind_form(form, room, |params| bind::<WithoutBackslashes<S>>(query, params))
}

/// A template that is made for this call alone.
pub fn bind_form_by_template(query: &[u8], form: &[u8], room: &mut [u8]) -> (i32, Report) {
    let template = Template::new::<WithoutBackslashes<Table>>(query);
    room::bind_form(form, room, |params| template.bind::<WithoutBackslashes<Table>>(params))
}

pub fn bind_rows<S: Search>(query: &[u8], forms: &[u8], room: &mut [u8]) -> (i32, Rows, Report) {
    rows::bind_rows(forms, room, |params| bind::<WithoutBackslashes<S>>(query, params))
}

/// Rows by a template that is made for this call alone.
pub fn bind_rows_by_template(query: &[u8], forms: &[u8], room: &mut [u8]) -> (i32, Rows, Report) {
    let template = Template::new::<WithoutBackslashes<Table>>(query);
    rows::bind_rows(forms, room, |params| template.bind::<WithoutBackslashes<Table>>(params))
}
