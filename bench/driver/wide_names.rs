//! Plain Rust by wide names, which may have capitals. It is compared and not timed.

use crate::readings::Read;
use plain::bind::{bind, bind_anywhere, bind_guarded, bind_in_both_modes};
use plain::client::first_unportable_in_client;
use plain::portable::first_unportable;
use plain::query::lowered;
use plain::room::{self, Report};
use plain::rows::{self, Rows};
use plain::search::{Search, Table};

/// The searches of one kind, by wide names.
pub type WideNames<S> = Read<S, false, true>;

/// The same in the mode without backslash escapes.
pub type WideWithoutBackslashes<S> = Read<S, true, true>;

pub fn names<S: Search>(query: &[u8], room: &mut [u8]) -> (i32, Report) {
    room::names::<S>(query, room)
}

pub fn bind_form<S: Search>(query: &[u8], form: &[u8], room: &mut [u8]) -> (i32, Report) {
    room::bind_form(form, room, |params| bind::<S>(query, params))
}

pub fn bind_form_anywhere<S: Search>(query: &[u8], form: &[u8], room: &mut [u8]) -> (i32, Report) {
    room::bind_form(form, room, |params| bind_anywhere::<S>(query, params))
}

pub fn bind_form_guarded<S: Search>(query: &[u8], form: &[u8], room: &mut [u8]) -> (i32, Report) {
    room::bind_form(form, room, |params| bind_guarded::<S>(query, params))
}

pub fn bind_form_in_both_modes<S: Search>(
    query: &[u8],
    form: &[u8],
    room: &mut [u8],
) -> (i32, Report) {
    room::bind_form(form, room, |params| bind_in_both_modes::<S>(query, params))
}

pub fn bind_rows<S: Search>(query: &[u8], forms: &[u8], room: &mut [u8]) -> (i32, Rows, Report) {
    rows::bind_rows(forms, room, |params| bind::<S>(query, params))
}

/// The query with its names in lower case, read in a mode.
fn lowered_in(query: &[u8], no_backslash_escape: bool) -> Vec<u8> {
    if no_backslash_escape {
        lowered::<WideWithoutBackslashes<Table>>(query).into_owned()
    } else {
        lowered::<WideNames<Table>>(query).into_owned()
    }
}

pub fn first_unportable_by_wide_names(query: &[u8], no_backslash_escape: bool) -> (i32, usize) {
    first_unportable(&lowered_in(query, no_backslash_escape), no_backslash_escape)
}

pub fn first_in_client_by_wide_names(query: &[u8], no_backslash_escape: bool) -> (i32, usize) {
    first_unportable_in_client(&lowered_in(query, no_backslash_escape), no_backslash_escape)
}
