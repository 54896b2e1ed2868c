//! The archive's functions.

use plain::room::Report;
use plain::rows::Rows;

/// Declares exports that take the same, and names the type of a pointer to one.
macro_rules! exports {
    ($(#[$comment:meta])* $alike:ident $arguments:tt: $($export:ident)*) => {
        $(#[$comment])*
        type $alike = unsafe extern "C" fn $arguments -> i32;
        #[link(name = "mysql_params_c", kind = "static")]
        unsafe extern "C" {
            $(pub fn $export $arguments -> i32;)*
        }
    };
}
pub(crate) use exports;

exports! {
    /// A call of the archive that tells the names of a query.
    NamesInMode(
        query: *const u8,
        query_len: usize,
        no_backslash_escape: bool,
        room: *mut u8,
        room_len: usize,
        report: *mut Report,
    ):
    mysql_params_names
    mysql_params_names_wide
}

exports! {
    /// A call of the archive that binds in a mode.
    InMode(
        query: *const u8,
        query_len: usize,
        form: *const u8,
        form_len: usize,
        no_backslash_escape: bool,
        room: *mut u8,
        room_len: usize,
        report: *mut Report,
    ):
    mysql_params_bind
    mysql_params_bind_wide
    mysql_params_bind_fragments
    mysql_params_bind_fragments_wide
    mysql_params_bind_fragments_guarded_wide
}

exports! {
    /// A call of the archive that binds for any server, or for both modes.
    Anywhere(
        query: *const u8,
        query_len: usize,
        form: *const u8,
        form_len: usize,
        room: *mut u8,
        room_len: usize,
        report: *mut Report,
    ):
    mysql_params_bind_anywhere
    mysql_params_bind_anywhere_wide
    mysql_params_bind_in_both_modes
    mysql_params_bind_in_both_modes_wide
    mysql_params_bind_fragments_anywhere
    mysql_params_bind_fragments_anywhere_wide
}

exports! {
    /// A call of the archive that binds rows, whose forms are length-encoded strings.
    RowsInMode(
        query: *const u8,
        query_len: usize,
        forms: *const u8,
        forms_len: usize,
        no_backslash_escape: bool,
        room: *mut u8,
        room_len: usize,
        rows: *mut Rows,
        report: *mut Report,
    ):
    mysql_params_bind_rows
    mysql_params_bind_rows_wide
}

exports! {
    /// A call of the archive that judges a query in a mode.
    JudgeInMode(
        query: *const u8,
        query_len: usize,
        no_backslash_escape: bool,
        report: *mut Report,
    ):
    mysql_params_first_unportable
    mysql_params_first_unportable_wide
    mysql_params_first_unportable_in_client
    mysql_params_first_unportable_in_client_wide
}

/// A report that no call gives: the archive has to write each field.
const UNWRITTEN: Report = Report {
    len: usize::MAX,
    place: usize::MAX,
    position: usize::MAX,
    marks: usize::MAX,
    values: usize::MAX,
    byte: usize::MAX,
};

/// The number and the report of a call, which has to write each field.
#[inline(always)]
pub fn number_and_report(call: impl FnOnce(*mut Report) -> i32) -> (i32, Report) {
    let mut report = UNWRITTEN;
    let number = call(&mut report);
    (number, report)
}

// The timed calls, by names without capitals in the mode with backslash escapes.

pub fn names(query: &[u8], room: &mut [u8]) -> (i32, Report) {
    names_in_mode(mysql_params_names, query, false, room)
}

pub fn bind(query: &[u8], form: &[u8], room: &mut [u8]) -> (i32, Report) {
    in_mode(mysql_params_bind, query, form, false, room)
}

/// `bind` with lists, rows and more.
pub fn bind_fragments(query: &[u8], form: &[u8], room: &mut [u8]) -> (i32, Report) {
    in_mode(mysql_params_bind_fragments, query, form, false, room)
}

/// `bind` for any mode and any server.
pub fn bind_anywhere(query: &[u8], form: &[u8], room: &mut [u8]) -> (i32, Report) {
    anywhere(mysql_params_bind_anywhere, query, form, room)
}

/// Rows, whose forms are length-encoded strings.
pub fn bind_rows(query: &[u8], forms: &[u8], room: &mut [u8]) -> (i32, Rows, Report) {
    rows_in_mode(mysql_params_bind_rows, query, forms, false, room)
}

// SAFETY, of each call below: pointers and lengths are those of slices, and the report is the archive's to write.

#[inline(always)]
pub fn names_in_mode(
    call: NamesInMode,
    query: &[u8],
    no_backslash_escape: bool,
    room: &mut [u8],
) -> (i32, Report) {
    let (query_at, room_at) = (query.as_ptr(), room.as_mut_ptr());
    number_and_report(|report| unsafe {
        call(query_at, query.len(), no_backslash_escape, room_at, room.len(), report)
    })
}

#[inline(always)]
pub fn in_mode(
    call: InMode,
    query: &[u8],
    form: &[u8],
    no_backslash_escape: bool,
    room: &mut [u8],
) -> (i32, Report) {
    let (query_at, form_at, room_at) = (query.as_ptr(), form.as_ptr(), room.as_mut_ptr());
    let (query_len, form_len, room_len) = (query.len(), form.len(), room.len());
    number_and_report(|report| unsafe {
        call(query_at, query_len, form_at, form_len, no_backslash_escape, room_at, room_len, report)
    })
}

#[inline(always)]
pub fn anywhere(call: Anywhere, query: &[u8], form: &[u8], room: &mut [u8]) -> (i32, Report) {
    let (query_at, form_at, room_at) = (query.as_ptr(), form.as_ptr(), room.as_mut_ptr());
    let (query_len, form_len, room_len) = (query.len(), form.len(), room.len());
    number_and_report(|report| unsafe {
        call(query_at, query_len, form_at, form_len, room_at, room_len, report)
    })
}

#[inline(always)]
pub fn rows_in_mode(
    call: RowsInMode,
    query: &[u8],
    forms: &[u8],
    no_backslash_escape: bool,
    room: &mut [u8],
) -> (i32, Rows, Report) {
    // The archive has to write each field of these too.
    let mut rows = Rows { count: usize::MAX, read: usize::MAX, written: usize::MAX };
    let (query_at, forms_at, room_at) = (query.as_ptr(), forms.as_ptr(), room.as_mut_ptr());
    let (query_len, forms_len, room_len) = (query.len(), forms.len(), room.len());
    let (number, report) = number_and_report(|report| unsafe {
        call(
            query_at,
            query_len,
            forms_at,
            forms_len,
            no_backslash_escape,
            room_at,
            room_len,
            &mut rows,
            report,
        )
    });
    (number, rows, report)
}

pub fn judge_in_mode(call: JudgeInMode, query: &[u8], no_backslash_escape: bool) -> (i32, Report) {
    let query_at = query.as_ptr();
    number_and_report(|report| unsafe {
        call(query_at, query.len(), no_backslash_escape, report)
    })
}
