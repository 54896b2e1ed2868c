//! The archive's templates for any mode and any server, by wide names. They are compared and not timed.

use crate::archive::number_and_report;
use crate::archive_template::{Head, Place};
use plain::room::{DONE, ROOM, Report};

/// What a table says of all places, of a query that was found to be one for any server.
#[repr(C)]
#[derive(Clone, Copy, Default)]
struct AnywhereHead {
    table: Head,
}

#[link(name = "mysql_params_c", kind = "static")]
unsafe extern "C" {
    fn mysql_params_table_anywhere_wide(
        query: *const u8,
        query_len: usize,
        head: *mut AnywhereHead,
        places: *mut Place,
        places_len: usize,
        report: *mut Report,
    ) -> i32;
    fn mysql_params_bind_template_anywhere_wide(
        query: *const u8,
        query_len: usize,
        head: *const AnywhereHead,
        places: *const Place,
        places_len: usize,
        form: *const u8,
        form_len: usize,
        room: *mut u8,
        room_len: usize,
        report: *mut Report,
    ) -> i32;
    fn mysql_params_bind_template_guarded_wide(
        query: *const u8,
        query_len: usize,
        head: *const AnywhereHead,
        places: *const Place,
        places_len: usize,
        form: *const u8,
        form_len: usize,
        no_backslash_escape: bool,
        room: *mut u8,
        room_len: usize,
        report: *mut Report,
    ) -> i32;
}

/// A query and its table.
pub struct AnywhereTemplate<'q> {
    query: &'q [u8],
    head: AnywhereHead,
    places: Vec<Place>,
}

impl<'q> AnywhereTemplate<'q> {
    /// A template, or the refusal of a query that isn't one for any server.
    pub fn new(query: &'q [u8]) -> Result<AnywhereTemplate<'q>, (i32, Report)> {
        let mut template =
            AnywhereTemplate { query, head: AnywhereHead::default(), places: Vec::new() };
        let (mut number, mut report) = template.make();
        if number == ROOM {
            template.places = vec![Place::default(); report.len];
            (number, report) = template.make();
        }
        if number == DONE { Ok(template) } else { Err((number, report)) }
    }

    /// Makes the table, if it has room for the places.
    fn make(&mut self) -> (i32, Report) {
        let (places, places_len) = (self.places.as_mut_ptr(), self.places.len());
        // SAFETY: the pointers and lengths are those of slices; head, places and report are the
        // archive's to write.
        number_and_report(|report| unsafe {
            mysql_params_table_anywhere_wide(
                self.query.as_ptr(),
                self.query.len(),
                &mut self.head,
                places,
                places_len,
                report,
            )
        })
    }

    /// Binds with steady literals.
    pub fn bind(&self, form: &[u8], room: &mut [u8]) -> (i32, Report) {
        let (form_at, room_at) = (form.as_ptr(), room.as_mut_ptr());
        // SAFETY: the pointers and lengths are those of slices, and the room and the report are the
        // archive's to write.
        number_and_report(|report| unsafe {
            mysql_params_bind_template_anywhere_wide(
                self.query.as_ptr(),
                self.query.len(),
                &self.head,
                self.places.as_ptr(),
                self.places.len(),
                form_at,
                form.len(),
                room_at,
                room.len(),
                report,
            )
        })
    }

    /// Binds with guarded literals, for a connection that is taken to be in this mode.
    pub fn bind_guarded(
        &self,
        form: &[u8],
        no_backslash_escape: bool,
        room: &mut [u8],
    ) -> (i32, Report) {
        let (form_at, room_at) = (form.as_ptr(), room.as_mut_ptr());
        // SAFETY: as above.
        number_and_report(|report| unsafe {
            mysql_params_bind_template_guarded_wide(
                self.query.as_ptr(),
                self.query.len(),
                &self.head,
                self.places.as_ptr(),
                self.places.len(),
                form_at,
                form.len(),
                no_backslash_escape,
                room_at,
                room.len(),
                report,
            )
        })
    }
}
