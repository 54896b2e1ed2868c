//! The archive's templates.

use crate::archive::{exports, number_and_report};
use plain::room::{DONE, ROOM, Report};

/// A place of a query.
#[repr(C)]
#[derive(Clone, Copy, Default)]
pub struct Place {
    before: usize,
    len: usize,
}

/// What a table says of all places.
#[repr(C)]
#[derive(Clone, Copy, Default)]
pub struct Head {
    names: usize,
    marks: usize,
    not_alone: usize,
    place: usize,
    position: usize,
    piece_bytes: usize,
}

exports! {
    /// A call that makes a table.
    MakeTable(
        query: *const u8,
        query_len: usize,
        no_backslash_escape: bool,
        head: *mut Head,
        places: *mut Place,
        places_len: usize,
        report: *mut Report,
    ):
    mysql_params_table
    mysql_params_table_wide
}

exports! {
    /// A call that binds by one.
    BindByTable(
        query: *const u8,
        query_len: usize,
        head: *const Head,
        places: *const Place,
        places_len: usize,
        form: *const u8,
        form_len: usize,
        no_backslash_escape: bool,
        room: *mut u8,
        room_len: usize,
        report: *mut Report,
    ):
    mysql_params_bind_template
    mysql_params_bind_template_wide
}

/// A query and its table.
pub struct Template<'q> {
    make_table: MakeTable,
    bind_by_table: BindByTable,
    query: &'q [u8],
    no_backslash_escape: bool,
    head: Head,
    places: Vec<Place>,
}

impl<'q> Template<'q> {
    pub fn new(query: &'q [u8], no_backslash_escape: bool) -> Template<'q> {
        Template::by(mysql_params_table, mysql_params_bind_template, query, no_backslash_escape)
    }

    /// The same by wide names.
    pub fn by_wide_names(query: &'q [u8], no_backslash_escape: bool) -> Template<'q> {
        let (make, bind) = (mysql_params_table_wide, mysql_params_bind_template_wide);
        Template::by(make, bind, query, no_backslash_escape)
    }

    fn by(
        make_table: MakeTable,
        bind_by_table: BindByTable,
        query: &'q [u8],
        no_backslash_escape: bool,
    ) -> Template<'q> {
        let (head, places) = (Head::default(), Vec::new());
        let mut template =
            Template { make_table, bind_by_table, query, no_backslash_escape, head, places };
        let (number, report) = template.make();
        if number == ROOM {
            template.places = vec![Place::default(); report.len];
            assert_eq!(template.make().0, DONE);
        }
        template
    }

    /// Makes the table, if it has room for the places.
    fn make(&mut self) -> (i32, Report) {
        let (places, places_len) = (self.places.as_mut_ptr(), self.places.len());
        // SAFETY: the pointers and lengths are those of slices; head, places and report are the
        // archive's to write.
        number_and_report(|report| unsafe {
            (self.make_table)(
                self.query.as_ptr(),
                self.query.len(),
                self.no_backslash_escape,
                &mut self.head,
                places,
                places_len,
                report,
            )
        })
    }

    pub fn bind(&self, form: &[u8], room: &mut [u8]) -> (i32, Report) {
        let (form_at, room_at) = (form.as_ptr(), room.as_mut_ptr());
        // SAFETY: the pointers and lengths are those of slices, and the room and the report are the
        // archive's to write.
        number_and_report(|report| unsafe {
            (self.bind_by_table)(
                self.query.as_ptr(),
                self.query.len(),
                &self.head,
                self.places.as_ptr(),
                self.places.len(),
                form_at,
                form.len(),
                self.no_backslash_escape,
                room_at,
                room.len(),
                report,
            )
        })
    }
}
