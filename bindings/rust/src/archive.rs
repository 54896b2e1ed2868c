//! The calls of the archive, and their answers.
use crate::{Construct, Error, Fault, Name, Unportable, names_in, words};
use std::arch::is_x86_feature_detected;

/// What a call says beside its number: `mysql_params_report` of mysql_params.h.
#[repr(C)]
#[derive(Clone, Copy, Debug, Default, PartialEq, Eq)]
pub(crate) struct Report {
    pub(crate) len: usize,
    pub(crate) place: usize,
    pub(crate) position: usize,
    pub(crate) marks: usize,
    pub(crate) values: usize,
    pub(crate) byte: usize,
}

/// How far binding of rows has come: `mysql_params_rows` of mysql_params.h.
#[repr(C)]
#[derive(Clone, Copy, Debug, Default, PartialEq, Eq)]
struct Rows {
    count: usize,
    read: usize,
    written: usize,
}

/// A place of a query: `mysql_params_place` of mysql_params.h.
#[repr(C)]
#[derive(Clone, Copy, Debug, Default, PartialEq, Eq)]
struct Place {
    before: usize,
    len: usize,
}

/// What a table says of all places: `mysql_params_table_head` of mysql_params.h.
#[repr(C)]
#[derive(Clone, Copy, Debug, Default, PartialEq, Eq)]
struct TableHead {
    names: usize,
    marks: usize,
    not_alone: usize,
    place: usize,
    position: usize,
    piece_bytes: usize,
}

// The calls by wide names.
// SAFETY: types and order of the parameters are those of mysql_params.h.
unsafe extern "C" {
    fn mysql_params_names_wide(
        query: *const u8,
        query_len: usize,
        no_backslash_escape: bool,
        room: *mut u8,
        room_len: usize,
        report: *mut Report,
    ) -> i32;

    fn mysql_params_bind_wide(
        query: *const u8,
        query_len: usize,
        form: *const u8,
        form_len: usize,
        no_backslash_escape: bool,
        room: *mut u8,
        room_len: usize,
        report: *mut Report,
    ) -> i32;

    fn mysql_params_table_wide(
        query: *const u8,
        query_len: usize,
        no_backslash_escape: bool,
        head: *mut TableHead,
        places: *mut Place,
        places_len: usize,
        report: *mut Report,
    ) -> i32;

    fn mysql_params_bind_template_wide(
        query: *const u8,
        query_len: usize,
        head: *const TableHead,
        places: *const Place,
        places_len: usize,
        form: *const u8,
        form_len: usize,
        no_backslash_escape: bool,
        room: *mut u8,
        room_len: usize,
        report: *mut Report,
    ) -> i32;

    fn mysql_params_bind_fragments_wide(
        query: *const u8,
        query_len: usize,
        form: *const u8,
        form_len: usize,
        no_backslash_escape: bool,
        room: *mut u8,
        room_len: usize,
        report: *mut Report,
    ) -> i32;

    fn mysql_params_bind_anywhere_wide(
        query: *const u8,
        query_len: usize,
        form: *const u8,
        form_len: usize,
        room: *mut u8,
        room_len: usize,
        report: *mut Report,
    ) -> i32;

    fn mysql_params_bind_in_both_modes_wide(
        query: *const u8,
        query_len: usize,
        form: *const u8,
        form_len: usize,
        room: *mut u8,
        room_len: usize,
        report: *mut Report,
    ) -> i32;

    fn mysql_params_bind_fragments_anywhere_wide(
        query: *const u8,
        query_len: usize,
        form: *const u8,
        form_len: usize,
        room: *mut u8,
        room_len: usize,
        report: *mut Report,
    ) -> i32;

    fn mysql_params_bind_rows_wide(
        query: *const u8,
        query_len: usize,
        forms: *const u8,
        forms_len: usize,
        no_backslash_escape: bool,
        room: *mut u8,
        room_len: usize,
        rows: *mut Rows,
        report: *mut Report,
    ) -> i32;

    fn mysql_params_first_unportable_wide(
        query: *const u8,
        query_len: usize,
        no_backslash_escape: bool,
        report: *mut Report,
    ) -> i32;

    fn mysql_params_first_unportable_in_client_wide(
        query: *const u8,
        query_len: usize,
        no_backslash_escape: bool,
        report: *mut Report,
    ) -> i32;
}

/// The answer is written.
pub(crate) const DONE: i32 = 0;
/// The room is too short for the answer.
pub(crate) const ROOM: i32 = 2;

/// The least room for texts.
const LEAST_TEXTS: usize = 4096;

/// Whether the processor has what the archive is compiled for. Those of x86-64-v2 that aren't asked for came earlier.
pub(crate) fn processor_suffices() -> bool {
    is_x86_feature_detected!("sse4.2")
        && is_x86_feature_detected!("ssse3")
        && is_x86_feature_detected!("popcnt")
        && is_x86_feature_detected!("cmpxchg16b")
}

/// A query has no construct that servers read in different ways.
const PORTABLE: i32 = 0;

/// A call of the archive.
#[derive(Clone, Copy, Debug)]
pub(crate) enum Call<'a> {
    /// The names of a query.
    Names { query: &'a [u8] },
    /// A query and the form of its parameters.
    Bind { query: &'a [u8], form: &'a [u8] },
    /// A query with its table, and the form of its parameters.
    BindTemplate {
        query: &'a [u8],
        table: &'a Table,
        form: &'a [u8],
    },
    /// A query and the form of its fragments.
    BindFragments { query: &'a [u8], form: &'a [u8] },
    /// As `Bind`, for any server. It has no mode.
    BindAnywhere { query: &'a [u8], form: &'a [u8] },
    /// As `Bind`, for both modes and any server.
    BindInBothModes { query: &'a [u8], form: &'a [u8] },
    /// As `BindFragments`, for any server.
    BindFragmentsAnywhere { query: &'a [u8], form: &'a [u8] },
}

impl Call<'_> {
    /// The number and the report of the call in a mode, whose answer is written into the room.
    pub(crate) fn answer(self, no_backslash_escape: bool, room: &mut [u8]) -> (i32, Report) {
        let mut report = Report::default();
        let number = match self {
            // SAFETY: each pointer is that of a slice with its length, and so not null, and all bytes have a value. The
            // room and the report are borrowed for writing alone, and so overlap nothing. The call keeps no pointer.
            Call::Names { query } => unsafe {
                mysql_params_names_wide(
                    query.as_ptr(),
                    query.len(),
                    no_backslash_escape,
                    room.as_mut_ptr(),
                    room.len(),
                    &mut report,
                )
            },
            Call::Bind { query, form } | Call::BindFragments { query, form } => {
                let bind = match self {
                    Call::Bind { .. } => mysql_params_bind_wide,
                    _ => mysql_params_bind_fragments_wide,
                };
                // SAFETY: the same holds of the query, the form, the room and the report.
                unsafe {
                    bind(
                        query.as_ptr(),
                        query.len(),
                        form.as_ptr(),
                        form.len(),
                        no_backslash_escape,
                        room.as_mut_ptr(),
                        room.len(),
                        &mut report,
                    )
                }
            }
            // SAFETY: the same, and of the table's places and its head, which is borrowed.
            Call::BindTemplate { query, table, form } => unsafe {
                mysql_params_bind_template_wide(
                    query.as_ptr(),
                    query.len(),
                    &table.head,
                    table.places.as_ptr(),
                    table.places.len(),
                    form.as_ptr(),
                    form.len(),
                    no_backslash_escape,
                    room.as_mut_ptr(),
                    room.len(),
                    &mut report,
                )
            },
            Call::BindAnywhere { query, form }
            | Call::BindInBothModes { query, form }
            | Call::BindFragmentsAnywhere { query, form } => {
                let bind = match self {
                    Call::BindAnywhere { .. } => mysql_params_bind_anywhere_wide,
                    Call::BindInBothModes { .. } => mysql_params_bind_in_both_modes_wide,
                    _ => mysql_params_bind_fragments_anywhere_wide,
                };
                // SAFETY: the same.
                unsafe {
                    bind(
                        query.as_ptr(),
                        query.len(),
                        form.as_ptr(),
                        form.len(),
                        room.as_mut_ptr(),
                        room.len(),
                        &mut report,
                    )
                }
            }
        };
        (number, report)
    }

    /// The query.
    fn query(&self) -> &[u8] {
        match self {
            Call::Names { query }
            | Call::Bind { query, .. }
            | Call::BindTemplate { query, .. }
            | Call::BindFragments { query, .. }
            | Call::BindAnywhere { query, .. }
            | Call::BindInBothModes { query, .. }
            | Call::BindFragmentsAnywhere { query, .. } => query,
        }
    }

    /// The bytes of the query or the form that a report tells.
    fn name(self, number: i32, report: &Report) -> Result<Name, Error> {
        let source = match self {
            Call::Bind { form, .. }
            | Call::BindTemplate { form, .. }
            | Call::BindFragments { form, .. }
            | Call::BindAnywhere { form, .. }
            | Call::BindInBothModes { form, .. }
            | Call::BindFragmentsAnywhere { form, .. }
                if number == 7 =>
            {
                form
            }
            _ => self.query(),
        };
        let end = report.position.checked_add(report.len);
        let name = end.and_then(|end| source.get(report.position..end));
        copy_of(name.ok_or(Error::UnknownAnswer { number })?).map(Name::from)
    }

    /// The error that a number with its report is, for any number but `DONE`.
    pub(crate) fn error(self, number: i32, report: &Report) -> Error {
        self.known_error(number, report)
            .unwrap_or_else(|other| other)
    }

    /// The same in a mode, what is wrong with a value or a fragment with the name of its place.
    fn error_in(self, number: i32, report: &Report, no_backslash_escape: bool) -> Error {
        let mut error = self.error(number, report);
        if let Error::Float { place, name }
        | Error::Fault { place, name, .. }
        | Error::UnsteadyFragment { place, name } = &mut error
        {
            match names_in(self.query(), no_backslash_escape) {
                Ok(found) => *name = found.names.into_iter().nth(*place),
                Err(other) => return other,
            }
        }
        error
    }

    /// As `error`; or `Err` if the number or its report isn't one of mysql_params.h, or the name finds no memory.
    fn known_error(self, number: i32, report: &Report) -> Result<Error, Error> {
        let Report {
            place,
            position,
            marks,
            values,
            ..
        } = *report;
        let byte = || u8::try_from(report.byte).map_err(|_| Error::UnknownAnswer { number });
        Ok(match number {
            1 => Error::OutOfMemory,
            3 => Error::FormEnd {
                parameter: place,
                position,
            },
            4 => Error::FormLengthLead {
                parameter: place,
                position,
                byte: byte()?,
            },
            5 => Error::FormType {
                parameter: place,
                position,
                column_type: byte()?,
            },
            6 => Error::FormMixed {
                parameter: place,
                position,
            },
            7 => Error::RepeatedName {
                parameter: place,
                position,
                name: self.name(number, report)?,
            },
            8 => Error::Mixed,
            9 => Error::Missing {
                place,
                position,
                name: self.name(number, report)?,
                word: Name::of_any(words::word_at(self.query(), position))?,
            },
            10 => Error::NamedForPositional {
                word: Name::of_any(words::word_without_name(self.query()))?,
            },
            11 => Error::PositionalForNamed,
            12 => Error::MarkCount { marks, values },
            13 => Error::NotAlone {
                place,
                position,
                name: Name::of_any(words::name_of_place(self.query(), position))?,
                neighbour: words::neighbour(self.query(), position),
                word: Name::of_any(words::word_of_place(self.query(), position))?,
                beside_point: words::is_beside_point(self.query(), position),
            },
            14 => Error::Float { place, name: None },
            15 => Error::Unsteady { position },
            16 => {
                let construct = Construct::of_number(i32::from(byte()?));
                Error::Unportable(Unportable {
                    construct: construct.ok_or(Error::UnknownAnswer { number })?,
                    position,
                })
            }
            17 => {
                let fault = Fault::of_number(byte()?, position, values);
                Error::Fault {
                    place,
                    fault: fault.ok_or(Error::UnknownAnswer { number })?,
                    name: None,
                }
            }
            18 => Error::Backslash { position },
            19 => Error::UnsteadyFragment { place, name: None },
            21 => Error::Unbracketed {
                place,
                position,
                name: Name::of_any(words::name_of_place(self.query(), position))?,
            },
            _ => return Err(Error::UnknownAnswer { number }),
        })
    }

    /// The whole answer: asked for in a room of a guessed length, and again in one of the length that is needed.
    pub(crate) fn whole_answer(
        self,
        no_backslash_escape: bool,
        guess: usize,
    ) -> Result<Vec<u8>, Error> {
        if !processor_suffices() {
            return Err(Error::Processor);
        }
        // The answer may be far shorter than the guess: if that finds no memory, the archive tells the length.
        let mut room = room_of(guess).unwrap_or_default();
        let (mut number, mut report) = self.answer(no_backslash_escape, &mut room);
        if number == ROOM {
            room = room_of(report.len)?;
            (number, report) = self.answer(no_backslash_escape, &mut room);
        }
        if number != DONE {
            return Err(self.error_in(number, &report, no_backslash_escape));
        }
        written(room, &report)
    }
}

/// The table of a query's places in a mode.
#[derive(Clone, Debug, PartialEq, Eq)]
pub(crate) struct Table {
    head: TableHead,
    places: Vec<Place>,
}

impl Table {
    /// The table of a query in a mode.
    pub(crate) fn of(query: &[u8], no_backslash_escape: bool) -> Result<Table, Error> {
        if !processor_suffices() {
            return Err(Error::Processor);
        }
        let mut table = Table {
            head: TableHead::default(),
            places: Vec::new(),
        };
        let (mut number, report) = table.make(query, no_backslash_escape);
        if number == ROOM {
            table
                .places
                .try_reserve_exact(report.len)
                .map_err(|_| Error::OutOfMemory)?;
            table.places.resize(report.len, Place::default());
            (number, _) = table.make(query, no_backslash_escape);
        }
        match number {
            DONE => Ok(table),
            1 => Err(Error::OutOfMemory),
            _ => Err(Error::UnknownAnswer { number }),
        }
    }

    /// The number and the report of the call that makes it, if it has room for the places.
    fn make(&mut self, query: &[u8], no_backslash_escape: bool) -> (i32, Report) {
        let mut report = Report::default();
        // SAFETY: each pointer is that of a slice with its length, and so not null, and all bytes have a value. The head, the
        // places and the report are borrowed for writing alone, and so overlap nothing. The call keeps no pointer.
        let number = unsafe {
            mysql_params_table_wide(
                query.as_ptr(),
                query.len(),
                no_backslash_escape,
                &mut self.head,
                self.places.as_mut_ptr(),
                self.places.len(),
                &mut report,
            )
        };
        (number, report)
    }
}

/// The answer that stands in a room; or `Err` if the report says that it is longer than the room.
pub(crate) fn written(mut room: Vec<u8>, report: &Report) -> Result<Vec<u8>, Error> {
    if report.len > room.len() {
        return Err(Error::UnknownAnswer { number: DONE });
    }
    room.truncate(report.len);
    Ok(room)
}

/// Texts, each as a length-encoded string, in a room that is longer.
#[derive(Debug, Default)]
pub(crate) struct TextRoom {
    room: Vec<u8>,
    len: usize,
    count: usize,
}

impl TextRoom {
    /// The texts, and how many there are.
    pub(crate) fn into_texts(mut self) -> (Vec<u8>, usize) {
        self.room.truncate(self.len);
        (self.room, self.count)
    }

    /// The number of texts.
    pub(crate) fn count(&self) -> usize {
        self.count
    }

    /// Binds rows, whose forms stand one after another as length-encoded strings, to a query in a mode, and appends their
    /// texts: of all rows, or of those before the first that is refused.
    pub(crate) fn append_rows(
        &mut self,
        query: &[u8],
        forms: &[u8],
        no_backslash_escape: bool,
    ) -> Result<(), Error> {
        let mut forms = forms;
        loop {
            let (number, rows, report) = self.rows_of(query, forms, no_backslash_escape);
            let unknown = Error::UnknownAnswer { number };
            if rows.written > self.room.len() - self.len {
                return Err(unknown);
            }
            self.len += rows.written;
            self.count = self.count.saturating_add(rows.count);
            forms = forms.get(rows.read..).ok_or(unknown)?;
            match number {
                DONE => return Ok(()),
                ROOM => self.grow(report.len)?,
                number => {
                    let form = crate::form::next_string(forms).map_or(&[][..], |(form, _)| form);
                    let call = Call::Bind { query, form };
                    return Err(call.error_in(number, &report, no_backslash_escape));
                }
            }
        }
    }

    /// The number, the rows and the report of one call, whose texts are written behind those that stand.
    fn rows_of(
        &mut self,
        query: &[u8],
        forms: &[u8],
        no_backslash_escape: bool,
    ) -> (i32, Rows, Report) {
        let (mut rows, mut report) = (Rows::default(), Report::default());
        let room = &mut self.room[self.len..];
        // SAFETY: each pointer is that of a slice with its length, and so not null, and all bytes have a value. The room,
        // the rows and the report are borrowed for writing alone, and so overlap nothing. The call keeps no pointer.
        let number = unsafe {
            mysql_params_bind_rows_wide(
                query.as_ptr(),
                query.len(),
                forms.as_ptr(),
                forms.len(),
                no_backslash_escape,
                room.as_mut_ptr(),
                room.len(),
                &mut rows,
                &mut report,
            )
        };
        (number, rows, report)
    }

    /// Makes room for so many more bytes, and at least for twice as many as before.
    fn grow(&mut self, more: usize) -> Result<(), Error> {
        let len = self.len.checked_add(more).ok_or(Error::OutOfMemory)?;
        let len = len.max(self.room.len().saturating_mul(2)).max(LEAST_TEXTS);
        self.room
            .try_reserve_exact(len - self.room.len())
            .map_err(|_| Error::OutOfMemory)?;
        self.room.resize(len, 0);
        Ok(())
    }
}

/// Who reads a query: servers, or a client before them.
#[derive(Clone, Copy, Debug)]
pub(crate) enum Reader {
    Server,
    Client,
}

/// The number and the report of the first construct of a query, in a mode.
pub(crate) fn first_construct(
    reader: Reader,
    query: &[u8],
    no_backslash_escape: bool,
) -> (i32, Report) {
    let find = match reader {
        Reader::Server => mysql_params_first_unportable_wide,
        Reader::Client => mysql_params_first_unportable_in_client_wide,
    };
    let mut report = Report::default();
    // SAFETY: the pointer is that of a slice with its length, and so not null, and all bytes have a value. The report
    // is borrowed for writing alone, and so overlaps nothing. The call keeps no pointer.
    let number = unsafe {
        find(
            query.as_ptr(),
            query.len(),
            no_backslash_escape,
            &mut report,
        )
    };
    (number, report)
}

/// The first construct of a query, in a mode.
pub(crate) fn first_unportable(
    reader: Reader,
    query: &[u8],
    no_backslash_escape: bool,
) -> Result<Option<Unportable>, Error> {
    if !processor_suffices() {
        return Err(Error::Processor);
    }
    let (number, report) = first_construct(reader, query, no_backslash_escape);
    unportable(number, &report)
}

/// What such a number with its report says; or `Err` if the number isn't one of mysql_params.h.
pub(crate) fn unportable(number: i32, report: &Report) -> Result<Option<Unportable>, Error> {
    if number == PORTABLE {
        return Ok(None);
    }
    let construct = Construct::of_number(number).ok_or(Error::UnknownAnswer { number })?;
    Ok(Some(Unportable {
        construct,
        position: report.position,
    }))
}

/// Bytes of a number, or out of memory.
fn room_of(len: usize) -> Result<Vec<u8>, Error> {
    let mut room = Vec::new();
    room.try_reserve_exact(len)
        .map_err(|_| Error::OutOfMemory)?;
    room.resize(len, 0);
    Ok(room)
}

/// A copy of bytes, or out of memory.
pub(crate) fn copy_of(bytes: &[u8]) -> Result<Vec<u8>, Error> {
    let mut copy = Vec::new();
    copy.try_reserve_exact(bytes.len())
        .map_err(|_| Error::OutOfMemory)?;
    copy.extend_from_slice(bytes);
    Ok(copy)
}
