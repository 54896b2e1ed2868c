//! The sides whose answers are compared.

use crate::anywhere_template::AnywhereTemplate;
use crate::archive::{self, anywhere, in_mode, names_in_mode, rows_in_mode};
use crate::archive_template::Template;
use crate::other_mode::{self, WithoutBackslashes};
use crate::readings::Read;
use crate::wide_names::{self, WideNames};
use plain::all_fragments::{bind_form, bind_form_anywhere, bind_form_guarded};
use plain::room::{FORM_END, FORM_REPEATED, Report};
use plain::rows::Rows;
use plain::search::{Table, Wide};
use plain::{TABLE, WIDE, rows};

/// What is called.
#[derive(Clone, Copy, Debug, PartialEq)]
pub enum Asked {
    Names,
    Bind,
    Rows,
    Fragments,
    /// Binding with guarded literals, in a mode and by wide names alone.
    Guarded,
    GuardedFragments,
}

/// The mode of a call.
#[derive(Clone, Copy, Debug, PartialEq)]
pub enum Mode {
    WithBackslashes,
    WithoutBackslashes,
    /// Binding for any mode.
    Anywhere,
    /// Binding for both modes, of a query that needn't be steady.
    InBothModes,
    /// With backslashes, by wide names, and so on.
    ByWideNames,
    WithoutBackslashesByWideNames,
    AnywhereByWideNames,
    InBothModesByWideNames,
}

/// The modes of calls that take one.
pub const IN_A_MODE: [Mode; 4] = [
    Mode::WithBackslashes,
    Mode::WithoutBackslashes,
    Mode::ByWideNames,
    Mode::WithoutBackslashesByWideNames,
];
/// Those of calls that take one and wide names alone.
pub const WIDE_IN_A_MODE: [Mode; 2] = [Mode::ByWideNames, Mode::WithoutBackslashesByWideNames];
/// Those of calls that bind for any server.
pub const ANYWHERE: [Mode; 2] = [Mode::Anywhere, Mode::AnywhereByWideNames];
/// Those of calls that bind for both modes.
pub const IN_BOTH_MODES: [Mode; 2] = [Mode::InBothModes, Mode::InBothModesByWideNames];

/// Number, rows and report of a call; the rows are 0 if it isn't one of rows.
pub type Answer = (i32, Rows, Report);

/// A name, and a call of a query, a form, which `names` doesn't look at, and the lent room.
pub type Side = (&'static str, fn(&[u8], &[u8], &mut [u8]) -> Answer);

const ARCHIVE: &str = "archive";
const BY_TABLE: &str = "plain Rust by a table";
const BY_16: &str = "plain Rust by 16 bytes";
const BY_TEMPLATE: &str = "plain Rust by a table, by a template";
const ARCHIVE_BY_TEMPLATE: &str = "archive, by a template";

/// An answer without rows.
fn single((number, report): (i32, Report)) -> Answer {
    (number, Rows::default(), report)
}

/// The archive's answer by a template that is made for this call alone. If the query has none, it is
/// the refusal of that, after those of the form.
fn by_anywhere_template(
    query: &[u8],
    form: &[u8],
    room: &mut [u8],
    bind: impl FnOnce(&AnywhereTemplate, &mut [u8]) -> (i32, Report),
) -> Answer {
    let refusal = match AnywhereTemplate::new(query) {
        Ok(template) => return single(bind(&template, room)),
        Err(refusal) => refusal,
    };
    match anywhere(archive::mysql_params_bind_anywhere_wide, query, form, room) {
        answer @ (FORM_END..=FORM_REPEATED, _) => single(answer),
        _ => single(refusal),
    }
}

const NAMES: &[Side] = &[
    (ARCHIVE, |query, _, room| single(archive::names(query, room))),
    (BY_TABLE, |query, _, room| single((TABLE.names)(query, room))),
    (BY_16, |query, _, room| single((WIDE.names)(query, room))),
];

const NAMES_WITHOUT: &[Side] = &[
    (ARCHIVE, |query, _, room| {
        single(names_in_mode(archive::mysql_params_names, query, true, room))
    }),
    (BY_TABLE, |query, _, room| single(other_mode::names::<Table>(query, room))),
    (BY_16, |query, _, room| single(other_mode::names::<Wide>(query, room))),
];

const BIND: &[Side] = &[
    (ARCHIVE, |query, form, room| single(archive::bind(query, form, room))),
    (BY_TABLE, |query, form, room| single((TABLE.bind_form)(query, form, room))),
    (BY_16, |query, form, room| single((WIDE.bind_form)(query, form, room))),
    // A template that is made for this call alone, as those below.
    (BY_TEMPLATE, |query, form, room| {
        single((TABLE.bind_template_form)(&(TABLE.template)(query), form, room))
    }),
    (ARCHIVE_BY_TEMPLATE, |query, form, room| {
        single(Template::new(query, false).bind(form, room))
    }),
];

const BIND_WITHOUT: &[Side] = &[
    (ARCHIVE, |query, form, room| {
        single(in_mode(archive::mysql_params_bind, query, form, true, room))
    }),
    (BY_TABLE, |query, form, room| single(other_mode::bind_form::<Table>(query, form, room))),
    (BY_16, |query, form, room| single(other_mode::bind_form::<Wide>(query, form, room))),
    (BY_TEMPLATE, |query, form, room| single(other_mode::bind_form_by_template(query, form, room))),
    (ARCHIVE_BY_TEMPLATE, |query, form, room| {
        single(Template::new(query, true).bind(form, room))
    }),
];

const BIND_ANYWHERE: &[Side] = &[
    (ARCHIVE, |query, form, room| single(archive::bind_anywhere(query, form, room))),
    (BY_TABLE, |query, form, room| single((TABLE.bind_form_anywhere)(query, form, room))),
    (BY_16, |query, form, room| single((WIDE.bind_form_anywhere)(query, form, room))),
];

const ROWS: &[Side] = &[
    (ARCHIVE, archive::bind_rows),
    (BY_TABLE, |query, forms, room| {
        rows::bind_rows(forms, room, |params| (TABLE.bind)(query, params))
    }),
    (BY_16, |query, forms, room| rows::bind_rows(forms, room, |params| (WIDE.bind)(query, params))),
    (BY_TEMPLATE, |query, forms, room| {
        let template = (TABLE.template)(query);
        rows::bind_rows(forms, room, |params| (TABLE.bind_template)(&template, params))
    }),
];

const ROWS_WITHOUT: &[Side] = &[
    (ARCHIVE, |query, forms, room| {
        rows_in_mode(archive::mysql_params_bind_rows, query, forms, true, room)
    }),
    (BY_TABLE, other_mode::bind_rows::<Table>),
    (BY_16, other_mode::bind_rows::<Wide>),
    (BY_TEMPLATE, other_mode::bind_rows_by_template),
];

const FRAGMENTS: &[Side] = &[
    (ARCHIVE, |query, form, room| single(archive::bind_fragments(query, form, room))),
    (BY_TABLE, |query, form, room| single(bind_form::<Table>(query, form, room))),
    (BY_16, |query, form, room| single(bind_form::<Wide>(query, form, room))),
];

const FRAGMENTS_WITHOUT: &[Side] = &[
    (ARCHIVE, |query, form, room| {
        single(in_mode(archive::mysql_params_bind_fragments, query, form, true, room))
    }),
    (BY_TABLE, |query, form, room| {
        single(bind_form::<WithoutBackslashes<Table>>(query, form, room))
    }),
    (BY_16, |query, form, room| single(bind_form::<WithoutBackslashes<Wide>>(query, form, room))),
];

const FRAGMENTS_ANYWHERE: &[Side] = &[
    (ARCHIVE, |query, form, room| {
        single(anywhere(archive::mysql_params_bind_fragments_anywhere, query, form, room))
    }),
    (BY_TABLE, |query, form, room| single(bind_form_anywhere::<Table>(query, form, room))),
    (BY_16, |query, form, room| single(bind_form_anywhere::<Wide>(query, form, room))),
];

const BIND_IN_BOTH_MODES: &[Side] = &[
    (ARCHIVE, |query, form, room| {
        single(anywhere(archive::mysql_params_bind_in_both_modes, query, form, room))
    }),
    (BY_TABLE, |query, form, room| {
        single(wide_names::bind_form_in_both_modes::<Table>(query, form, room))
    }),
    (BY_16, |query, form, room| {
        single(wide_names::bind_form_in_both_modes::<Wide>(query, form, room))
    }),
];

const BIND_ANYWHERE_WIDE: &[Side] = &[
    (ARCHIVE, |query, form, room| {
        single(anywhere(archive::mysql_params_bind_anywhere_wide, query, form, room))
    }),
    (BY_TABLE, |query, form, room| {
        single(wide_names::bind_form_anywhere::<WideNames<Table>>(query, form, room))
    }),
    (BY_16, |query, form, room| {
        single(wide_names::bind_form_anywhere::<WideNames<Wide>>(query, form, room))
    }),
    (ARCHIVE_BY_TEMPLATE, |query, form, room| {
        by_anywhere_template(query, form, room, |template, room| template.bind(form, room))
    }),
];

const BIND_IN_BOTH_MODES_WIDE: &[Side] = &[
    (ARCHIVE, |query, form, room| {
        single(anywhere(archive::mysql_params_bind_in_both_modes_wide, query, form, room))
    }),
    (BY_TABLE, |query, form, room| {
        single(wide_names::bind_form_in_both_modes::<WideNames<Table>>(query, form, room))
    }),
    (BY_16, |query, form, room| {
        single(wide_names::bind_form_in_both_modes::<WideNames<Wide>>(query, form, room))
    }),
];

const FRAGMENTS_ANYWHERE_WIDE: &[Side] = &[
    (ARCHIVE, |query, form, room| {
        single(anywhere(archive::mysql_params_bind_fragments_anywhere_wide, query, form, room))
    }),
    (BY_TABLE, |query, form, room| {
        single(bind_form_anywhere::<WideNames<Table>>(query, form, room))
    }),
    (BY_16, |query, form, room| {
        single(bind_form_anywhere::<WideNames<Wide>>(query, form, room))
    }),
];

/// The sides of a call by wide names in the mode of the flag.
struct SidesByWideNames<const NO_BACKSLASH_ESCAPE: bool>;

impl<const NO: bool> SidesByWideNames<NO> {
    const NAMES: &[Side] = &[
        (ARCHIVE, |query, _, room| {
            single(names_in_mode(archive::mysql_params_names_wide, query, NO, room))
        }),
        (BY_TABLE, |query, _, room| single(wide_names::names::<Read<Table, NO, true>>(query, room))),
        (BY_16, |query, _, room| single(wide_names::names::<Read<Wide, NO, true>>(query, room))),
    ];
    const BIND: &[Side] = &[
        (ARCHIVE, |query, form, room| {
            single(in_mode(archive::mysql_params_bind_wide, query, form, NO, room))
        }),
        (BY_TABLE, |query, form, room| {
            single(wide_names::bind_form::<Read<Table, NO, true>>(query, form, room))
        }),
        (BY_16, |query, form, room| {
            single(wide_names::bind_form::<Read<Wide, NO, true>>(query, form, room))
        }),
        (ARCHIVE_BY_TEMPLATE, |query, form, room| {
            single(Template::by_wide_names(query, NO).bind(form, room))
        }),
    ];
    const ROWS: &[Side] = &[
        (ARCHIVE, |query, forms, room| {
            rows_in_mode(archive::mysql_params_bind_rows_wide, query, forms, NO, room)
        }),
        (BY_TABLE, wide_names::bind_rows::<Read<Table, NO, true>>),
        (BY_16, wide_names::bind_rows::<Read<Wide, NO, true>>),
    ];
    const FRAGMENTS: &[Side] = &[
        (ARCHIVE, |query, form, room| {
            single(in_mode(archive::mysql_params_bind_fragments_wide, query, form, NO, room))
        }),
        (BY_TABLE, |query, form, room| single(bind_form::<Read<Table, NO, true>>(query, form, room))),
        (BY_16, |query, form, room| single(bind_form::<Read<Wide, NO, true>>(query, form, room))),
    ];
    const GUARDED: &[Side] = &[
        (ARCHIVE_BY_TEMPLATE, |query, form, room| {
            by_anywhere_template(query, form, room, |template, room| {
                template.bind_guarded(form, NO, room)
            })
        }),
        (BY_TABLE, |query, form, room| {
            single(wide_names::bind_form_guarded::<Read<Table, NO, true>>(query, form, room))
        }),
        (BY_16, |query, form, room| {
            single(wide_names::bind_form_guarded::<Read<Wide, NO, true>>(query, form, room))
        }),
    ];
    const GUARDED_FRAGMENTS: &[Side] = &[
        (ARCHIVE, |query, form, room| {
            single(in_mode(archive::mysql_params_bind_fragments_guarded_wide, query, form, NO, room))
        }),
        (BY_TABLE, |query, form, room| {
            single(bind_form_guarded::<Read<Table, NO, true>>(query, form, room))
        }),
        (BY_16, |query, form, room| {
            single(bind_form_guarded::<Read<Wide, NO, true>>(query, form, room))
        }),
    ];

    fn of(asked: Asked) -> &'static [Side] {
        match asked {
            Asked::Names => Self::NAMES,
            Asked::Bind => Self::BIND,
            Asked::Rows => Self::ROWS,
            Asked::Fragments => Self::FRAGMENTS,
            Asked::Guarded => Self::GUARDED,
            Asked::GuardedFragments => Self::GUARDED_FRAGMENTS,
        }
    }
}

/// The sides of a call: the archive, plain Rust by a table, plain Rust by 16 bytes, and then those
/// that bind by a template; the archive binds guarded values by one alone. Names and rows for any
/// mode, and fragments for both modes, are no call, and only calls by wide names in a mode guard.
pub fn sides(asked: Asked, mode: Mode) -> &'static [Side] {
    match (asked, mode) {
        (Asked::Names, Mode::WithBackslashes) => NAMES,
        (Asked::Names, Mode::WithoutBackslashes) => NAMES_WITHOUT,
        (Asked::Bind, Mode::WithBackslashes) => BIND,
        (Asked::Bind, Mode::WithoutBackslashes) => BIND_WITHOUT,
        (Asked::Bind, Mode::Anywhere) => BIND_ANYWHERE,
        (Asked::Bind, Mode::InBothModes) => BIND_IN_BOTH_MODES,
        (Asked::Rows, Mode::WithBackslashes) => ROWS,
        (Asked::Rows, Mode::WithoutBackslashes) => ROWS_WITHOUT,
        (Asked::Fragments, Mode::WithBackslashes) => FRAGMENTS,
        (Asked::Fragments, Mode::WithoutBackslashes) => FRAGMENTS_WITHOUT,
        (Asked::Fragments, Mode::Anywhere) => FRAGMENTS_ANYWHERE,
        (_, Mode::ByWideNames) => SidesByWideNames::<false>::of(asked),
        (_, Mode::WithoutBackslashesByWideNames) => SidesByWideNames::<true>::of(asked),
        (Asked::Bind, Mode::AnywhereByWideNames) => BIND_ANYWHERE_WIDE,
        (Asked::Bind, Mode::InBothModesByWideNames) => BIND_IN_BOTH_MODES_WIDE,
        (Asked::Fragments, Mode::AnywhereByWideNames) => FRAGMENTS_ANYWHERE_WIDE,
        _ => &[],
    }
}
