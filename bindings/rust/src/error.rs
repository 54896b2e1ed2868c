//! Refusals, and their messages.
use crate::name::Shown;
use crate::{Fault, Name, Unportable, words};
use std::fmt;

/// Why a query is refused. Numbers of places, parameters and bytes begin at 0.
///
/// A `word` is one of the query, without its colon, in which a letter that no name has stands directly after a name or
/// in place of it: names are of ASCII letters, digits and `_`, so `:größe` ends after `gr`, and `:über` is none.
#[non_exhaustive]
#[derive(Clone, Debug, PartialEq, Eq)]
pub enum Error {
    /// There was no memory. It may come in place of any other result.
    OutOfMemory,
    /// The processor lacks a feature of x86-64-v2 (SSSE3, SSE4.2, POPCNT and others), for which the archive is
    /// compiled. Told before each call, which could end the process.
    Processor,
    /// A parameter has an empty name. Told before the call; [`bind_form`](crate::bind_form) takes such a one as given by
    /// position.
    EmptyName {
        /// Number of the parameter.
        parameter: usize,
    },
    /// The form ends within a parameter.
    FormEnd {
        /// Number of the parameter.
        parameter: usize,
        /// Byte of the form at which the parameter begins.
        position: usize,
    },
    /// A length in the form begins with the byte 251 or 255.
    FormLengthLead {
        /// Number of the parameter.
        parameter: usize,
        /// Byte of the form at which the parameter begins.
        position: usize,
        /// The byte that begins the length.
        byte: u8,
    },
    /// A parameter of the form has a column type without a binary form.
    FormType {
        /// Number of the parameter.
        parameter: usize,
        /// Byte of the form at which the parameter begins.
        position: usize,
        /// Number of the column type.
        column_type: u8,
    },
    /// The form has parameters with a name and without one.
    FormMixed {
        /// Number of the first parameter that differs from the first one.
        parameter: usize,
        /// Byte of the form at which that parameter begins.
        position: usize,
    },
    /// A name is given twice.
    RepeatedName {
        /// Number of the later parameter of that name.
        parameter: usize,
        /// Byte of the form at which its name begins.
        position: usize,
        /// The name.
        name: Name,
    },
    /// The query has names and marks.
    Mixed,
    /// A name of the query has no value.
    Missing {
        /// Number of the first place of that name.
        place: usize,
        /// Byte of the query at which the name begins there, after its colon.
        position: usize,
        /// The name.
        name: Name,
        /// The word that begins with the name there, if it is longer.
        word: Option<Name>,
    },
    /// The parameters have names, and the query has none.
    NamedForPositional {
        /// The first word that begins with a letter that no name has, if there is one.
        word: Option<Name>,
    },
    /// The parameters have no names, and the query has some.
    PositionalForNamed,
    /// The marks of the query are not as many as the values.
    MarkCount {
        /// Marks of the query.
        marks: usize,
        /// Values that are given.
        values: usize,
    },
    /// A place could run into a neighbour, as in `1?` or `x:a`.
    NotAlone {
        /// Number of the place.
        place: usize,
        /// Byte of the query at which the place begins.
        position: usize,
        /// The name that stands there; none for a `?`.
        name: Option<Name>,
        /// The byte that it touches: the one before it, or else the one after it.
        neighbour: u8,
        /// The word that begins with the name of the place, if it has one and the word is longer.
        word: Option<Name>,
        /// Whether a point stands directly before or after it, as in `b.:c`: then one place for the whole name takes a
        /// [`Fragment::Qualified`](crate::Fragment::Qualified).
        beside_point: bool,
    },
    /// The value for a place is a floating-point number. [`bind_fragments`](crate::bind_fragments) and
    /// [`bind_fragments_anywhere`](crate::bind_fragments_anywhere) refuse a NaN and an infinity so, alone or in a list or
    /// rows: give `NULL`, as `None` makes. The other calls refuse each: give its text.
    Float {
        /// Number of the place.
        place: usize,
        /// The name that stands in that place; none for a `?`.
        name: Option<String>,
    },
    /// The query has a backslash or a byte from 128 on. It is of [`bind_anywhere`](crate::bind_anywhere) and
    /// [`bind_fragments_anywhere`](crate::bind_fragments_anywhere) alone.
    Unsteady {
        /// The first such byte of the query.
        position: usize,
    },
    /// The query isn't portable; told is the first construct. It is of [`bind_anywhere`](crate::bind_anywhere),
    /// [`bind_fragments_anywhere`](crate::bind_fragments_anywhere) and
    /// [`bind_in_both_modes`](crate::bind_in_both_modes) alone.
    Unportable(Unportable),
    /// What is given for a place can't be written. It is of [`bind_fragments`](crate::bind_fragments) and
    /// [`bind_fragments_anywhere`](crate::bind_fragments_anywhere) alone.
    Fault {
        /// Number of the place.
        place: usize,
        /// What is wrong with it.
        fault: Fault,
        /// The name that stands in that place; none for a `?`.
        name: Option<String>,
    },
    /// A string of the query holds a backslash. It is of [`bind_in_both_modes`](crate::bind_in_both_modes) alone.
    Backslash {
        /// The first such byte of the query.
        position: usize,
    },
    /// A name of what is for a place has a backslash or a byte from 128 on. It is of
    /// [`bind_fragments_anywhere`](crate::bind_fragments_anywhere) alone.
    UnsteadyFragment {
        /// Number of the place.
        place: usize,
        /// The name that stands in that place; none for a `?`.
        name: Option<String>,
    },
    /// An implicit list or rows (types 136 and 137 of mysql_params.h) could become several arguments of what stands around
    /// the place. No fragment is written so: [`Fragment::List`](crate::Fragment::List) and
    /// [`Fragment::Rows`](crate::Fragment::Rows) say what they are.
    Unbracketed {
        /// Number of the place.
        place: usize,
        /// Byte of the query at which the place begins.
        position: usize,
        /// The name that stands there; none for a `?`.
        name: Option<Name>,
    },
    /// The archive answered what this crate doesn't know: it is not the archive that this crate was written for.
    UnknownAnswer {
        /// The number that it returned.
        number: i32,
    },
}

/// What names are of, if a word of the query shows that it matters.
struct Alphabet<'a>(&'a Option<Name>);

impl fmt::Display for Alphabet<'_> {
    fn fmt(&self, f: &mut fmt::Formatter<'_>) -> fmt::Result {
        let Some(word) = self.0 else {
            return Ok(());
        };
        write!(
            f,
            ": names are of ASCII letters, digits and _, so `:{word}` "
        )?;
        match words::name_of(word) {
            b"" => write!(f, "is none"),
            name => write!(f, "ends after `{}`", Shown(name)),
        }
    }
}

/// A place, by its name or its number, behind what is given for it.
struct For<'a>(&'a Option<String>, usize);

impl fmt::Display for For<'_> {
    fn fmt(&self, f: &mut fmt::Formatter<'_>) -> fmt::Result {
        match self {
            For(Some(name), _) => write!(f, " for `:{name}`"),
            For(None, place) => write!(f, " for place {place}"),
        }
    }
}

impl Error {
    /// The number of the refusal in mysql_params.h; none for the two that are told before the call. That of
    /// [`Error::UnknownAnswer`] is what the archive returned.
    pub fn number(&self) -> Option<i32> {
        Some(match self {
            Error::Processor | Error::EmptyName { .. } => return None,
            Error::OutOfMemory => 1,
            Error::FormEnd { .. } => 3,
            Error::FormLengthLead { .. } => 4,
            Error::FormType { .. } => 5,
            Error::FormMixed { .. } => 6,
            Error::RepeatedName { .. } => 7,
            Error::Mixed => 8,
            Error::Missing { .. } => 9,
            Error::NamedForPositional { .. } => 10,
            Error::PositionalForNamed => 11,
            Error::MarkCount { .. } => 12,
            Error::NotAlone { .. } => 13,
            Error::Float { .. } => 14,
            Error::Unsteady { .. } => 15,
            Error::Unportable(_) => 16,
            Error::Fault { .. } => 17,
            Error::Backslash { .. } => 18,
            Error::UnsteadyFragment { .. } => 19,
            Error::Unbracketed { .. } => 21,
            Error::UnknownAnswer { number } => *number,
        })
    }

    /// The number and the start of the parameter of the form that is at fault.
    fn form_parameter(&self) -> Option<(usize, usize)> {
        match self {
            Error::FormEnd {
                parameter,
                position,
            }
            | Error::FormLengthLead {
                parameter,
                position,
                ..
            }
            | Error::FormType {
                parameter,
                position,
                ..
            }
            | Error::FormMixed {
                parameter,
                position,
            } => Some((*parameter, *position)),
            _ => None,
        }
    }
}

impl fmt::Display for Error {
    fn fmt(&self, f: &mut fmt::Formatter<'_>) -> fmt::Result {
        if let Some((parameter, position)) = self.form_parameter() {
            write!(f, "Parameter {parameter} at byte {position} of the form: ")?;
        }
        match self {
            Error::OutOfMemory => write!(f, "out of memory"),
            Error::Processor => write!(f, "the processor lacks a feature of x86-64-v2"),
            Error::EmptyName { parameter } => write!(f, "Parameter {parameter} has an empty name"),
            Error::FormEnd { .. } => write!(f, "Unexpected end of buffer"),
            Error::FormLengthLead { byte, .. } => write!(f, "Bad length lead {byte}"),
            Error::FormType { column_type, .. } => {
                write!(f, "Unsupported column type {column_type}")
            }
            Error::FormMixed { .. } => write!(f, "Named and positional params in one form"),
            Error::RepeatedName { name, .. } => write!(f, "`:{name}` is given twice"),
            Error::Mixed => write!(f, "The query has both `:name` and `?`: write one of them"),
            Error::Missing { name, word, .. } => {
                write!(f, "`:{name}` has no value{}", Alphabet(word))
            }
            Error::NamedForPositional { word } => {
                let more = Alphabet(word);
                write!(
                    f,
                    "The values have names, and the query has no `:name` outside of strings and comments{more}"
                )
            }
            Error::PositionalForNamed => write!(
                f,
                "The query has names: give the values by name, as params! {{ \"id\" => 42 }}"
            ),
            Error::MarkCount { marks, values } => {
                write!(
                    f,
                    "The query has {marks} `?`, and {values} values are given"
                )
            }
            Error::NotAlone {
                position,
                name,
                neighbour,
                word,
                beside_point,
                ..
            } => {
                match name {
                    Some(name) => write!(f, "`:{name}`")?,
                    None => write!(f, "`?`")?,
                }
                let neighbour = Shown(std::slice::from_ref(neighbour));
                write!(
                    f,
                    " at byte {position} touches `{neighbour}`{}",
                    Alphabet(word)
                )?;
                match (word, beside_point) {
                    (Some(_), _) => Ok(()),
                    (None, true) => write!(
                        f,
                        ": for a name with a point write one place, and give an identifier of two names"
                    ),
                    (None, false) => write!(f, ": put a space between"),
                }
            }
            Error::Float { place, name } => {
                let of = For(name, *place);
                write!(
                    f,
                    "The value{of} is a float that isn't written: give None for NaN and infinities, else a text"
                )
            }
            Error::Unsteady { position } => write!(
                f,
                "Backslash or byte that is not ASCII at byte {position} of the query: \
                 over utf8mb4 bind_in_both_modes takes it, except a backslash in a string"
            ),
            Error::Unportable(found) => {
                let Unportable {
                    construct,
                    position,
                } = found;
                write!(
                    f,
                    "Not portable at byte {position} of the query: {construct}"
                )
            }
            Error::Fault { place, fault, name } => fault.write_of(f, For(name, *place)),
            Error::Backslash { position } => {
                write!(f, "Backslash in a string at byte {position} of the query")
            }
            Error::UnsteadyFragment { place, name } => {
                let of = For(name, *place);
                write!(f, "A name{of} has a backslash or a byte that is not ASCII")
            }
            Error::Unbracketed { position, name, .. } => {
                const GIVEN: &str =
                    " is one value here, and was given a list: write it alone in brackets, as";
                match name {
                    Some(name) => write!(f, "`:{name}`{GIVEN} `IN (:{name})`"),
                    None => write!(f, "`?` at byte {position}{GIVEN} `IN (?)`"),
                }?;
                write!(f, ", or give Fragment::List")
            }
            Error::UnknownAnswer { number } => write!(f, "Unknown answer {number} of the archive"),
        }
    }
}

impl std::error::Error for Error {}
