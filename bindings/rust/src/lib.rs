//! Values bound into SQL queries for MySQL, over the archive `libmysql_params_c.a`.
//!
//! What [`bind`] returns and when it refuses is stated in the repository's docs/RULES.md and proved of the archive for
//! every input; this crate, which hands values in and answers out, is tested. Before you send a bound text read "Limits
//! that matter for security" in the repository's README.md.
//!
//! ```
//! use mysql_params::{Params, Value, bind, first_unportable};
//!
//! let query = b"SELECT * FROM t WHERE id = :id AND name = :name";
//! assert_eq!(first_unportable(query)?, None);
//!
//! let name = "x' OR '1'='1";
//! let pairs = [("id", Value::Int(42)), ("name", name.into())];
//! let text = bind(query, &Params::Named(&pairs))?;
//! assert_eq!(text, br"SELECT * FROM t WHERE id = 42 AND name = 'x\' OR \'1\'=\'1'");
//! # Ok::<(), mysql_params::Error>(())
//! ```
//!
//! A name in a query is a colon, a letter or `_`, and all letters, digits and `_` that follow, as `:userId`. Letters are
//! those of ASCII, and names are told apart by case. Each colon before a letter or `_` begins a name, except in strings,
//! quoted identifiers and comments. So `x:LOOP` is refused, and `x: LOOP` is sent as it is.
//!
//! Threads may call at once, and all types are `Send` and `Sync`. The archive is for x86-64 Linux and processors with
//! x86-64-v2; on others each call is [`Error::Processor`].
#![deny(unsafe_op_in_unsafe_fn, missing_docs)]

mod archive;
mod duration;
mod error;
mod form;
mod fragment;
mod macros;
mod name;
mod portable;
mod rows;
mod template;
#[cfg(test)]
mod tests;
mod value;
mod words;

pub use duration::DurationTooLong;
pub use error::Error;
pub use fragment::{Column, Fault, Fragment, Fragments, Item};
pub use name::Name;
pub use portable::{Construct, Unportable};
pub use rows::{Row, RowError, Texts, TextsIter, bind_rows, bind_rows_in};
pub use template::Template;
pub use value::{Date, Params, Time, Value};

use archive::{Call, Reader, copy_of};
use std::fmt;

/// The examples of README.md, as tests.
#[cfg(doctest)]
#[doc = include_str!("../README.md")]
struct Readme;

const _: () = {
    const fn is_send_and_sync<T: Send + Sync>() {}
    is_send_and_sync::<(Construct, Date, Error, Name, Names, Params<'_>)>();
    is_send_and_sync::<(Column<'_>, Fault, Fragment<'_>, Fragments<'_>, Item<'_>)>();
    is_send_and_sync::<(RowError, Template, Texts, TextsIter<'_>)>();
    is_send_and_sync::<(Time, Unportable, Value<'_>)>();
};

/// The names of a query.
#[derive(Clone, PartialEq, Eq)]
pub struct Names {
    /// The query with `?` in the place of each name.
    pub query: Vec<u8>,
    /// The names without their colons, in order, with repeats. A query can only have names of ASCII.
    pub names: Vec<String>,
}

impl fmt::Debug for Names {
    fn fmt(&self, f: &mut fmt::Formatter<'_>) -> fmt::Result {
        let query = format_args!("b\"{}\"", self.query.escape_ascii());
        let mut fields = f.debug_struct("Names");
        fields.field("query", &query).field("names", &self.names);
        fields.finish()
    }
}

/// The room of a first call beside the bytes that are sure to be needed.
const SPARE_ROOM: usize = 64;

/// The names of a query, and the query with `?` in their places. A query without names comes back as it is.
///
/// # Errors
///
/// [`Error::Mixed`] for a query with names and marks; [`Error::OutOfMemory`]; [`Error::Processor`].
pub fn names(query: &[u8]) -> Result<Names, Error> {
    names_in(query, false)
}

/// As [`names`], for a connection in either mode: the flag is true if `SELECT @@sql_mode` has
/// `NO_BACKSLASH_ESCAPES`.
///
/// # Errors
///
/// Those of [`names`].
pub fn names_in(query: &[u8], no_backslash_escape: bool) -> Result<Names, Error> {
    let guess = query.len().saturating_add(SPARE_ROOM);
    let answer = Call::Names { query }.whole_answer(no_backslash_escape, guess)?;
    let unknown = || Error::UnknownAnswer {
        number: archive::DONE,
    };
    let (renamed, mut rest) = form::next_string(&answer).ok_or_else(unknown)?;
    let mut names = Vec::new();
    while !rest.is_empty() {
        let (name, after) = form::next_string(rest).ok_or_else(unknown)?;
        let name = String::from_utf8(copy_of(name)?).map_err(|_| unknown())?;
        names.try_reserve(1).map_err(|_| Error::OutOfMemory)?;
        names.push(name);
        rest = after;
    }
    Ok(Names {
        query: copy_of(renamed)?,
        names,
    })
}

/// The first construct of a query that servers read in different ways, or in which a value's digits would join a
/// number; none exactly if the query is portable. Ask it of each query, once, before you bind to it. What stands
/// within strings, quoted identifiers and comments is none, except `\"` in a string in `"`, a backslash before the end
/// of an identifier, and a carriage return in a comment of one line, not at its end.
///
/// ```
/// use mysql_params::{Construct, first_unportable};
///
/// assert_eq!(first_unportable(b"SELECT :a")?, None);
/// let found = first_unportable(b"SELECT /*! :a */ 1")?.expect("an executable comment");
/// assert_eq!((found.construct, found.position), (Construct::ExecutableComment, 7));
/// # Ok::<(), mysql_params::Error>(())
/// ```
///
/// # Errors
///
/// [`Error::Processor`]; [`Error::UnknownAnswer`], from an archive that this crate wasn't written for.
pub fn first_unportable(query: &[u8]) -> Result<Option<Unportable>, Error> {
    first_unportable_in(query, false)
}

/// As [`first_unportable`], for a connection in either mode: the flag is true if `SELECT @@sql_mode` has
/// `NO_BACKSLASH_ESCAPES`.
///
/// # Errors
///
/// Those of [`first_unportable`].
pub fn first_unportable_in(
    query: &[u8],
    no_backslash_escape: bool,
) -> Result<Option<Unportable>, Error> {
    archive::first_unportable(Reader::Server, query, no_backslash_escape)
}

/// As [`first_unportable`], for a query whose bound text goes through the client `mysql` or `mariadb` with
/// `--comments`: finds also what that client reads or sends otherwise than a server.
///
/// It judges the bytes that it is given. A bound text with identifiers or keywords, or with strings without backslash
/// escapes, may hold a construct that its query doesn't have: ask it of that text too.
///
/// ```
/// use mysql_params::{Construct, first_unportable_in_client};
///
/// let found = first_unportable_in_client(b"SELECT 1 /*//*/, :a")?.expect("an opener in a comment");
/// assert_eq!((found.construct, found.position), (Construct::OpenerInComment, 9));
/// # Ok::<(), mysql_params::Error>(())
/// ```
///
/// # Errors
///
/// Those of [`first_unportable`].
pub fn first_unportable_in_client(query: &[u8]) -> Result<Option<Unportable>, Error> {
    first_unportable_in_client_in(query, false)
}

/// As [`first_unportable_in_client`], for a connection in either mode: the flag is true if `SELECT @@sql_mode` has
/// `NO_BACKSLASH_ESCAPES`.
///
/// # Errors
///
/// Those of [`first_unportable`].
pub fn first_unportable_in_client_in(
    query: &[u8],
    no_backslash_escape: bool,
) -> Result<Option<Unportable>, Error> {
    archive::first_unportable(Reader::Client, query, no_backslash_escape)
}

/// The query with the SQL literals of the values in its places: the text to send. Ask [`first_unportable`] of the query
/// before.
///
/// The text is for a connection with backslash escapes, that is without `NO_BACKSLASH_ESCAPES` in its `sql_mode`; for
/// another see [`bind_in`].
///
/// # Errors
///
/// The first that holds: [`Error::EmptyName`]; [`Error::RepeatedName`]; then, of the query, [`Error::Mixed`];
/// [`Error::Missing`], [`Error::NamedForPositional`] or [`Error::PositionalForNamed`]; [`Error::MarkCount`];
/// [`Error::NotAlone`]; [`Error::Float`]. In place of any of them, and of a text, [`Error::OutOfMemory`], or for a
/// processor that doesn't suffice [`Error::Processor`].
pub fn bind(query: &[u8], params: &Params<'_>) -> Result<Vec<u8>, Error> {
    bind_in(query, params, false)
}

/// As [`bind`], for a connection in either mode: the flag is true if `SELECT @@sql_mode`, asked on the connection
/// that the text goes to, has `NO_BACKSLASH_ESCAPES`. If the two differ, a value can leave its literal.
///
/// # Errors
///
/// Those of [`bind`].
pub fn bind_in(
    query: &[u8],
    params: &Params<'_>,
    no_backslash_escape: bool,
) -> Result<Vec<u8>, Error> {
    bind_form_in(query, &form::form_of(params)?, no_backslash_escape)
}

/// The query with what is given in its places, also floats, lists, rows, exact numbers, identifiers, assignments and
/// keywords: the text to send. All other values are written as by [`bind`], and the connection and [`first_unportable`] are as there.
///
/// ```
/// use mysql_params::{Fragment, Fragments, bind_fragments};
///
/// let given = [("ids", vec![1, 2, 3].into()), ("order", Fragment::Keyword("DESC"))];
/// let text = bind_fragments(b"id IN (:ids) ORDER BY id :order", &Fragments::Named(&given))?;
/// assert_eq!(text, b"id IN (1, 2, 3) ORDER BY id DESC");
///
/// let given = [Fragment::Identifier("t"), vec![(1, 0.5), (2, -3.0)].into()];
/// let text = bind_fragments(b"INSERT INTO ? VALUES ?", &Fragments::Positional(&given))?;
/// assert_eq!(text, b"INSERT INTO `t` VALUES (1, 0.5e0), (2, -3.0e0)");
/// # Ok::<(), mysql_params::Error>(())
/// ```
///
/// # Errors
///
/// Those of [`bind`], of which [`Error::Float`] comes only for a NaN or an infinity; after them [`Error::Fault`], as for an
/// empty list or rows of two lengths.
pub fn bind_fragments(query: &[u8], fragments: &Fragments<'_>) -> Result<Vec<u8>, Error> {
    bind_fragments_in(query, fragments, false)
}

/// As [`bind_fragments`], for a connection in either mode, as [`bind_in`].
///
/// # Errors
///
/// Those of [`bind_fragments`].
pub fn bind_fragments_in(
    query: &[u8],
    fragments: &Fragments<'_>,
    no_backslash_escape: bool,
) -> Result<Vec<u8>, Error> {
    let form = &form::form_of_fragments(fragments)?;
    let guess = bound_guess(query, form);
    Call::BindFragments { query, form }.whole_answer(no_backslash_escape, guess)
}

/// As [`bind`], with a text that depends on no connection: no `sql_mode` and no character set moves a literal's end, on MySQL
/// or MariaDB. The query has to be ASCII without a backslash, also in its comments, and portable.
///
/// A text of printable ASCII without a backslash is written as `_utf8mb4'it''s'`, other UTF-8 as `_utf8mb4 0xC3A9`, and
/// bytes that aren't UTF-8 as `0xFF`. "Steady binding" in docs/RULES.md says where a server takes no such literal.
///
/// ```
/// use mysql_params::{Params, bind_anywhere};
///
/// let text = bind_anywhere(b"SELECT ?, ?", &Params::Positional(&["it's".into(), "é".into()]))?;
/// assert_eq!(text, b"SELECT _utf8mb4'it''s', _utf8mb4 0xC3A9");
/// # Ok::<(), mysql_params::Error>(())
/// ```
///
/// # Errors
///
/// The first that holds: [`Error::EmptyName`]; [`Error::RepeatedName`]; then, of the query, [`Error::Unsteady`];
/// [`Error::Unportable`]; those of [`bind`] from [`Error::Mixed`] on. Out of memory and the processor are as there.
pub fn bind_anywhere(query: &[u8], params: &Params<'_>) -> Result<Vec<u8>, Error> {
    bind_form_anywhere(query, &form::form_of(params)?)
}

/// As [`bind_fragments`], with a text as of [`bind_anywhere`], which depends on no connection. A name has to be ASCII without
/// a backslash too.
///
/// ```
/// use mysql_params::{Fragment, Fragments, bind_fragments_anywhere};
///
/// let given = [Fragment::Identifier("t"), vec!["it's", "é"].into()];
/// let text = bind_fragments_anywhere(b"SELECT * FROM ? WHERE a IN (?)", &Fragments::Positional(&given))?;
/// assert_eq!(text, b"SELECT * FROM `t` WHERE a IN (_utf8mb4'it''s', _utf8mb4 0xC3A9)");
/// # Ok::<(), mysql_params::Error>(())
/// ```
///
/// # Errors
///
/// The first that holds: those of [`bind_anywhere`], of which [`Error::Float`] comes only for a NaN or an infinity;
/// [`Error::Fault`]; [`Error::UnsteadyFragment`].
pub fn bind_fragments_anywhere(query: &[u8], fragments: &Fragments<'_>) -> Result<Vec<u8>, Error> {
    let form = &form::form_of_fragments(fragments)?;
    let guess = bound_guess(query, form);
    Call::BindFragmentsAnywhere { query, form }.whole_answer(false, guess)
}

/// As [`bind_anywhere`], of a query that may have bytes from 128 on: no `sql_mode` moves a literal's end, on MySQL or
/// MariaDB. The connection's character set has to be that of the query's bytes, utf8mb4 for UTF-8. No string of the query
/// may hold a backslash, nor a text in `"`.
///
/// ```
/// use mysql_params::{Params, bind_in_both_modes};
///
/// let text = bind_in_both_modes("SELECT * FROM bücher WHERE t = ?".as_bytes(), &Params::Positional(&["é".into()]))?;
/// assert_eq!(text, "SELECT * FROM bücher WHERE t = _utf8mb4 0xC3A9".as_bytes());
/// # Ok::<(), mysql_params::Error>(())
/// ```
///
/// # Errors
///
/// Those of [`bind_anywhere`], with [`Error::Backslash`] in place of [`Error::Unsteady`].
pub fn bind_in_both_modes(query: &[u8], params: &Params<'_>) -> Result<Vec<u8>, Error> {
    bind_form_in_both_modes(query, &form::form_of(params)?)
}

/// As [`bind`], of a query that is a `str`: then the text is UTF-8 too, since a literal is, whatever its value holds.
/// Bytes that aren't UTF-8 have a hexadecimal one.
///
/// ```
/// use mysql_params::{Params, Value, bind_str};
///
/// let text = bind_str("SELECT 'é', ?, ?", &Params::Positional(&["ß".into(), Value::Bytes(&[0xFF])]))?;
/// assert_eq!(text, "SELECT 'é', 'ß', 0xFF");
/// # Ok::<(), mysql_params::Error>(())
/// ```
///
/// # Errors
///
/// Those of [`bind`]; [`Error::UnknownAnswer`], from an archive that this crate wasn't written for, also for a text
/// that isn't UTF-8.
pub fn bind_str(query: &str, params: &Params<'_>) -> Result<String, Error> {
    bind_str_in(query, params, false)
}

/// As [`bind_str`], for a connection in either mode, as [`bind_in`].
///
/// # Errors
///
/// Those of [`bind_str`].
pub fn bind_str_in(
    query: &str,
    params: &Params<'_>,
    no_backslash_escape: bool,
) -> Result<String, Error> {
    text_of(bind_in(query.as_bytes(), params, no_backslash_escape)?)
}

/// As [`bind_fragments`], of a query that is a `str`, with a text that is one too, as of [`bind_str`].
///
/// ```
/// use mysql_params::{Fragment, Fragments, bind_fragments_str};
///
/// let given = [("names", vec!["é", "it's"].into()), ("column", Fragment::Identifier("größe"))];
/// let text = bind_fragments_str("name IN (:names) ORDER BY :column", &Fragments::Named(&given))?;
/// assert_eq!(text, r"name IN ('é', 'it\'s') ORDER BY `größe`");
/// # Ok::<(), mysql_params::Error>(())
/// ```
///
/// # Errors
///
/// Those of [`bind_fragments`], and [`Error::UnknownAnswer`] as of [`bind_str`].
pub fn bind_fragments_str(query: &str, fragments: &Fragments<'_>) -> Result<String, Error> {
    bind_fragments_str_in(query, fragments, false)
}

/// As [`bind_fragments_str`], for a connection in either mode, as [`bind_in`].
///
/// # Errors
///
/// Those of [`bind_fragments_str`].
pub fn bind_fragments_str_in(
    query: &str,
    fragments: &Fragments<'_>,
    no_backslash_escape: bool,
) -> Result<String, Error> {
    text_of(bind_fragments_in(
        query.as_bytes(),
        fragments,
        no_backslash_escape,
    )?)
}

/// As [`bind_anywhere`], of a query that is a `str`, with a text that is one too, as of [`bind_str`].
///
/// ```
/// use mysql_params::{bind_anywhere_str, params};
///
/// let text = bind_anywhere_str("name = :name", &params! { "name" => "it's" })?;
/// assert_eq!(text, "name = _utf8mb4'it''s'");
/// # Ok::<(), mysql_params::Error>(())
/// ```
///
/// # Errors
///
/// Those of [`bind_anywhere`], and [`Error::UnknownAnswer`] as of [`bind_str`].
pub fn bind_anywhere_str(query: &str, params: &Params<'_>) -> Result<String, Error> {
    text_of(bind_anywhere(query.as_bytes(), params)?)
}

/// As [`bind_fragments_anywhere`], of a query that is a `str`, with a text that is one too, as of [`bind_str`].
///
/// # Errors
///
/// Those of [`bind_fragments_anywhere`], and [`Error::UnknownAnswer`] as of [`bind_str`].
pub fn bind_fragments_anywhere_str(
    query: &str,
    fragments: &Fragments<'_>,
) -> Result<String, Error> {
    text_of(bind_fragments_anywhere(query.as_bytes(), fragments)?)
}

/// As [`bind_in_both_modes`], of a query that is a `str`, with a text that is one too, as of [`bind_str`].
///
/// # Errors
///
/// Those of [`bind_in_both_modes`], and [`Error::UnknownAnswer`] as of [`bind_str`].
pub fn bind_in_both_modes_str(query: &str, params: &Params<'_>) -> Result<String, Error> {
    text_of(bind_in_both_modes(query.as_bytes(), params)?)
}

/// The text of a query that is a `str`, from the archive's bytes.
fn text_of(bytes: Vec<u8>) -> Result<String, Error> {
    String::from_utf8(bytes).map_err(|_| Error::UnknownAnswer {
        number: archive::DONE,
    })
}

/// As [`bind`], of parameters that stand in their flat form already, as mysql_params.h describes it: of each its name
/// as a length-encoded string (empty: by position), a byte with the number of its column type, a byte of flags, and
/// its value in the protocol's binary form.
///
/// # Errors
///
/// The errors that begin with `Form`, and [`Error::RepeatedName`], for the first parameter that can't be taken; then
/// those of [`bind`].
pub fn bind_form(query: &[u8], form: &[u8]) -> Result<Vec<u8>, Error> {
    bind_form_in(query, form, false)
}

/// As [`bind_form`], for a connection in either mode, as [`bind_in`].
///
/// # Errors
///
/// Those of [`bind_form`].
pub fn bind_form_in(
    query: &[u8],
    form: &[u8],
    no_backslash_escape: bool,
) -> Result<Vec<u8>, Error> {
    Call::Bind { query, form }.whole_answer(no_backslash_escape, bound_guess(query, form))
}

/// As [`bind_anywhere`], of parameters that stand in their flat form already, as for [`bind_form`].
///
/// # Errors
///
/// The errors that begin with `Form`, and [`Error::RepeatedName`], for the first parameter that can't be taken; then
/// those of [`bind_anywhere`].
pub fn bind_form_anywhere(query: &[u8], form: &[u8]) -> Result<Vec<u8>, Error> {
    // The query is steady once its names are asked for, so it has the same in both modes.
    Call::BindAnywhere { query, form }.whole_answer(false, bound_guess(query, form))
}

/// As [`bind_in_both_modes`], of parameters that stand in their flat form already, as for [`bind_form`].
///
/// # Errors
///
/// Those of [`bind_form_anywhere`], with [`Error::Backslash`] in place of [`Error::Unsteady`].
pub fn bind_form_in_both_modes(query: &[u8], form: &[u8]) -> Result<Vec<u8>, Error> {
    // No string of the query holds a backslash once its names are asked for, so it has the same in both modes.
    Call::BindInBothModes { query, form }.whole_answer(false, bound_guess(query, form))
}

/// The room of a first call that binds: a literal of bytes has at most twice their number, and quotes.
fn bound_guess(query: &[u8], form: &[u8]) -> usize {
    let literals = form.len().saturating_mul(2);
    query
        .len()
        .saturating_add(literals)
        .saturating_add(SPARE_ROOM)
}
