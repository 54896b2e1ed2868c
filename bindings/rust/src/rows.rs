//! Rows: one query bound many times.
use crate::archive::{TextRoom, processor_suffices};
use crate::{Error, Params, Value, form};
use std::fmt;
use std::iter::FusedIterator;

/// The texts of rows, in one block of memory. They are taken out in order:
///
/// ```
/// use mysql_params::{bind_rows, row};
///
/// let texts = bind_rows(b"SELECT ?", [row![1], row![2]])?;
/// assert!(texts.iter().eq([b"SELECT 1", b"SELECT 2"]));
/// # Ok::<(), mysql_params::RowError>(())
/// ```
///
/// `Debug` shows their number, since they hold values.
#[derive(Clone, Default, PartialEq, Eq)]
pub struct Texts {
    /// Each as a length-encoded string.
    strings: Vec<u8>,
    count: usize,
}

impl fmt::Debug for Texts {
    fn fmt(&self, f: &mut fmt::Formatter<'_>) -> fmt::Result {
        let mut fields = f.debug_struct("Texts");
        fields.field("count", &self.count).finish_non_exhaustive()
    }
}

impl Texts {
    /// The number of texts.
    #[must_use]
    pub fn len(&self) -> usize {
        self.count
    }

    /// Whether there is none.
    #[must_use]
    pub fn is_empty(&self) -> bool {
        self.count == 0
    }

    /// The texts, in the order of the rows.
    #[must_use]
    pub fn iter(&self) -> TextsIter<'_> {
        TextsIter {
            rest: &self.strings,
            count: self.count,
        }
    }
}

impl<'a> IntoIterator for &'a Texts {
    type Item = &'a [u8];
    type IntoIter = TextsIter<'a>;

    fn into_iter(self) -> TextsIter<'a> {
        self.iter()
    }
}

/// The texts of rows, in order. `Debug` shows the number of those to come.
#[derive(Clone)]
pub struct TextsIter<'a> {
    rest: &'a [u8],
    count: usize,
}

impl fmt::Debug for TextsIter<'_> {
    fn fmt(&self, f: &mut fmt::Formatter<'_>) -> fmt::Result {
        let mut fields = f.debug_struct("TextsIter");
        fields.field("count", &self.count).finish_non_exhaustive()
    }
}

impl<'a> Iterator for TextsIter<'a> {
    type Item = &'a [u8];

    fn next(&mut self) -> Option<&'a [u8]> {
        let (text, rest) = form::next_string(self.rest)?;
        self.rest = rest;
        self.count = self.count.saturating_sub(1);
        Some(text)
    }

    fn size_hint(&self) -> (usize, Option<usize>) {
        (self.count, Some(self.count))
    }
}

impl ExactSizeIterator for TextsIter<'_> {}

impl FusedIterator for TextsIter<'_> {}

/// A row that is refused. The texts of the rows before it are kept.
#[derive(Clone, Debug, PartialEq, Eq)]
pub struct RowError {
    /// The number of the row, from 0.
    pub row: usize,
    /// Why it is refused. Places, positions and parameters are those of the row's own call of [`bind`](crate::bind).
    pub error: Error,
    /// The texts of the rows before it.
    pub texts: Texts,
}

impl fmt::Display for RowError {
    fn fmt(&self, f: &mut fmt::Formatter<'_>) -> fmt::Result {
        write!(f, "row {}: {}", self.row, self.error)
    }
}

impl std::error::Error for RowError {
    fn source(&self) -> Option<&(dyn std::error::Error + 'static)> {
        Some(&self.error)
    }
}

/// What gives the parameters of a row: [`Params`], or an array or a vector of values or of pairs, as
/// [`row!`](crate::row) writes one.
pub trait Row {
    /// The parameters.
    fn params(&self) -> Params<'_>;
}

impl Row for Params<'_> {
    fn params(&self) -> Params<'_> {
        *self
    }
}

impl<R: Row + ?Sized> Row for &R {
    fn params(&self) -> Params<'_> {
        (**self).params()
    }
}

impl Row for [Value<'_>] {
    fn params(&self) -> Params<'_> {
        Params::Positional(self)
    }
}

impl<const N: usize> Row for [Value<'_>; N] {
    fn params(&self) -> Params<'_> {
        Params::Positional(self)
    }
}

impl Row for Vec<Value<'_>> {
    fn params(&self) -> Params<'_> {
        Params::Positional(self)
    }
}

impl Row for [(&str, Value<'_>)] {
    fn params(&self) -> Params<'_> {
        Params::Named(self)
    }
}

impl<const N: usize> Row for [(&str, Value<'_>); N] {
    fn params(&self) -> Params<'_> {
        Params::Named(self)
    }
}

impl Row for Vec<(&str, Value<'_>)> {
    fn params(&self) -> Params<'_> {
        Params::Named(self)
    }
}

/// Once the forms of rows have so many bytes, they are bound; so they take no more memory, however many rows there are.
const BATCH: usize = 1 << 18;

/// The text of each row: what [`bind`](crate::bind) gives for the query and the row's parameters. The query is parsed
/// once for many rows. Ask [`first_unportable`](crate::first_unportable) of it before.
///
/// A closure makes the rows of what you have by [`row!`](crate::row):
///
/// ```
/// use mysql_params::{bind_rows, row};
///
/// let users = [(7, String::from("it's")), (8, String::from("b"))];
/// let rows = users.iter().map(|(id, name)| row! { "id" => *id, "name" => name });
/// let texts = bind_rows(b"INSERT INTO t VALUES (:id, :name)", rows)?;
/// assert!(texts.iter().eq([&br"INSERT INTO t VALUES (7, 'it\'s')"[..], b"INSERT INTO t VALUES (8, 'b')"]));
/// # Ok::<(), mysql_params::RowError>(())
/// ```
///
/// # Errors
///
/// For the first row that is refused: the error is that of [`bind`](crate::bind), and the rows before it are kept. Without
/// rows nothing is refused.
pub fn bind_rows(
    query: &[u8],
    rows: impl IntoIterator<Item = impl Row>,
) -> Result<Texts, RowError> {
    bind_rows_in(query, rows, false)
}

/// As [`bind_rows`], for a connection in either mode, as [`bind_in`](crate::bind_in).
///
/// # Errors
///
/// Those of [`bind_rows`].
pub fn bind_rows_in(
    query: &[u8],
    rows: impl IntoIterator<Item = impl Row>,
    no_backslash_escape: bool,
) -> Result<Texts, RowError> {
    let mut room = TextRoom::default();
    let bound = append_rows(&mut room, query, rows, no_backslash_escape);
    let row = room.count();
    let (strings, count) = room.into_texts();
    let texts = Texts { strings, count };
    match bound {
        Ok(()) => Ok(texts),
        Err(error) => Err(RowError { row, error, texts }),
    }
}

/// Appends the texts of all rows, or of those before the first that is refused.
fn append_rows(
    room: &mut TextRoom,
    query: &[u8],
    rows: impl IntoIterator<Item = impl Row>,
    no_backslash_escape: bool,
) -> Result<(), Error> {
    if !processor_suffices() {
        return Err(Error::Processor);
    }
    let mut forms = Vec::new();
    for row in rows {
        let before = forms.len();
        let form =
            form::form_of(&row.params()).and_then(|form| form::append_string(&mut forms, &form));
        if form.is_err() {
            // Memory may have failed behind the length of a row that isn't there.
            forms.truncate(before);
        }
        if form.is_err() || forms.len() >= BATCH {
            room.append_rows(query, &forms, no_backslash_escape)?;
            forms.clear();
        }
        form?;
    }
    room.append_rows(query, &forms, no_backslash_escape)
}
