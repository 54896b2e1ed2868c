//! A query whose places are found once.
use crate::archive::{Call, Table, copy_of};
use crate::{Error, Params, Row, RowError, Texts, bind_rows_in, bound_guess, form};

/// A query whose names and marks are found once, to bind it many times: it gives what [`bind`](crate::bind) gives, without
/// a walk of the query. It owns the query, and binding it changes nothing, so that many threads may do so at once.
///
/// ```
/// use mysql_params::{Params, Template, first_unportable};
///
/// let query = b"SELECT * FROM t WHERE id = ?";
/// assert_eq!(first_unportable(query)?, None);
///
/// let template = Template::new(query)?;
/// for (id, wanted) in [(1, "1"), (2, "2")] {
///     let text = template.bind(&Params::Positional(&[id.into()]))?;
///     assert_eq!(text, [b"SELECT * FROM t WHERE id = ", wanted.as_bytes()].concat());
/// }
/// # Ok::<(), mysql_params::Error>(())
/// ```
#[derive(Clone, Debug, PartialEq, Eq)]
pub struct Template {
    query: Vec<u8>,
    // That of the query in this mode, and of no other.
    table: Table,
    no_backslash_escape: bool,
}

impl Template {
    /// The template of a query, for a connection with backslash escapes, as for [`bind`](crate::bind).
    ///
    /// # Errors
    ///
    /// [`Error::OutOfMemory`]; [`Error::Processor`]. A query that can't be bound is refused when it is bound.
    pub fn new(query: &[u8]) -> Result<Template, Error> {
        Template::new_in(query, false)
    }

    /// As [`new`](Template::new), for a connection in either mode, as [`bind_in`](crate::bind_in).
    ///
    /// # Errors
    ///
    /// Those of [`new`](Template::new).
    pub fn new_in(query: &[u8], no_backslash_escape: bool) -> Result<Template, Error> {
        Ok(Template {
            table: Table::of(query, no_backslash_escape)?,
            query: copy_of(query)?,
            no_backslash_escape,
        })
    }

    /// What [`bind_in`](crate::bind_in) gives for the query in its mode.
    ///
    /// # Errors
    ///
    /// Those of [`bind`](crate::bind).
    pub fn bind(&self, params: &Params<'_>) -> Result<Vec<u8>, Error> {
        self.bind_form(&form::form_of(params)?)
    }

    /// What [`bind_form_in`](crate::bind_form_in) gives for the query in its mode.
    ///
    /// # Errors
    ///
    /// Those of [`bind_form`](crate::bind_form).
    pub fn bind_form(&self, form: &[u8]) -> Result<Vec<u8>, Error> {
        let call = Call::BindTemplate {
            query: &self.query,
            table: &self.table,
            form,
        };
        call.whole_answer(self.no_backslash_escape, bound_guess(&self.query, form))
    }

    /// What [`bind_rows_in`] gives for the query in its mode. That finds the places of the query once for many rows by
    /// itself, and not by the template's table.
    ///
    /// # Errors
    ///
    /// Those of [`bind_rows`](crate::bind_rows).
    pub fn bind_rows(&self, rows: impl IntoIterator<Item = impl Row>) -> Result<Texts, RowError> {
        bind_rows_in(&self.query, rows, self.no_backslash_escape)
    }

    /// The query.
    #[must_use]
    pub fn query(&self) -> &[u8] {
        &self.query
    }

    /// The mode for which the query is read and its values are written.
    #[must_use]
    pub fn no_backslash_escape(&self) -> bool {
        self.no_backslash_escape
    }
}
