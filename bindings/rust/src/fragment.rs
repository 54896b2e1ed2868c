//! What stands in a place beside one value.
use crate::Value;
use std::fmt;

/// An item of a list or a row, or what a column is set to.
#[non_exhaustive]
#[derive(Clone, Copy, Debug, PartialEq)]
pub enum Item<'a> {
    /// A value.
    Value(Value<'a>),
    /// An exact number, as [`Fragment::Decimal`].
    Decimal(&'a str),
    /// A signed whole number of up to 128 bits, as [`Fragment::Int128`].
    Int128(i128),
    /// An unsigned whole number of up to 128 bits, as [`Fragment::Int128`].
    UInt128(u128),
}

/// The name of a column.
///
/// ```
/// use mysql_params::Column;
///
/// assert_eq!(Column::from("price"), Column::Identifier("price"));
/// assert_eq!(Column::from(["item", "price"]), Column::Qualified(vec!["item", "price"]));
/// ```
#[derive(Clone, Debug, PartialEq, Eq)]
pub enum Column<'a> {
    /// A name alone.
    Identifier(&'a str),
    /// A name, and before it those of what it is in, as a table.
    Qualified(Vec<&'a str>),
}

impl Column<'_> {
    /// The names.
    pub(crate) fn names(&self) -> &[&str] {
        match self {
            Column::Identifier(name) => std::slice::from_ref(name),
            Column::Qualified(names) => names,
        }
    }
}

impl<'a> From<&'a str> for Column<'a> {
    fn from(name: &'a str) -> Self {
        Column::Identifier(name)
    }
}

impl<'a> From<&'a String> for Column<'a> {
    fn from(name: &'a String) -> Self {
        Column::Identifier(name)
    }
}

impl<'a, const N: usize> From<[&'a str; N]> for Column<'a> {
    fn from(names: [&'a str; N]) -> Self {
        Column::Qualified(names.to_vec())
    }
}

impl<'a> From<Vec<&'a str>> for Column<'a> {
    fn from(names: Vec<&'a str>) -> Self {
        Column::Qualified(names)
    }
}

/// What stands in a place of a query. It borrows its bytes.
///
/// Numbers, texts, dates and what else makes a [`Value`] make a fragment by `into()`, a `Vec` of them a list, and a `Vec`
/// of tuples of them rows. A finite `f32` or `f64` is written as a number, `1.5e0`: see [`Value::Double`].
#[non_exhaustive]
#[derive(Clone, Debug, PartialEq)]
pub enum Fragment<'a> {
    /// A value.
    Value(Value<'a>),
    /// An exact number, as `-1.50` or a whole number of any length. It is written bare, so that a server compares and
    /// computes it exactly.
    Decimal(&'a str),
    /// A signed whole number of up to 128 bits, as an exact number. A server computes with more than 64 bits as with a
    /// DECIMAL.
    Int128(i128),
    /// An unsigned whole number of up to 128 bits, as an exact number.
    UInt128(u128),
    /// A list of items, as for `IN (?)`.
    List(Vec<Item<'a>>),
    /// Rows of items, as for `VALUES ?`, all of one length.
    Rows(Vec<Vec<Item<'a>>>),
    /// The name of a table or a column. It is written in backquotes, each of which in it is doubled.
    Identifier(&'a str),
    /// The name of what is in something else, as a database and a table in it.
    Qualified(Vec<&'a str>),
    /// Names with commas between them, as for `INSERT INTO t (?)`: see [`Fragment::identifiers`].
    Identifiers(Vec<Column<'a>>),
    /// Assignments, as for `SET ?`: see [`Fragment::assignments`].
    Assignments(Vec<(Column<'a>, Item<'a>)>),
    /// A keyword of the program's own, as `DESC`: never a text from outside. Only these are written; for another word choose
    /// among whole queries of your program.
    ///
    /// ```
    /// use mysql_params::{Fragment, Fragments, bind_fragments};
    ///
    /// let keywords = [
    ///     "ASC", "DESC", "ALL", "DISTINCT", "AND", "OR", "XOR", "NOT", "NULL", "IS NULL", "IS NOT NULL", "DEFAULT", "TRUE",
    ///     "FALSE", "LIKE", "NOT LIKE", "MICROSECOND", "SECOND", "MINUTE", "HOUR", "DAY", "WEEK", "MONTH", "QUARTER", "YEAR",
    ///     "LEFT", "RIGHT", "INNER", "CROSS", "UNION", "UNION ALL", "FOR UPDATE", "LOCK IN SHARE MODE",
    /// ];
    /// for keyword in keywords {
    ///     let text = bind_fragments(b"?", &Fragments::Positional(&[Fragment::Keyword(keyword)]))?;
    ///     assert_eq!(text, keyword.as_bytes());
    /// }
    /// # Ok::<(), mysql_params::Error>(())
    /// ```
    Keyword(&'static str),
}

impl<'a> Fragment<'a> {
    /// Names with commas between them.
    ///
    /// ```
    /// use mysql_params::{Column, Fragment, Fragments, bind_fragments_str};
    ///
    /// let columns = Fragment::identifiers(["id", "na`me"]);
    /// let text = bind_fragments_str("SELECT ? FROM t", &Fragments::Positional(&[columns]))?;
    /// assert_eq!(text, "SELECT `id`, `na``me` FROM t");
    ///
    /// let columns = Fragment::identifiers([Column::from("id"), ["t", "name"].into()]);
    /// let text = bind_fragments_str("SELECT ? FROM t", &Fragments::Positional(&[columns]))?;
    /// assert_eq!(text, "SELECT `id`, `t`.`name` FROM t");
    /// # Ok::<(), mysql_params::Error>(())
    /// ```
    pub fn identifiers<C: Into<Column<'a>>>(columns: impl IntoIterator<Item = C>) -> Self {
        Fragment::Identifiers(columns.into_iter().map(Into::into).collect())
    }

    /// Columns, and what they are set to: values and exact numbers.
    ///
    /// ```
    /// use mysql_params::{Fragment, Fragments, Item, bind_fragments_str};
    ///
    /// let set = Fragment::assignments([("name", "it's".into()), ("price", Item::Decimal("9.99"))]);
    /// let given = [("set", set), ("id", 7.into())];
    /// let text = bind_fragments_str("UPDATE item SET :set WHERE id = :id", &Fragments::Named(&given))?;
    /// assert_eq!(text, r"UPDATE item SET `name` = 'it\'s', `price` = 9.99 WHERE id = 7");
    /// # Ok::<(), mysql_params::Error>(())
    /// ```
    pub fn assignments<C: Into<Column<'a>>, I: Into<Item<'a>>>(
        assignments: impl IntoIterator<Item = (C, I)>,
    ) -> Self {
        let pairs = assignments.into_iter();
        Fragment::Assignments(
            pairs
                .map(|(column, item)| (column.into(), item.into()))
                .collect(),
        )
    }
}

/// The fragments that are given to a query. Names that the query doesn't have are ignored.
#[derive(Clone, Copy, Debug, PartialEq)]
pub enum Fragments<'a> {
    /// Fragments for the marks `?` of a query, in order.
    Positional(&'a [Fragment<'a>]),
    /// Names without their colons, and their fragments.
    Named(&'a [(&'a str, Fragment<'a>)]),
}

/// Why a fragment can't be written: the first fault, of an assignment that of its column and then that of its item. Numbers
/// of rows, items and names begin at 0.
#[non_exhaustive]
#[derive(Clone, Copy, Debug, PartialEq, Eq)]
pub enum Fault {
    /// A list without items, no rows, no identifiers, no assignments, or a qualified name without names.
    Empty,
    /// A row without items.
    EmptyRow {
        /// Its number.
        row: usize,
    },
    /// A row that is not as long as the first.
    RowLength {
        /// Its number.
        row: usize,
    },
    /// A text that is no exact number.
    Number {
        /// The number of its row; 0 in a list, in assignments and for a number alone.
        row: usize,
        /// Its number in the row or list, or that of its assignment; 0 for a number alone.
        item: usize,
    },
    /// A name without bytes.
    EmptyName {
        /// Its number among all names of the fragment; 0 for a name alone.
        part: usize,
    },
    /// A name with a byte 0.
    ZeroByte {
        /// Its number among all names of the fragment; 0 for a name alone.
        part: usize,
    },
    /// A name of more than 64 characters, which servers refuse.
    LongName {
        /// Its number among all names of the fragment; 0 for a name alone.
        part: usize,
    },
    /// A name that ends in a space, which servers refuse.
    TrailingSpace {
        /// Its number among all names of the fragment; 0 for a name alone.
        part: usize,
    },
    /// A text that is none of the keywords that are written: [`Fragment::Keyword`] lists them, all in capitals.
    Keyword,
    /// A name with a backslash before a backquote or at its end.
    Backslash {
        /// Its number among all names of the fragment; 0 for a name alone.
        part: usize,
    },
}

impl Fault {
    /// The fault of a number in mysql_params.h, with its row and its item or name.
    pub(crate) fn of_number(number: u8, row: usize, item: usize) -> Option<Fault> {
        let part = item;
        Some(match number {
            1 => Fault::Empty,
            2 => Fault::EmptyRow { row },
            3 => Fault::RowLength { row },
            4 => Fault::Number { row, item },
            5 => Fault::EmptyName { part },
            6 => Fault::ZeroByte { part },
            7 => Fault::LongName { part },
            8 => Fault::TrailingSpace { part },
            9 => Fault::Keyword,
            10 => Fault::Backslash { part },
            _ => return None,
        })
    }
}

impl Fault {
    /// Writes the message with what follows its subject, as "The list for `:ids` is empty".
    pub(crate) fn write_of(
        &self,
        f: &mut fmt::Formatter<'_>,
        of: impl fmt::Display,
    ) -> fmt::Result {
        match self {
            Fault::Empty => write!(f, "The list{of} is empty"),
            Fault::EmptyRow { row } => write!(f, "Row {row}{of} is empty"),
            Fault::RowLength { row } => write!(f, "Row {row}{of} is not as long as the first"),
            Fault::Number { row, item } => {
                match (row, item) {
                    (0, 0) => write!(f, "The Decimal{of}"),
                    (0, _) => write!(f, "The Decimal in item {item}{of}"),
                    _ => write!(f, "The Decimal in item {item} of row {row}{of}"),
                }?;
                write!(f, " is no exact number")
            }
            Fault::EmptyName { part } => write!(f, "Name {part}{of} is empty"),
            Fault::ZeroByte { part } => write!(f, "Name {part}{of} has a byte 0"),
            Fault::LongName { part } => write!(f, "Name {part}{of} has more than 64 characters"),
            Fault::TrailingSpace { part } => write!(f, "Name {part}{of} ends in a space"),
            Fault::Keyword => write!(
                f,
                "The keyword{of} is none of those in capitals that Fragment::Keyword lists"
            ),
            Fault::Backslash { part } => write!(
                f,
                "Name {part}{of} has a backslash before a backquote or at its end"
            ),
        }
    }
}

impl fmt::Display for Fault {
    fn fmt(&self, f: &mut fmt::Formatter<'_>) -> fmt::Result {
        self.write_of(f, "")
    }
}

impl std::error::Error for Fault {}

impl<'a, T: Into<Value<'a>>> From<T> for Item<'a> {
    fn from(value: T) -> Self {
        Item::Value(value.into())
    }
}

impl<'a, T: Into<Value<'a>>> From<T> for Fragment<'a> {
    fn from(value: T) -> Self {
        Fragment::Value(value.into())
    }
}

macro_rules! wide_from {
    ($($from:ty, $variant:ident;)*) => {$(
        impl From<$from> for Item<'_> {
            fn from(number: $from) -> Self {
                Item::$variant(number)
            }
        }

        impl From<$from> for Fragment<'_> {
            fn from(number: $from) -> Self {
                Fragment::$variant(number)
            }
        }
    )*};
}

wide_from! {
    i128, Int128; u128, UInt128;
}

impl<'a, T: Into<Item<'a>>> From<Vec<T>> for Fragment<'a> {
    fn from(items: Vec<T>) -> Self {
        Fragment::List(items.into_iter().map(Into::into).collect())
    }
}

macro_rules! rows_from {
    ($($column:ident $cell:ident),*) => {
        impl<'a, $($column: Into<Item<'a>>),*> From<Vec<($($column,)*)>> for Fragment<'a> {
            fn from(rows: Vec<($($column,)*)>) -> Self {
                let row = |($($cell,)*): ($($column,)*)| vec![$($cell.into()),*];
                Fragment::Rows(rows.into_iter().map(row).collect())
            }
        }
    };
}

rows_from!(A a);
rows_from!(A a, B b);
rows_from!(A a, B b, C c);
rows_from!(A a, B b, C c, D d);
rows_from!(A a, B b, C c, D d, E e);
rows_from!(A a, B b, C c, D d, E e, F f);
rows_from!(A a, B b, C c, D d, E e, F f, G g);
rows_from!(A a, B b, C c, D d, E e, F f, G g, H h);
