//! The macros that write parameters.

/// Parameters as they are written: by name, in order, or none. Each value is made by `Value::from`.
///
/// It borrows what it makes, so write it within the call. What a closure returns for
/// [`bind_rows`](crate::bind_rows) is a [`row!`](crate::row), which owns it.
///
/// ```
/// use mysql_params::{bind_str, params};
///
/// let name = String::from("x' OR '1'='1");
/// let text = bind_str("id = :id AND name = :name", &params! { "id" => 42, "name" => &name })?;
/// assert_eq!(text, r"id = 42 AND name = 'x\' OR \'1\'=\'1'");
/// assert_eq!(bind_str("VALUES (?, ?)", &params![7, Some("x")])?, "VALUES (7, 'x')");
/// assert_eq!(bind_str("SELECT 1", &params![])?, "SELECT 1");
/// # Ok::<(), mysql_params::Error>(())
/// ```
///
/// A `String` by value doesn't compile, since nothing would own it:
///
/// ```compile_fail
/// mysql_params::bind_str("?", &mysql_params::params![String::from("x")]);
/// ```
#[macro_export]
macro_rules! params {
    () => {
        $crate::Params::Empty
    };
    ($($name:expr => $value:expr),+ $(,)?) => {
        $crate::Params::Named(&[$(($name, $crate::Value::from($value))),+])
    };
    ($($value:expr),+ $(,)?) => {
        $crate::Params::Positional(&[$($crate::Value::from($value)),+])
    };
}

/// The parameters of a row, as [`params!`](crate::params) writes them: an array of values or of pairs, which a closure may
/// return. It owns the values, which borrow their texts.
///
/// ```
/// use mysql_params::{bind_rows, row};
///
/// let texts = bind_rows(b"VALUES (?, ?)", [1, 2].into_iter().map(|id| row![id, "x"]))?;
/// assert!(texts.iter().eq([b"VALUES (1, 'x')", b"VALUES (2, 'x')"]));
/// # Ok::<(), mysql_params::RowError>(())
/// ```
///
/// With `params!` that closure doesn't compile, since it would return what it borrows:
///
/// ```compile_fail
/// use mysql_params::{bind_rows, params};
///
/// bind_rows(b"VALUES (?, ?)", [1, 2].into_iter().map(|id| params![id, "x"]));
/// ```
#[macro_export]
macro_rules! row {
    () => {
        $crate::Params::Empty
    };
    ($($name:expr => $value:expr),+ $(,)?) => {
        [$(($name, $crate::Value::from($value))),+]
    };
    ($($value:expr),+ $(,)?) => {
        [$($crate::Value::from($value)),+]
    };
}
