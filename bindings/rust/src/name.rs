//! Names and words, shown as text.
use crate::Error;
use crate::archive::copy_of;
use std::fmt;
use std::ops::Deref;

/// The bytes of a name or of a word of a query, which need not be UTF-8. `Debug` shows them as `b"userId"`, `Display` as
/// messages do: a byte that isn't printable ASCII, `"` and `\` as `\x` and two digits.
///
/// ```
/// use mysql_params::{Error, bind, params};
///
/// let error = bind(b"SELECT :userId", &params! { "userid" => 1 }).expect_err("another name");
/// let Error::Missing { name, .. } = &error else { panic!("{error}") };
/// assert_eq!((&name[..], name.to_string().as_str()), (&b"userId"[..], "userId"));
/// assert_eq!(format!("{name:?}"), r#"b"userId""#);
/// ```
#[derive(Clone, PartialEq, Eq, Hash)]
pub struct Name(Vec<u8>);

impl Name {
    /// A copy of a word, if there is one, or out of memory.
    pub(crate) fn of_any(word: Option<&[u8]>) -> Result<Option<Name>, Error> {
        word.map(|word| copy_of(word).map(Name)).transpose()
    }
}

impl fmt::Debug for Name {
    fn fmt(&self, f: &mut fmt::Formatter<'_>) -> fmt::Result {
        write!(f, "b\"{}\"", self.0.escape_ascii())
    }
}

impl fmt::Display for Name {
    fn fmt(&self, f: &mut fmt::Formatter<'_>) -> fmt::Result {
        write!(f, "{}", Shown(&self.0))
    }
}

impl Deref for Name {
    type Target = [u8];

    fn deref(&self) -> &[u8] {
        &self.0
    }
}

impl From<Vec<u8>> for Name {
    fn from(bytes: Vec<u8>) -> Self {
        Name(bytes)
    }
}

impl From<Name> for Vec<u8> {
    fn from(name: Name) -> Self {
        name.0
    }
}

/// Bytes as messages show them.
pub(crate) struct Shown<'a>(pub(crate) &'a [u8]);

impl fmt::Display for Shown<'_> {
    fn fmt(&self, f: &mut fmt::Formatter<'_>) -> fmt::Result {
        for byte in self.0 {
            match byte {
                b'"' | b'\\' => write!(f, "\\x{byte:02x}")?,
                32..=126 => write!(f, "{}", char::from(*byte))?,
                _ => write!(f, "\\x{byte:02x}")?,
            }
        }
        Ok(())
    }
}
