//! Constructs that servers read in different ways.
use std::fmt;

/// A construct that servers read in different ways, or in which a value's digits join a number. Its message says what
/// to write instead.
#[non_exhaustive]
#[derive(Clone, Copy, Debug, PartialEq, Eq, Hash)]
pub enum Construct {
    /// `/*!`, not quiet: executed, or skipped by the version of the server. It is quiet if it is closed, white space, `,`,
    /// `)`, `;` or the end stands directly after it, white space or its end after its `!` (and a version of 5 or 6 digits
    /// there), and it holds no quote, backquote, `#`, `-`, `/*`, place, `;`, backslash, `[`, `$$`, `$tag$` or `.5e-- `.
    ExecutableComment,
    /// `/*+`, not quiet: an optimizer hint after some words, a comment elsewhere.
    Hint,
    /// `/*M!`, not quiet: executed by MariaDB, a comment to MySQL.
    MariaDbComment,
    /// `--` before a byte that is neither printable ASCII nor a newline: a comment to some readers. Or before `/`.
    Dashes,
    /// `"..\".."`: with `ANSI_QUOTES` an identifier, which ends at the quote after the backslash.
    EscapedQuote,
    /// `[`: opens an identifier in MariaDB's `sql_mode` `MSSQL`.
    Bracket,
    /// `$$` or `$tag$`, or a place on the way to the second `$`, as in `$?`: opens a string in MySQL 9.
    DollarQuote,
    /// `.5e-- `, to MySQL a sign and no comment; or a place on the way to the `e`, as in `1.?`.
    DashesAfterExponent,
    /// `1e+?`: the digits of a value would join the number.
    PlaceAfterExponent,
    /// `/*!`, `/*+` or `/*/` in a block comment. This and those up to `ZeroByte` are found for a client alone.
    OpenerInComment,
    /// `*/` directly before a byte from 128 on, or a backslash.
    JoiningComment,
    /// `--` directly before a comment.
    DashesBeforeComment,
    /// A backslash outside of quotes and comments, except `\N`.
    ClientCommand,
    /// `-` at the front of a statement, before a place or another `-` that opens no comment.
    DashInFront,
    /// A word that begins with `delimiter` at the front of a line or a statement.
    Delimiter,
    /// A statement that begins with a word of a client, as `use`, `source` or `system`.
    ClientWord,
    /// A backslash at the end of a line or of the text, in quotes or backquotes.
    EscapedNewline,
    /// A byte 0.
    ZeroByte,
    /// A backslash directly before the backquote that ends an identifier: to MariaDB's InnoDB it escapes that.
    EscapedBackquote,
    /// A carriage return in a comment of one line, except directly before its newline: to InnoDB it ends the comment.
    ReturnInComment,
}

/// A construct of a query, and where it begins. It is an [`Error`](std::error::Error), for callers who refuse such a
/// query by `return Err(found.into())`.
#[derive(Clone, Copy, Debug, PartialEq, Eq, Hash)]
pub struct Unportable {
    /// Which it is.
    pub construct: Construct,
    /// Byte of the query at which it begins: of what is found within a string, a quoted identifier or a comment the
    /// first byte of that, of a place after an exponent the digit or point before the `e`.
    pub position: usize,
}

impl fmt::Display for Unportable {
    fn fmt(&self, f: &mut fmt::Formatter<'_>) -> fmt::Result {
        let (position, construct) = (self.position, self.construct);
        write!(f, "not portable at byte {position}: {construct}")
    }
}

impl std::error::Error for Unportable {}

impl Construct {
    /// The number of the construct in mysql_params.h.
    pub fn number(self) -> i32 {
        match self {
            Construct::ExecutableComment => 1,
            Construct::Hint => 2,
            Construct::MariaDbComment => 3,
            Construct::Dashes => 4,
            Construct::EscapedQuote => 5,
            Construct::Bracket => 6,
            Construct::DollarQuote => 7,
            Construct::DashesAfterExponent => 8,
            Construct::PlaceAfterExponent => 9,
            Construct::OpenerInComment => 10,
            Construct::JoiningComment => 11,
            Construct::DashesBeforeComment => 12,
            Construct::ClientCommand => 13,
            Construct::DashInFront => 14,
            Construct::Delimiter => 15,
            Construct::ClientWord => 16,
            Construct::EscapedNewline => 17,
            Construct::ZeroByte => 18,
            Construct::EscapedBackquote => 19,
            Construct::ReturnInComment => 20,
        }
    }

    /// The construct of a number of mysql_params.h.
    pub(crate) fn of_number(number: i32) -> Option<Construct> {
        Some(match number {
            1 => Construct::ExecutableComment,
            2 => Construct::Hint,
            3 => Construct::MariaDbComment,
            4 => Construct::Dashes,
            5 => Construct::EscapedQuote,
            6 => Construct::Bracket,
            7 => Construct::DollarQuote,
            8 => Construct::DashesAfterExponent,
            9 => Construct::PlaceAfterExponent,
            10 => Construct::OpenerInComment,
            11 => Construct::JoiningComment,
            12 => Construct::DashesBeforeComment,
            13 => Construct::ClientCommand,
            14 => Construct::DashInFront,
            15 => Construct::Delimiter,
            16 => Construct::ClientWord,
            17 => Construct::EscapedNewline,
            18 => Construct::ZeroByte,
            19 => Construct::EscapedBackquote,
            20 => Construct::ReturnInComment,
            _ => return None,
        })
    }
}

impl fmt::Display for Construct {
    fn fmt(&self, f: &mut fmt::Formatter<'_>) -> fmt::Result {
        f.write_str(match self {
            Construct::ExecutableComment => {
                "`/*!` is executed or skipped: no quote, place, comment, `-` or `;`; spaces around"
            }
            Construct::Hint => {
                "`/*+` is a hint or a comment: no quote, place, comment, `-` or `;`; a space after it"
            }
            Construct::MariaDbComment => {
                "`/*M!` is executed or not: no quote, place, comment, `-` or `;`; spaces around"
            }
            Construct::Dashes => {
                "`--` is a comment or two signs here: write a space between them, or after them"
            }
            Construct::EscapedQuote => {
                "`\\\"` may end an identifier here: write `\"\"`, or the text in `'`"
            }
            Construct::Bracket => "`[` may open an identifier: write the name in backquotes",
            Construct::DollarQuote => {
                "`$$` and `$tag$` may open a string: write it in `'`, or a name in backquotes"
            }
            Construct::DashesAfterExponent => {
                "`--` after `.e` may open no comment: write the exponent's digits, or a space first"
            }
            Construct::PlaceAfterExponent => {
                "a value's digits would join this number: write a space before the place"
            }
            Construct::OpenerInComment => {
                "the client may not end this comment here: keep `/*!`, `/*+` and `/*/` out of it"
            }
            Construct::JoiningComment => {
                "the client may join what stands around this comment: write a space after it"
            }
            Construct::DashesBeforeComment => {
                "a client that drops comments begins one here: write a space between the two signs"
            }
            Construct::ClientCommand => {
                "the client takes `\\` and the next byte for its command: leave the `\\` out"
            }
            Construct::DashInFront => {
                "the client may take this line for a comment: write a space after the `-`"
            }
            Construct::Delimiter => {
                "the client takes this line for its command: write the word in backquotes"
            }
            Construct::ClientWord => {
                "the client may run this word itself: leave it out, name the database by an option"
            }
            Construct::EscapedNewline => {
                "the client changes a `\\` at the end of a line: write `\\n`, or the newline alone"
            }
            Construct::ZeroByte => {
                "the client sends nothing from this line on: write `\\0` in a string, or hexadecimal"
            }
            Construct::EscapedBackquote => {
                "`\\` may escape this name's backquote: no name ends in `\\` or has it before one"
            }
            Construct::ReturnInComment => {
                "a comment may end at a carriage return: leave it out, or write a newline after it"
            }
        })
    }
}
