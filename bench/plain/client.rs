//! The first construct of a query that servers read in different ways, or a client otherwise than
//! a server, after docs/RULES.md, "Queries for a client": token by token.

use crate::portable::{begins_place, first_token};

const OPENER_IN_COMMENT: i32 = 10;
const JOINING_COMMENT: i32 = 11;
const DASHES_BEFORE_COMMENT: i32 = 12;
const CLIENT_COMMAND: i32 = 13;
const DASH_IN_FRONT: i32 = 14;
const DELIMITER: i32 = 15;
const CLIENT_WORD: i32 = 16;
const ESCAPED_NEWLINE: i32 = 17;
const ZERO_BYTE: i32 = 18;

/// The names of the numbers, from the first that is found for a client alone.
pub const CLIENT_CONSTRUCTS: [&str; 9] = [
    "OPENER_IN_COMMENT",
    "JOINING_COMMENT",
    "DASHES_BEFORE_COMMENT",
    "CLIENT_COMMAND",
    "DASH_IN_FRONT",
    "DELIMITER",
    "CLIENT_WORD",
    "ESCAPED_NEWLINE",
    "ZERO_BYTE",
];

/// The words that MariaDB's client takes for commands at the front of a statement, and then those
/// that MySQL's alone does.
const CLIENT_WORDS: [&[u8]; 28] = [
    b"charset", b"clear", b"connect", b"costs", b"edit", b"ego", b"exit", b"go", b"help",
    b"nopager", b"notee", b"nowarning", b"pager", b"print", b"prompt", b"quit", b"rehash",
    b"sandbox", b"source", b"status", b"system", b"tee", b"use", b"warnings", b"?",
    b"query_attributes", b"resetconnection", b"ssl_session_data_print",
];

#[derive(Clone, Copy, PartialEq)]
enum Kind {
    Quoted,
    Comment,
    Place,
    Plain,
}

/// What may begin at a token.
struct Front {
    statement: bool,
    /// A line, or what a client may read as one: the text after a comment or a hint.
    line: bool,
}

/// The number of the construct, and the index of the first byte of its token; both are 0 if there
/// is none.
pub fn first_unportable_in_client(query: &[u8], no_backslash_escape: bool) -> (i32, usize) {
    let mut front = Front { statement: true, line: true };
    let mut at = 0;
    while at < query.len() {
        let (found, len) = first_token(&query[at..], no_backslash_escape);
        let kind = kind(query[at], len);
        if let Some(number) = found.or_else(|| front.construct(&query[at..], len, kind)) {
            return (number, at);
        }
        front = front.after(&query[at..at + len], kind);
        at += len;
    }
    (0, 0)
}

/// The kind of the token with this first byte and this length.
fn kind(byte: u8, len: usize) -> Kind {
    match byte {
        b'\'' | b'"' | b'`' => Kind::Quoted,
        b'#' => Kind::Comment,
        b'-' | b'/' if len > 1 => Kind::Comment,
        b'?' => Kind::Place,
        b':' if len > 1 => Kind::Place,
        _ => Kind::Plain,
    }
}

impl Front {
    /// What is found for a client in the token of this length at the front of the text.
    fn construct(&self, text: &[u8], len: usize, kind: Kind) -> Option<i32> {
        let (token, after) = text.split_at(len);
        if token.contains(&0) {
            return Some(ZERO_BYTE);
        }
        match kind {
            Kind::Quoted => of_quoted(token),
            Kind::Comment => of_comment(token, after),
            Kind::Place => self.of_front(text),
            Kind::Plain => self.of_front(text).or_else(|| of_plain(token[0], after)),
        }
    }

    /// What is found of a plain byte or a mark since it stands at a front.
    fn of_front(&self, text: &[u8]) -> Option<i32> {
        if self.statement && text[0] == b'-' && leads_dash(&text[1..]) {
            Some(DASH_IN_FRONT)
        } else if (self.statement || self.line) && begins_with_word(text, b"delimiter") {
            Some(DELIMITER)
        } else if self.statement && is_client_word(text) {
            Some(CLIENT_WORD)
        } else {
            None
        }
    }

    /// What may begin after this token.
    fn after(&self, token: &[u8], kind: Kind) -> Front {
        let is_before_front = |byte: u8| byte <= b' ' || byte >= 128;
        let (statement, line) = match (kind, token[0]) {
            (Kind::Comment, _) => (self.statement, true),
            (Kind::Plain, b';') => (true, true),
            (Kind::Plain, b'/') => (false, true),
            (Kind::Plain, b'\n') => (self.statement, true),
            (Kind::Plain, byte) if is_before_front(byte) => (self.statement, self.line),
            _ => (false, false),
        };
        Front { statement, line }
    }
}

/// What is found in a string or a quoted identifier.
fn of_quoted(token: &[u8]) -> Option<i32> {
    let has = |part: &[u8]| token.windows(part.len()).any(|bytes| bytes == part);
    if has(b"\\\n") || has(b"\\\r\n") || token.ends_with(b"\\") {
        Some(ESCAPED_NEWLINE)
    } else if has_delimiter_line(token) {
        Some(DELIMITER)
    } else {
        None
    }
}

/// What is found in a comment before this text.
fn of_comment(token: &[u8], after: &[u8]) -> Option<i32> {
    let [b'/', b'*', inside @ ..] = token else { return None };
    let is_opener = |bytes: &[u8]| matches!(bytes, [b'/', b'*', b'!' | b'+' | b'/']);
    if inside.windows(3).any(is_opener) {
        Some(OPENER_IN_COMMENT)
    } else if inside.ends_with(b"*/") && joins(after) {
        Some(JOINING_COMMENT)
    } else if inside.starts_with(b"M!") && has_delimiter_line(token) {
        Some(DELIMITER)
    } else {
        None
    }
}

/// What is found of a plain byte before this text, wherever it stands.
fn of_plain(byte: u8, after: &[u8]) -> Option<i32> {
    match (byte, after) {
        (b'*', [b'/', after @ ..]) if joins(after) => Some(JOINING_COMMENT),
        (b'-', [b'-', after @ ..]) if begins_comment(after) => Some(DASHES_BEFORE_COMMENT),
        (b'\\', [b'N', ..]) => None,
        (b'\\', _) => Some(CLIENT_COMMAND),
        _ => None,
    }
}

/// Whether a comment before this text may join it to what stands before.
fn joins(text: &[u8]) -> bool {
    matches!(text, [b'\\' | 128.., ..])
}

/// Whether the text begins with a comment, also one that a server reads, or with `--` before white
/// space or the end.
fn begins_comment(text: &[u8]) -> bool {
    match text {
        [b'#', ..] | [b'/', b'*', ..] | [b'-', b'-'] => true,
        [b'-', b'-', gap, ..] => is_white(gap),
        _ => false,
    }
}

/// Whether a `-` in front of a statement, before this text, makes the line a comment.
fn leads_dash(text: &[u8]) -> bool {
    text.starts_with(b"-") || begins_place(text)
}

/// Whether a line of the text, except its first, begins with `delimiter`.
fn has_delimiter_line(text: &[u8]) -> bool {
    text.split(|byte| *byte == b'\n').skip(1).any(|line| begins_with_word(line, b"delimiter"))
}

/// Whether the text begins with a word of a client that ends as such.
fn is_client_word(text: &[u8]) -> bool {
    let ends = |after: Option<&u8>| after.is_none_or(|byte| *byte <= b' ' || *byte == b';');
    CLIENT_WORDS.iter().any(|word| begins_with_word(text, word) && ends(text.get(word.len())))
}

/// Whether the text begins with this word of small letters, as MariaDB's client compares them.
fn begins_with_word(text: &[u8], word: &[u8]) -> bool {
    text.len() >= word.len() && text.iter().zip(word).all(|(byte, letter)| small(*byte) == *letter)
}

/// The small letter that latin1_swedish_ci has for this byte, or the byte if it has none of ASCII.
fn small(byte: u8) -> u8 {
    match byte {
        0xC0..=0xC3 | 0xE0..=0xE3 => b'a',
        0xC7 | 0xE7 => b'c',
        0xC8..=0xCB | 0xE8..=0xEB => b'e',
        0xCC..=0xCF | 0xEC..=0xEF => b'i',
        0xD0 | 0xF0 => b'd',
        0xD1 | 0xF1 => b'n',
        0xD2..=0xD5 | 0xF2..=0xF5 => b'o',
        0xD9..=0xDB | 0xF9..=0xFB => b'u',
        0xDC | 0xDD | 0xFC | 0xFD => b'y',
        _ => byte.to_ascii_lowercase(),
    }
}

fn is_white(byte: &u8) -> bool {
    matches!(byte, 9 | 10 | 12 | 13 | 32)
}
