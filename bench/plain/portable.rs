//! The first construct of a query that servers read in different ways, after docs/RULES.md,
//! "Portable queries": one byte after the other, with token ends of its own.

const PORTABLE: i32 = 0;
const EXECUTABLE_COMMENT: i32 = 1;
const HINT: i32 = 2;
const MARIADB_COMMENT: i32 = 3;
const DASHES: i32 = 4;
const ESCAPED_QUOTE: i32 = 5;
const BRACKET: i32 = 6;
const DOLLAR_QUOTE: i32 = 7;
const DASHES_AFTER_EXPONENT: i32 = 8;
const PLACE_AFTER_EXPONENT: i32 = 9;
const ESCAPED_BACKQUOTE: i32 = 19;
const RETURN_IN_COMMENT: i32 = 20;

/// The names of the numbers up to those that are found for a client alone, from 0.
pub const CONSTRUCTS: [&str; 10] = [
    "PORTABLE",
    "EXECUTABLE_COMMENT",
    "HINT",
    "MARIADB_COMMENT",
    "DASHES",
    "ESCAPED_QUOTE",
    "BRACKET",
    "DOLLAR_QUOTE",
    "DASHES_AFTER_EXPONENT",
    "PLACE_AFTER_EXPONENT",
];

/// The names of the numbers after those that are found for a client alone.
pub const LATER_CONSTRUCTS: [&str; 2] = ["ESCAPED_BACKQUOTE", "RETURN_IN_COMMENT"];

/// The number of the construct, and the index of its first byte; both are 0 if there is none.
pub fn first_unportable(query: &[u8], no_backslash_escape: bool) -> (i32, usize) {
    let mut at = 0;
    while at < query.len() {
        let (found, len) = first_token(&query[at..], no_backslash_escape);
        if let Some(number) = found {
            return (number, at);
        }
        at += len;
    }
    (PORTABLE, 0)
}

/// The index of the first backslash in a string, which both modes find alike.
pub fn first_backslash(query: &[u8]) -> Option<usize> {
    let mut at = 0;
    while at < query.len() {
        let (_, len) = first_token(&query[at..], false);
        let in_string = matches!(query[at], b'\'' | b'"');
        let backslash = query[at..at + len].iter().position(|byte| *byte == b'\\');
        if let (true, Some(index)) = (in_string, backslash) {
            return Some(at + index);
        }
        at += len;
    }
    None
}

/// The construct that begins with the first token of a text, and the token's length; the text isn't
/// empty.
pub fn first_token(text: &[u8], no_backslash_escape: bool) -> (Option<i32>, usize) {
    let (byte, rest) = (text[0], &text[1..]);
    let mut found = construct(byte, rest);
    let len = match byte {
        quote @ (b'\'' | b'"') => {
            let (len, is_escaped_inside) = string_len(rest, quote, no_backslash_escape);
            if quote == b'"' && is_escaped_inside {
                found = Some(ESCAPED_QUOTE);
            }
            len
        }
        b'`' => {
            let len = len_with(rest, b"`");
            if rest[..len].ends_with(b"\\`") {
                found = Some(ESCAPED_BACKQUOTE);
            }
            len
        }
        b'#' | b'-' if opens_line(text) => {
            let gap = if byte == b'-' { 2 } else { 0 };
            let len = gap + len_with(&rest[gap..], b"\n");
            if holds_return(&rest[..len]) {
                found = Some(RETURN_IN_COMMENT);
            }
            len
        }
        b'/' if opens_comment(rest) => 1 + len_with(&rest[1..], b"*/"),
        b':' if rest.first().is_some_and(begins_name) => {
            rest.iter().take_while(|byte| begins_name(byte) || byte.is_ascii_digit()).count()
        }
        _ => 0,
    };
    (found, 1 + len)
}

/// Whether the text begins with a comment of one line.
fn opens_line(text: &[u8]) -> bool {
    matches!(text, [b'#', ..] | [b'-', b'-', 9 | 12 | 13 | 32, ..])
}

/// Whether such a comment has a carriage return before its end, which is a newline, CR LF or none.
fn holds_return(comment: &[u8]) -> bool {
    comment.strip_suffix(b"\r\n").unwrap_or(comment).contains(&b'\r')
}

/// Whether a `/` before this text opens a comment of the grammar.
fn opens_comment(rest: &[u8]) -> bool {
    matches!(rest, [b'*', after @ ..] if !matches!(after, [b'!' | b'+', ..]))
}

/// The construct that begins with this byte before this text, except that of a text in quotes.
fn construct(byte: u8, rest: &[u8]) -> Option<i32> {
    Some(match (byte, rest) {
        (b'/', [b'*', text @ ..]) if is_quiet(text) => return None,
        (b'/', [b'*', b'!', ..]) => EXECUTABLE_COMMENT,
        (b'/', [b'*', b'+', ..]) => HINT,
        (b'/', [b'*', b'M', b'!', ..]) => MARIADB_COMMENT,
        (b'-', [b'-', gap, ..]) if !keeps_dashes(*gap) && !matches!(gap, b' ' | b'\n') => DASHES,
        (b'[', _) => BRACKET,
        (b'$', _) if leads_to_dollar(rest) => DOLLAR_QUOTE,
        (b'.', _) if leads_to_dashes(rest) => DASHES_AFTER_EXPONENT,
        (b'.' | b'0'..=b'9', [b'e' | b'E', b'+' | b'-', place @ ..]) if begins_place(place) => {
            PLACE_AFTER_EXPONENT
        }
        _ => return None,
    })
}

/// Whether `--` before the byte is two signs everywhere.
fn keeps_dashes(gap: u8) -> bool {
    gap.is_ascii_graphic() && gap != b'/'
}

/// Whether the text has a `*/` before anything that may begin elsewhere, and after it the end or a
/// byte that joins nothing.
fn is_quiet(text: &[u8]) -> bool {
    let Some(end) = text.windows(2).position(|bytes| bytes == b"*/") else { return false };
    matches!(text.get(end + 2), None | Some(9 | 10 | 12 | 13 | b' ' | b')' | b',' | b';'))
        && (0..end).all(|at| !begins_any(text[at], &text[at + 1..]))
}

/// Whether this byte before this text begins something other than a plain byte, or may join what
/// stands before the comment, or is `;` or `\`.
fn begins_any(byte: u8, rest: &[u8]) -> bool {
    match byte {
        b'\'' | b'"' | b'`' | b'#' | b'-' | b'?' | b'[' | b';' | b'\\' => true,
        b'/' => rest.starts_with(b"*"),
        b'!' => !is_version(rest),
        b':' => rest.first().is_some_and(begins_name),
        b'$' => leads_to_dollar(rest),
        b'.' => leads_to_dashes(rest),
        _ => false,
    }
}

/// A version or none, and then white space or `*/`.
fn is_version(text: &[u8]) -> bool {
    let digits = text.iter().take_while(|byte| byte.is_ascii_digit()).count();
    let after = &text[digits..];
    (digits == 0 || (text[0] != b'0' && (5..=6).contains(&digits)))
        && (after.starts_with(b"*/") || after.first().is_some_and(u8::is_ascii_whitespace))
}

/// Bytes of an identifier, and then `$` or a place.
fn leads_to_dollar(text: &[u8]) -> bool {
    let is_of_tag = |byte: &u8| byte.is_ascii_alphanumeric() || *byte == b'_' || *byte >= 128;
    let after = text.iter().position(|byte| !is_of_tag(byte)).unwrap_or(text.len());
    text[after..].starts_with(b"$") || begins_place(&text[after..])
}

/// Digits, and then a place, or `e` and two dashes that open a comment, perhaps after a sign.
fn leads_to_dashes(text: &[u8]) -> bool {
    let digits = text.iter().take_while(|byte| byte.is_ascii_digit()).count();
    let opens = |text: &[u8]| matches!(text, [b'-', b'-', gap, ..] if !keeps_dashes(*gap));
    match &text[digits..] {
        [b'e' | b'E', b'+' | b'-', after @ ..] if opens(after) => true,
        [b'e' | b'E', after @ ..] => opens(after),
        after => begins_place(after),
    }
}

pub fn begins_place(text: &[u8]) -> bool {
    match text {
        [b'?', ..] => true,
        [b':', byte, ..] => begins_name(byte),
        _ => false,
    }
}

fn begins_name(byte: &u8) -> bool {
    matches!(byte, b'a'..=b'z' | b'_')
}

/// The bytes up to and with this end, or all.
fn len_with(text: &[u8], end: &[u8]) -> usize {
    let found = text.windows(end.len()).position(|bytes| bytes == end);
    found.map_or(text.len(), |at| at + end.len())
}

/// The bytes of a text after its opening quote, and whether an escaped one stands before the last.
fn string_len(text: &[u8], quote: u8, no_backslash_escape: bool) -> (usize, bool) {
    let mut first_escaped = None;
    let mut at = 0;
    while at < text.len() && text[at] != quote {
        if text[at] == b'\\' && !no_backslash_escape {
            at += 1;
            if text.get(at) == Some(&quote) && first_escaped.is_none() {
                first_escaped = Some(at);
            }
        }
        at += 1;
    }
    let len = (at + 1).min(text.len());
    (len, first_escaped.is_some_and(|escaped| escaped + 1 < len))
}
