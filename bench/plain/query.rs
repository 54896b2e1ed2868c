//! The places of a query, the renamed query and its names, after docs/RULES.md.

use crate::search::Search;
use std::borrow::Cow;

const fn class(ranges: &[(u8, u8)]) -> [bool; 256] {
    let mut table = [false; 256];
    let mut at = 0;
    while at < ranges.len() {
        let mut byte = ranges[at].0;
        while byte <= ranges[at].1 {
            table[byte as usize] = true;
            byte += 1;
        }
        at += 1;
    }
    table
}

static IS_NAME_BYTE: [bool; 256] = class(&[(b'a', b'z'), (b'0', b'9'), (b'_', b'_')]);

/// Start and end of the first name or mark at or after `at`, where a token begins.
#[inline(always)]
pub fn next_place<S: Search>(query: &[u8], mut at: usize) -> Option<(usize, usize)> {
    loop {
        at = S::token_start(query, at);
        match *query.get(at)? {
            b'?' => return Some((at, at + 1)),
            b':' => {
                let end = name_end::<S>(query, at + 1);
                if end > at + 1 {
                    return Some((at, end));
                }
                at += 1;
            }
            quote @ (b'\'' | b'"') => at = string_end::<S>(query, at + 1, quote),
            b'`' => at = after(query, S::byte(query, at + 1, b'`'), 1),
            b'#' => at = after(query, S::byte(query, at + 1, b'\n'), 1),
            b'-' if matches!(query[at..], [_, b'-', 9 | 12 | 13 | 32, ..]) => {
                at = after(query, S::byte(query, at + 3, b'\n'), 1);
            }
            b'/' if query.get(at + 1) == Some(&b'*')
                && !matches!(query.get(at + 2), Some(b'!' | b'+')) =>
            {
                at = after(query, S::comment_end(query, at + 2), 2);
            }
            _ => at += 1,
        }
    }
}

#[inline(always)]
pub(crate) fn after(query: &[u8], at: usize, count: usize) -> usize {
    (at + count).min(query.len())
}

#[inline(always)]
pub(crate) fn name_end<S: Search>(query: &[u8], from: usize) -> usize {
    let is_capital = |byte: u8| S::WIDE_NAMES && byte.is_ascii_uppercase();
    match query.get(from) {
        Some(b'a'..=b'z' | b'_') => {}
        Some(byte) if is_capital(*byte) => {}
        _ => return from,
    }
    let mut at = from + 1;
    while at < query.len() && (IS_NAME_BYTE[query[at] as usize] || is_capital(query[at])) {
        at += 1;
    }
    at
}

/// The query with its names in lower case, if they may have capitals.
pub fn lowered<S: Search>(query: &[u8]) -> Cow<'_, [u8]> {
    if !S::WIDE_NAMES {
        return Cow::Borrowed(query);
    }
    let mut text = query.to_vec();
    let mut at = 0;
    while let Some((start, end)) = next_place::<S>(query, at) {
        text[start..end].make_ascii_lowercase();
        at = end;
    }
    Cow::Owned(text)
}

#[inline(always)]
pub(crate) fn string_end<S: Search>(query: &[u8], mut at: usize, quote: u8) -> usize {
    if S::NO_BACKSLASH_ESCAPE {
        return after(query, S::byte(query, at, quote), 1);
    }
    loop {
        at = S::either(query, at, quote, b'\\');
        if at >= query.len() {
            return query.len();
        }
        if query[at] == quote {
            return at + 1;
        }
        at += 2;
    }
}

/// The names of a query, and the query with `?` in their places, which is empty if there are no
/// names.
pub struct Parsed<'q> {
    pub renamed: Vec<u8>,
    pub names: Vec<&'q [u8]>,
}

/// A query with a name and a mark.
pub struct Mixed;

pub fn parse<S: Search>(query: &[u8]) -> Result<Parsed<'_>, Mixed> {
    let mut renamed = Vec::new();
    let mut names = Vec::new();
    let mut has_mark = false;
    let (mut at, mut copied) = (0, 0);
    while let Some((start, end)) = next_place::<S>(query, at) {
        at = end;
        if end == start + 1 {
            has_mark = true;
            continue;
        }
        if names.is_empty() {
            renamed = Vec::with_capacity(query.len());
        }
        renamed.extend_from_slice(&query[copied..start]);
        renamed.push(b'?');
        names.push(&query[start + 1..end]);
        copied = end;
    }
    if names.is_empty() {
        return Ok(Parsed { renamed, names });
    }
    if has_mark {
        return Err(Mixed);
    }
    renamed.extend_from_slice(&query[copied..]);
    Ok(Parsed { renamed, names })
}
