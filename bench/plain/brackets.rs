//! Where a list or rows may stand that the program didn't say are such, after
//! crates/mysql_fragments/specs/Brackets.antt. It is compared, and not timed.

use crate::query::{after, name_end, string_end};
use crate::search::Search;

/// What is known of a fragment.
#[derive(Clone, Copy, PartialEq)]
pub enum Implicit {
    /// The program said what it is.
    No,
    List,
    Rows,
}

#[derive(Clone, Copy, PartialEq)]
enum Kind {
    /// White space, or a comment that no server executes.
    Gap,
    Place,
    Quoted,
    /// MariaDB's `/*M! .. */`.
    Executed,
    Plain(u8),
}

struct Token {
    kind: Kind,
    start: usize,
}

/// Number and position of the first place that may not have its fragment.
pub fn first_unbracketed<S: Search>(query: &[u8], places: &[Implicit]) -> Option<(usize, usize)> {
    let tokens = tokens::<S>(query);
    let found = (0..tokens.len()).filter(|at| tokens[*at].kind == Kind::Place);
    found.zip(places).enumerate().find_map(|(place, (at, implicit))| {
        let (before, behind) = (&tokens[..at], &tokens[at + 1..]);
        let may_stand = match implicit {
            Implicit::No => true,
            Implicit::List => is_in_brackets(before, behind),
            Implicit::Rows => follows_values(before) || is_in_brackets(before, behind),
        };
        (!may_stand).then_some((place, tokens[at].start))
    })
}

fn tokens<S: Search>(query: &[u8]) -> Vec<Token> {
    let mut tokens = Vec::new();
    let mut start = 0;
    while start < query.len() {
        let (kind, end) = token_at::<S>(query, start);
        tokens.push(Token { kind, start });
        start = end;
    }
    tokens
}

/// The kind of the token that begins here, and its end.
fn token_at<S: Search>(query: &[u8], at: usize) -> (Kind, usize) {
    match query[at..] {
        [b'?', ..] => (Kind::Place, at + 1),
        [b':', ..] => match name_end::<S>(query, at + 1) {
            end if end > at + 1 => (Kind::Place, end),
            end => (Kind::Plain(b':'), end),
        },
        [quote @ (b'\'' | b'"'), ..] => (Kind::Quoted, string_end::<S>(query, at + 1, quote)),
        [b'`', ..] => (Kind::Quoted, after(query, S::byte(query, at + 1, b'`'), 1)),
        [b'#', ..] => (Kind::Gap, after(query, S::byte(query, at + 1, b'\n'), 1)),
        [b'-', b'-', 9 | 12 | 13 | 32, ..] => {
            (Kind::Gap, after(query, S::byte(query, at + 3, b'\n'), 1))
        }
        [b'/', b'*', b'!' | b'+', ..] => (Kind::Plain(b'/'), at + 1),
        [b'/', b'*', ref text @ ..] => {
            let kind = if text.get(1) == Some(&b'!') { Kind::Executed } else { Kind::Gap };
            (kind, after(query, S::comment_end(query, at + 2), 2))
        }
        [9 | 10 | 12 | 13 | 32, ..] => (Kind::Gap, at + 1),
        _ => (Kind::Plain(query[at]), at + 1),
    }
}

fn is_in_brackets(before: &[Token], behind: &[Token]) -> bool {
    let closes = behind.iter().find(|token| token.kind != Kind::Gap);
    is_after_bracket(before) && closes.is_some_and(|token| token.kind == Kind::Plain(b')'))
}

/// Whether these tokens end in a bracket that may hold a list.
fn is_after_bracket(tokens: &[Token]) -> bool {
    let Some((Token { kind: Kind::Plain(b'('), .. }, front)) = without_gaps(tokens).split_last() else {
        return false;
    };
    follows_values(front) || follows_row_sign(front) || follows_word(front, b"in") || follows_row(front)
}

/// Whether `)` stands in front.
fn is_closed(tokens: &[Token]) -> bool {
    without_gaps(tokens).last().is_some_and(|token| token.kind == Kind::Plain(b')'))
}

/// Whether `(`, `,`, or a comparison behind `)` stands in front.
fn follows_row_sign(tokens: &[Token]) -> bool {
    match without_gaps(tokens).split_last() {
        Some((Token { kind: Kind::Plain(b'(' | b','), .. }, _)) => true,
        Some((Token { kind: Kind::Plain(b'=' | b'<' | b'>' | b'!'), .. }, front)) => {
            is_closed(front) || follows_row_sign(front)
        }
        _ => false,
    }
}

fn follows_word(tokens: &[Token], word: &[u8]) -> bool {
    last_word(without_gaps(tokens)) == word
}

/// Whether VALUES stands in front, or VALUE behind `)`.
fn follows_values(tokens: &[Token]) -> bool {
    follows_word(tokens, b"values") || (follows_word(tokens, b"value") && is_closed(before_word(tokens, 5)))
}

/// Whether ROW stands in front where a row may begin.
fn follows_row(tokens: &[Token]) -> bool {
    let front = before_word(tokens, 3);
    follows_word(tokens, b"row") && (follows_row_sign(front) || follows_values(front))
}

/// The tokens before a last word of so many letters.
fn before_word(tokens: &[Token], letters: usize) -> &[Token] {
    let word_end = without_gaps(tokens);
    &word_end[..word_end.len().saturating_sub(letters)]
}

/// The tokens without gaps at their end.
fn without_gaps(tokens: &[Token]) -> &[Token] {
    let end = tokens.iter().rposition(|token| token.kind != Kind::Gap);
    &tokens[..end.map_or(0, |at| at + 1)]
}

/// The word in which the tokens end, in lower case.
fn last_word(tokens: &[Token]) -> Vec<u8> {
    let byte = |token: &Token| match token.kind {
        Kind::Plain(byte) if is_of_word(byte) => Some(byte.to_ascii_lowercase()),
        _ => None,
    };
    let mut word: Vec<u8> = tokens.iter().rev().map_while(byte).collect();
    word.reverse();
    word
}

/// A name after a point and a variable, as `db.in` and `@in`, are other words than IN.
fn is_of_word(byte: u8) -> bool {
    byte.is_ascii_alphanumeric() || byte >= 128 || b"_$.@".contains(&byte)
}
