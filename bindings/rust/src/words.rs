//! Words of a query that look like names, for messages: a name and letters that no name has.

/// Whether a byte is one of those that names are of.
fn is_of_names(byte: &u8) -> bool {
    byte.is_ascii_alphanumeric() || *byte == b'_'
}

/// Whether a byte is of a letter outside ASCII.
fn is_other_letter(byte: &u8) -> bool {
    *byte >= 128
}

/// The bytes at the front that fulfil the test.
fn front(bytes: &[u8], test: impl Fn(&u8) -> bool) -> &[u8] {
    let end = bytes.iter().position(|byte| !test(byte));
    &bytes[..end.unwrap_or(bytes.len())]
}

/// The name that a word begins with, or nothing.
pub(crate) fn name_of(word: &[u8]) -> &[u8] {
    front(word, is_of_names)
}

/// The word that begins at a byte of a query, if it isn't a name alone.
pub(crate) fn word_at(query: &[u8], begin: usize) -> Option<&[u8]> {
    let rest = query.get(begin..)?;
    let word = front(rest, |byte| is_of_names(byte) || is_other_letter(byte));
    (word.len() > name_of(word).len()).then_some(word)
}

/// The word that begins with the name of the place at a byte of a query, if it isn't a name alone.
pub(crate) fn word_of_place(query: &[u8], position: usize) -> Option<&[u8]> {
    let colon = query.get(position) == Some(&b':');
    word_at(query, position.checked_add(1)?).filter(|_| colon)
}

/// What stands before the place at a byte of a query, its name, if it has one, and what stands after it.
fn around(query: &[u8], position: usize) -> (&[u8], Option<&[u8]>, &[u8]) {
    let (before, place) = query.split_at_checked(position).unwrap_or_default();
    match place {
        [b':', rest @ ..] => {
            let name = name_of(rest);
            (before, Some(name), &rest[name.len()..])
        }
        _ => (before, None, place.get(1..).unwrap_or_default()),
    }
}

/// The name of the place at a byte of a query; none for a `?`.
pub(crate) fn name_of_place(query: &[u8], position: usize) -> Option<&[u8]> {
    around(query, position).1
}

/// Whether a point stands directly before or after the place at a byte of a query.
pub(crate) fn is_beside_point(query: &[u8], position: usize) -> bool {
    let (before, _, after) = around(query, position);
    before.last() == Some(&b'.') || after.first() == Some(&b'.')
}

/// Bytes that may stand directly before a place.
const BEFORE_PLACES: &[u8] = b" \t\n\x0B\x0C\r(,=<>+-*/%&|^~";

/// The byte that a place touches: the one before it, unless that may stand there, else the one after it.
pub(crate) fn neighbour(query: &[u8], position: usize) -> u8 {
    let (before, _, after) = around(query, position);
    let before = before.last().filter(|last| !BEFORE_PLACES.contains(last));
    *before.or(after.first()).unwrap_or(&0)
}

/// The first word after a colon that begins with a letter that no name has.
pub(crate) fn word_without_name(query: &[u8]) -> Option<&[u8]> {
    let mut pairs = query.windows(2);
    let found = pairs.position(|pair| pair[0] == b':' && is_other_letter(&pair[1]));
    word_at(query, found? + 1)
}
