//! The searches of one kind in another reading of the query, which is compared and not timed.

use plain::search::Search;
use std::marker::PhantomData;

/// The searches of one kind, in the mode and by the names that the flags say.
pub struct Read<S, const NO_BACKSLASH_ESCAPE: bool, const WIDE_NAMES: bool>(PhantomData<S>);

impl<S: Search, const NO_BACKSLASH_ESCAPE: bool, const WIDE_NAMES: bool> Search
    for Read<S, NO_BACKSLASH_ESCAPE, WIDE_NAMES>
{
    const NO_BACKSLASH_ESCAPE: bool = NO_BACKSLASH_ESCAPE;
    const WIDE_NAMES: bool = WIDE_NAMES;
    fn token_start(text: &[u8], from: usize) -> usize {
        S::token_start(text, from)
    }
    fn either(text: &[u8], from: usize, one: u8, other: u8) -> usize {
        S::either(text, from, one, other)
    }
    fn byte(text: &[u8], from: usize, byte: u8) -> usize {
        S::byte(text, from, byte)
    }
    fn comment_end(text: &[u8], from: usize) -> usize {
        S::comment_end(text, from)
    }
    fn escaped(text: &[u8], from: usize) -> usize {
        S::escaped(text, from)
    }
}
