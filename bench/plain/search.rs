//! Searches for the next byte of a set: by a table of 256, and by 16 bytes at once.
//!
//! Each search gives the first index at or after `from`, and the length of the text if it finds
//! nothing.

#[cfg(not(target_arch = "x86_64"))]
compile_error!("16 bytes at once are written for x86-64 alone");

use std::arch::x86_64::{
    __m128i, _mm_and_si128, _mm_cmpeq_epi8, _mm_loadu_si128, _mm_movemask_epi8, _mm_or_si128,
    _mm_set1_epi8, _mm_setzero_si128,
};

pub trait Search {
    /// The mode: whether a backslash is a byte like any other.
    const NO_BACKSLASH_ESCAPE: bool = false;
    /// Whether names are wide ones, which may have capitals.
    const WIDE_NAMES: bool = false;
    /// A byte that may begin a token other than a plain byte.
    fn token_start(text: &[u8], from: usize) -> usize;
    /// One of two bytes.
    fn either(text: &[u8], from: usize, one: u8, other: u8) -> usize;
    /// One byte.
    fn byte(text: &[u8], from: usize, byte: u8) -> usize;
    /// The two bytes `*/`.
    fn comment_end(text: &[u8], from: usize) -> usize;
    /// A byte that a literal in quotes escapes.
    fn escaped(text: &[u8], from: usize) -> usize;
}

/// A table that is true at these bytes.
pub(crate) const fn set(bytes: &[u8]) -> [bool; 256] {
    let mut table = [false; 256];
    let mut at = 0;
    while at < bytes.len() {
        table[bytes[at] as usize] = true;
        at += 1;
    }
    table
}

const TOKEN_STARTS: [u8; 8] = *b"'\"`#-/:?";
const ESCAPED: [u8; 7] = *b"\0\n\r\x1a\\'\"";
static IS_TOKEN_START: [bool; 256] = set(&TOKEN_STARTS);
static IS_ESCAPED: [bool; 256] = set(&ESCAPED);

#[inline(always)]
fn first(text: &[u8], from: usize, wanted: impl Fn(u8) -> bool) -> usize {
    let mut at = from;
    while at < text.len() && !wanted(text[at]) {
        at += 1;
    }
    at
}

/// One byte after the other, by tables.
pub struct Table;

impl Search for Table {
    #[inline(always)]
    fn token_start(text: &[u8], from: usize) -> usize {
        first(text, from, |byte| IS_TOKEN_START[byte as usize])
    }
    #[inline(always)]
    fn either(text: &[u8], from: usize, one: u8, other: u8) -> usize {
        first(text, from, |byte| byte == one || byte == other)
    }
    #[inline(always)]
    fn byte(text: &[u8], from: usize, wanted: u8) -> usize {
        first(text, from, |byte| byte == wanted)
    }
    #[inline(always)]
    fn comment_end(text: &[u8], from: usize) -> usize {
        let mut at = from;
        while at + 1 < text.len() {
            if text[at] == b'*' && text[at + 1] == b'/' {
                return at;
            }
            at += 1;
        }
        text.len()
    }
    #[inline(always)]
    fn escaped(text: &[u8], from: usize) -> usize {
        first(text, from, |byte| IS_ESCAPED[byte as usize])
    }
}

/// 16 bytes at once, and the last 15 by tables.
pub struct Wide;

/// The 16 bytes from `at` on.
#[inline(always)]
fn lanes(text: &[u8], at: usize) -> __m128i {
    assert!(at + 16 <= text.len());
    // SAFETY: these 16 bytes lie in the text; the load wants no alignment.
    unsafe { _mm_loadu_si128(text.as_ptr().add(at).cast()) }
}

/// Which of 16 bytes are in the set, the first in the lowest bit.
#[inline(always)]
fn found<const N: usize>(bytes: __m128i, set: [u8; N]) -> u32 {
    // SAFETY: each x86-64 processor has SSE2.
    unsafe {
        let mut hits = _mm_setzero_si128();
        for byte in set {
            hits = _mm_or_si128(hits, _mm_cmpeq_epi8(bytes, _mm_set1_epi8(byte as i8)));
        }
        _mm_movemask_epi8(hits) as u32
    }
}

/// The first byte of the set in whole groups of 16, or where fewer than 16 bytes are left.
#[inline(always)]
fn first_wide<const N: usize>(text: &[u8], from: usize, set: [u8; N]) -> Result<usize, usize> {
    let mut at = from;
    while at + 16 <= text.len() {
        let hits = found(lanes(text, at), set);
        if hits != 0 {
            return Ok(at + hits.trailing_zeros() as usize);
        }
        at += 16;
    }
    Err(at)
}

impl Search for Wide {
    #[inline(always)]
    fn token_start(text: &[u8], from: usize) -> usize {
        first_wide(text, from, TOKEN_STARTS).unwrap_or_else(|at| Table::token_start(text, at))
    }
    #[inline(always)]
    fn either(text: &[u8], from: usize, one: u8, other: u8) -> usize {
        first_wide(text, from, [one, other])
            .unwrap_or_else(|at| Table::either(text, at, one, other))
    }
    #[inline(always)]
    fn byte(text: &[u8], from: usize, byte: u8) -> usize {
        first_wide(text, from, [byte]).unwrap_or_else(|at| Table::byte(text, at, byte))
    }
    #[inline(always)]
    fn comment_end(text: &[u8], from: usize) -> usize {
        let mut at = from;
        while at + 17 <= text.len() {
            // SAFETY: each x86-64 processor has SSE2.
            let hits = unsafe {
                let stars = _mm_cmpeq_epi8(lanes(text, at), _mm_set1_epi8(b'*' as i8));
                let slashes = _mm_cmpeq_epi8(lanes(text, at + 1), _mm_set1_epi8(b'/' as i8));
                _mm_movemask_epi8(_mm_and_si128(stars, slashes)) as u32
            };
            if hits != 0 {
                return at + hits.trailing_zeros() as usize;
            }
            at += 16;
        }
        Table::comment_end(text, at)
    }
    #[inline(always)]
    fn escaped(text: &[u8], from: usize) -> usize {
        first_wide(text, from, ESCAPED).unwrap_or_else(|at| Table::escaped(text, at))
    }
}
