//! Compares the archive with plain Rust on what is found in queries, for servers and for a client:
//! on every short query over the bytes of the constructs, on every short row of a client's pieces,
//! and on random ones of all pieces.

use crate::archive::{self, judge_in_mode};
use crate::random::Random;
use crate::wide_names;
use plain::client::{CLIENT_CONSTRUCTS, first_unportable_in_client};
use plain::portable::{CONSTRUCTS, LATER_CONSTRUCTS, first_unportable};
use plain::room::Report;
use std::time::Instant;

/// The bytes that begin, end or change a construct or a token.
const ALPHABET: &[&[u8]] = &[
    b"/", b"*", b"!", b"+", b"M", b"-", b"[", b"$", b".", b"e", b"1", b"?", b":", b"a", b"\"",
    b"'", b"\\", b"`", b"#", b"\n", b"\r", b"\t", b" ",
];

/// Pieces that mean something to a client.
const CLIENT_ALPHABET: &[&[u8]] = &[
    b"/*", b"*/", b"/", b"*", b"-", b"-- ", b"#", b";", b"\n", b"\r", b" ", b"\x01", b"\0", b"\x7F",
    b"\x80", b"\xFF", b"\\", b"N", b"'", b"`", b"/*M!", b"/*+", b"?", b":a", b"delimiter",
    b"D\xC9LIM\xEDTER", b"go", b"g\xF2", b"x",
];

/// Pieces of constructs, of tokens and of what stands between.
const PIECES: &[&[u8]] = &[
    b"/*", b"*/", b"/*!", b"/*+", b"/*M!", b"M", b"!", b"--", b"-- ", b"--\x01", b"--\x0B",
    b"--\n", b"--\t", b"--\x0C", b"--\r", b"\"", b"\\\"", b"\\", b"'", b"`", b"\\`", b"#", b"\n",
    b"\r", b"\r\n", b" ", b"\t", b"\x7F", b"\xFF", b"[",
    b"]", b"$", b"$$", b"$a$", b".", b"1", b"90", b"e", b"E", b"1e+", b".5E-", b"+", b"-", b"?",
    b":", b":a", b":_1", b":A", b"a", b"Z", b"_", b"*", b"/", b";", b"/*+ a */", b"/*M!1*/",
];

/// More pieces that mean something to a client.
const CLIENT_PIECES: &[&[u8]] = &[
    b"; ", b";\n", b"\r\n", b"\x0B", b"\x0C", b"\r", b"\\N", b"\\g", b"\\\n", b"\\\r\n", b"\\\\",
    b"\xEF\xBB\xBF", b"/* x */", b"/**/", b"/*/", b"/* ' */", b"/*;*/", b"/*\n*/", b"# z\n",
    b"-- y\n", b"--x", b"----", b"/*! */", b"/*M!\ndelimiter*/", b"'a'", b"\"b\"", b"`c`",
    b"'m\nn'", b"'\ndelimiter'", b"`\n Delimiter`", b"'\n\xF0elimiter'", b"DELIMITER ",
    b"delimite", b"delimiters", b"\xD0elim\xECter", b"d\xC4limiter", b"d\xE8l\xCDm\xEFt\xEBr",
    b"SELECT ", b"user", b"=", b"(", b"5",
];

/// Words of the clients, and others.
const WORDS: &[&[u8]] = &[
    b"charset", b"clear", b"connect", b"costs", b"edit", b"ego", b"exit", b"go", b"help",
    b"nopager", b"notee", b"nowarning", b"pager", b"print", b"prompt", b"quit", b"rehash",
    b"sandbox", b"source", b"status", b"system", b"tee", b"use", b"warnings",
    b"query_attributes", b"resetconnection", b"ssl_session_data_print", b"delimiter", b"begin",
    b"do", b"select",
];

/// Bytes that latin1 has for a letter.
const LATIN1: std::ops::RangeInclusive<u8> = 0xC0..=0xFF;

/// How many pieces a random query has at most.
const MOST_PIECES: usize = 24;

/// A call that judges queries.
struct Call {
    name: &'static str,
    archive: fn(&[u8], bool) -> (i32, Report),
    plain: fn(&[u8], bool) -> (i32, usize),
    /// Whether it answers with the numbers of a client too.
    in_client: bool,
}

/// The numbers that are found for a client alone.
const OF_CLIENT: std::ops::Range<usize> =
    CONSTRUCTS.len()..CONSTRUCTS.len() + CLIENT_CONSTRUCTS.len();
const NUMBERS: usize = OF_CLIENT.end + LATER_CONSTRUCTS.len();

const CALLS: [Call; 4] = [
    Call {
        name: "first_unportable",
        archive: |query, mode| judge_in_mode(archive::mysql_params_first_unportable, query, mode),
        plain: first_unportable,
        in_client: false,
    },
    Call {
        name: "first_unportable_in_client",
        archive: |query, mode| {
            judge_in_mode(archive::mysql_params_first_unportable_in_client, query, mode)
        },
        plain: first_unportable_in_client,
        in_client: true,
    },
    Call {
        name: "first_unportable_wide",
        archive: |query, mode| {
            judge_in_mode(archive::mysql_params_first_unportable_wide, query, mode)
        },
        plain: wide_names::first_unportable_by_wide_names,
        in_client: false,
    },
    Call {
        name: "first_unportable_in_client_wide",
        archive: |query, mode| {
            judge_in_mode(archive::mysql_params_first_unportable_in_client_wide, query, mode)
        },
        plain: wide_names::first_in_client_by_wide_names,
        in_client: true,
    },
];

/// What the sides answered to one call.
#[derive(Default)]
struct Judged {
    /// How often plain Rust answered with each number.
    answers: [u64; NUMBERS],
    differences: u64,
    smallest: Option<(Vec<u8>, bool)>,
}

#[derive(Default)]
struct Queries {
    count: u64,
    judged: [Judged; CALLS.len()],
}

/// Compares on every query of up to `longest` bytes, on every row of up to one less of a client's
/// pieces, and on so many random ones of either kind; gives whether nothing differs and each
/// construct was found.
pub fn compare(longest: usize, count: u64) -> bool {
    let start = Instant::now();
    let mut queries = Queries::default();
    queries.compare_all(ALPHABET, longest);
    queries.compare_all(CLIENT_ALPHABET, longest.saturating_sub(1));
    let mut random = Random(1);
    for _ in 0..count {
        queries.compare(&random_query(&mut random, &[PIECES]));
        queries.compare(&random_query(&mut random, &[PIECES, CLIENT_ALPHABET, CLIENT_PIECES]));
    }
    queries.print(longest, count, start.elapsed().as_secs())
}

/// A query of pieces of these kinds. With several kinds a word of the client may stand among them.
fn random_query(random: &mut Random, kinds: &[&[&[u8]]]) -> Vec<u8> {
    let mut query = Vec::new();
    for _ in 0..random.below(MOST_PIECES + 1) {
        if kinds.len() > 1 && random.one_in(8) {
            query.extend(random_word(random));
        } else {
            let kind = random.pick(kinds);
            let piece: &&[u8] = random.pick(kind);
            query.extend_from_slice(piece);
        }
    }
    query
}

/// A word with some of its letters in capitals or by any byte that latin1 has for a letter.
fn random_word(random: &mut Random) -> Vec<u8> {
    let mut word = random.pick(WORDS).to_vec();
    for letter in &mut word {
        match random.below(12) {
            0 => *letter = letter.to_ascii_uppercase(),
            1 => *letter = LATIN1.start() + random.below(LATIN1.len()) as u8,
            _ => {}
        }
    }
    word
}

impl Queries {
    /// Compares on every row of up to `longest` of these pieces.
    fn compare_all(&mut self, pieces: &[&[u8]], longest: usize) {
        let mut query = Vec::new();
        for len in 0..=longest {
            let mut picked = vec![0; len];
            loop {
                query.clear();
                picked.iter().for_each(|piece: &usize| query.extend_from_slice(pieces[*piece]));
                self.compare(&query);
                // The next row, as one counts.
                let Some(at) = picked.iter().rposition(|piece| piece + 1 < pieces.len()) else {
                    break;
                };
                picked[at] += 1;
                picked[at + 1..].fill(0);
            }
        }
    }

    /// All calls of the query, in both modes.
    fn compare(&mut self, query: &[u8]) {
        self.count += 1;
        for (call, judged) in CALLS.iter().zip(&mut self.judged) {
            for no_backslash_escape in [false, true] {
                judged.compare(call, query, no_backslash_escape);
            }
        }
    }

    fn print(&self, longest: usize, count: u64, seconds: u64) -> bool {
        println!(
            "{} queries judged by {} calls in both modes, all of up to {longest} of {} bytes, all \
             of one less of {} pieces for a client, and twice {count} random ones: {seconds} s",
            self.count,
            CALLS.len(),
            ALPHABET.len(),
            CLIENT_ALPHABET.len()
        );
        let mut is_alike = true;
        for (call, judged) in CALLS.iter().zip(&self.judged) {
            is_alike &= judged.print(call);
        }
        is_alike
    }
}

impl Judged {
    fn compare(&mut self, call: &Call, query: &[u8], no_backslash_escape: bool) {
        let (number, position) = (call.plain)(query, no_backslash_escape);
        let report = Report { position, ..Report::default() };
        self.answers[number as usize] += 1;
        if (call.archive)(query, no_backslash_escape) == (number, report) {
            return;
        }
        self.differences += 1;
        if self.smallest.as_ref().is_none_or(|(smallest, _)| query.len() < smallest.len()) {
            self.smallest = Some((query.to_vec(), no_backslash_escape));
        }
    }

    fn print(&self, call: &Call) -> bool {
        let names = CONSTRUCTS.iter().chain(&CLIENT_CONSTRUCTS).chain(&LATER_CONSTRUCTS);
        let counts: Vec<_> = (0..)
            .zip(names.zip(self.answers))
            .filter(|(number, _)| call.in_client || !OF_CLIENT.contains(number))
            .map(|(_, counted)| counted)
            .collect();
        let told = counts.iter().map(|(name, count)| format!("{name} {count}"));
        println!("Judgements of {}: {}", call.name, told.collect::<Vec<_>>().join(", "));
        println!("{}: {} differences", call.name, self.differences);
        if let Some((query, mode)) = &self.smallest {
            println!("The smallest that differs: \"{}\", {mode}", query.escape_ascii());
            println!("archive: {:?}", (call.archive)(query, *mode));
            println!("plain Rust: {:?}", (call.plain)(query, *mode));
        }
        let is_each_found = counts.iter().all(|(_, count)| *count > 0);
        if !is_each_found {
            println!("A construct was never found: give more random queries");
        }
        self.differences == 0 && is_each_found
    }
}
