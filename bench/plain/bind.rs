//! Binding in one scan into one vector, after docs/RULES.md.

use crate::portable::{first_backslash, first_unportable};
use crate::query::{lowered, next_place};
use crate::search::{Search, set};
use crate::value::{
    Params, Value, append_guarded_literal, append_literal, append_steady_literal,
};

#[derive(Debug)]
pub enum BindError {
    Mixed,
    /// A name without a value, at the first of its places.
    Missing(Name),
    NamedForPositional,
    PositionalForNamed,
    MarkCount {
        marks: usize,
        values: usize,
    },
    NotAlone {
        place: usize,
        position: usize,
    },
    Float {
        place: usize,
    },
    Unsteady {
        position: usize,
    },
    Backslash {
        position: usize,
    },
    Unportable {
        number: i32,
        position: usize,
    },
}

/// A name of the query: the number of its place, and where its bytes stand.
#[derive(Clone, Copy, Debug)]
pub struct Name {
    pub place: usize,
    pub start: usize,
    pub end: usize,
}

static MAY_STAND_BEFORE: [bool; 256] = set(b"\t\n\x0c\r (,=<>+-*/%&|^~");
static MAY_STAND_AFTER: [bool; 256] = set(b"\t\n\x0c\r ),;=<>+-*/%&|^!");

/// Whether the bytes beside a place let it stand there.
#[inline(always)]
pub fn stands_alone(query: &[u8], start: usize, end: usize) -> bool {
    (start == 0 || MAY_STAND_BEFORE[query[start - 1] as usize])
        && (end == query.len() || MAY_STAND_AFTER[query[end] as usize])
}

/// What the scan has met.
#[derive(Default)]
struct Met {
    names: usize,
    marks: usize,
    first_missing: Option<Name>,
    found_after_missing: bool,
    last_name: Option<Name>,
    not_alone: Option<(usize, usize)>,
    float: Option<usize>,
}

pub fn bind<S: Search>(query: &[u8], params: &Params) -> Result<Vec<u8>, BindError> {
    bind_with::<S>(query, params, append_literal::<S>)
}

/// Binds with steady literals, a query that is steady and portable.
pub fn bind_anywhere<S: Search>(query: &[u8], params: &Params) -> Result<Vec<u8>, BindError> {
    refuse_unsteady_or_unportable::<S>(query)?;
    bind_with::<S>(query, params, append_steady_literal::<S>)
}

/// The same with guarded literals.
pub fn bind_guarded<S: Search>(query: &[u8], params: &Params) -> Result<Vec<u8>, BindError> {
    refuse_unsteady_or_unportable::<S>(query)?;
    bind_with::<S>(query, params, append_guarded_literal::<S>)
}

/// Binds with steady literals, a portable query of which no string has a backslash.
pub fn bind_in_both_modes<S: Search>(query: &[u8], params: &Params) -> Result<Vec<u8>, BindError> {
    if let Some(position) = first_backslash(query) {
        return Err(BindError::Backslash { position });
    }
    refuse_unportable::<S>(query)?;
    bind_with::<S>(query, params, append_steady_literal::<S>)
}

/// Refuses a query that isn't one for any server.
pub(crate) fn refuse_unsteady_or_unportable<S: Search>(query: &[u8]) -> Result<(), BindError> {
    if let Some(position) = query.iter().position(|byte| !is_steady(*byte)) {
        return Err(BindError::Unsteady { position });
    }
    refuse_unportable::<S>(query)
}

pub(crate) fn is_steady(byte: u8) -> bool {
    byte < 128 && byte != b'\\'
}

fn refuse_unportable<S: Search>(query: &[u8]) -> Result<(), BindError> {
    match first_unportable(&lowered::<S>(query), false) {
        (0, _) => Ok(()),
        (number, position) => Err(BindError::Unportable { number, position }),
    }
}

/// Binds with literals that are appended so; a float has none.
#[inline(always)]
fn bind_with<S: Search>(
    query: &[u8],
    params: &Params,
    append: impl Fn(&mut Vec<u8>, &Value) -> bool,
) -> Result<Vec<u8>, BindError> {
    let mut text = Vec::with_capacity(query.len() + params.literal_room());
    let mut met = Met::default();
    let (mut at, mut copied) = (0, 0);
    while let Some((start, end)) = next_place::<S>(query, at) {
        at = end;
        let place = met.names + met.marks;
        if met.not_alone.is_none() && !stands_alone(query, start, end) {
            met.not_alone = Some((place, start));
        }
        let Some(value) = value_at(query, start, end, params, &mut met) else { continue };
        text.extend_from_slice(&query[copied..start]);
        if !append(&mut text, value) && met.float.is_none() {
            met.float = Some(place);
        }
        copied = end;
    }
    text.extend_from_slice(&query[copied..]);
    match refusal::<S>(query, params, &met) {
        None => Ok(text),
        Some(error) => Err(error),
    }
}

#[inline(always)]
fn value_at<'p>(
    query: &[u8],
    start: usize,
    end: usize,
    params: &'p Params,
    met: &mut Met,
) -> Option<&'p Value> {
    if end == start + 1 {
        met.marks += 1;
        return match params {
            Params::Positional(values) => values.get(met.marks - 1),
            _ => None,
        };
    }
    let name = Name { place: met.names, start: start + 1, end };
    met.names += 1;
    met.last_name = Some(name);
    let value = match params {
        Params::Named(values) => values.get(&query[start + 1..end]),
        _ => None,
    };
    match value {
        None if met.first_missing.is_none() => met.first_missing = Some(name),
        Some(_) if met.first_missing.is_some() => met.found_after_missing = true,
        _ => {}
    }
    value
}

/// The first cause that refuses the query.
fn refusal<S: Search>(query: &[u8], params: &Params, met: &Met) -> Option<BindError> {
    if met.names > 0 && met.marks > 0 {
        return Some(BindError::Mixed);
    }
    let values = match params {
        Params::Positional(_) if met.names > 0 => return Some(BindError::PositionalForNamed),
        Params::Named(_) if met.names == 0 => return Some(BindError::NamedForPositional),
        Params::Positional(values) => values.len(),
        _ => 0,
    };
    if let Some(first) = met.first_missing {
        let named = matches!(params, Params::Named(_));
        let reported = if named && !met.found_after_missing { met.last_name } else { Some(first) };
        return reported.map(|name| BindError::Missing(first_with_bytes::<S>(query, name)));
    }
    if met.names == 0 && met.marks != values {
        return Some(BindError::MarkCount { marks: met.marks, values });
    }
    if let Some((place, position)) = met.not_alone {
        return Some(BindError::NotAlone { place, position });
    }
    met.float.map(|place| BindError::Float { place })
}

/// The first name of the query with the bytes of this one.
fn first_with_bytes<S: Search>(query: &[u8], name: Name) -> Name {
    let bytes = &query[name.start..name.end];
    let (mut place, mut at) = (0, 0);
    while let Some((start, end)) = next_place::<S>(query, at) {
        if &query[start + 1..end] == bytes {
            return Name { place, start: start + 1, end };
        }
        place += 1;
        at = end;
    }
    name
}
