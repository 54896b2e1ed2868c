//! Queries whose places are found once, and that are bound many times.

use crate::bind::{self, BindError, stands_alone};
use crate::query::next_place;
use crate::search::Search;
use crate::value::{Params, Value, append_literal, literal_room};
use std::collections::HashMap;

/// A query and its places.
pub struct Template<'q> {
    query: &'q [u8],
    places: Vec<Place>,
    /// The distinct names, in the order of their first places.
    names: Vec<&'q [u8]>,
    /// Whether some values fit: there are no marks beside names, and each place stands alone.
    fits: bool,
    /// The bytes between the places.
    piece_bytes: usize,
}

/// Where a place stands, and the number of its value: that of its distinct name, or of the mark.
struct Place {
    start: usize,
    end: usize,
    value: usize,
}

impl<'q> Template<'q> {
    #[inline(always)]
    pub fn new<S: Search>(query: &'q [u8]) -> Template<'q> {
        let mut numbers = HashMap::new();
        let (mut places, mut names) = (Vec::new(), Vec::new());
        let (mut at, mut place_bytes, mut fits) = (0, 0, true);
        while let Some((start, end)) = next_place::<S>(query, at) {
            at = end;
            place_bytes += end - start;
            fits &= stands_alone(query, start, end);
            let name = &query[start + 1..end];
            let value = if name.is_empty() {
                places.len()
            } else {
                *numbers.entry(name).or_insert_with(|| {
                    names.push(name);
                    names.len() - 1
                })
            };
            places.push(Place { start, end, value });
        }
        let marks = places.iter().any(|place| place.end == place.start + 1);
        fits &= names.is_empty() || !marks;
        Template { query, places, names, fits, piece_bytes: query.len() - place_bytes }
    }

    /// Binds as [`bind::bind`] does, which also finds the cause of a refusal.
    #[inline(always)]
    pub fn bind<S: Search>(&self, params: &Params) -> Result<Vec<u8>, BindError> {
        match self.text::<S>(params) {
            Some(text) => Ok(text),
            None => bind::bind::<S>(self.query, params),
        }
    }

    /// The text, unless something refuses.
    #[inline(always)]
    fn text<S: Search>(&self, params: &Params) -> Option<Vec<u8>> {
        if !self.fits {
            return None;
        }
        match params {
            Params::Named(values) if !self.names.is_empty() => {
                let values = self.names.iter().map(|name| values.get(*name));
                let values = values.collect::<Option<Vec<&Value>>>()?;
                self.written::<S>(|number| values[number])
            }
            Params::Positional(values) if self.names.is_empty() => {
                (values.len() == self.places.len()).then_some(())?;
                self.written::<S>(|number| &values[number])
            }
            Params::Empty if self.places.is_empty() => Some(self.query.to_vec()),
            _ => None,
        }
    }

    /// The query with the literals of these values, unless one is a float.
    #[inline(always)]
    fn written<'v, S: Search>(&self, value: impl Fn(usize) -> &'v Value) -> Option<Vec<u8>> {
        let literals = self.places.iter().map(|place| literal_room(value(place.value)));
        let mut text = Vec::with_capacity(self.piece_bytes + literals.sum::<usize>());
        let mut copied = 0;
        for place in &self.places {
            text.extend_from_slice(&self.query[copied..place.start]);
            append_literal::<S>(&mut text, value(place.value)).then_some(())?;
            copied = place.end;
        }
        text.extend_from_slice(&self.query[copied..]);
        Some(text)
    }
}
