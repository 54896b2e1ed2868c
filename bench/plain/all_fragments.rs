//! Fragments of every kind, in the places of any query, after docs/RULES.md, "Fragments" and
//! "Answers in the caller's room". They are compared, and not timed: `fragments.rs` is for one list
//! or rows.

use crate::bind::{BindError, Name, is_steady, refuse_unsteady_or_unportable, stands_alone};
use crate::brackets::{Implicit, first_unbracketed};
use crate::form::{FormError, Rest};
use crate::query::next_place;
use crate::room::{
    FAULT, Report, UNBRACKETED, UNSTEADY_FRAGMENT, bind_answer, fill_text, form_answer,
};
use crate::search::Search;
use crate::value::{
    Value, append_double, append_guarded_literal, append_literal, append_steady_literal,
    finite_double,
};

pub const DECIMAL: u8 = 128;
pub const LIST: u8 = 129;
pub const ROWS: u8 = 130;
pub const IDENTIFIER: u8 = 131;
pub const QUALIFIED: u8 = 132;
pub const KEYWORD: u8 = 133;
pub const IDENTIFIERS: u8 = 134;
pub const ASSIGNMENTS: u8 = 135;
pub const IMPLICIT_LIST: u8 = 136;
pub const IMPLICIT_ROWS: u8 = 137;

/// The keywords that bindings/c/mysql_params.h lists.
pub const KEYWORDS: [&str; 33] = [
    "ASC",
    "DESC",
    "ALL",
    "DISTINCT",
    "AND",
    "OR",
    "XOR",
    "NOT",
    "NULL",
    "IS NULL",
    "IS NOT NULL",
    "DEFAULT",
    "TRUE",
    "FALSE",
    "LIKE",
    "NOT LIKE",
    "MICROSECOND",
    "SECOND",
    "MINUTE",
    "HOUR",
    "DAY",
    "WEEK",
    "MONTH",
    "QUARTER",
    "YEAR",
    "LEFT",
    "RIGHT",
    "INNER",
    "CROSS",
    "UNION",
    "UNION ALL",
    "FOR UPDATE",
    "LOCK IN SHARE MODE",
];

/// What stands alone, in a list or a row, or is assigned.
#[derive(Clone, Debug, PartialEq)]
pub enum Item {
    Value(Value),
    /// An exact number, as its text.
    Decimal(Vec<u8>),
}

/// What stands in a place.
#[derive(Clone, Debug, PartialEq)]
pub enum Fragment {
    One(Item),
    List(Vec<Item>),
    Rows(Vec<Vec<Item>>),
    /// The same, which the program didn't say are such.
    ImplicitList(Vec<Item>),
    ImplicitRows(Vec<Vec<Item>>),
    /// A name, or names of which each has the next.
    Names(Names),
    Keyword(Vec<u8>),
    Identifiers(Vec<Names>),
    /// Columns, and what they are set to.
    Assignments(Vec<(Names, Item)>),
}

/// The names of an identifier, of which each has the next.
pub type Names = Vec<Vec<u8>>;

/// The names of a fault, from 1.
pub const FAULTS: [&str; 10] = [
    "EMPTY",
    "EMPTY_ROW",
    "ROW_LENGTH",
    "NUMBER",
    "EMPTY_NAME",
    "ZERO_BYTE",
    "LONG_NAME",
    "TRAILING_SPACE",
    "KEYWORD",
    "BACKSLASH",
];

const EMPTY: usize = 1;
const EMPTY_ROW: usize = 2;
const ROW_LENGTH: usize = 3;
const NUMBER: usize = 4;
const EMPTY_NAME: usize = 5;
const ZERO_BYTE: usize = 6;
const LONG_NAME: usize = 7;
const TRAILING_SPACE: usize = 8;
const NO_KEYWORD: usize = 9;
const BACKSLASH: usize = 10;

/// A fault: its number, its row, and its item or name.
type Fault = (usize, usize, usize);

/// Fragments by their names, or in order, with empty names.
pub type Given = Vec<(Vec<u8>, Fragment)>;

/// The number and the report of a refusal.
pub type Refusal = (i32, Report);

/// Binds what a form says, and copies the text into the room.
pub fn bind_form<S: Search>(query: &[u8], form: &[u8], room: &mut [u8]) -> (i32, Report) {
    answer(read(form).and_then(|given| bind::<S>(query, &given)), room)
}

/// The same for any server.
pub fn bind_form_anywhere<S: Search>(query: &[u8], form: &[u8], room: &mut [u8]) -> (i32, Report) {
    answer(read(form).and_then(|given| bind_anywhere::<S>(query, &given)), room)
}

/// The same with guarded literals.
pub fn bind_form_guarded<S: Search>(query: &[u8], form: &[u8], room: &mut [u8]) -> (i32, Report) {
    answer(read(form).and_then(|given| bind_guarded::<S>(query, &given)), room)
}

fn answer(text: Result<Vec<u8>, Refusal>, room: &mut [u8]) -> (i32, Report) {
    match text {
        Ok(text) => fill_text(&text, room),
        Err(refusal) => refusal,
    }
}

/// The fragments of a form, or the first refusal.
pub fn read(form: &[u8]) -> Result<Given, Refusal> {
    let mut rest = Rest { form, at: 0 };
    let mut given = Given::new();
    while rest.at < form.len() {
        let (number, start) = (given.len(), rest.at);
        match read_next(&mut rest, &given) {
            Ok(next) => given.push(next),
            Err(error) => return Err(form_answer(&error, number, start)),
        }
    }
    Ok(given)
}

/// The name and the fragment after those that were read.
fn read_next(rest: &mut Rest, given: &Given) -> Result<(Vec<u8>, Fragment), FormError> {
    let name = rest.string()?;
    if given.first().is_some_and(|(first, _)| first.is_empty() != name.is_empty()) {
        return Err(FormError::Mixed);
    }
    if !name.is_empty() && given.iter().any(|(earlier, _)| earlier == name) {
        return Err(FormError::Repeated(rest.at - name.len(), name.len()));
    }
    Ok((name.to_vec(), read_fragment(rest)?))
}

fn read_fragment(rest: &mut Rest) -> Result<Fragment, FormError> {
    let column = match rest.form.get(rest.at) {
        Some(column @ LIST..=IMPLICIT_ROWS) => *column,
        _ => return Ok(Fragment::One(read_item(rest)?)),
    };
    let _type_and_flags = rest.number(2)?;
    Ok(match column {
        LIST => Fragment::List(read_items(rest)?),
        ROWS => Fragment::Rows(counted(rest, read_items)?),
        IMPLICIT_LIST => Fragment::ImplicitList(read_items(rest)?),
        IMPLICIT_ROWS => Fragment::ImplicitRows(counted(rest, read_items)?),
        IDENTIFIER => Fragment::Names(vec![text(rest)?]),
        QUALIFIED => Fragment::Names(read_names(rest)?),
        KEYWORD => Fragment::Keyword(text(rest)?),
        IDENTIFIERS => Fragment::Identifiers(counted(rest, read_names)?),
        _ => {
            let assignment = |rest: &mut Rest| Ok((read_names(rest)?, read_item(rest)?));
            Fragment::Assignments(counted(rest, assignment)?)
        }
    })
}

fn read_items(rest: &mut Rest) -> Result<Vec<Item>, FormError> {
    counted(rest, read_item)
}

fn read_item(rest: &mut Rest) -> Result<Item, FormError> {
    if rest.form.get(rest.at) != Some(&DECIMAL) {
        return Ok(Item::Value(rest.value()?));
    }
    let _type_and_flags = rest.number(2)?;
    Ok(Item::Decimal(text(rest)?))
}

fn read_names(rest: &mut Rest) -> Result<Names, FormError> {
    counted(rest, text)
}

fn text(rest: &mut Rest) -> Result<Vec<u8>, FormError> {
    Ok(rest.string()?.to_vec())
}

/// A count, and so many things.
fn counted<T>(
    rest: &mut Rest,
    read: impl Fn(&mut Rest) -> Result<T, FormError>,
) -> Result<Vec<T>, FormError> {
    let count = rest.number(4)?;
    (0..count).map(|_| read(rest)).collect()
}

/// The text of a query with fragments.
pub fn bind<S: Search>(query: &[u8], given: &Given) -> Result<Vec<u8>, Refusal> {
    let placed = placed::<S>(query, given)?;
    Ok(written(query, &placed, append_literal::<S>))
}

/// The steady text of a query with fragments.
pub fn bind_anywhere<S: Search>(query: &[u8], given: &Given) -> Result<Vec<u8>, Refusal> {
    let placed = steadily_placed::<S>(query, given)?;
    Ok(written(query, &placed, append_steady_literal::<S>))
}

/// The guarded text of a query with fragments.
pub fn bind_guarded<S: Search>(query: &[u8], given: &Given) -> Result<Vec<u8>, Refusal> {
    let placed = steadily_placed::<S>(query, given)?;
    Ok(written(query, &placed, append_guarded_literal::<S>))
}

/// The places of a query for any server, each with its fragment, whose names are steady.
fn steadily_placed<'f, S: Search>(
    query: &[u8],
    given: &'f Given,
) -> Result<Vec<(Place, &'f Fragment)>, Refusal> {
    refuse_unsteady_or_unportable::<S>(query).map_err(|error| bind_answer(&error))?;
    let placed = placed::<S>(query, given)?;
    let is_unsteady = |fragment: &Fragment| {
        names(fragment).into_iter().flatten().flatten().any(|byte| !is_steady(*byte))
    };
    if let Some(place) = placed.iter().position(|(_, fragment)| is_unsteady(fragment)) {
        return Err((UNSTEADY_FRAGMENT, Report { place, ..Report::default() }));
    }
    Ok(placed)
}

/// Start and end of a place.
type Place = (usize, usize);

/// The places of a query, each with its fragment, or the first cause that refuses them.
fn placed<'f, S: Search>(
    query: &[u8],
    given: &'f Given,
) -> Result<Vec<(Place, &'f Fragment)>, Refusal> {
    let mut places = Vec::new();
    while let Some(place) = next_place::<S>(query, places.last().map_or(0, |(_, end)| *end)) {
        places.push(place);
    }
    let placed = fragments_of(query, &places, given).map_err(|error| bind_answer(&error))?;
    let has_neighbour = |(start, end): &Place| !stands_alone(query, *start, *end);
    if let Some(place) = places.iter().position(has_neighbour) {
        return Err(bind_answer(&BindError::NotAlone { place, position: places[place].0 }));
    }
    let implicit: Vec<Implicit> = placed.iter().map(|fragment| implicit(fragment)).collect();
    if let Some((place, position)) = first_unbracketed::<S>(query, &implicit) {
        return Err((UNBRACKETED, Report { place, position, ..Report::default() }));
    }
    if let Some(place) = placed.iter().position(|fragment| has_float(fragment)) {
        return Err(bind_answer(&BindError::Float { place }));
    }
    for (place, fragment) in placed.iter().enumerate() {
        if let Some((byte, position, values)) = fault(fragment) {
            return Err((FAULT, Report { place, position, values, byte, ..Report::default() }));
        }
    }
    Ok(places.into_iter().zip(placed).collect())
}

/// The fragment of each place.
fn fragments_of<'f>(
    query: &[u8],
    places: &[Place],
    given: &'f Given,
) -> Result<Vec<&'f Fragment>, BindError> {
    let marks = places.iter().filter(|(start, end)| end - start == 1).count();
    let by_name = given.first().is_some_and(|(name, _)| !name.is_empty());
    if marks > 0 && marks < places.len() {
        return Err(BindError::Mixed);
    }
    if marks == places.len() {
        return match given.len() {
            _ if by_name => Err(BindError::NamedForPositional),
            values if values != marks => Err(BindError::MarkCount { marks, values }),
            _ => Ok(given.iter().map(|(_, fragment)| fragment).collect()),
        };
    }
    if !by_name {
        return Err(BindError::PositionalForNamed);
    }
    let fragment = |(place, (start, end)): (usize, &Place)| {
        let name = Name { place, start: start + 1, end: *end };
        let found = given.iter().find(|(given, _)| *given == query[name.start..name.end]);
        found.map(|(_, fragment)| fragment).ok_or(BindError::Missing(name))
    };
    places.iter().enumerate().map(fragment).collect()
}

fn implicit(fragment: &Fragment) -> Implicit {
    match fragment {
        Fragment::ImplicitList(_) => Implicit::List,
        Fragment::ImplicitRows(_) => Implicit::Rows,
        _ => Implicit::No,
    }
}

fn items(fragment: &Fragment) -> Vec<&Item> {
    match fragment {
        Fragment::One(item) => vec![item],
        Fragment::List(items) | Fragment::ImplicitList(items) => items.iter().collect(),
        Fragment::Rows(rows) | Fragment::ImplicitRows(rows) => rows.iter().flatten().collect(),
        Fragment::Assignments(assignments) => assignments.iter().map(|(_, item)| item).collect(),
        Fragment::Names(_) | Fragment::Keyword(_) | Fragment::Identifiers(_) => Vec::new(),
    }
}

/// The names of each identifier of a fragment.
fn names(fragment: &Fragment) -> Vec<&Names> {
    match fragment {
        Fragment::Names(names) => vec![names],
        Fragment::Identifiers(identifiers) => identifiers.iter().collect(),
        Fragment::Assignments(assignments) => assignments.iter().map(|(names, _)| names).collect(),
        _ => Vec::new(),
    }
}

/// Whether a value is a NaN or an infinity.
fn has_float(fragment: &Fragment) -> bool {
    let is_float = |item: &&Item| match item {
        Item::Value(value @ (Value::Float(_) | Value::Double(_))) => finite_double(value).is_none(),
        _ => false,
    };
    items(fragment).iter().any(is_float)
}

/// The first fault of a fragment, by rows, items and names.
fn fault(fragment: &Fragment) -> Option<Fault> {
    match fragment {
        Fragment::One(item) => items_fault(0, std::slice::from_ref(item)),
        Fragment::List(items) | Fragment::ImplicitList(items) if items.is_empty() => Some((EMPTY, 0, 0)),
        Fragment::List(items) | Fragment::ImplicitList(items) => items_fault(0, items),
        Fragment::Rows(rows) | Fragment::ImplicitRows(rows) => match rows.first() {
            None => Some((EMPTY, 0, 0)),
            Some(first) => {
                let mut rows = rows.iter().enumerate();
                rows.find_map(|(row, items)| row_fault(row, items, first.len()))
            }
        },
        Fragment::Names(names) => names_fault(0, names),
        Fragment::Keyword(keyword) => {
            let is_listed = KEYWORDS.iter().any(|listed| listed.as_bytes() == keyword);
            (!is_listed).then_some((NO_KEYWORD, 0, 0))
        }
        Fragment::Identifiers(_) | Fragment::Assignments(_) => columns_fault(fragment),
    }
}

/// The first fault of identifiers or assignments, of each its column's and then its item's. Names
/// are counted through all columns.
fn columns_fault(fragment: &Fragment) -> Option<Fault> {
    let (columns, items) = (names(fragment), items(fragment));
    if columns.is_empty() {
        return Some((EMPTY, 0, 0));
    }
    columns.iter().enumerate().find_map(|(number, column)| {
        let before = columns[..number].iter().map(|earlier| earlier.len()).sum();
        let is_faulty = items.get(number).is_some_and(|item| has_number_fault(item));
        names_fault(before, column).or(is_faulty.then_some((NUMBER, 0, number)))
    })
}

/// The first fault of an identifier, of which the first name has this number in the fragment.
fn names_fault(number: usize, names: &Names) -> Option<Fault> {
    if names.is_empty() {
        return Some((EMPTY, 0, 0));
    }
    (number..).zip(names).find_map(name_fault)
}

fn row_fault(row: usize, items: &[Item], width: usize) -> Option<Fault> {
    if items.is_empty() {
        return Some((EMPTY_ROW, row, 0));
    }
    if items.len() != width {
        return Some((ROW_LENGTH, row, 0));
    }
    items_fault(row, items)
}

fn items_fault(row: usize, items: &[Item]) -> Option<Fault> {
    items.iter().position(has_number_fault).map(|item| (NUMBER, row, item))
}

fn has_number_fault(item: &Item) -> bool {
    matches!(item, Item::Decimal(text) if !is_decimal(text))
}

/// Whether a text has at most one `-`, and then at most 65 digits with at most one point between
/// them.
fn is_decimal(text: &[u8]) -> bool {
    let digits = text.strip_prefix(b"-").unwrap_or(text);
    let parts: Vec<&[u8]> = digits.split(|byte| *byte == b'.').collect();
    let is_number = |part: &&[u8]| !part.is_empty() && part.iter().all(u8::is_ascii_digit);
    parts.len() <= 2 && parts.iter().all(is_number) && parts.concat().len() <= 65
}

fn name_fault((number, name): (usize, &Vec<u8>)) -> Option<Fault> {
    let characters = name.iter().filter(|byte| !matches!(byte, 0x80..=0xBF)).count();
    let fault = match name.last() {
        None => EMPTY_NAME,
        _ if name.contains(&0) => ZERO_BYTE,
        _ if characters > 64 => LONG_NAME,
        Some(b' ') => TRAILING_SPACE,
        Some(b'\\') => BACKSLASH,
        _ if name.windows(2).any(|two| two == b"\\`") => BACKSLASH,
        _ => return None,
    };
    Some((fault, 0, number))
}

/// The query with the texts of these fragments, of which nothing refuses one.
fn written(
    query: &[u8],
    placed: &[(Place, &Fragment)],
    append: impl Fn(&mut Vec<u8>, &Value) -> bool,
) -> Vec<u8> {
    let item = |item: &Item| match item {
        Item::Value(value) => {
            let mut text = Vec::new();
            match finite_double(value) {
                Some(double) => append_number(&mut text, double),
                None => assert!(append(&mut text, value), "a float"),
            }
            text
        }
        Item::Decimal(text) => text.clone(),
    };
    let row = |items: &Vec<Item>| items.iter().map(item).collect::<Vec<_>>().join(&b", "[..]);
    let mut text = Vec::new();
    let mut copied = 0;
    for ((start, end), fragment) in placed {
        text.extend_from_slice(&query[copied..*start]);
        text.extend(match fragment {
            Fragment::One(one) => item(one),
            Fragment::List(items) | Fragment::ImplicitList(items) => row(items),
            Fragment::Rows(rows) | Fragment::ImplicitRows(rows) => {
                let rows = rows.iter().map(|items| [b"(", &row(items)[..], b")"].concat());
                rows.collect::<Vec<_>>().join(&b", "[..])
            }
            Fragment::Names(names) => identifier(names),
            Fragment::Keyword(keyword) => keyword.clone(),
            Fragment::Identifiers(identifiers) => {
                identifiers.iter().map(identifier).collect::<Vec<_>>().join(&b", "[..])
            }
            Fragment::Assignments(assignments) => {
                let assignments = assignments
                    .iter()
                    .map(|(names, assigned)| [identifier(names), item(assigned)].join(&b" = "[..]));
                assignments.collect::<Vec<_>>().join(&b", "[..])
            }
        });
        copied = *end;
    }
    text.extend_from_slice(&query[copied..]);
    text
}

/// Appends the number of a finite double, as `append_double` does; of two numbers that are as near to it the one whose last
/// digit is even, where that takes the other.
fn append_number(text: &mut Vec<u8>, double: f64) {
    let shortest = format!("{double:e}");
    let count = shortest.split('e').next().map_or(0, |front| front.bytes().filter(u8::is_ascii_digit).count());
    let even = format!("{double:.*e}", count - 1);
    if even == shortest {
        return append_double(text, double);
    }
    assert_eq!(even.parse(), Ok(double), "another double");
    let mut written = Vec::new();
    append_double(&mut written, double);
    let digits = |text: &[u8]| -> Vec<u8> { text.iter().copied().filter(u8::is_ascii_digit).collect() };
    let (mut last, exact) = (digits(shortest.as_bytes()), digits(even.as_bytes()));
    last.truncate(count);
    // Only the last digit differs, and it is the last one before the exponent.
    assert_eq!(last[..count - 1], exact[..count - 1]);
    let end = written.iter().position(|byte| *byte == b'e').expect("an exponent");
    written[end - 1] = exact[count - 1];
    text.extend(written);
}

/// Names in backquotes, with points between them.
fn identifier(names: &Names) -> Vec<u8> {
    names.iter().map(|name| quoted(name)).collect::<Vec<_>>().join(&b"."[..])
}

/// A name in backquotes, each in it doubled.
fn quoted(name: &[u8]) -> Vec<u8> {
    let doubled = name.split(|byte| *byte == b'`').collect::<Vec<_>>().join(&b"``"[..]);
    [b"`", &doubled[..], b"`"].concat()
}
