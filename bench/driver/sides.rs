//! The sides that are timed.

use crate::archive;
use crate::archive_template::Template;
use crate::fragments;
use crate::inputs::{self, Binding, form_of, params_of};
use crate::memory;
use crate::time::{Input, Side};
use plain::room::{DONE, Report as Told};
use plain::{BindForm, Kind, Names, TABLE, WIDE};
use std::cell::RefCell;
use std::hint::black_box;
use std::process::ExitCode;
use std::time::{Duration, Instant};

/// The room that is lent to each call, longer than every answer.
const ROOM: usize = 8 << 20;
/// The archive and both kinds of plain Rust.
const OWN_SIDES: usize = 3;

/// The heads of a table of `names`: the call, and each side except the archive.
pub const PARSING: [&str; 4] = ["`names`", "table", "16 bytes", "upstream"];
/// The same of `bind`.
pub const BINDING: [&str; 5] = ["`bind`", "table", "16 bytes", "table, behind", "16 bytes, behind"];

/// The same of binding for any mode and any server, beside the archive's binding in a mode.
pub const ANYWHERE: [&str; 4] =
    ["`bind_anywhere`", "table", "table, behind", "the archive's `bind`"];

/// The same of binding by a template that was made before.
pub const BY_TEMPLATE: [&str; 6] = [
    "`bind` by a template",
    "table",
    "16 bytes",
    "table, behind",
    "16 bytes, behind",
    "`memcpy` of the query",
];

/// The archive and plain Rust, and upstream's parser if it is built in.
const NAMES: &[Names] = &[
    archive::names,
    TABLE.names,
    WIDE.names,
    #[cfg(upstream)]
    upstream_names,
];

/// Upstream's parser, and its answer written into the room as the others write theirs.
#[cfg(upstream)]
fn upstream_names(query: &[u8], room: &mut [u8]) -> (i32, Told) {
    const MIXED: i32 = 8;
    match upstream::ParsedNamedParams::parse(query) {
        Ok(parsed) => plain::room::fill_names(parsed.query(), parsed.params(), room),
        Err(_) => (MIXED, Told::default()),
    }
}

/// The length of an answer; a refusal ends the run.
fn answered((number, told): (i32, Told)) -> usize {
    assert_eq!(number, DONE, "{told:?}");
    told.len
}

/// Room for the answers of each side.
pub fn rooms() -> Vec<RefCell<Vec<u8>>> {
    NAMES.iter().map(|_| RefCell::new(vec![0; ROOM])).collect()
}

pub fn parsing<'a>(
    queries: &'a [(&'static str, Vec<u8>)],
    rooms: &'a [RefCell<Vec<u8>>],
) -> Vec<Input<'a>> {
    queries.iter().map(|(name, query)| parsing_input(name, query, rooms)).collect()
}

fn parsing_input<'a>(
    name: &'static str,
    query: &'a [u8],
    rooms: &'a [RefCell<Vec<u8>>],
) -> Input<'a> {
    let side = |(call, room): (&'a Names, &'a RefCell<Vec<u8>>)| -> Side<'a> {
        Box::new(move || answered(call(black_box(query), &mut room.borrow_mut())))
    };
    let sides: Vec<Side> = NAMES.iter().zip(rooms).map(side).collect();
    let lens: Vec<usize> = sides.iter().map(|side| side()).collect();
    let same = |side: usize| {
        lens[side] == lens[0] && rooms[side].borrow()[..lens[side]] == rooms[0].borrow()[..lens[0]]
    };
    assert!((0..OWN_SIDES).all(same), "another answer to {name}");
    // Upstream's grammar is not the same.
    let last_differs = !same(sides.len() - 1);
    Input { name, sides, last_differs }
}

/// Plain Rust: the making of the values, the call, and the text as a vector.
pub fn plain(kind: Kind, binding: &Binding) -> Vec<u8> {
    let params = params_of(black_box(&binding.given));
    (kind.bind)(black_box(&binding.query), &params).expect("a query that can be bound")
}

/// The making of the flat form, the call, and the text in lent room.
pub fn behind_calls(call: BindForm, binding: &Binding, room: &RefCell<Vec<u8>>) -> usize {
    let form = form_of(black_box(&binding.given));
    answered(call(black_box(&binding.query), &form, &mut room.borrow_mut()))
}

pub fn binding<'a>(bindings: &'a [Binding], rooms: &'a [RefCell<Vec<u8>>]) -> Vec<Input<'a>> {
    bindings.iter().map(|binding| binding_input(binding, rooms)).collect()
}

fn binding_input<'a>(binding: &'a Binding, rooms: &'a [RefCell<Vec<u8>>]) -> Input<'a> {
    let text = plain(TABLE, binding);
    assert!(plain(WIDE, binding) == text);
    for (call, room) in [archive::bind, TABLE.bind_form, WIDE.bind_form].into_iter().zip(rooms) {
        let len = behind_calls(call, binding, room);
        assert!(room.borrow()[..len] == text[..], "another text of {}", binding.name);
    }
    let sides: Vec<Side> = vec![
        Box::new(|| behind_calls(archive::bind, binding, &rooms[0])),
        Box::new(|| black_box(plain(TABLE, binding)).len()),
        Box::new(|| black_box(plain(WIDE, binding)).len()),
        Box::new(|| behind_calls(TABLE.bind_form, binding, &rooms[1])),
        Box::new(|| behind_calls(WIDE.bind_form, binding, &rooms[2])),
    ];
    Input { name: binding.name, sides, last_differs: false }
}

pub fn anywhere<'a>(bindings: &'a [Binding], rooms: &'a [RefCell<Vec<u8>>]) -> Vec<Input<'a>> {
    bindings.iter().map(|binding| anywhere_input(binding, rooms)).collect()
}

fn anywhere_input<'a>(binding: &'a Binding, rooms: &'a [RefCell<Vec<u8>>]) -> Input<'a> {
    let plain = || {
        let params = params_of(black_box(&binding.given));
        let text = (TABLE.bind_anywhere)(black_box(&binding.query), &params);
        text.expect("a query that can be bound")
    };
    let text = plain();
    for (call, room) in [archive::bind_anywhere, TABLE.bind_form_anywhere].into_iter().zip(rooms) {
        let len = behind_calls(call, binding, room);
        assert!(room.borrow()[..len] == text[..], "another text of {}", binding.name);
    }
    let sides: Vec<Side> = vec![
        Box::new(|| behind_calls(archive::bind_anywhere, binding, &rooms[0])),
        Box::new(move || black_box(plain()).len()),
        Box::new(|| behind_calls(TABLE.bind_form_anywhere, binding, &rooms[1])),
        Box::new(|| behind_calls(archive::bind, binding, &rooms[2])),
    ];
    Input { name: binding.name, sides, last_differs: false }
}

pub fn by_template<'a>(bindings: &'a [Binding], rooms: &'a [RefCell<Vec<u8>>]) -> Vec<Input<'a>> {
    bindings.iter().map(|binding| template_input(binding, rooms)).collect()
}

fn template_input<'a>(binding: &'a Binding, rooms: &'a [RefCell<Vec<u8>>]) -> Input<'a> {
    let query = binding.query.as_slice();
    let archive = Template::new(query, false);
    let of_archive: Side = Box::new(move || {
        let form = form_of(black_box(&binding.given));
        answered(black_box(&archive).bind(&form, &mut rooms[0].borrow_mut()))
    });
    let of_plain = |kind: Kind| -> Side<'a> {
        let template = (kind.template)(query);
        Box::new(move || {
            let params = params_of(black_box(&binding.given));
            let text = (kind.bind_template)(black_box(&template), &params);
            black_box(text.expect("a query that can be bound")).len()
        })
    };
    let behind_calls = |kind: Kind, room: &'a RefCell<Vec<u8>>| -> Side<'a> {
        let template = (kind.template)(query);
        Box::new(move || {
            let form = form_of(black_box(&binding.given));
            let room = &mut room.borrow_mut();
            answered((kind.bind_template_form)(black_box(&template), &form, room))
        })
    };
    let copy: Side = Box::new(move || {
        rooms[1].borrow_mut()[..query.len()].copy_from_slice(black_box(query));
        query.len()
    });
    let (table, wide) = (behind_calls(TABLE, &rooms[1]), behind_calls(WIDE, &rooms[2]));
    let sides = vec![of_archive, of_plain(TABLE), of_plain(WIDE), table, wide, copy];
    let text = plain(TABLE, binding);
    let lens: Vec<usize> = sides[..5].iter().map(|side| side()).collect();
    assert!(lens.iter().all(|len| *len == text.len()), "another length of {}", binding.name);
    for room in &rooms[..3] {
        assert!(room.borrow()[..text.len()] == text[..], "another text of {}", binding.name);
    }
    Input { name: binding.name, sides, last_differs: false }
}

/// Does a call once; gives the text, or the room with the answer at its front. The room is twice the
/// query.
pub fn answered_once(side: &str, call: &str, binding: &Binding) -> Vec<u8> {
    let room = RefCell::new(vec![0; 2 * binding.query.len()]);
    let names = |call: Names| answered(call(&binding.query, &mut room.borrow_mut()));
    match (side, call) {
        ("table", "bind") => return plain(TABLE, binding),
        ("wide", "bind") => return plain(WIDE, binding),
        ("archive", "bind") => behind_calls(archive::bind, binding, &room),
        ("table", "template") => return plain_by_template(TABLE, binding),
        ("wide", "template") => return plain_by_template(WIDE, binding),
        ("archive", "template") => {
            let call: BindForm = |query, form, room| Template::new(query, false).bind(form, room);
            behind_calls(call, binding, &room)
        }
        ("archive", "names") => names(archive::names),
        ("table", "names") => names(TABLE.names),
        ("wide", "names") => names(WIDE.names),
        _ => panic!("the sides are archive, table and wide; the calls bind, template and names"),
    };
    room.into_inner()
}

/// Plain Rust by a template that is made for this call alone.
fn plain_by_template(kind: Kind, binding: &Binding) -> Vec<u8> {
    let template = (kind.template)(&binding.query);
    let text = (kind.bind_template)(&template, &params_of(&binding.given));
    text.expect("a query that can be bound")
}

/// Does one call over and over, for two seconds.
pub fn repeat(side: &str, call: &str, input: &str) -> ExitCode {
    memory::keep_freed();
    let end = Instant::now() + Duration::from_secs(2);
    let room = RefCell::new(vec![0; ROOM]);
    let queries = inputs::queries();
    let bindings = inputs::bindings();
    let fragments = fragments::inputs();
    let given = fragments.iter().find(|given| given.name == input);
    let query = queries.iter().find(|query| query.0 == input);
    let binding = bindings.iter().find(|binding| binding.name == input);
    let side: Side = match (side, call, query, binding) {
        ("archive" | "table", "bind_fragments", ..) if given.is_some() => {
            let given = given.expect("it is some");
            let kind = TABLE.bind_fragment_form;
            let call = if side == "archive" { archive::bind_fragments } else { kind };
            Box::new(move || fragments::behind_calls(call, given, &room))
        }
        ("archive" | "table" | "wide", "names", Some((_, query)), _) => {
            let names = match side {
                "archive" => archive::names,
                "table" => TABLE.names,
                _ => WIDE.names,
            };
            Box::new(move || answered(names(black_box(query), &mut room.borrow_mut())))
        }
        ("archive", "bind", _, Some(binding)) => {
            Box::new(move || behind_calls(archive::bind, binding, &room))
        }
        ("archive", "bind_anywhere", _, Some(binding)) => {
            Box::new(move || behind_calls(archive::bind_anywhere, binding, &room))
        }
        ("table", "bind", _, Some(binding)) => {
            Box::new(move || black_box(plain(TABLE, binding)).len())
        }
        ("wide", "bind", _, Some(binding)) => {
            Box::new(move || black_box(plain(WIDE, binding)).len())
        }
        _ => {
            eprintln!("Sides: archive, table, wide");
            eprintln!("Inputs of names: {}", list(queries.iter().map(|query| query.0)));
            eprintln!("Inputs of bind and bind_anywhere: {}", list(bindings.iter().map(|binding| binding.name)));
            eprintln!("Inputs of bind_fragments: {}", list(fragments.iter().map(|given| given.name)));
            return ExitCode::from(2);
        }
    };
    while Instant::now() < end {
        for _ in 0..8 {
            black_box(side());
        }
    }
    ExitCode::SUCCESS
}

fn list<'a>(names: impl Iterator<Item = &'a str>) -> String {
    names.map(|name| format!("\"{name}\"")).collect::<Vec<_>>().join(", ")
}
