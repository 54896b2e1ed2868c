//! What Rust's refusals say beyond the cases: messages in Rust's own words, and what a place touches.

/// A text that stands between two others, and what follows.
fn between<'a>(message: &'a str, before: &str, after: &str) -> Option<(&'a str, &'a str)> {
    message.strip_prefix(before)?.split_once(after)
}

/// What Rust says of a message of a case that tells a place and what is wrong with its fragment.
fn of_fragment(message: &str) -> Option<String> {
    let (place, wrong) = between(message, "Fragment at place ", " ")?;
    let (wrong, of) = match wrong.split_once(": the value of ") {
        Some((wrong, name)) => (wrong, name.to_string()),
        None => (wrong, format!("place {place}")),
    };
    if let Some(wrong) = wrong.strip_prefix("has a name with ") {
        return Some(format!("A name for {of} has {wrong}"));
    }
    let wrong = wrong.strip_prefix("can't be written: ")?;
    if wrong == "it is empty" {
        return Some(format!("The list for {of} is empty"));
    }
    let mut words = wrong.splitn(3, ' ');
    let mut next = || words.next().expect("a word");
    let (subject, number, rest) = (next(), next(), next());
    let subject = match subject {
        "row" => "Row",
        "name" => "Name",
        _ => panic!("{message}: unknown in Rust"),
    };
    Some(format!("{subject} {number} for {of} {rest}"))
}

/// What Rust says of a message of a case that tells a float.
fn of_float(message: &str) -> Option<String> {
    let (place, to_do) = between(message, "Float at ", "; ")?;
    let of = place
        .split_once(": the value of ")
        .map_or(place, |(_, name)| name);
    Some(format!(
        "The value for {of} is a float that isn't written: {to_do}"
    ))
}

/// What Rust says of a message of a case that tells what is wrong with names and marks.
fn of_names(message: &str) -> Option<String> {
    const WITHOUT: &str =
        "The values have names, and the query has no `:name` outside of strings and comments";
    if let Some((name, more)) = between(message, "Missing named parameter `", "` for statement") {
        return Some(format!("`:{name}` has no value{more}"));
    }
    if let Some(name) = message.strip_prefix("Redefinition of named parameter `") {
        return Some(format!("`:{}` is given twice", name.strip_suffix('\'')?));
    }
    if let Some((marks, values)) = between(message, "Query has ", " marks and ") {
        return Some(format!("The query has {marks} `?`, and {values} are given"));
    }
    let given = "Named params given where positional params are expected";
    if let Some(more) = message.strip_prefix(given) {
        let is_alphabet = more.starts_with(": names are of ");
        return Some(format!("{WITHOUT}{}", if is_alphabet { more } else { "" }));
    }
    Some(match message {
        "Named and positional params in one query" => {
            "The query has both `:name` and `?`: write one of them".to_string()
        }
        "Positional params given where named params are expected" => {
            r#"The query has names: give the values by name, as params! { "id" => 42 }"#.to_string()
        }
        _ => return None,
    })
}

/// What Rust says of a query of a case whose place doesn't stand alone.
fn of_place(message: &str, query: &str) -> Option<String> {
    let told = match query {
        _ if !message.contains(" does not stand alone") => return None,
        "1?" => "`?` at byte 1 touches `1`: put a space between",
        "?A" => "`?` at byte 0 touches `A`: put a space between",
        ":abc, x:b" => "`:b` at byte 7 touches `x`: put a space between",
        "SELECT 'a\\':b" => "`:b` at byte 11 touches `'`: put a space between",
        "lbl:LOOP" => "`:LOOP` at byte 3 touches `l`: put a space between",
        "SELECT :Größe" => {
            r"`:Gr` at byte 7 touches `\xc3`: names are of ASCII letters, digits and _, so `:Gr\xc3\xb6\xc3\x9fe` ends after `Gr`"
        }
        _ => panic!("{query}: it isn't known what its place touches"),
    };
    Some(told.to_string())
}

/// The message of a case as Rust says it.
pub fn in_rust(message: &str, query: &str) -> String {
    let own = of_place(message, query).or_else(|| of_fragment(message));
    let own = own
        .or_else(|| of_float(message))
        .or_else(|| of_names(message));
    own.unwrap_or_else(|| message.to_string())
}

/// The name of the place of a query that doesn't stand alone, and the byte that it touches.
pub fn touched(query: &str) -> (Option<&'static str>, u8) {
    match query {
        "1?" | "SELECT 1?" | "UPDATE t SET 1?" => (None, b'1'),
        "?A" => (None, b'A'),
        "? ?x" => (None, b'x'),
        "SELECT ü?" => (None, 0xBC),
        "::b" => (Some("b"), b':'),
        ":abc, x:b" => (Some("b"), b'x'),
        "SELECT 'a\\':b" => (Some("b"), b'\''),
        "SELECT x:A" => (Some("A"), b'x'),
        "lbl:LOOP" => (Some("LOOP"), b'l'),
        "SELECT x::Text" => (Some("Text"), b':'),
        "SELECT :A:B" => (Some("A"), b':'),
        "SELECT :Größe" => (Some("Gr"), 0xC3),
        _ => panic!("{query}: it isn't known what its place touches"),
    }
}
