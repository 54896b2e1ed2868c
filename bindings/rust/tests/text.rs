//! Queries and texts that are `str`, rows that a closure makes, and what `Debug` shows of names. The texts are restated by hand
//! from docs/RULES.md.
use mysql_params::{
    Error, Fault, Fragment, Fragments, Item, Names, Params, RowError, Template, Value, bind,
    bind_anywhere_str, bind_form, bind_fragments_anywhere_str, bind_fragments_str,
    bind_fragments_str_in, bind_in_both_modes_str, bind_rows, names, params, row,
};
use std::time::Duration;

#[test]
fn texts_of_fragments() {
    let given = [
        ("ids", vec![1, 2].into()),
        ("name", "é\\".into()),
        ("t", Fragment::Identifier("größe")),
    ];
    let given = Fragments::Named(&given);
    let query = "SELECT 'ü' FROM :t WHERE id IN (:ids) OR name = :name";
    let escaped = bind_fragments_str(query, &given);
    let wanted = r"SELECT 'ü' FROM `größe` WHERE id IN (1, 2) OR name = 'é\\'";
    assert_eq!(escaped.as_deref(), Ok(wanted));
    let plain = bind_fragments_str_in(query, &given, true);
    let wanted = r"SELECT 'ü' FROM `größe` WHERE id IN (1, 2) OR name = 'é\'";
    assert_eq!(plain.as_deref(), Ok(wanted));
    let refused = bind_fragments_anywhere_str(query, &given);
    assert_eq!(refused, Err(Error::Unsteady { position: 8 }));
}

#[test]
fn steady_texts() {
    let params = params! { "Name" => "it's", "x" => "é" };
    let text = bind_anywhere_str(":Name, :x", &params);
    assert_eq!(text.as_deref(), Ok("_utf8mb4'it''s', _utf8mb4 0xC3A9"));
    let text = bind_in_both_modes_str("'ü', :x", &params);
    assert_eq!(text.as_deref(), Ok("'ü', _utf8mb4 0xC3A9"));
    let given = [vec!["it's"].into(), 0.5.into()];
    let text = bind_fragments_anywhere_str("IN (?) < ?", &Fragments::Positional(&given));
    assert_eq!(text.as_deref(), Ok("IN (_utf8mb4'it''s') < 0.5e0"));
    let mixed = Err(Error::Mixed);
    assert_eq!(bind_anywhere_str(":a ?", &params), mixed);
    assert_eq!(bind_in_both_modes_str(":a ?", &params), mixed);
}

/// What a program has, and the rows of it.
struct User {
    id: u32,
    name: String,
    email: Option<String>,
}

#[test]
fn rows_of_closures() -> Result<(), RowError> {
    let user = |id, name: &str, email: Option<&str>| User {
        id,
        name: name.to_string(),
        email: email.map(str::to_string),
    };
    let users = [user(7, "it's", None), user(8, "b", Some("b@example.org"))];
    let wanted = [&br"(7, 'it\'s', NULL)"[..], b"(8, 'b', 'b@example.org')"];
    let named = users.iter().map(|user| {
        let User { id, name, email } = user;
        row! { "id" => *id, "name" => name, "email" => email.as_deref() }
    });
    let texts = bind_rows(b"(:id, :name, :email)", named)?;
    assert!(texts.iter().eq(wanted));
    let ordered = users
        .iter()
        .map(|user| row![user.id, &user.name, user.email.as_deref()]);
    let template = Template::new(b"(?, ?, ?)").expect("a template");
    assert!(template.bind_rows(ordered)?.iter().eq(wanted));
    let lists = users.iter().map(|user| Vec::from(row! { "id" => user.id }));
    let texts = bind_rows(b"SELECT :id", lists)?;
    assert!(texts.iter().eq([b"SELECT 7", b"SELECT 8"]));
    let values: Vec<Vec<Value>> = vec![vec![1.into()], vec![2.into()]];
    let texts = bind_rows(b"SELECT ?", &values)?;
    assert!(texts.iter().eq([b"SELECT 1", b"SELECT 2"]));
    let slices: Vec<&[Value]> = values.iter().map(Vec::as_slice).collect();
    assert_eq!(bind_rows(b"SELECT ?", slices)?, texts);
    let none = bind_rows(b"SELECT 1", [row![], Params::Empty])?;
    assert!(none.iter().eq([b"SELECT 1", b"SELECT 1"]));
    Ok(())
}

#[test]
fn refused_row_of_a_closure() {
    let refused = bind_rows(b":a", ["a", "b"].map(|name| row! { name => 1 }));
    let refused = refused.expect_err("no value for `a`");
    assert_eq!(refused.row, 1);
    assert!(refused.texts.iter().eq([b"1"]));
}

#[test]
fn names_in_debug() -> Result<(), Error> {
    let missing = bind(b"SELECT :userId, :gr\xC3\xB6", &params! { "userId" => 1 });
    let wanted = r#"Missing { place: 1, position: 17, name: b"gr", word: Some(b"gr\xc3\xb6") }"#;
    assert_eq!(format!("{:?}", missing.expect_err("no value")), wanted);
    let params = params! { "userId" => 1, "userId" => 2 };
    let repeated = bind(b":userId", &params).expect_err("it is given twice");
    assert!(format!("{repeated:?}").ends_with(r#"name: b"userId" }"#));
    // The name has a quote and a byte that isn't UTF-8.
    let form = b"\x02\"\xFF\x06\x00\x02\"\xFF\x06\x00";
    let repeated = bind_form(b"?", form).expect_err("it is given twice");
    assert!(format!("{repeated:?}").ends_with(r#"name: b"\"\xff" }"#));
    let message = r"`:\x22\xff` is given twice";
    assert_eq!(repeated.to_string(), message);
    let found = names(b"SELECT :userId")?;
    let wanted = r#"Names { query: b"SELECT ?", names: ["userId"] }"#;
    assert_eq!(format!("{found:?}"), wanted);
    let Names { query, .. } = found;
    assert_eq!(query, b"SELECT ?");
    Ok(())
}

#[test]
fn what_messages_advise() {
    let advice = "for a name with a point write one place, and give an identifier of two names";
    for (query, position) in [("SELECT b.:c", 9), ("SELECT :c.b", 7)] {
        let error = bind(query.as_bytes(), &params! { "c" => 1 }).expect_err(query);
        let wanted = Error::NotAlone {
            place: 0,
            position,
            name: Some(b"c".to_vec().into()),
            neighbour: b'.',
            word: None,
            beside_point: true,
        };
        assert_eq!(error, wanted, "{query}");
        let message = format!("`:c` at byte {position} touches `.`: {advice}");
        assert_eq!(error.to_string(), message);
    }
    let given = [Fragment::Qualified(vec!["b", "c"])];
    let text = bind_fragments_str("SELECT ?", &Fragments::Positional(&given));
    assert_eq!(text.as_deref(), Ok("SELECT `b`.`c`"));
    let word = bind(b"SELECT b.:c\xC3\xA9", &params! { "c" => 1 }).expect_err("a letter");
    assert!(
        word.to_string()
            .ends_with(r"so `:c\xc3\xa9` ends after `c`")
    );

    let given = [("order", Fragment::Keyword("desc"))];
    let error = bind_fragments_str("ORDER BY a :order", &Fragments::Named(&given));
    let message =
        "The keyword for `:order` is none of those in capitals that Fragment::Keyword lists";
    assert_eq!(error.expect_err("it is no capital").to_string(), message);
}

#[test]
fn messages_of_faults() {
    let number = |text| Item::Decimal(text);
    for (fragment, message) in [
        (Fragment::List(vec![]), "The list for `:a` is empty"),
        (Fragment::Rows(vec![vec![]]), "Row 0 for `:a` is empty"),
        (
            Fragment::Decimal("1e5"),
            "The Decimal for `:a` is no exact number",
        ),
        (
            Fragment::List(vec![number("1"), number("x")]),
            "The Decimal in item 1 for `:a` is no exact number",
        ),
        (
            Fragment::Rows(vec![vec![number("1")], vec![number("")]]),
            "The Decimal in item 0 of row 1 for `:a` is no exact number",
        ),
        (Fragment::Identifier("a\0"), "Name 0 for `:a` has a byte 0"),
    ] {
        let error = bind_fragments_str(":a", &Fragments::Named(&[("a", fragment)]));
        assert_eq!(error.expect_err(message).to_string(), message);
    }
    assert_eq!(Fault::Empty.to_string(), "The list is empty");
    assert_eq!(
        Fault::LongName { part: 1 }.to_string(),
        "Name 1 has more than 64 characters"
    );
}

/// What holds values shows none where an error carries it, as `unwrap` prints it.
#[test]
fn debug_without_values() {
    let rows: [&[Value]; 2] = [&row!["secret"], &[]];
    let refused = bind_rows(b"?", rows).expect_err("no value");
    let wanted = "RowError { row: 1, error: MarkCount { marks: 1, values: 0 }, texts: Texts { count: 1, .. } }";
    assert_eq!(format!("{refused:?}"), wanted);
    let texts = refused.texts.iter();
    assert_eq!(format!("{texts:?}"), "TextsIter { count: 1, .. }");
    assert!(texts.eq([b"'secret'"]));
    let too_long = Value::try_from(Duration::MAX).expect_err("too long");
    assert_eq!(format!("{too_long:?}"), "DurationTooLong(..)");
}
