//! Names with capitals by each call. The texts are restated by hand from "Names with capitals" in docs/RULES.md.
use mysql_params::{
    Construct, Error, Fragment, Fragments, Params, Template, Unportable, bind, bind_anywhere,
    bind_form, bind_fragments, bind_fragments_anywhere, bind_in, bind_in_both_modes, bind_rows,
    bind_str, first_unportable, first_unportable_in_client, names, params,
};

/// A text as the calls give it.
fn text(text: &str) -> Result<Vec<u8>, Error> {
    Ok(text.as_bytes().to_vec())
}

#[test]
fn values() -> Result<(), Error> {
    let pairs = [("ID", 1.into()), ("Id", 2.into()), ("id", 3.into())];
    let params = Params::Named(&pairs);
    let told_apart = bind(b":id, :Id, :ID, ':ID', :id", &params);
    assert_eq!(told_apart, text("3, 2, 1, ':ID', 3"));
    let mode = bind_in(br"':Id\', :Id, ':Id'", &params, true);
    assert_eq!(mode, text(r"':Id\', 2, ':Id'"));
    let name = "it's";
    let query = "id = :userId AND name = :Name";
    let written = bind_str(query, &params! { "userId" => 42, "Name" => name })?;
    assert_eq!(written, r"id = 42 AND name = 'it\'s'");
    let pairs = [("Name", name.into()), ("userId", 42.into())];
    let anywhere = bind_anywhere(query.as_bytes(), &Params::Named(&pairs));
    assert_eq!(anywhere, text("id = 42 AND name = _utf8mb4'it''s'"));
    let both = bind_in_both_modes("ü = :Name".as_bytes(), &Params::Named(&pairs));
    assert_eq!(both, text("ü = _utf8mb4'it''s'"));
    // `userId` is NULL.
    assert_eq!(bind_form(b":userId", b"\x06userId\x06\x00"), text("NULL"));
    // No letter stands behind these colons.
    assert_eq!(bind(b"x: LOOP :1 :Id", &params), text("x: LOOP :1 2"));
    Ok(())
}

#[test]
fn fragments() {
    let given = [
        ("Table", Fragment::Qualified(vec!["shop", "users"])),
        ("userIds", vec![7, 8].into()),
        ("Direction", Fragment::Keyword("DESC")),
    ];
    let given = Fragments::Named(&given);
    let query = b"SELECT * FROM :Table WHERE id IN (:userIds) ORDER BY id :Direction";
    let wanted = text("SELECT * FROM `shop`.`users` WHERE id IN (7, 8) ORDER BY id DESC");
    assert_eq!(bind_fragments(query, &given), wanted);
    assert_eq!(bind_fragments_anywhere(query, &given), wanted);
}

#[test]
fn rows_and_templates() -> Result<(), Error> {
    let first = [("userId", 1.into()), ("Name", "a".into())];
    let second = [("Name", "b".into()), ("userId", 2.into())];
    let rows = [Params::Named(&first), Params::Named(&second)];
    let wanted = [b"(1, 'a')", b"(2, 'b')"];
    let query = b"(:userId, :Name)";
    let texts = bind_rows(query, rows).expect("two texts");
    assert!(texts.iter().eq(wanted));
    let template = Template::new(query)?;
    assert_eq!(template.bind(&rows[0])?, wanted[0]);
    assert!(
        template
            .bind_rows(rows)
            .expect("two texts")
            .iter()
            .eq(wanted)
    );
    let other = [("userID", 3.into()), ("Name", "c".into())];
    let rows = [rows[0], Params::Named(&other)];
    let refused = bind_rows(query, rows).expect_err("another name by its case");
    assert!(refused.texts.iter().eq([wanted[0]]));
    assert_eq!(refused.to_string(), "row 1: `:userId` has no value");
    Ok(())
}

#[test]
fn queries() -> Result<(), Error> {
    let found = names(b"SELECT :userId, ':A', :ID, :userId")?;
    assert_eq!(found.query, b"SELECT ?, ':A', ?, ?");
    assert_eq!(found.names, ["userId", "ID", "userId"]);
    assert_eq!(first_unportable(b"SELECT :userId")?, None);
    let hint = Unportable {
        construct: Construct::Hint,
        position: 7,
    };
    let query = b"SELECT /*+ SET_VAR(x=:A) */ 1";
    assert_eq!(first_unportable(query)?, Some(hint));
    assert_eq!(first_unportable_in_client(query)?, Some(hint));
    let steady = bind_anywhere(query, &params! { "A" => 1 });
    assert_eq!(steady, Err(Error::Unportable(hint)));
    Ok(())
}

#[test]
fn refusals() {
    let pairs = [("A", 1.into())];
    let params = Params::Named(&pairs);
    for (query, neighbour, shown) in [
        ("SELECT x:A", b'x', "x"),
        ("SELECT x::A", b':', ":"),
        ("SELECT é:A", 0xA9, r"\xa9"),
        ("SELECT 1 :A:A", b':', ":"),
        ("SELECT (:A\")", b'"', r"\x22"),
    ] {
        let position = query.find(":A").expect("a name");
        let error = bind(query.as_bytes(), &params).expect_err(query);
        let wanted = Error::NotAlone {
            place: 0,
            position,
            name: Some(b"A".to_vec().into()),
            neighbour,
            word: None,
            beside_point: false,
        };
        assert_eq!(error, wanted, "{query}");
        let message = format!("`:A` at byte {position} touches `{shown}`: put a space between");
        assert_eq!(error.to_string(), message);
    }
    assert_eq!(bind(b":A, ?", &params), Err(Error::Mixed));
    assert_eq!(names(b":A, ?"), Err(Error::Mixed));
    assert_eq!(
        bind(b":A", &Params::Positional(&[1.into()])),
        Err(Error::PositionalForNamed)
    );
}
