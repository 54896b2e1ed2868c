//! Tests of what the public calls don't show: the room lent, whole reports, and numbers that come by fault alone.
use crate::archive::{Call, DONE, ROOM, Reader, Report, first_construct, unportable, written};
use crate::form::form_of_fragments;
use crate::{
    Column, Construct, Error, Fragment, Fragments, Item, Params, Unportable, Value, bind, names,
};

/// What a byte of the room holds before a call.
const UNTOUCHED: u8 = 0xA5;

/// Room too long by five bytes, exact, too short by one, and none.
fn has_answer(call: Call<'_>, answer: &[u8]) {
    let len = answer.len();
    for room_len in [len + 5, len, len.saturating_sub(1), 0] {
        let mut room = vec![UNTOUCHED; room_len];
        let (number, report) = call.answer(false, &mut room);
        assert_eq!(
            report,
            Report {
                len,
                ..Report::default()
            },
            "{call:?}, room {room_len}"
        );
        let written = if room_len < len { 0 } else { len };
        assert_eq!(
            number,
            if room_len < len { ROOM } else { DONE },
            "{call:?}, room {room_len}"
        );
        assert_eq!(
            room[..written],
            answer[..written],
            "{call:?}, room {room_len}"
        );
        assert!(
            room[written..].iter().all(|byte| *byte == UNTOUCHED),
            "{call:?}, room {room_len}"
        );
    }
}

#[test]
fn rooms_for_texts() {
    has_answer(
        Call::Bind {
            query: b"",
            form: b"",
        },
        b"",
    );
    has_answer(
        Call::Bind {
            query: b"SELECT 1",
            form: b"",
        },
        b"SELECT 1",
    );
    has_answer(
        Call::Bind {
            query: b"?",
            form: b"\x00\xFD\x00\x01'",
        },
        br"'\''",
    );
    has_answer(
        Call::Bind {
            query: b":a, :a",
            form: b"\x01a\x06\x00",
        },
        b"NULL, NULL",
    );
}

#[test]
fn rooms_for_names() {
    has_answer(Call::Names { query: b"" }, b"\x00");
    has_answer(Call::Names { query: b":a+:b" }, b"\x03?+?\x01a\x01b");
}

/// The refusal leaves the room as it was.
fn is_refused(query: &[u8], form: &[u8], wanted: (i32, Report)) {
    let mut room = [UNTOUCHED; 32];
    let answer = Call::Bind { query, form }.answer(false, &mut room);
    assert_eq!(answer, wanted, "{query:?}");
    assert_eq!(room, [UNTOUCHED; 32], "{query:?}");
}

#[test]
fn refusals_leave_the_room() {
    is_refused(b"? :a", b"", (8, Report::default()));
    let missing = Report {
        len: 3,
        position: 4,
        ..Report::default()
    };
    is_refused(b"x, :abc", b"", (9, missing));
    let lead = Report {
        place: 1,
        position: 3,
        byte: 251,
        ..Report::default()
    };
    is_refused(b"?", b"\x00\x06\x00\xFB", (4, lead));
}

#[test]
fn texts_longer_than_the_first_room() {
    let value = vec![b'\''; 300];
    let query = vec![":a"; 100].join(",");
    let literal = format!("'{}'", "\\'".repeat(300));
    let text = bind(
        query.as_bytes(),
        &Params::Named(&[("a", Value::Bytes(&value))]),
    );
    assert_eq!(text, Ok(vec![literal; 100].join(",").into_bytes()));
}

#[test]
fn names_longer_than_the_first_room() {
    let query = vec![":a"; 1000].join(",");
    let answer = names(query.as_bytes()).expect("a query with names alone");
    assert_eq!(answer.query, vec!["?"; 1000].join(",").into_bytes());
    assert_eq!(answer.names, vec!["a"; 1000]);
}

#[test]
fn first_rooms_that_find_no_memory() {
    let bound = Call::Bind {
        query: b":a, :a",
        form: b"\x01a\x06\x00",
    };
    let empty = Call::Bind {
        query: b"",
        form: b"",
    };
    let found = Call::Names { query: b":a+:b" };
    for (call, answer) in [
        (bound, &b"NULL, NULL"[..]),
        (empty, b""),
        (found, b"\x03?+?\x01a\x01b"),
    ] {
        let whole = call.whole_answer(false, usize::MAX);
        assert_eq!(whole, Ok(answer.to_vec()), "{call:?}");
    }
}

#[test]
fn numbers_that_come_by_fault_alone() {
    let call = Call::Bind {
        query: b":a",
        form: b"",
    };
    let none = Report::default();
    assert_eq!(call.error(1, &none), Error::OutOfMemory);
    assert_eq!(call.error(1, &none).to_string(), "out of memory");
    assert_eq!(call.error(1, &none).number(), Some(1));
    assert_eq!(call.error(17, &none).number(), Some(17));
    assert_eq!(Error::Processor.number(), None);
    assert_eq!(
        Error::Processor.to_string(),
        "the processor lacks a feature of x86-64-v2"
    );
    // 16 tells a construct, and 0 is the number of none.
    for number in [-1, 0, 2, 16, 17, i32::MAX, i32::MIN] {
        assert_eq!(call.error(number, &none), Error::UnknownAnswer { number });
    }
    assert_eq!(
        call.error(17, &none).to_string(),
        "Unknown answer 17 of the archive"
    );
    // A name outside the query, and bytes that are none.
    for (len, position) in [(3, 0), (1, 2), (usize::MAX, 1), (1, usize::MAX)] {
        let report = Report {
            len,
            position,
            ..none
        };
        assert_eq!(call.error(9, &report), Error::UnknownAnswer { number: 9 });
        assert_eq!(call.error(7, &report), Error::UnknownAnswer { number: 7 });
    }
    let report = Report { byte: 256, ..none };
    assert_eq!(call.error(4, &report), Error::UnknownAnswer { number: 4 });
    assert_eq!(call.error(5, &report), Error::UnknownAnswer { number: 5 });
}

#[test]
fn answers_longer_than_the_room() {
    let report = |len| Report {
        len,
        ..Report::default()
    };
    for len in [0, 1, 3] {
        assert_eq!(written(vec![7; 3], &report(len)), Ok(vec![7; len]));
    }
    for len in [4, usize::MAX] {
        let unknown = Err(Error::UnknownAnswer { number: DONE });
        assert_eq!(written(vec![7; 3], &report(len)), unknown);
    }
}

#[test]
fn words_at_the_ends_of_queries() {
    use crate::words::{
        is_beside_point, name_of_place, neighbour, word_at, word_of_place, word_without_name,
    };
    assert_eq!(word_at(b":A\xE9", 1), Some(&b"A\xE9"[..]));
    assert_eq!(word_at(b":A\xE9", 2), Some(&b"\xE9"[..]));
    for begin in [0, 3, 4, usize::MAX] {
        assert_eq!(word_at(b":A\xE9", begin), None);
        assert_eq!(word_of_place(b":aB", begin), None);
    }
    for (query, position, name, touched) in [
        ("x:aB", 1, Some("aB"), b'x'),
        ("(:a_9(", 1, Some("a_9"), b'('),
        ("1? ", 1, None, b'1'),
        ("?x", 0, None, b'x'),
        (" ?", 1, None, 0),
        ("", 0, None, 0),
        ("?", usize::MAX, None, 0),
    ] {
        assert_eq!(
            name_of_place(query.as_bytes(), position),
            name.map(str::as_bytes),
            "{query}"
        );
        assert_eq!(neighbour(query.as_bytes(), position), touched, "{query}");
    }
    assert_eq!(word_of_place(b":a\xE9B", 0), Some(&b"a\xE9B"[..]));
    assert_eq!(word_of_place(b"?a\xE9", 0), None);
    assert_eq!(word_of_place(b":", 0), None);
    assert_eq!(word_without_name(b"::aB\xE9 :1 :B :"), None);
    assert_eq!(word_without_name(b":A :\xE9 :\xC9"), Some(&b"\xE9"[..]));
    assert_eq!(word_without_name(b""), None);
    for (query, position) in [
        ("b.:c", 2),
        (":b.c", 0),
        (":bB1_.", 0),
        ("?.", 0),
        (".?", 1),
    ] {
        assert!(is_beside_point(query.as_bytes(), position), "{query}");
    }
    for (query, position) in [
        ("b:c", 1),
        (".:c", 0),
        (". ?", 2),
        (":b .", 0),
        ("?", 0),
        ("", 0),
        ("?.", 3),
    ] {
        assert!(!is_beside_point(query.as_bytes(), position), "{query}");
    }
}

#[test]
fn whole_reports_of_constructs() {
    let position = |position| Report {
        position,
        ..Report::default()
    };
    let first = |query, mode| first_construct(Reader::Server, query, mode);
    assert_eq!(first(b"a, [b]", false), (6, position(3)));
    assert_eq!(first(b"'\\' 1e+?", true), (9, position(4)));
    assert_eq!(first(b"'[' :a", false), (0, Report::default()));
    assert_eq!(first(b"", true), (0, Report::default()));
    assert_eq!(first(b"1e+:userId", true), (9, position(0)));
    let client = first_construct(Reader::Client, b"-:A", false);
    assert_eq!(client, (14, position(0)));
}

#[test]
fn numbers_of_constructs() {
    let report = Report {
        position: 7,
        ..Report::default()
    };
    let found = |construct| {
        Ok(Some(Unportable {
            construct,
            position: 7,
        }))
    };
    assert_eq!(unportable(0, &Report::default()), Ok(None));
    assert_eq!(unportable(1, &report), found(Construct::ExecutableComment));
    assert_eq!(unportable(2, &report), found(Construct::Hint));
    assert_eq!(unportable(3, &report), found(Construct::MariaDbComment));
    assert_eq!(unportable(4, &report), found(Construct::Dashes));
    assert_eq!(unportable(5, &report), found(Construct::EscapedQuote));
    assert_eq!(unportable(6, &report), found(Construct::Bracket));
    assert_eq!(unportable(7, &report), found(Construct::DollarQuote));
    assert_eq!(
        unportable(8, &report),
        found(Construct::DashesAfterExponent)
    );
    assert_eq!(unportable(9, &report), found(Construct::PlaceAfterExponent));
    assert_eq!(unportable(10, &report), found(Construct::OpenerInComment));
    assert_eq!(unportable(18, &report), found(Construct::ZeroByte));
    assert_eq!(unportable(19, &report), found(Construct::EscapedBackquote));
    assert_eq!(unportable(20, &report), found(Construct::ReturnInComment));
    for number in 1..21 {
        let construct = Construct::of_number(number).expect("a construct");
        assert_eq!(construct.number(), number);
    }
    for number in [-1, 21, i32::MAX, i32::MIN] {
        assert_eq!(
            unportable(number, &report),
            Err(Error::UnknownAnswer { number })
        );
    }
}

#[test]
fn answers_that_end_within_a_string() {
    use crate::form::next_string;
    for broken in [
        &b""[..],
        b"\x02a",
        b"\xFB",
        b"\xFFa",
        b"\xFC\x01",
        b"\xFC\x01\x00",
        b"\xFD\x00\x00",
    ] {
        assert_eq!(next_string(broken), None, "{broken:?}");
    }
    assert_eq!(next_string(b"\xFE\xFF\xFF\xFF\xFF\xFF\xFF\xFF\xFFa"), None);
    assert_eq!(next_string(b"\x01ab"), Some((&b"a"[..], &b"b"[..])));
    assert_eq!(next_string(b"\xFC\x01\x00ab"), Some((&b"a"[..], &b"b"[..])));
}

/// The form of identifiers and assignments, written by hand from mysql_params.h.
#[test]
fn forms_of_assignments() {
    let columns = Fragment::identifiers([Column::from("a"), ["t", "b"].into()]);
    let set = Fragment::assignments([
        (Column::from("a"), Item::from(1)),
        (["t", "b"].into(), "x".into()),
        ("c".into(), Item::Decimal("-1.50")),
    ]);
    let given = [("columns", columns), ("set", set)];
    let wanted = [
        &b"\x07columns\x86\0\x02\0\0\0"[..],
        b"\x01\0\0\0\x01a",
        b"\x02\0\0\0\x01t\x01b",
        b"\x03set\x87\0\x03\0\0\0",
        b"\x01\0\0\0\x01a\x08\0\x01\0\0\0\0\0\0\0",
        b"\x02\0\0\0\x01t\x01b\xFD\0\x01x",
        b"\x01\0\0\0\x01c\x80\0\x05-1.50",
    ];
    assert_eq!(
        form_of_fragments(&Fragments::Named(&given)),
        Ok(wanted.concat())
    );
}

/// A form of a list or rows of 1 and 2, or 1 and (2), of a type, for a name or a mark.
fn form_of_two(column_type: u8, name: &str) -> Vec<u8> {
    let item = |number| [8, 0, number, 0, 0, 0, 0, 0, 0, 0];
    let row = [1, 0, 0, 0];
    let rows = match column_type {
        ROWS | IMPLICIT_ROWS => &row[..],
        _ => &[],
    };
    let start = [
        &[name.len() as u8],
        name.as_bytes(),
        &[column_type, 0, 2, 0, 0, 0],
    ]
    .concat();
    [&start[..], rows, &item(1), rows, &item(2)].concat()
}

const LIST: u8 = 129;
const ROWS: u8 = 130;
const IMPLICIT_LIST: u8 = 136;
const IMPLICIT_ROWS: u8 = 137;

/// What both calls that bind fragments say of a query with a form.
fn bind_form_of_fragments(query: &str, form: &[u8]) -> Result<String, Error> {
    let query = query.as_bytes();
    let text = Call::BindFragments { query, form }.whole_answer(false, 64);
    let anywhere = Call::BindFragmentsAnywhere { query, form }.whole_answer(false, 64);
    assert_eq!(text, anywhere, "{query:?}");
    text.map(|text| String::from_utf8(text).expect("UTF-8"))
}

#[test]
fn implicit_lists() {
    let both = [
        (LIST, "1, 2"),
        (IMPLICIT_LIST, "1, 2"),
        (ROWS, "(1), (2)"),
        (IMPLICIT_ROWS, "(1), (2)"),
    ];
    for query in [
        "a IN (:v)",
        "a NOT IN( /* c */ :v\n)",
        "(a, b) = (:v)",
        "VALUES (:v)",
    ] {
        for (column_type, written) in both {
            let text = bind_form_of_fragments(query, &form_of_two(column_type, "v"));
            assert_eq!(text, Ok(query.replace(":v", written)), "{query}");
        }
    }
    for (query, position) in [
        ("JSON_SET(a, '$.b', :v)", 19),
        ("COALESCE(:v, 0)", 9),
        ("LIMIT :v", 6),
        ("a IN (0, :v)", 9),
    ] {
        for (column_type, written) in both {
            let text = bind_form_of_fragments(query, &form_of_two(column_type, "v"));
            let name = Some(b"v".to_vec().into());
            let wanted = match column_type {
                LIST | ROWS => Ok(query.replace(":v", written)),
                _ => Err(Error::Unbracketed {
                    place: 0,
                    position,
                    name,
                }),
            };
            assert_eq!(text, wanted, "{query}");
        }
    }
    let values = |column_type| bind_form_of_fragments("VALUES ?", &form_of_two(column_type, ""));
    assert_eq!(values(IMPLICIT_ROWS), Ok("VALUES (1), (2)".to_string()));
    let error = values(IMPLICIT_LIST).expect_err("a list is no rows");
    assert_eq!(
        error,
        Error::Unbracketed {
            place: 0,
            position: 7,
            name: None
        }
    );
}

#[test]
fn messages_of_implicit_lists() {
    let is_one = |place: &str, list: &str| {
        format!(
            "{place} is one value here, and was given a list: write it alone in brackets, as `{list}`, or give Fragment::List"
        )
    };
    let form = b"";
    for (query, position, message) in [
        (&b"LIMIT :Ids"[..], 6, is_one("`:Ids`", "IN (:Ids)")),
        (b"LIMIT 1, ?", 9, is_one("`?` at byte 9", "IN (?)")),
        (
            b"",
            usize::MAX,
            is_one(&format!("`?` at byte {}", usize::MAX), "IN (?)"),
        ),
    ] {
        let report = Report {
            place: 3,
            position,
            ..Report::default()
        };
        let error = Call::BindFragments { query, form }.error(21, &report);
        assert!(
            matches!(error, Error::Unbracketed { place: 3, .. }),
            "{error:?}"
        );
        assert_eq!((error.number(), error.to_string()), (Some(21), message));
    }
}
