//! The cases of bindings/cases, which say what they are in README.md there, and every value of one byte.
use mysql_params::{
    Column, Construct, Date, Error, Fault, Fragment, Fragments, Item, Names, Params, RowError,
    Template, Texts, Time, Unportable, Value, bind, bind_anywhere, bind_form, bind_form_anywhere,
    bind_form_in, bind_form_in_both_modes, bind_fragments, bind_fragments_anywhere,
    bind_fragments_in, bind_in, bind_in_both_modes, bind_rows, bind_rows_in, bind_str, bind_str_in,
    first_unportable, first_unportable_in, first_unportable_in_client,
    first_unportable_in_client_in, names, names_in, row,
};
use std::collections::HashMap;
use std::path::Path;

mod messages;

/// A value with bytes of its own.
enum Owned {
    Bytes(Vec<u8>),
    Other(Value<'static>),
    Fragment(Fragment<'static>),
}

impl Owned {
    fn value(&self) -> Value<'_> {
        match self {
            Owned::Bytes(bytes) => bytes.into(),
            Owned::Other(value) => *value,
            Owned::Fragment(_) => panic!("a fragment is no value"),
        }
    }

    fn fragment(&self) -> Fragment<'_> {
        match self {
            Owned::Fragment(fragment) => fragment.clone(),
            value => Fragment::Value(value.value()),
        }
    }
}

/// A case, and where it stands.
#[derive(Default)]
struct Case {
    at: String,
    query: Vec<u8>,
    params: Vec<(String, Owned)>,
    form: Vec<u8>,
    no_backslash_escape: bool,
    text: Option<Vec<u8>>,
    rows: Vec<Vec<(String, Owned)>>,
    texts: Vec<Vec<u8>>,
    renamed: Vec<u8>,
    names: Vec<String>,
    refusal: Option<(String, HashMap<String, String>)>,
    portable: bool,
    unportable: Option<(String, HashMap<String, String>)>,
    message: Option<String>,
}

impl Case {
    /// The query, for messages.
    fn query_text(&self) -> String {
        String::from_utf8_lossy(&self.query).into_owned()
    }
}

/// Bytes of pairs of hexadecimal digits, with spaces anywhere.
fn digits(text: &str) -> Vec<u8> {
    let digits: String = text.chars().filter(|c| *c != ' ').collect();
    let pair = |at| u8::from_str_radix(&digits[at..at + 2], 16).expect("two digits");
    (0..digits.len()).step_by(2).map(pair).collect()
}

/// Bytes of a text: pairs of digits within { }, or as they stand.
fn bytes(text: &str) -> Vec<u8> {
    let mut bytes = Vec::new();
    let mut rest = text;
    while let Some((before, within)) = rest.split_once('{') {
        let (pairs, after) = within.split_once('}').expect("a }");
        bytes.extend(before.bytes());
        bytes.extend(digits(pairs));
        rest = after;
    }
    bytes.extend(rest.bytes());
    bytes
}

fn number<T: std::str::FromStr<Err: std::fmt::Debug>>(text: &str) -> T {
    text.parse().expect("a number in range")
}

fn date(fields: &str) -> Value<'static> {
    let fields: Vec<&str> = fields.split(' ').collect();
    Value::Date(Date {
        year: number(fields[0]),
        month: number(fields[1]),
        day: number(fields[2]),
        hour: number(fields[3]),
        minute: number(fields[4]),
        second: number(fields[5]),
        microsecond: number(fields[6]),
    })
}

fn time(fields: &str) -> Value<'static> {
    let fields: Vec<&str> = fields.split(' ').collect();
    Value::Time(Time {
        negative: fields[0] == "-",
        days: number(fields[1]),
        hours: number(fields[2]),
        minutes: number(fields[3]),
        seconds: number(fields[4]),
        microseconds: number(fields[5]),
    })
}

/// A text that lasts as long as the test.
fn lasting(text: &str) -> &'static str {
    String::from_utf8(bytes(text)).expect("UTF-8").leak()
}

/// An item of a list or a row.
fn item(text: &str) -> Item<'static> {
    match (text.strip_prefix("d:"), value(text)) {
        (Some(digits), _) => Item::Decimal(lasting(digits)),
        (None, Owned::Bytes(bytes)) => Item::Value(Value::Bytes(bytes.leak())),
        (None, owned) => Item::Value(match owned {
            Owned::Other(value) => value,
            _ => panic!("{text} is no item"),
        }),
    }
}

/// A name, or one in another.
fn column(text: &str) -> Column<'static> {
    match text.split('|').map(lasting).collect::<Vec<_>>()[..] {
        [name] => name.into(),
        ref names => names.to_vec().into(),
    }
}

/// A column, and the item that it is set to.
fn assignment(text: &str) -> (Column<'static>, Item<'static>) {
    let (name, assigned) = text.split_once('=').expect("COLUMN=VALUE");
    (column(name), item(assigned))
}

/// What isn't one value, if the text is of such a kind.
fn fragment(kind: &str, rest: &str) -> Option<Fragment<'static>> {
    let items = |text: &str| text.split('|').map(item).collect();
    Some(match kind {
        "d" => Fragment::Decimal(lasting(rest)),
        "list" if rest.is_empty() => Fragment::List(Vec::new()),
        "list" => Fragment::List(items(rest)),
        "rows" => Fragment::Rows(rest.split("||").map(items).collect()),
        "identifier" => Fragment::Identifier(lasting(rest)),
        "qualified" => Fragment::Qualified(rest.split('|').map(lasting).collect()),
        "identifiers" if rest.is_empty() => Fragment::identifiers([""; 0]),
        "identifiers" => Fragment::identifiers(rest.split("||").map(column)),
        "assignments" if rest.is_empty() => Fragment::Assignments(Vec::new()),
        "assignments" => Fragment::assignments(rest.split("||").map(assignment)),
        "keyword" => Fragment::Keyword(lasting(rest)),
        _ => return None,
    })
}

fn value(text: &str) -> Owned {
    let (kind, rest) = text.split_once(':').unwrap_or((text, ""));
    if let Some(fragment) = fragment(kind, rest) {
        return Owned::Fragment(fragment);
    }
    Owned::Other(match kind {
        "s" => return Owned::Bytes(bytes(rest)),
        "null" => Value::Null,
        "i" => Value::Int(number(rest)),
        "u" => Value::UInt(number(rest)),
        "float" => Value::Float(number(rest)),
        "double" => Value::Double(number(rest)),
        "date" => date(rest),
        "time" => time(rest),
        _ => panic!("{text} is no value"),
    })
}

/// A name, and the fields after it.
fn named(text: &str) -> (String, HashMap<String, String>) {
    let mut words = text.split(' ');
    let name = words.next().expect("a name").to_string();
    let fields = words.map(|word| word.split_once('=').expect("FIELD=VALUE"));
    (
        name,
        fields
            .map(|(field, value)| (field.to_string(), value.to_string()))
            .collect(),
    )
}

fn read_line(case: &mut Case, line: &str) {
    let (word, text) = line.split_once(' ').unwrap_or((line, ""));
    match word {
        "query" => case.query = bytes(text),
        "param" => {
            let (name, plain) = text.split_once('=').expect("NAME=VALUE");
            let params = case.rows.last_mut().unwrap_or(&mut case.params);
            params.push((name.to_string(), value(plain)));
        }
        "row" => case.rows.push(Vec::new()),
        "form" => case.form.extend(digits(text)),
        "no_backslash_escape" => case.no_backslash_escape = true,
        "text" if case.rows.is_empty() => case.text = Some(bytes(text)),
        "text" => case.texts.push(bytes(text)),
        "renamed" => case.renamed = bytes(text),
        "name" => case.names.push(text.to_string()),
        "refused" => case.refusal = Some(named(text)),
        "portable" => case.portable = true,
        "unportable" => case.unportable = Some(named(text)),
        "message" => case.message = Some(text.to_string()),
        "message_in_c" => {}
        _ => panic!("{}: {word} is no word of a case", case.at),
    }
}

/// The cases of a file, and those of the file of its name in `wide`, if there is one.
fn cases(file: &str) -> Vec<Case> {
    let folder = Path::new(env!("CARGO_MANIFEST_DIR")).join("../cases");
    let mut cases = cases_of(&folder.join(file), file);
    let wide = folder.join("wide").join(file);
    if wide.exists() {
        cases.extend(cases_of(&wide, &format!("wide/{file}")));
    }
    cases
}

/// The cases of one file, by its path and its name, except those of a list that no type says is one.
fn cases_of(path: &Path, file: &str) -> Vec<Case> {
    let whole = std::fs::read_to_string(path).expect("the cases can be read");
    let mut cases = Vec::new();
    for (index, part) in whole.split("\n\n").enumerate() {
        let lines: Vec<&str> = part.lines().filter(|line| !line.starts_with('#')).collect();
        if !lines.is_empty() && !lines.iter().any(|line| line.contains("=implicit_")) {
            let mut case = Case {
                at: format!("part {index} of {file}: {}", lines.join(" / ")),
                ..Case::default()
            };
            lines.iter().for_each(|line| read_line(&mut case, line));
            cases.push(case);
        }
    }
    assert!(!cases.is_empty(), "{file} has no case");
    cases
}

/// Names of the refusals in cases, in the order of their numbers from 3 on.
const NUMBERS: [&str; 19] = [
    "FORM_END",
    "FORM_LENGTH_LEAD",
    "FORM_TYPE",
    "FORM_MIXED",
    "FORM_REPEATED",
    "MIXED",
    "MISSING",
    "NAMED_FOR_POSITIONAL",
    "POSITIONAL_FOR_NAMED",
    "MARK_COUNT",
    "NOT_ALONE",
    "FLOAT",
    "UNSTEADY",
    "UNPORTABLE",
    "FAULT",
    "BACKSLASH",
    "UNSTEADY_FRAGMENT",
    "OTHER_TABLE",
    "UNBRACKETED",
];

/// The fault of a number in mysql_params.h, with its row and its item or name.
fn fault(number: u8, row: usize, item: usize) -> Fault {
    match number {
        1 => Fault::Empty,
        2 => Fault::EmptyRow { row },
        3 => Fault::RowLength { row },
        4 => Fault::Number { row, item },
        5 => Fault::EmptyName { part: item },
        6 => Fault::ZeroByte { part: item },
        7 => Fault::LongName { part: item },
        8 => Fault::TrailingSpace { part: item },
        9 => Fault::Keyword,
        10 => Fault::Backslash { part: item },
        _ => panic!("{number} is no fault"),
    }
}

/// The error that a case wants.
fn wanted_error(case: &Case) -> Error {
    let (name, fields) = case.refusal.as_ref().expect("a text or a refusal");
    let field = |field: &str| fields.get(field).map_or(0, |text| number::<usize>(text));
    let (place, position) = (field("place"), field("position"));
    let (parameter, byte) = (
        place,
        number(fields.get("byte").map_or("0", String::as_str)),
    );
    let told = bytes(fields.get("name").map_or("", String::as_str));
    let word = fields.get("word").map(|word| bytes(word).into());
    match name.as_str() {
        "FORM_END" => Error::FormEnd {
            parameter,
            position,
        },
        "FORM_LENGTH_LEAD" => Error::FormLengthLead {
            parameter,
            position,
            byte,
        },
        "FORM_TYPE" => Error::FormType {
            parameter,
            position,
            column_type: byte,
        },
        "FORM_MIXED" => Error::FormMixed {
            parameter,
            position,
        },
        "FORM_REPEATED" => Error::RepeatedName {
            parameter,
            position,
            name: told.into(),
        },
        "MIXED" => Error::Mixed,
        "MISSING" => Error::Missing {
            place,
            position,
            name: told.into(),
            word,
        },
        "NAMED_FOR_POSITIONAL" => Error::NamedForPositional { word },
        "POSITIONAL_FOR_NAMED" => Error::PositionalForNamed,
        "MARK_COUNT" => Error::MarkCount {
            marks: field("marks"),
            values: field("values"),
        },
        "NOT_ALONE" => {
            let (name, neighbour) = messages::touched(&case.query_text());
            Error::NotAlone {
                place,
                position,
                name: name.map(|name| name.as_bytes().to_vec().into()),
                neighbour,
                word,
                beside_point: false,
            }
        }
        "FLOAT" => Error::Float {
            place,
            name: fields.get("of").cloned(),
        },
        "UNSTEADY" => Error::Unsteady { position },
        "BACKSLASH" => Error::Backslash { position },
        "UNSTEADY_FRAGMENT" => Error::UnsteadyFragment {
            place,
            name: fields.get("of").cloned(),
        },
        "UNPORTABLE" => Error::Unportable(Unportable {
            construct: CONSTRUCTS[usize::from(byte) - 1].1,
            position,
        }),
        "FAULT" => Error::Fault {
            place,
            fault: fault(byte, position, field("values")),
            name: fields.get("of").cloned(),
        },
        _ => panic!("{}: {name} is no refusal", case.at),
    }
}

/// The result is the text or the refusal that the case wants, with its message.
fn expect(case: &Case, result: Result<Vec<u8>, Error>) {
    match &case.text {
        Some(text) => assert_eq!(result.as_ref(), Ok(text), "{}", case.at),
        None => {
            let error = result.expect_err(&case.at);
            assert_eq!(error, wanted_error(case), "{}", case.at);
            let name = &case.refusal.as_ref().expect("a refusal").0;
            let number = NUMBERS.iter().position(|known| known == name);
            let number = number.expect("a known name") as i32 + 3;
            assert_eq!(error.number(), Some(number), "{}", case.at);
            if let Some(message) = &case.message {
                let message = messages::in_rust(message, &case.query_text());
                assert_eq!(error.to_string(), message, "{}", case.at);
            }
        }
    }
}

/// What a call gives for the parameters of a case.
fn with_params<R>(case: &Case, call: impl Fn(&Params<'_>) -> R) -> R {
    let values: Vec<Value<'_>> = case.params.iter().map(|(_, value)| value.value()).collect();
    let names = case.params.iter().map(|(name, _)| name.as_str());
    let pairs: Vec<(&str, Value<'_>)> = names.zip(values.iter().copied()).collect();
    call(&match pairs.first() {
        None => Params::Empty,
        Some(("", _)) => Params::Positional(&values),
        Some(_) => Params::Named(&pairs),
    })
}

#[test]
fn table_of_binding() {
    for case in cases("bind.txt") {
        let mode = case.no_backslash_escape;
        let result = with_params(&case, |params| bind_in(&case.query, params, mode));
        expect(&case, result);
        let template = Template::new_in(&case.query, mode).expect(&case.at);
        expect(&case, with_params(&case, |params| template.bind(params)));
        if !mode {
            let result = with_params(&case, |params| bind(&case.query, params));
            expect(&case, result);
        }
    }
}

/// What a call gives for the fragments of a case.
fn with_fragments<R>(case: &Case, call: impl Fn(&Fragments<'_>) -> R) -> R {
    let fragments: Vec<_> = case.params.iter().map(|(_, one)| one.fragment()).collect();
    let names = case.params.iter().map(|(name, _)| name.as_str());
    let pairs: Vec<_> = names.zip(fragments.iter().cloned()).collect();
    call(&match pairs.first() {
        None | Some(("", _)) => Fragments::Positional(&fragments),
        Some(_) => Fragments::Named(&pairs),
    })
}

#[test]
fn table_of_fragments() {
    for case in cases("fragments.txt") {
        let mode = case.no_backslash_escape;
        let result = with_fragments(&case, |given| bind_fragments_in(&case.query, given, mode));
        expect(&case, result);
        if !mode {
            let result = with_fragments(&case, |given| bind_fragments(&case.query, given));
            expect(&case, result);
        }
    }
}

#[test]
fn table_of_steady_fragments() {
    for case in cases("fragments_anywhere.txt") {
        let result = with_fragments(&case, |given| bind_fragments_anywhere(&case.query, given));
        expect(&case, result);
    }
}

#[test]
fn fragments_of_types() {
    let some: Option<&str> = None;
    for (fragment, wanted) in [
        (7.into(), "7"),
        ("it's".into(), r"'it\'s'"),
        (some.into(), "NULL"),
        (vec![1u8, 255].into(), "1, 255"),
        (vec!["a", "b"].into(), "'a', 'b'"),
        (vec![Item::Decimal("0.10"), 1.into()].into(), "0.10, 1"),
        (
            vec![(1, "a", some), (2, "b", Some("c"))].into(),
            "(1, 'a', NULL), (2, 'b', 'c')",
        ),
        (vec![(Item::Decimal("1"),)].into(), "(1)"),
        (Fragment::Decimal("-1.50"), "-1.50"),
        (1.5f64.into(), "1.5e0"),
        (0.1f32.into(), "0.10000000149011612e0"),
        (Some(-0.0).into(), "-0.0e0"),
        (vec![0.5, 1e16].into(), "0.5e0, 1e16"),
        (
            vec![(1, 0.5f32, Some(2.0)), (2, 5.0, None)].into(),
            "(1, 0.5e0, 2.0e0), (2, 5.0e0, NULL)",
        ),
        // The ends of the types, as the standard library's documentation has them.
        (i128::MIN.into(), "-170141183460469231731687303715884105728"),
        (u128::MAX.into(), "340282366920938463463374607431768211455"),
        (0i128.into(), "0"),
        (
            vec![u128::MAX, 0].into(),
            "340282366920938463463374607431768211455, 0",
        ),
        (
            vec![(-18_446_744_073_709_551_616i128, 1)].into(),
            "(-18446744073709551616, 1)",
        ),
        (Fragment::Qualified(vec!["a.b", "`"]), "`a.b`.````"),
        (Fragment::identifiers(["a"]), "`a`"),
        (
            Fragment::identifiers(vec![["t", "a"], ["t", "b.c"]]),
            "`t`.`a`, `t`.`b.c`",
        ),
        (
            Fragment::identifiers(&[String::from("a"), String::from("b")]),
            "`a`, `b`",
        ),
        (
            Fragment::Identifiers(vec!["a".into(), vec!["t", "b"].into()]),
            "`a`, `t`.`b`",
        ),
        (
            Fragment::assignments([("a", 1), ("b", 2)]),
            "`a` = 1, `b` = 2",
        ),
        (
            Fragment::assignments([(["t", "a"], some), (["t", "b"], Some("c"))]),
            "`t`.`a` = NULL, `t`.`b` = 'c'",
        ),
        (
            Fragment::assignments([("a", u128::MAX.into()), ("b", Item::Decimal("-1.50"))]),
            "`a` = 340282366920938463463374607431768211455, `b` = -1.50",
        ),
        (
            Fragment::Assignments(vec![("a".into(), 0.5.into()), ("b".into(), "c".into())]),
            "`a` = 0.5e0, `b` = 'c'",
        ),
    ] {
        let text = bind_fragments(b"?", &Fragments::Positional(&[fragment])).expect("a text");
        assert_eq!(String::from_utf8(text).expect("UTF-8"), wanted);
    }
    let number = Fragment::List(vec![Item::Decimal("1"), Item::Decimal("1e5")]);
    let error = bind_fragments(b"?", &Fragments::Positional(&[number])).expect_err("a number");
    let (place, fault) = (0, Fault::Number { row: 0, item: 1 });
    assert_eq!(
        error,
        Error::Fault {
            place,
            fault,
            name: None
        }
    );
    let unnamed = Fragments::Named(&[("", Fragment::Identifier("t"))]);
    assert_eq!(
        bind_fragments(b":a", &unnamed),
        Err(Error::EmptyName { parameter: 0 })
    );
}

/// Names are counted through all columns, and each column goes before its item.
#[test]
fn faults_of_columns() {
    let nothing: [(&str, i32); 0] = [];
    let long = "x".repeat(65);
    for (fragment, wanted) in [
        (Fragment::identifiers([""; 0]), Fault::Empty),
        (Fragment::assignments(nothing), Fault::Empty),
        (Fragment::identifiers([vec!["a"], Vec::new()]), Fault::Empty),
        (
            Fragment::identifiers([["a", "b"], ["c", "d\0"]]),
            Fault::ZeroByte { part: 3 },
        ),
        (
            Fragment::assignments([(["t", "a"], 1), (["t", ""], 2)]),
            Fault::EmptyName { part: 3 },
        ),
        (
            Fragment::assignments([("a", 1), ("b\0", 2)]),
            Fault::ZeroByte { part: 1 },
        ),
        (
            Fragment::assignments([(["t", "a"], 1), (["t", &long], 2)]),
            Fault::LongName { part: 3 },
        ),
        (
            Fragment::assignments([
                (["t", "a"], Item::Decimal("1")),
                (["t", "b"], Item::Decimal("1e5")),
            ]),
            Fault::Number { row: 0, item: 1 },
        ),
        (
            Fragment::assignments([("a", Item::Decimal("1")), ("b ", Item::Decimal(""))]),
            Fault::TrailingSpace { part: 1 },
        ),
        (
            Fragment::assignments([("a", Item::Decimal("")), ("b ", Item::Decimal(""))]),
            Fault::Number { row: 0, item: 0 },
        ),
    ] {
        let given = [1.into(), fragment];
        let error = Error::Fault {
            place: 1,
            fault: wanted,
            name: None,
        };
        for text in [
            bind_fragments(b"?, ?", &Fragments::Positional(&given)),
            bind_fragments_anywhere(b"?, ?", &Fragments::Positional(&given)),
        ] {
            assert_eq!(text, Err(error.clone()));
        }
    }
}

/// A NaN and an infinity are refused in every place; the calls that bind values refuse each float.
#[test]
fn floats() {
    let error = Error::Float {
        place: 1,
        name: None,
    };
    for number in [f64::NAN, f64::INFINITY, f64::NEG_INFINITY] {
        for fragment in [
            number.into(),
            (number as f32).into(),
            vec![0.5, number].into(),
            vec![(1, 0.5), (2, number)].into(),
            Fragment::assignments([("a", 0.5), ("b", number)]),
        ] {
            let given = [0.5.into(), fragment];
            let given = Fragments::Positional(&given);
            assert_eq!(bind_fragments(b"?, ?", &given), Err(error.clone()));
            let text = bind_fragments_anywhere(b"?, ?", &given);
            assert_eq!(text, Err(error.clone()));
        }
    }
    for float in [Value::Float(1.5), Value::Double(1.5)] {
        let given = [1.into(), float];
        let params = Params::Positional(&given);
        for text in [
            bind(b"?, ?", &params),
            bind_anywhere(b"?, ?", &params),
            bind_in_both_modes(b"?, ?", &params),
            Template::new(b"?, ?").expect("a template").bind(&params),
        ] {
            assert_eq!(text, Err(error.clone()), "{float:?}");
        }
        let found = bind_rows(b"?, ?", [params]).expect_err("a float");
        assert_eq!((found.row, found.error), (0, error.clone()));
    }
}

/// Values by position, or by name: what is in a row.
type Row<'a> = (Vec<Value<'a>>, Vec<(&'a str, Value<'a>)>);

fn params_of<'a>((values, pairs): &'a Row<'a>) -> Params<'a> {
    match pairs.first() {
        None => Params::Empty,
        Some(("", _)) => Params::Positional(values),
        Some(_) => Params::Named(pairs),
    }
}

/// The texts of the rows are those of the case, or it is refused after them, for the row that each is bound for by itself.
fn expect_rows(case: &Case, rows: &[Row<'_>], result: Result<Texts, RowError>) {
    let texts = match result {
        Ok(texts) => {
            assert!(case.refusal.is_none(), "{}", case.at);
            assert_eq!(texts.len(), rows.len(), "{}", case.at);
            texts
        }
        Err(refused) => {
            assert_eq!(refused.row, case.texts.len(), "{}", case.at);
            assert_eq!(
                refused.to_string(),
                format!("row {}: {}", refused.row, refused.error)
            );
            expect(case, Err(refused.error));
            refused.texts
        }
    };
    assert_eq!(texts.len(), case.texts.len(), "{}", case.at);
    assert_eq!(texts.is_empty(), case.texts.is_empty(), "{}", case.at);
    assert!(texts.iter().eq(&case.texts), "{}", case.at);
    for (text, row) in texts.iter().zip(rows) {
        let alone = bind_in(&case.query, &params_of(row), case.no_backslash_escape);
        assert_eq!(alone.as_deref(), Ok(text), "{}", case.at);
    }
}

#[test]
fn rows_of_queries() {
    for case in cases("rows.txt") {
        let rows = case.rows.iter().map(|row| {
            let values: Vec<Value<'_>> = row.iter().map(|(_, value)| value.value()).collect();
            let names = row.iter().map(|(name, _)| name.as_str());
            let pairs = names.zip(values.iter().copied()).collect();
            (values, pairs)
        });
        let rows: Vec<Row<'_>> = rows.collect();
        let params = || rows.iter().map(params_of);
        let mode = case.no_backslash_escape;
        expect_rows(&case, &rows, bind_rows_in(&case.query, params(), mode));
        let template = Template::new_in(&case.query, mode).expect("a template");
        expect_rows(&case, &rows, template.bind_rows(params()));
        if !mode {
            expect_rows(&case, &rows, bind_rows(&case.query, params()));
        }
    }
}

/// More rows than stand in one batch, with texts whose lengths take one, three and four bytes.
#[test]
fn many_rows() {
    for (len, count) in [(1, 40_000), (251, 2000), (70_000, 20)] {
        let strings: Vec<String> = (0..count)
            .map(|row| format!("{row}{}", "x".repeat(len)))
            .collect();
        let values: Vec<[Value<'_>; 1]> = strings.iter().map(|text| [text.into()]).collect();
        let rows = values.iter().map(|row| Params::Positional(row));
        let texts = bind_rows(b"SELECT ?", rows);
        let texts = texts.expect("no row is refused");
        let wanted = strings.iter().map(|text| format!("SELECT '{text}'"));
        assert!(texts.iter().eq(wanted.map(String::into_bytes)), "{len}");
        assert_eq!(texts.iter().len(), count);
    }
}

#[test]
fn rows_that_end_early() {
    let empty = [("", Value::Null)];
    let values = [Value::Null];
    let rows = [
        Params::Positional(&values),
        Params::Named(&empty),
        Params::Empty,
    ];
    let refused = bind_rows(b"?", rows).expect_err("an empty name");
    assert_eq!(
        (refused.row, refused.error),
        (1, Error::EmptyName { parameter: 0 })
    );
    assert!((&refused.texts).into_iter().eq([b"NULL"]));
    assert_eq!(bind_rows(b":a ?", [row![]; 0]), Ok(Texts::default()));
}

#[test]
fn table_of_steady_binding() {
    for case in cases("anywhere.txt") {
        let result = match case.form.is_empty() {
            true => with_params(&case, |params| bind_anywhere(&case.query, params)),
            false => bind_form_anywhere(&case.query, &case.form),
        };
        expect(&case, result);
    }
}

#[test]
fn table_of_both_modes() {
    for case in cases("both_modes.txt") {
        let result = match case.form.is_empty() {
            true => with_params(&case, |params| bind_in_both_modes(&case.query, params)),
            false => bind_form_in_both_modes(&case.query, &case.form),
        };
        expect(&case, result);
    }
}

#[test]
fn flat_forms() {
    for case in cases("forms.txt") {
        let mode = case.no_backslash_escape;
        expect(&case, bind_form_in(&case.query, &case.form, mode));
        let template = Template::new_in(&case.query, mode).expect(&case.at);
        expect(&case, template.bind_form(&case.form));
        if !mode {
            expect(&case, bind_form(&case.query, &case.form));
        }
    }
}

/// The result is the names or the refusal that the case wants.
fn expect_names(case: &Case, result: Result<Names, Error>) {
    match result {
        Ok(found) => {
            assert!(case.refusal.is_none(), "{}", case.at);
            let wanted = Names {
                query: case.renamed.clone(),
                names: case.names.clone(),
            };
            assert_eq!(found, wanted, "{}", case.at);
        }
        Err(error) => expect(case, Err(error)),
    }
}

#[test]
fn names_of_queries() {
    for case in cases("names.txt") {
        let mode = case.no_backslash_escape;
        expect_names(&case, names_in(&case.query, mode));
        if !mode {
            expect_names(&case, names(&case.query));
        }
    }
}

/// The constructs, by their names in cases, in the order of their numbers from 1 on.
const CONSTRUCTS: [(&str, Construct); 20] = [
    ("EXECUTABLE_COMMENT", Construct::ExecutableComment),
    ("HINT", Construct::Hint),
    ("MARIADB_COMMENT", Construct::MariaDbComment),
    ("DASHES", Construct::Dashes),
    ("ESCAPED_QUOTE", Construct::EscapedQuote),
    ("BRACKET", Construct::Bracket),
    ("DOLLAR_QUOTE", Construct::DollarQuote),
    ("DASHES_AFTER_EXPONENT", Construct::DashesAfterExponent),
    ("PLACE_AFTER_EXPONENT", Construct::PlaceAfterExponent),
    ("OPENER_IN_COMMENT", Construct::OpenerInComment),
    ("JOINING_COMMENT", Construct::JoiningComment),
    ("DASHES_BEFORE_COMMENT", Construct::DashesBeforeComment),
    ("CLIENT_COMMAND", Construct::ClientCommand),
    ("DASH_IN_FRONT", Construct::DashInFront),
    ("DELIMITER", Construct::Delimiter),
    ("CLIENT_WORD", Construct::ClientWord),
    ("ESCAPED_NEWLINE", Construct::EscapedNewline),
    ("ZERO_BYTE", Construct::ZeroByte),
    ("ESCAPED_BACKQUOTE", Construct::EscapedBackquote),
    ("RETURN_IN_COMMENT", Construct::ReturnInComment),
];

/// The construct that a case wants.
fn wanted_construct(case: &Case) -> Option<Unportable> {
    let (name, fields) = case.unportable.as_ref()?;
    let known = CONSTRUCTS.iter().find(|(known, _)| known == name);
    let (_, construct) = *known.unwrap_or_else(|| panic!("{}: {name} is no construct", case.at));
    Some(Unportable {
        construct,
        position: number(&fields["position"]),
    })
}

/// A call that finds a construct, in the mode with backslash escapes and in either.
type Finds = (
    fn(&[u8]) -> Result<Option<Unportable>, Error>,
    fn(&[u8], bool) -> Result<Option<Unportable>, Error>,
);

/// The call finds in each query of the file what its case wants.
fn constructs_of(file: &str, (finds, finds_in): Finds) {
    for case in cases(file) {
        let wanted = wanted_construct(&case);
        assert_eq!(case.portable, wanted.is_none(), "{}", case.at);
        let mode = case.no_backslash_escape;
        let found = finds_in(&case.query, mode);
        assert_eq!(found, Ok(wanted), "{}", case.at);
        if !mode {
            assert_eq!(finds(&case.query), Ok(wanted), "{}", case.at);
        }
        if let Some(message) = &case.message {
            let found = wanted.expect("a construct");
            assert_eq!(&found.construct.to_string(), message, "{}", case.at);
            let told = format!("not portable at byte {}: {message}", found.position);
            assert_eq!(found.to_string(), told, "{}", case.at);
        }
    }
}

#[test]
fn portable_queries() {
    constructs_of("portable.txt", (first_unportable, first_unportable_in));
}

#[test]
fn queries_for_a_client() {
    constructs_of(
        "in_client.txt",
        (first_unportable_in_client, first_unportable_in_client_in),
    );
}

#[test]
fn names_of_long_queries() {
    for len in [250, 251, 252, 65535, 65536, 65537] {
        // With its quotes, the space and the mark the renamed query has `len` bytes.
        let string = "x".repeat(len - 4);
        let found = names(format!("'{string}' :a").as_bytes());
        let wanted = Names {
            query: format!("'{string}' ?").into_bytes(),
            names: vec!["a".to_string()],
        };
        assert_eq!(found, Ok(wanted), "a query of {len} bytes");
    }
}

/// The literal of one byte, after "SQL literals" in docs/RULES.md.
fn literal(byte: u8) -> Vec<u8> {
    let escapes = [
        (0, b'0'),
        (b'\n', b'n'),
        (b'\r', b'r'),
        (26, b'Z'),
        (b'\\', b'\\'),
        (b'\'', b'\''),
        (b'"', b'"'),
    ];
    match escapes.iter().find(|(escaped, _)| *escaped == byte) {
        _ if byte >= 128 => format!("0x{byte:02X}").into_bytes(),
        Some((_, letter)) => vec![b'\'', b'\\', *letter, b'\''],
        None => vec![b'\'', byte, b'\''],
    }
}

/// The literal of one byte without backslash escapes: there only a quote isn't itself.
fn literal_without_backslashes(byte: u8) -> Vec<u8> {
    match byte {
        b'\'' => b"''''".to_vec(),
        0..=127 => vec![b'\'', byte, b'\''],
        128..=255 => format!("0x{byte:02X}").into_bytes(),
    }
}

#[test]
fn each_value_of_one_byte() {
    for byte in 0..=255 {
        let bytes = [byte];
        let values = [Value::Bytes(&bytes)];
        let params = Params::Positional(&values);
        assert_eq!(bind(b"?", &params), Ok(literal(byte)), "the byte {byte}");
        let text = bind_in(b"?", &params, true);
        assert_eq!(
            text,
            Ok(literal_without_backslashes(byte)),
            "the byte {byte}"
        );
    }
}

#[test]
fn values_of_each_length() {
    for len in [1, 250, 251, 65535, 65536, (1 << 24) - 1, 1 << 24] {
        let (name, string) = ("a".repeat(len), "x".repeat(len));
        let pairs = [(name.as_str(), string.as_str().into())];
        let text = bind(format!(":{name}").as_bytes(), &Params::Named(&pairs));
        let wanted = format!("'{string}'").into_bytes();
        assert!(text == Ok(wanted), "name and string of {len} bytes");
    }
}

#[test]
fn values_of_own_types() {
    let owned = (String::from("a"), vec![0xFF]);
    let values = [
        Value::from(-1i8),
        (-2i16).into(),
        (-3i32).into(),
        (-4i64).into(),
        isize::MIN.into(),
        1u8.into(),
        2u16.into(),
        3u32.into(),
        u64::MAX.into(),
        usize::MAX.into(),
        true.into(),
        false.into(),
        "t".into(),
        b"b".into(),
        (&b"s"[..]).into(),
        (&owned.0).into(),
        (&owned.1).into(),
        None::<i32>.into(),
        Some("x").into(),
        Date {
            year: 2019,
            month: 11,
            day: 27,
            ..Date::default()
        }
        .into(),
        Time {
            negative: true,
            ..Time::default()
        }
        .into(),
    ];
    let query = vec!["?"; values.len()].join(",");
    let wanted = "-1,-2,-3,-4,-9223372036854775808,1,2,3,18446744073709551615,18446744073709551615,1,0,'t','b','s','a',\
        0xFF,NULL,'x','2019-11-27','-000:00:00'";
    assert_eq!(
        bind(query.as_bytes(), &Params::Positional(&values)),
        Ok(wanted.as_bytes().to_vec())
    );
    assert_eq!(Value::from(1.5f32), Value::Float(1.5));
    assert_eq!(Value::from(1.5f64), Value::Double(1.5));
}

/// Random numbers of one seed.
struct Random(u64);

impl Random {
    fn below(&mut self, end: usize) -> usize {
        self.0 ^= self.0 << 13;
        self.0 ^= self.0 >> 7;
        self.0 ^= self.0 << 17;
        (self.0 >> 11) as usize % end
    }

    /// Bytes of a random value: often UTF-8, and with what literals escape.
    fn value(&mut self) -> Vec<u8> {
        const PIECES: [&[u8]; 12] = [
            b"'",
            b"\\",
            b"\0\n\r\x1A\"",
            "\u{e9}".as_bytes(),
            "\u{20ac}".as_bytes(),
            "\u{1f600}".as_bytes(),
            b"\xE2\x82",
            b"\xBF",
            b"\xED\xA0\x80",
            b"? :a",
            b"x",
            b"\xFF",
        ];
        let valid = self.below(2) == 0;
        let mut value = Vec::new();
        for _ in 0..self.below(6) {
            let piece = PIECES[self.below(PIECES.len())];
            if !valid || std::str::from_utf8(piece).is_ok() {
                value.extend_from_slice(piece);
            }
        }
        value
    }
}

#[test]
fn texts_of_utf8_queries() {
    const PIECES: [&str; 6] = [
        "SELECT 'é\u{20ac}' , ",
        "\u{1f600} = ",
        " , ",
        "`ß` + ",
        "/* ü */ ",
        "'é",
    ];
    let mut random = Random(42);
    let (mut strings, mut hexadecimals) = (0, 0);
    for round in 0..20_000 {
        let owned: Vec<Vec<u8>> = (0..random.below(4)).map(|_| random.value()).collect();
        let values: Vec<Value<'_>> = owned.iter().map(Value::from).collect();
        let mut query = String::new();
        for _ in &values {
            query += PIECES[random.below(5)];
            query += "? ";
        }
        query += PIECES[random.below(6)];
        let (params, mode) = (Params::Positional(&values), round % 2 == 1);
        let text = bind_str_in(&query, &params, mode);
        let same = bind_in(query.as_bytes(), &params, mode);
        assert_eq!(text.clone().map(String::into_bytes), same, "{query}");
        assert!(text.is_ok(), "{query}: {text:?}");
        if !mode {
            assert_eq!(bind_str(&query, &params), text, "{query}");
        }
        for value in owned {
            *(if value.is_ascii() || std::str::from_utf8(&value).is_ok() {
                &mut strings
            } else {
                &mut hexadecimals
            }) += 1;
        }
    }
    assert!(strings > 1000 && hexadecimals > 1000);
    assert_eq!(
        bind_str("?", &Params::Empty),
        bind(b"?", &Params::Empty).map(|_| String::new())
    );
}

#[test]
fn constructs_as_errors() {
    fn refuse(query: &[u8]) -> Result<(), Box<dyn std::error::Error + Send + Sync>> {
        match first_unportable(query)? {
            Some(found) => Err(found.into()),
            None => Ok(()),
        }
    }
    let told = refuse(b"a, [b]").expect_err("a bracket").to_string();
    let wanted = "not portable at byte 3: `[` may open an identifier: write the name in backquotes";
    assert_eq!(told, wanted);
    assert!(refuse(b"a").is_ok());
}

#[test]
fn errors_of_use() {
    let pairs = [("a", Value::Null), ("", Value::Null)];
    let error = bind(b":a ?", &Params::Named(&pairs)).expect_err("an empty name");
    assert_eq!(error, Error::EmptyName { parameter: 1 });
    assert_eq!(error.to_string(), "Parameter 1 has an empty name");
    assert_eq!(error.number(), None);
    // Lists without entries give nothing.
    assert_eq!(
        bind(b"SELECT 1", &Params::Named(&[])),
        Ok(b"SELECT 1".to_vec())
    );
    assert_eq!(
        bind(b"SELECT 1", &Params::Positional(&[])),
        Ok(b"SELECT 1".to_vec())
    );
}
