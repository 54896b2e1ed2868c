//! What the crate says of the archive, held against mysql_params.h: each function and struct that archive.rs declares, with
//! all names and types, and the numbers of refusals.
use mysql_params::{Construct, Error, Fault, Unportable};
use std::path::Path;

/// A file without its comments in C, with a space for each run of white space.
fn code_of(path: &str) -> String {
    let path = Path::new(env!("CARGO_MANIFEST_DIR")).join(path);
    let text = std::fs::read_to_string(path).expect("it can be read");
    let mut parts = text.split("/*");
    let mut code = parts.next().unwrap_or("").to_string();
    for part in parts {
        code += part.split_once("*/").expect("the end of a comment").1;
    }
    code.split_whitespace().collect::<Vec<_>>().join(" ")
}

/// The declarations between the texts, each of which ends at a sign.
fn declarations(code: &str, begin: &str, end: &str, sign: char) -> Option<Vec<String>> {
    let inner = code.split_once(begin)?.1.split_once(end)?.0;
    let parts = inner.split(sign).map(|part| part.trim().to_string());
    Some(parts.filter(|part| !part.is_empty()).collect())
}

/// A declaration of C, as `const uint8_t *query`, as Rust's: `query: *const u8`.
fn in_rust(declaration: &str) -> String {
    let plain = declaration.strip_prefix("const ");
    let (of, name) = plain
        .unwrap_or(declaration)
        .rsplit_once(' ')
        .expect("a name");
    let of = match of {
        "uint8_t" => "u8",
        "size_t" => "usize",
        "mysql_params_report" => "Report",
        "mysql_params_rows" => "Rows",
        "mysql_params_place" => "Place",
        "mysql_params_table_head" => "TableHead",
        other => other,
    };
    match name.strip_prefix('*') {
        Some(name) if plain.is_some() => format!("{name}: *const {of}"),
        Some(name) => format!("{name}: *mut {of}"),
        None => format!("{name}: {of}"),
    }
}

#[test]
fn functions_of_the_header() {
    let (header, source) = (code_of("../c/mysql_params.h"), code_of("src/archive.rs"));
    let block = source
        .split_once("unsafe extern \"C\" { fn ")
        .expect("the block")
        .1;
    let block = block.split_once(" }").expect("its end").0;
    let functions: Vec<&str> = block.split("fn ").collect();
    assert!(functions.len() > 8);
    for function in functions {
        let name = function.split('(').next().expect("a name");
        assert!(function.trim_end().ends_with(") -> i32;"), "{name}");
        let params = declarations(function, "(", ")", ',');
        let wanted = declarations(&header, &format!("int32_t {name}("), ");", ',');
        let wanted = wanted.expect(name);
        assert_eq!(
            params,
            Some(wanted.iter().map(|one| in_rust(one)).collect()),
            "{name}"
        );
    }
}

#[test]
fn structs_of_the_header() {
    let (header, source) = (code_of("../c/mysql_params.h"), code_of("src/archive.rs"));
    let source = source.replace("pub(crate) ", "");
    for (name, of_header) in [
        ("Report", "report"),
        ("Rows", "rows"),
        ("Place", "place"),
        ("TableHead", "table_head"),
    ] {
        let repr = "#[repr(C)] #[derive(Clone, Copy, Debug, Default, PartialEq, Eq)]";
        let fields = declarations(&source, &format!("{repr} struct {name} {{"), "}", ',');
        let begin = format!("typedef struct mysql_params_{of_header} {{");
        let wanted = declarations(&header, &begin, "}", ';').expect(name);
        assert_eq!(
            fields,
            Some(wanted.iter().map(|one| in_rust(one)).collect()),
            "{name}"
        );
    }
}

/// The error of each refusal of the header that isn't the archive's own, by its name there.
fn errors() -> [(&'static str, Error); 20] {
    let (parameter, place, position, byte) = (0, 0, 0, 0);
    let (word, construct) = (None, Construct::Hint);
    let name = || b"a".to_vec().into();
    let alone = Error::NotAlone {
        place,
        position,
        name: None,
        neighbour: 0,
        word: None,
        beside_point: false,
    };
    [
        ("OUT_OF_MEMORY", Error::OutOfMemory),
        (
            "FORM_END",
            Error::FormEnd {
                parameter,
                position,
            },
        ),
        (
            "FORM_LENGTH_LEAD",
            Error::FormLengthLead {
                parameter,
                position,
                byte,
            },
        ),
        (
            "FORM_TYPE",
            Error::FormType {
                parameter,
                position,
                column_type: 0,
            },
        ),
        (
            "FORM_MIXED",
            Error::FormMixed {
                parameter,
                position,
            },
        ),
        (
            "FORM_REPEATED",
            Error::RepeatedName {
                parameter,
                position,
                name: name(),
            },
        ),
        ("MIXED", Error::Mixed),
        (
            "MISSING",
            Error::Missing {
                place,
                position,
                name: name(),
                word: None,
            },
        ),
        ("NAMED_FOR_POSITIONAL", Error::NamedForPositional { word }),
        ("POSITIONAL_FOR_NAMED", Error::PositionalForNamed),
        (
            "MARK_COUNT",
            Error::MarkCount {
                marks: 0,
                values: 0,
            },
        ),
        ("NOT_ALONE", alone),
        ("FLOAT", Error::Float { place, name: None }),
        ("UNSTEADY", Error::Unsteady { position }),
        (
            "UNPORTABLE",
            Error::Unportable(Unportable {
                construct,
                position,
            }),
        ),
        (
            "FAULT",
            Error::Fault {
                place,
                fault: Fault::Empty,
                name: None,
            },
        ),
        ("BACKSLASH", Error::Backslash { position }),
        (
            "UNSTEADY_FRAGMENT",
            Error::UnsteadyFragment { place, name: None },
        ),
        (
            "UNBRACKETED",
            Error::Unbracketed {
                place,
                position,
                name: None,
            },
        ),
        ("OTHER_TABLE", Error::UnknownAnswer { number: 20 }),
    ]
}

#[test]
fn numbers_of_the_header() {
    let (header, source) = (code_of("../c/mysql_params.h"), code_of("src/archive.rs"));
    let numbers = declarations(&header, "enum mysql_params_number {", "}", ',').expect("the enum");
    let mut errors = errors().to_vec();
    for number in numbers {
        let (name, number) = number.split_once(" = ").expect("NAME = NUMBER");
        let name = name.strip_prefix("MYSQL_PARAMS_").expect("a name");
        let number: i32 = number.parse().expect("a number");
        match errors.iter().position(|(of_error, _)| *of_error == name) {
            Some(at) => assert_eq!(errors.remove(at).1.number(), Some(number), "{name}"),
            None => assert!(
                source.contains(&format!("const {name}: i32 = {number};")),
                "{name}"
            ),
        }
    }
    assert_eq!(errors, []);
}
