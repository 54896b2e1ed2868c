//! Enums that may get more variants: a `match` of another crate on all of today's has an arm for others, which isn't
//! unreachable.
#![deny(unreachable_patterns)]
#![allow(clippy::match_like_matches_macro)]
use mysql_params::{Construct, Error, Fault, Fragment, Item, Value, bind, params};

fn is_known_error(error: &Error) -> bool {
    match error {
        Error::OutOfMemory
        | Error::Processor
        | Error::EmptyName { .. }
        | Error::FormEnd { .. }
        | Error::FormLengthLead { .. }
        | Error::FormType { .. }
        | Error::FormMixed { .. }
        | Error::RepeatedName { .. }
        | Error::Mixed
        | Error::Missing { .. }
        | Error::NamedForPositional { .. }
        | Error::PositionalForNamed
        | Error::MarkCount { .. }
        | Error::NotAlone { .. }
        | Error::Float { .. }
        | Error::Unsteady { .. }
        | Error::Unportable(_)
        | Error::Fault { .. }
        | Error::Backslash { .. }
        | Error::UnsteadyFragment { .. }
        | Error::Unbracketed { .. }
        | Error::UnknownAnswer { .. } => true,
        _ => false,
    }
}

fn is_known_fault(fault: Fault) -> bool {
    match fault {
        Fault::Empty
        | Fault::EmptyRow { .. }
        | Fault::RowLength { .. }
        | Fault::Number { .. }
        | Fault::EmptyName { .. }
        | Fault::ZeroByte { .. }
        | Fault::LongName { .. }
        | Fault::TrailingSpace { .. }
        | Fault::Keyword
        | Fault::Backslash { .. } => true,
        _ => false,
    }
}

fn is_known_construct(construct: Construct) -> bool {
    match construct {
        Construct::ExecutableComment
        | Construct::Hint
        | Construct::MariaDbComment
        | Construct::Dashes
        | Construct::EscapedQuote
        | Construct::Bracket
        | Construct::DollarQuote
        | Construct::DashesAfterExponent
        | Construct::PlaceAfterExponent
        | Construct::OpenerInComment
        | Construct::JoiningComment
        | Construct::DashesBeforeComment
        | Construct::ClientCommand
        | Construct::DashInFront
        | Construct::Delimiter
        | Construct::ClientWord
        | Construct::EscapedNewline
        | Construct::ZeroByte
        | Construct::EscapedBackquote
        | Construct::ReturnInComment => true,
        _ => false,
    }
}

fn is_known_value(value: &Value) -> bool {
    match value {
        Value::Null
        | Value::Bytes(_)
        | Value::Int(_)
        | Value::UInt(_)
        | Value::Float(_)
        | Value::Double(_)
        | Value::Date(_)
        | Value::Time(_) => true,
        _ => false,
    }
}

fn is_known_item(item: &Item) -> bool {
    match item {
        Item::Value(_) | Item::Decimal(_) | Item::Int128(_) | Item::UInt128(_) => true,
        _ => false,
    }
}

fn is_known_fragment(fragment: &Fragment) -> bool {
    match fragment {
        Fragment::Value(_)
        | Fragment::Decimal(_)
        | Fragment::Int128(_)
        | Fragment::UInt128(_)
        | Fragment::List(_)
        | Fragment::Rows(_)
        | Fragment::Identifier(_)
        | Fragment::Qualified(_)
        | Fragment::Identifiers(_)
        | Fragment::Assignments(_)
        | Fragment::Keyword(_) => true,
        _ => false,
    }
}

#[test]
fn enums_may_grow() {
    let error = bind(b":a", &params! { "b" => 1 }).expect_err("no value");
    assert!(is_known_error(&error));
    assert!(is_known_fault(Fault::Empty) && is_known_construct(Construct::Hint));
    assert!(is_known_value(&1.into()) && is_known_item(&1.into()));
    assert!(is_known_fragment(&vec![1].into()));
}
