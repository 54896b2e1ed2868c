//! Durations, and parameters as the macro writes them.
use mysql_params::{DurationTooLong, Error, Params, Time, Value, bind, bind_anywhere, params};
use std::time::Duration;

const DAY: u64 = 24 * 60 * 60;

/// The days, hours, minutes, seconds and microseconds of a duration.
fn fields(duration: Duration) -> Option<(u32, u8, u8, u8, u32)> {
    let Time {
        negative,
        days,
        hours,
        minutes,
        seconds,
        microseconds,
    } = Time::try_from(duration).ok()?;
    assert!(!negative, "{duration:?}");
    Some((days, hours, minutes, seconds, microseconds))
}

#[test]
fn durations() {
    let longest = u64::from(u32::MAX) * DAY + DAY - 1;
    for (duration, wanted) in [
        (Duration::ZERO, Some((0, 0, 0, 0, 0))),
        (Duration::from_nanos(499), Some((0, 0, 0, 0, 0))),
        (Duration::from_nanos(500), Some((0, 0, 0, 0, 1))),
        (Duration::new(0, 999_999_499), Some((0, 0, 0, 0, 999_999))),
        (Duration::new(0, 999_999_500), Some((0, 0, 0, 1, 0))),
        (Duration::from_secs(59), Some((0, 0, 0, 59, 0))),
        (Duration::from_secs(3_661), Some((0, 1, 1, 1, 0))),
        (Duration::from_secs(DAY - 1), Some((0, 23, 59, 59, 0))),
        (Duration::new(DAY - 1, 999_999_500), Some((1, 0, 0, 0, 0))),
        (
            Duration::new(longest, 999_999_499),
            Some((u32::MAX, 23, 59, 59, 999_999)),
        ),
        (Duration::new(longest, 999_999_500), None),
        (Duration::from_secs(longest + 1), None),
        (Duration::MAX, None),
    ] {
        assert_eq!(fields(duration), wanted, "{duration:?}");
    }
    let error = Value::try_from(Duration::MAX).unwrap_err();
    assert_eq!(error, DurationTooLong(Duration::MAX));
    assert_eq!(error.to_string(), "Duration has too many days");
}

#[test]
fn bound_durations() {
    let span = Value::try_from(Duration::new(90_061, 1_000)).unwrap();
    let text = bind(b"?", &Params::Positional(&[span])).unwrap();
    assert_eq!(text, b"'025:01:01.000001'");
}

#[test]
fn written_parameters() {
    let name = String::from("it's");
    let missing: Option<i32> = None;
    assert_eq!(
        params! { "a" => 1, "b" => &name, },
        Params::Named(&[("a", Value::Int(1)), ("b", Value::Bytes(b"it's"))])
    );
    assert_eq!(
        params![1u8, missing, Value::Null, b"\xFF"],
        Params::Positional(&[
            Value::UInt(1),
            Value::Null,
            Value::Null,
            Value::Bytes(b"\xFF")
        ])
    );
    assert_eq!(params![], Params::Empty);
    let text = bind(b":b", &params! { "b" => &name }).unwrap();
    assert_eq!(text, br"'it\'s'");
}

#[test]
fn call_of_readme() -> Result<(), Error> {
    let text = bind_anywhere(b"SELECT :id", &params! { "id" => 42 })?;
    assert_eq!(text, b"SELECT 42");
    Ok(())
}
