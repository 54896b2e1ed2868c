//! Values and parameters.

/// A value for a place of a query. It borrows its bytes. `Debug` shows them, of parameters and fragments too: keep it out
/// of logs.
#[non_exhaustive]
#[derive(Clone, Copy, Debug, PartialEq)]
pub enum Value<'a> {
    /// `NULL`.
    Null,
    /// Bytes. If they are UTF-8 their literal is a string, else a hexadecimal one.
    Bytes(&'a [u8]),
    /// A signed whole number.
    Int(i64),
    /// An unsigned whole number.
    UInt(u64),
    /// A number of single precision. It is bound as the double of the same value: `0.1f32` as `0.10000000149011612e0`.
    Float(f32),
    /// A number of double precision. [`bind_fragments`](crate::bind_fragments) and
    /// [`bind_fragments_anywhere`](crate::bind_fragments_anywhere) write a finite one with an exponent, `1.5e0`, by which a
    /// server reads it as this DOUBLE. The other calls refuse each as [`Error::Float`](crate::Error::Float).
    Double(f64),
    /// A date with its time of day.
    Date(Date),
    /// A span of time.
    Time(Time),
}

/// A date with its time of day. Fields stand in the literal as they are, also a month 0 or 255; a time of day that is
/// all 0 is left out.
#[derive(Clone, Copy, Debug, Default, PartialEq, Eq, Hash)]
pub struct Date {
    /// The year.
    pub year: u16,
    /// The month, from 1.
    pub month: u8,
    /// The day, from 1.
    pub day: u8,
    /// The hour.
    pub hour: u8,
    /// The minute.
    pub minute: u8,
    /// The second.
    pub second: u8,
    /// The microsecond.
    pub microsecond: u32,
}

/// A span of time. Days and hours are added up to hours in the literal; the other fields stand in it as they are.
#[derive(Clone, Copy, Debug, Default, PartialEq, Eq, Hash)]
pub struct Time {
    /// Whether it is less than zero.
    pub negative: bool,
    /// The days.
    pub days: u32,
    /// The hours.
    pub hours: u8,
    /// The minutes.
    pub minutes: u8,
    /// The seconds.
    pub seconds: u8,
    /// The microseconds.
    pub microseconds: u32,
}

/// What is given to a query. Lists without entries are as [`Params::Empty`].
#[derive(Clone, Copy, Debug, PartialEq)]
pub enum Params<'a> {
    /// Nothing.
    Empty,
    /// Values for the marks `?` of a query, in order.
    Positional(&'a [Value<'a>]),
    /// Names without their colons, and their values. Names that the query doesn't have are ignored.
    Named(&'a [(&'a str, Value<'a>)]),
}

macro_rules! value_from {
    ($($from:ty, $variant:ident;)*) => {$(
        impl From<$from> for Value<'_> {
            fn from(number: $from) -> Self {
                Value::$variant(number.into())
            }
        }
    )*};
}

value_from! {
    i8, Int; i16, Int; i32, Int; i64, Int; bool, Int;
    u8, UInt; u16, UInt; u32, UInt; u64, UInt;
    f32, Float; f64, Double;
}

// `isize` and `usize` have at most 64 bits, but no `into()` says so.

impl From<isize> for Value<'_> {
    fn from(number: isize) -> Self {
        Value::Int(number as i64)
    }
}

impl From<usize> for Value<'_> {
    fn from(number: usize) -> Self {
        Value::UInt(number as u64)
    }
}

impl From<Date> for Value<'_> {
    fn from(date: Date) -> Self {
        Value::Date(date)
    }
}

impl From<Time> for Value<'_> {
    fn from(time: Time) -> Self {
        Value::Time(time)
    }
}

impl<'a> From<&'a [u8]> for Value<'a> {
    fn from(bytes: &'a [u8]) -> Self {
        Value::Bytes(bytes)
    }
}

impl<'a, const N: usize> From<&'a [u8; N]> for Value<'a> {
    fn from(bytes: &'a [u8; N]) -> Self {
        Value::Bytes(bytes)
    }
}

impl<'a> From<&'a Vec<u8>> for Value<'a> {
    fn from(bytes: &'a Vec<u8>) -> Self {
        Value::Bytes(bytes)
    }
}

impl<'a> From<&'a str> for Value<'a> {
    fn from(text: &'a str) -> Self {
        Value::Bytes(text.as_bytes())
    }
}

impl<'a> From<&'a String> for Value<'a> {
    fn from(text: &'a String) -> Self {
        Value::Bytes(text.as_bytes())
    }
}

impl<'a, T: Into<Value<'a>>> From<Option<T>> for Value<'a> {
    fn from(thing: Option<T>) -> Self {
        thing.map_or(Value::Null, Into::into)
    }
}
