//! Spans of time of the standard library.
use crate::{Time, Value};
use std::fmt;
use std::time::Duration;

/// A duration of more than 4294967295 days, which no [`Time`] holds. `Debug` doesn't show it.
#[derive(Clone, Copy, PartialEq, Eq)]
pub struct DurationTooLong(
    /// The duration.
    pub Duration,
);

impl fmt::Debug for DurationTooLong {
    fn fmt(&self, f: &mut fmt::Formatter<'_>) -> fmt::Result {
        write!(f, "DurationTooLong(..)")
    }
}

impl fmt::Display for DurationTooLong {
    fn fmt(&self, f: &mut fmt::Formatter<'_>) -> fmt::Result {
        write!(f, "Duration has too many days")
    }
}

impl std::error::Error for DurationTooLong {}

const SECONDS_OF_A_DAY: u64 = 24 * 60 * 60;

/// The nanoseconds are rounded half up to microseconds over the whole duration.
impl TryFrom<Duration> for Time {
    type Error = DurationTooLong;

    fn try_from(duration: Duration) -> Result<Self, DurationTooLong> {
        let too_long = DurationTooLong(duration);
        let rounded = (duration.subsec_nanos() + 500) / 1000;
        let carried = u64::from(rounded / 1_000_000);
        let seconds = duration.as_secs().checked_add(carried).ok_or(too_long)?;
        let of_the_day = seconds % SECONDS_OF_A_DAY;
        // Each of these is below 60, and so has one byte.
        let part = |seconds: u64| (seconds % 60) as u8;
        Ok(Time {
            negative: false,
            days: u32::try_from(seconds / SECONDS_OF_A_DAY).map_err(|_| too_long)?,
            hours: part(of_the_day / 3600),
            minutes: part(of_the_day / 60),
            seconds: part(of_the_day),
            microseconds: rounded % 1_000_000,
        })
    }
}

/// As of a [`Time`].
///
/// ```
/// use mysql_params::{Params, Value, bind_str};
/// use std::time::Duration;
///
/// let wait = Value::try_from(Duration::from_millis(90_500))?;
/// assert_eq!(bind_str("SELECT ?", &Params::Positional(&[wait]))?, "SELECT '000:01:30.500000'");
/// # Ok::<(), Box<dyn std::error::Error>>(())
/// ```
impl TryFrom<Duration> for Value<'_> {
    type Error = DurationTooLong;

    fn try_from(duration: Duration) -> Result<Self, DurationTooLong> {
        Time::try_from(duration).map(Value::Time)
    }
}
