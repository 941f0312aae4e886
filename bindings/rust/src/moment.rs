//! Moments, in nanoseconds as the library counts them.

use std::fmt;
use std::time::{Duration, SystemTime, UNIX_EPOCH};
use time::format_description::well_known::Rfc3339;
use time::OffsetDateTime;

/// A moment: how many nanoseconds it is after 1970-01-01T00:00:00Z.
#[derive(Clone, Copy, Debug, PartialEq, Eq)]
pub(crate) struct Moment(i128);

impl Moment {
    /// That of the clock.
    pub(crate) fn now() -> Self {
        Moment::from(SystemTime::now())
    }

    /// The moment a second before this one.
    pub(crate) fn a_second_before(self) -> Self {
        Moment(self.0 - nanoseconds(Duration::from_secs(1)))
    }

    /// As the library takes it, or `None` for one more than 292 years from 1970.
    pub(crate) fn nanoseconds(self) -> Option<i64> {
        i64::try_from(self.0).ok()
    }

    /// The RFC 3339 date and time, as the library writes it, or `None` outside of the years 0 to 9999.
    pub(crate) fn to_date(self) -> Option<String> {
        let moment = OffsetDateTime::from_unix_timestamp_nanos(self.0).ok()?;
        moment.format(&Rfc3339).ok()
    }
}

impl From<SystemTime> for Moment {
    fn from(time: SystemTime) -> Self {
        match time.duration_since(UNIX_EPOCH) {
            Ok(after) => Moment(nanoseconds(after)),
            Err(before) => Moment(-nanoseconds(before.duration())),
        }
    }
}

impl fmt::Display for Moment {
    fn fmt(&self, f: &mut fmt::Formatter<'_>) -> fmt::Result {
        let second = self.0.div_euclid(nanoseconds(Duration::from_secs(1)));
        write!(f, "{second} seconds after 1970")
    }
}

// No duration has as many as 2^94 of them.
fn nanoseconds(duration: Duration) -> i128 {
    duration.as_nanos() as i128
}

#[cfg(test)]
mod tests {
    use super::*;

    #[test]
    fn moments_are_counted_and_written() {
        let half = Duration::from_millis(1_500);
        let after = Moment::from(UNIX_EPOCH + half);
        assert_eq!(after.nanoseconds(), Some(1_500_000_000));
        assert_eq!(after.to_date().as_deref(), Some("1970-01-01T00:00:01.5Z"));
        let earlier = after.a_second_before();
        assert_eq!(earlier.to_date().as_deref(), Some("1970-01-01T00:00:00.5Z"));
        let before = Moment::from(UNIX_EPOCH - half);
        assert_eq!(before.nanoseconds(), Some(-1_500_000_000));
        assert_eq!(before.to_string(), "-2 seconds after 1970");
        let far = Moment::from(UNIX_EPOCH + Duration::from_secs(1 << 40));
        assert_eq!((far.nanoseconds(), far.to_date()), (None, None));
    }
}
