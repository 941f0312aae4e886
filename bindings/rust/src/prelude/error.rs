//! The error of moments.

use std::convert::Infallible;
use std::error::Error;
use std::fmt;

/// An error for callers that write moments by the crate `time`. No call returns it.
///
/// ```rust
/// use paseto_proved::prelude::*;
/// use time::{format_description::well_known::Rfc3339, Date, Month, OffsetDateTime};
///
/// fn text_of(moment: OffsetDateTime) -> Result<String, GeneralPasetoError> {
///     Ok(moment.format(&Rfc3339)?)
/// }
/// assert_eq!(text_of(OffsetDateTime::UNIX_EPOCH).ok(), Some("1970-01-01T00:00:00Z".to_owned()));
/// let before_all = Date::from_calendar_date(-1, Month::January, 1).map(|day| day.midnight().assume_utc());
/// assert!(matches!(before_all.map(text_of), Ok(Err(GeneralPasetoError::RFC3339Date(_)))));
/// ```
#[derive(Debug)]
pub enum GeneralPasetoError {
    /// Another error of this kind.
    PasetoError(Box<GeneralPasetoError>),
    /// What never happens.
    Infallible {
        /// Nothing.
        source: Infallible,
    },
    /// A moment is not written as RFC 3339.
    RFC3339Date(time::error::Format),
}

impl fmt::Display for GeneralPasetoError {
    fn fmt(&self, f: &mut fmt::Formatter<'_>) -> fmt::Result {
        match self {
            GeneralPasetoError::PasetoError(_) => f.write_str("A general paseto error occurred"),
            GeneralPasetoError::Infallible { source } => match *source {},
            GeneralPasetoError::RFC3339Date(source) => source.fmt(f),
        }
    }
}

impl Error for GeneralPasetoError {
    fn source(&self) -> Option<&(dyn Error + 'static)> {
        match self {
            GeneralPasetoError::PasetoError(_) => None,
            GeneralPasetoError::Infallible { source } => match *source {},
            GeneralPasetoError::RFC3339Date(source) => source.source(),
        }
    }
}

impl From<Infallible> for GeneralPasetoError {
    fn from(source: Infallible) -> Self {
        match source {}
    }
}

impl From<time::error::Format> for GeneralPasetoError {
    fn from(source: time::error::Format) -> Self {
        GeneralPasetoError::RFC3339Date(source)
    }
}
