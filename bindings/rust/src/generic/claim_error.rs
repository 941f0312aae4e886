//! The error of claims and of their checks.

use std::error::Error;
use std::fmt;

/// Why a claim was refused, or why the claims of a token did not pass a check.
///
/// ```rust
/// use paseto_proved::generic::PasetoClaimError;
///
/// let missing = PasetoClaimError::Missing("sub".to_owned());
/// assert_eq!(missing.to_string(), "The expected claim 'sub' was not found in the payload");
/// ```
#[derive(Clone, Debug, PartialEq, Eq)]
pub enum PasetoClaimError {
    /// The token has expired.
    Expired,
    /// The token may not be used yet: this is the text of its `nbf`.
    UseBeforeAvailable(String),
    /// The text is not a date and time.
    RFC3339Date(String),
    /// A value was expected under this key, and the payload has none, or null.
    Missing(String),
    /// The value under this key is not of an expected type.
    Unexpected(String),
    /// A validator refused the value under this key. No call returns it: it is for validators.
    CustomValidation(String),
    /// Key, actual text and expected text. The message names the two texts the other way round, as in rusty_paseto.
    Invalid(String, String, String),
    /// The key is one of the seven that the standard reserves.
    Reserved(String),
    /// The key was set more than once. No call returns it: a builder returns its error of this name.
    DuplicateTopLevelPayloadClaim(String),
}

impl fmt::Display for PasetoClaimError {
    fn fmt(&self, f: &mut fmt::Formatter<'_>) -> fmt::Result {
        match self {
            PasetoClaimError::Expired => f.write_str("This token is expired"),
            PasetoClaimError::UseBeforeAvailable(date) => {
                write!(f, "The token cannot be used before {date}")
            }
            PasetoClaimError::RFC3339Date(text) => {
                write!(f, "The value {text} is a malformed RFC3339 date")
            }
            PasetoClaimError::Missing(key) => {
                write!(f, "The expected claim '{key}' was not found in the payload")
            }
            PasetoClaimError::Unexpected(key) => {
                write!(
                    f,
                    "Could not convert claim '{key}' to the expected data type"
                )
            }
            PasetoClaimError::CustomValidation(key) => {
                write!(f, "The claim '{key}' failed custom validation")
            }
            PasetoClaimError::Invalid(key, found, wanted) => write!(
                f,
                "The claim '{key}' failed validation.  Expected '{found}' but received '{wanted}'"
            ),
            PasetoClaimError::Reserved(key) => write!(
                f,
                "The key {key} is a reserved for use within PASETO.  \
                 To set a reserved claim, use the strong type: e.g - ExpirationClaimClaim"
            ),
            PasetoClaimError::DuplicateTopLevelPayloadClaim(key) => write!(
                f,
                "The claim '{key}' appears more than once in the top level payload json"
            ),
        }
    }
}

impl Error for PasetoClaimError {}
