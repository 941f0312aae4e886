//! The error of builders.

use crate::core::PasetoError;
use crate::generic::PasetoClaimError;
use std::error::Error;
use std::fmt;

/// Why a builder did not make a token.
///
/// ```rust
/// use paseto_proved::prelude::*;
///
/// # fn main() -> Result<(), Box<dyn std::error::Error>> {
/// let twice = PasetoBuilder::<V4, Local>::default()
///     .set_claim(SubjectClaim::from("ada"))
///     .set_claim(SubjectClaim::from("bob"))
///     .build(&PasetoSymmetricKey::try_new_random()?);
/// assert!(matches!(twice, Err(GenericBuilderError::DuplicateTopLevelPayloadClaim(key)) if key == "sub"));
/// # Ok(())
/// # }
/// ```
#[derive(Debug)]
pub enum GenericBuilderError {
    /// A claim was refused. The message is the claim's own.
    ClaimError {
        /// Why.
        source: PasetoClaimError,
    },
    /// A text is not an e-mail address. No call returns it.
    BadEmailAddress(String),
    /// A key was set more than once.
    DuplicateTopLevelPayloadClaim(String),
    /// The token was not encrypted or signed.
    CipherError {
        /// Why.
        source: PasetoError,
    },
    /// A claim's value cannot be written as JSON.
    PayloadJsonError {
        /// Why.
        source: serde_json::Error,
    },
}

impl GenericBuilderError {
    /// The reason, in one line: for `CipherError` and `PayloadJsonError` that of its source, which the message of the error
    /// itself does not say.
    ///
    /// ```rust
    /// use paseto_proved::prelude::*;
    ///
    /// let no_key: &[u8] = &[0; 63];
    /// let built = PasetoBuilder::<V4, Public>::default().build(&PasetoAsymmetricPrivateKey::from(no_key));
    /// assert_eq!(built.map_err(|error| error.reason()), Err("Key was not in the correct format".to_owned()));
    /// ```
    pub fn reason(&self) -> String {
        match self {
            GenericBuilderError::CipherError { source } => source.to_string(),
            GenericBuilderError::PayloadJsonError { source } => source.to_string(),
            other => other.to_string(),
        }
    }
}

impl fmt::Display for GenericBuilderError {
    fn fmt(&self, f: &mut fmt::Formatter<'_>) -> fmt::Result {
        match self {
            GenericBuilderError::ClaimError { source } => source.fmt(f),
            GenericBuilderError::BadEmailAddress(text) => {
                write!(f, "{text} is an invalid iso8601 (email) string")
            }
            GenericBuilderError::DuplicateTopLevelPayloadClaim(key) => write!(
                f,
                "The claim '{key}' appears more than once in the top level payload json"
            ),
            GenericBuilderError::CipherError { .. } => {
                f.write_str("A paseto cipher error occurred")
            }
            GenericBuilderError::PayloadJsonError { .. } => {
                f.write_str("The payload was unable to be serialized into json")
            }
        }
    }
}

impl Error for GenericBuilderError {
    fn source(&self) -> Option<&(dyn Error + 'static)> {
        match self {
            GenericBuilderError::CipherError { source } => Some(source),
            GenericBuilderError::PayloadJsonError { source } => Some(source),
            _ => None,
        }
    }
}

impl From<PasetoClaimError> for GenericBuilderError {
    fn from(source: PasetoClaimError) -> Self {
        GenericBuilderError::ClaimError { source }
    }
}

impl From<PasetoError> for GenericBuilderError {
    fn from(source: PasetoError) -> Self {
        GenericBuilderError::CipherError { source }
    }
}

impl From<serde_json::Error> for GenericBuilderError {
    fn from(source: serde_json::Error) -> Self {
        GenericBuilderError::PayloadJsonError { source }
    }
}
