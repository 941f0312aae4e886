//! The error of parsers.

use crate::core::PasetoError;
use crate::generic::PasetoClaimError;
use std::error::Error;
use std::fmt;

/// Why a parser refused a token.
///
/// ```rust
/// use paseto_proved::prelude::*;
///
/// # fn main() -> Result<(), Box<dyn std::error::Error>> {
/// let key = PasetoSymmetricKey::<V4, Local>::try_new_random()?;
/// let refused = PasetoParser::<V4, Local>::default().parse("v4.local", &key);
/// assert!(matches!(refused, Err(GenericParserError::CipherError { source: PasetoError::IncorrectSize })));
/// # Ok(())
/// # }
/// ```
#[derive(Debug)]
pub enum GenericParserError {
    /// A claim is missing, or did not pass a check. The message is the claim's own.
    ClaimError {
        /// Why.
        source: PasetoClaimError,
    },
    /// The token was not decrypted or verified.
    CipherError {
        /// Why.
        source: PasetoError,
    },
    /// The payload of the token is not JSON.
    PayloadJsonError {
        /// What the library says about it.
        source: serde_json::Error,
    },
}

impl GenericParserError {
    /// The reason of the refusal, in one line: for `CipherError` and `PayloadJsonError` that of its source, which the
    /// message of the error itself does not say.
    ///
    /// ```rust
    /// use paseto_proved::prelude::*;
    ///
    /// # fn main() -> Result<(), Box<dyn std::error::Error>> {
    /// let key = PasetoSymmetricKey::<V4, Local>::try_new_random()?;
    /// let refused = PasetoParser::<V4, Local>::default().parse("v3.local.AAAA", &key);
    /// assert_eq!(refused.map_err(|error| error.reason()), Err("The token header is invalid".to_owned()));
    /// # Ok(())
    /// # }
    /// ```
    pub fn reason(&self) -> String {
        match self {
            GenericParserError::ClaimError { source } => source.to_string(),
            GenericParserError::CipherError { source } => source.to_string(),
            GenericParserError::PayloadJsonError { source } => source.to_string(),
        }
    }
}

impl fmt::Display for GenericParserError {
    fn fmt(&self, f: &mut fmt::Formatter<'_>) -> fmt::Result {
        match self {
            GenericParserError::ClaimError { source } => source.fmt(f),
            GenericParserError::CipherError { .. } => f.write_str("A paseto cipher error occurred"),
            GenericParserError::PayloadJsonError { .. } => {
                f.write_str("The payload was unable to be serialized into json")
            }
        }
    }
}

impl Error for GenericParserError {
    fn source(&self) -> Option<&(dyn Error + 'static)> {
        match self {
            GenericParserError::ClaimError { .. } => None,
            GenericParserError::CipherError { source } => Some(source),
            GenericParserError::PayloadJsonError { source } => Some(source),
        }
    }
}

impl From<PasetoClaimError> for GenericParserError {
    fn from(source: PasetoClaimError) -> Self {
        GenericParserError::ClaimError { source }
    }
}

impl From<PasetoError> for GenericParserError {
    fn from(source: PasetoError) -> Self {
        GenericParserError::CipherError { source }
    }
}

impl From<serde_json::Error> for GenericParserError {
    fn from(source: serde_json::Error) -> Self {
        GenericParserError::PayloadJsonError { source }
    }
}
