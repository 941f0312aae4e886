//! A token that is not verified yet.

use crate::core::base64url::decode;
use crate::core::PasetoError;
use crate::library;
use std::fmt;

/// The sections of a token that is not verified yet: do not trust them.
///
/// ```rust
/// use paseto_proved::core::UntrustedToken;
///
/// # fn main() -> Result<(), Box<dyn std::error::Error>> {
/// let token = UntrustedToken::try_parse("v4.local.payload.a2V5LTE")?;
/// assert_eq!((token.version(), token.purpose()), ("v4", "local"));
/// assert_eq!(token.footer_str()?.as_deref(), Some("key-1"));
/// # Ok(())
/// # }
/// ```
#[derive(Clone, Copy)]
pub struct UntrustedToken<'a> {
    token: &'a str,
    version: &'a str,
    purpose: &'a str,
    footer: Option<&'a str>,
}

// A log does not have to hold the token itself.
impl fmt::Debug for UntrustedToken<'_> {
    fn fmt(&self, f: &mut fmt::Formatter<'_>) -> fmt::Result {
        f.debug_struct("UntrustedToken")
            .field("version", &self.version)
            .field("purpose", &self.purpose)
            .field("footer", &self.footer)
            .finish()
    }
}

impl<'a> UntrustedToken<'a> {
    /// Splits a token at its dots. Fails with `IncorrectSize` unless it has three or four sections.
    pub fn try_parse(token: &'a str) -> Result<Self, PasetoError> {
        let mut sections = token.split('.');
        let mut next = || sections.next().ok_or(PasetoError::IncorrectSize);
        let (version, purpose, _payload) = (next()?, next()?, next()?);
        let footer = sections.next();
        match sections.next() {
            None => Ok(UntrustedToken {
                token,
                version,
                purpose,
                footer,
            }),
            Some(_) => Err(PasetoError::IncorrectSize),
        }
    }

    /// The same of a token of at most so many bytes. Fails with `TooLong` for a longer one, before it is read.
    ///
    /// ```rust
    /// use paseto_proved::core::{PasetoError, UntrustedToken};
    ///
    /// let read = UntrustedToken::try_parse_within("v4.local.payload", 10);
    /// assert_eq!(read.err(), Some(PasetoError::TooLong));
    /// ```
    pub fn try_parse_within(token: &'a str, longest: usize) -> Result<Self, PasetoError> {
        if token.len() > longest {
            return Err(PasetoError::TooLong);
        }
        UntrustedToken::try_parse(token)
    }

    /// The first section, for example `v4`.
    pub fn version(&self) -> &'a str {
        self.version
    }

    /// The second section, for example `local`.
    pub fn purpose(&self) -> &'a str {
        self.purpose
    }

    /// The fourth section, still encoded, or `None` if there is none.
    pub fn footer_base64(&self) -> Option<&'a str> {
        self.footer
    }

    /// The bytes of the footer, or `None` if there is none. Fails with `PayloadBase64Decode` if the section is not
    /// valid base64url.
    pub fn footer_decoded(&self) -> Result<Option<Vec<u8>>, PasetoError> {
        self.footer
            .map(|section| decode(section).ok_or(PasetoError::PayloadBase64Decode))
            .transpose()
    }

    /// The text of the footer, or `None` if there is none. Fails with `PayloadBase64Decode` if the section is not valid
    /// base64url, `Utf8Error` if its bytes are not UTF-8, and `Memory` if the library is out of memory.
    pub fn footer_str(&self) -> Result<Option<String>, PasetoError> {
        match self.footer {
            Some(_) => Ok(Some(library::token_footer(self.token.as_bytes())?)),
            None => Ok(None),
        }
    }
}
