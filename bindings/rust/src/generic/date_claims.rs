//! The reserved claims that are dates and times.

use crate::generic::{PasetoClaim, PasetoClaimError};
use serde::{Serialize, Serializer};
use time::format_description::well_known::Rfc3339;
use time::OffsetDateTime;

// The text of a claim by default, as in rusty_paseto.
const DEFAULT: &str = "2019-01-01T00:00:00+00:00";

macro_rules! date_claim {
    ($(#[$about:meta])* $name:ident, $key:literal) => {
        $(#[$about])*
        /// It is made of an RFC 3339 date and time, such as `2026-11-29T12:00:00Z`; another text gives `RFC3339Date`.
        ///
        /// ```rust
        #[doc = concat!("use paseto_proved::generic::{", stringify!($name), ", PasetoClaimError};")]
        ///
        /// # fn main() -> Result<(), PasetoClaimError> {
        #[doc = concat!("let claim = ", stringify!($name), "::try_from(\"2026-11-29T12:00:00Z\")?;")]
        #[doc = concat!("assert_eq!(claim.as_ref().0, \"", $key, "\");")]
        #[doc = concat!("let refused = ", stringify!($name), "::try_from(\"noon\").err();")]
        /// assert_eq!(refused, Some(PasetoClaimError::RFC3339Date("noon".to_owned())));
        /// # Ok(())
        /// # }
        /// ```
        #[derive(Clone, Debug)]
        pub struct $name((String, String));

        impl PasetoClaim for $name {
            fn get_key(&self) -> &str {
                &self.0 .0
            }
        }

        impl Default for $name {
            fn default() -> Self {
                $name(($key.to_owned(), DEFAULT.to_owned()))
            }
        }

        impl TryFrom<String> for $name {
            type Error = PasetoClaimError;

            fn try_from(text: String) -> Result<Self, PasetoClaimError> {
                match OffsetDateTime::parse(&text, &Rfc3339) {
                    Ok(_) => Ok($name(($key.to_owned(), text))),
                    Err(_) => Err(PasetoClaimError::RFC3339Date(text)),
                }
            }
        }

        impl TryFrom<&str> for $name {
            type Error = PasetoClaimError;

            fn try_from(text: &str) -> Result<Self, PasetoClaimError> {
                $name::try_from(text.to_owned())
            }
        }

        impl AsRef<(String, String)> for $name {
            fn as_ref(&self) -> &(String, String) {
                &self.0
            }
        }

        impl Serialize for $name {
            fn serialize<S: Serializer>(&self, serializer: S) -> Result<S::Ok, S::Error> {
                serializer.collect_map([(&self.0 .0, &self.0 .1)])
            }
        }
    };
}

date_claim! {
    /// Until when the token may be used: `exp`.
    ExpirationClaim, "exp"
}
date_claim! {
    /// When the token was issued: `iat`.
    IssuedAtClaim, "iat"
}
date_claim! {
    /// From when on the token may be used: `nbf`.
    NotBeforeClaim, "nbf"
}
