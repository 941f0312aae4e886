//! The reserved claims that are texts.

use crate::generic::PasetoClaim;
use serde::{Serialize, Serializer};

macro_rules! text_claim {
    ($(#[$about:meta])* $name:ident, $key:literal) => {
        $(#[$about])*
        ///
        /// ```rust
        #[doc = concat!("use paseto_proved::generic::{", stringify!($name), ", PasetoClaim};")]
        ///
        #[doc = concat!("let claim = ", stringify!($name), "::from(\"a text\");")]
        #[doc = concat!("assert_eq!(claim.get_key(), \"", $key, "\");")]
        #[doc = concat!("assert_eq!(claim.as_ref(), &(\"", $key, "\", \"a text\"));")]
        /// ```
        #[derive(Clone, Debug)]
        pub struct $name<'a>((&'a str, &'a str));

        impl PasetoClaim for $name<'_> {
            fn get_key(&self) -> &str {
                self.0 .0
            }
        }

        impl Default for $name<'_> {
            fn default() -> Self {
                $name(($key, ""))
            }
        }

        impl<'a> From<&'a str> for $name<'a> {
            fn from(text: &'a str) -> Self {
                $name(($key, text))
            }
        }

        impl<'a> AsRef<(&'a str, &'a str)> for $name<'a> {
            fn as_ref(&self) -> &(&'a str, &'a str) {
                &self.0
            }
        }

        impl Serialize for $name<'_> {
            fn serialize<S: Serializer>(&self, serializer: S) -> Result<S::Ok, S::Error> {
                serializer.collect_map([self.0])
            }
        }
    };
}

text_claim! {
    /// For whom the token is: `aud`.
    AudienceClaim, "aud"
}
text_claim! {
    /// Who issued the token: `iss`.
    IssuerClaim, "iss"
}
text_claim! {
    /// Whom the token is about: `sub`.
    SubjectClaim, "sub"
}
text_claim! {
    /// The id of the token: `jti`.
    TokenIdentifierClaim, "jti"
}
