//! The texts of a token, a type for each.

use crate::core::{PasetoError, UntrustedToken};
use std::fmt;
use std::ops::Deref;

macro_rules! text {
    ($(#[$about:meta])* $name:ident) => {
        $(#[$about])*
        #[derive(Clone, Copy, Debug, Default, Eq)]
        pub struct $name<'a>(&'a str);

        impl<'a> From<&'a str> for $name<'a> {
            fn from(text: &'a str) -> Self {
                $name(text)
            }
        }

        impl AsRef<str> for $name<'_> {
            fn as_ref(&self) -> &str {
                self.0
            }
        }

        impl Deref for $name<'_> {
            type Target = [u8];

            fn deref(&self) -> &[u8] {
                self.0.as_bytes()
            }
        }

        impl fmt::Display for $name<'_> {
            fn fmt(&self, f: &mut fmt::Formatter<'_>) -> fmt::Result {
                f.write_str(self.0)
            }
        }
    };
}

text! {
    /// The text that a token holds, usually claims as JSON.
    ///
    /// ```rust
    /// use paseto_proved::core::Payload;
    ///
    /// assert!(Payload::from("a text") == "a text");
    /// ```
    Payload
}
text! {
    /// A text in the token that is authenticated but not encrypted: often the id of the key, as JSON.
    ///
    /// ```rust
    /// use paseto_proved::core::Footer;
    ///
    /// # fn main() -> Result<(), Box<dyn std::error::Error>> {
    /// assert_eq!(Footer::from("key-1").to_string(), "key-1");
    /// assert_eq!(Footer::try_from_token("v4.local.payload.a2V5LTE")?.as_deref(), Some("key-1"));
    /// # Ok(())
    /// # }
    /// ```
    Footer
}
text! {
    /// A text that is not in the token, but authenticated with it: the reader must pass the same one. Versions 3 and 4.
    ///
    /// ```rust
    /// use paseto_proved::prelude::*;
    ///
    /// # fn main() -> Result<(), Box<dyn std::error::Error>> {
    /// let key = PasetoSymmetricKey::<V4, Local>::try_new_random()?;
    /// let token = PasetoBuilder::<V4, Local>::default()
    ///     .set_implicit_assertion(ImplicitAssertion::from("account 7"))
    ///     .build(&key)?;
    /// let mut parser = PasetoParser::<V4, Local>::default();
    /// assert!(parser.parse(&token, &key).is_err());
    /// assert!(parser.set_implicit_assertion(ImplicitAssertion::from("account 7")).parse(&token, &key).is_ok());
    /// # Ok(())
    /// # }
    /// ```
    ImplicitAssertion
}

impl<T: AsRef<str>> PartialEq<T> for Payload<'_> {
    /// Whether a text is that of the payload.
    fn eq(&self, other: &T) -> bool {
        self.0 == other.as_ref()
    }
}

impl PartialEq for Footer<'_> {
    fn eq(&self, other: &Self) -> bool {
        self.0 == other.0
    }
}

impl PartialEq for ImplicitAssertion<'_> {
    fn eq(&self, other: &Self) -> bool {
        self.0 == other.0
    }
}

impl Footer<'_> {
    /// The footer of a token that is not verified yet, or `None` if it has none. Do not trust it before the token has
    /// been decrypted or verified with it.
    ///
    /// Fails with `IncorrectSize`, `PayloadBase64Decode` or `Utf8Error`, as [`UntrustedToken`] does.
    pub fn try_from_token(token: &str) -> Result<Option<String>, PasetoError> {
        UntrustedToken::try_parse(token)?.footer_str()
    }
}
