//! Rings of keys: the footer of a token names its key.

use crate::core::{
    Local, PasetoAsymmetricPublicKey, PasetoError, PasetoSymmetricKey, Public, UntrustedToken, V1,
    V2, V3, V4,
};
use crate::generic::GenericParserError;
use crate::prelude::PasetoParser;
use serde_json::{json, Value};
use std::collections::BTreeMap;
use std::error::Error;
use std::fmt;

/// The footer that tells a ring the id of the key.
///
/// ```rust
/// assert_eq!(paseto_proved::keys::key_footer("2026-11"), r#"{"kid":"2026-11"}"#);
/// ```
pub fn key_footer(id: &str) -> String {
    json!({ "kid": id }).to_string()
}

/// Keys by their ids, all for one kind of tokens: [`PasetoSymmetricKey`] or [`PasetoAsymmetricPublicKey`] of a version. The
/// footer of a token names one of them, as [`key_footer`] writes it, and only that key is tried.
///
/// ```rust
/// use paseto_proved::keys::{key_footer, KeyRing};
/// use paseto_proved::prelude::*;
///
/// # fn main() -> Result<(), Box<dyn std::error::Error>> {
/// let (old, new) = (PasetoSymmetricKey::<V4, Local>::try_new_random()?, PasetoSymmetricKey::try_new_random()?);
/// let footer = key_footer("2026-11");
/// let token = PasetoBuilder::<V4, Local>::default().set_footer(Footer::from(footer.as_str())).build(&new)?;
///
/// let mut ring = KeyRing::new();
/// ring.add("2026-10", old);
/// ring.add("2026-11", new);
/// let (id, claims) = ring.parse(&PasetoParser::default(), &token)?;
/// assert_eq!(id, "2026-11");
/// assert!(claims["exp"].is_string());
///
/// assert_eq!(ring.ids().collect::<Vec<_>>(), ["2026-10", "2026-11"]);
/// ring.set_longest(65_536).set_longest_footer(1_024);
/// assert!(ring.get("2026-10").is_some() && ring.remove("2026-10").is_some());
/// # Ok(())
/// # }
/// ```
#[derive(Clone, Debug)]
pub struct KeyRing<K> {
    keys: BTreeMap<String, K>,
    longest: usize,
    longest_footer: usize,
}

impl<K> Default for KeyRing<K> {
    fn default() -> Self {
        KeyRing {
            keys: BTreeMap::new(),
            longest: 0,
            longest_footer: 0,
        }
    }
}

impl<K> KeyRing<K> {
    /// No keys, and no limits.
    ///
    /// ```rust
    /// use paseto_proved::core::{Local, PasetoSymmetricKey, V4};
    /// use paseto_proved::keys::KeyRing;
    ///
    /// assert_eq!(KeyRing::<PasetoSymmetricKey<V4, Local>>::new().ids().count(), 0);
    /// ```
    pub fn new() -> Self {
        KeyRing::default()
    }

    /// Adds a key under an id, in place of an earlier one, which is returned.
    ///
    /// ```rust
    /// use paseto_proved::core::{Local, PasetoSymmetricKey, V4};
    /// use paseto_proved::keys::KeyRing;
    ///
    /// # fn main() -> Result<(), Box<dyn std::error::Error>> {
    /// let key = PasetoSymmetricKey::<V4, Local>::try_new_random()?;
    /// let mut ring = KeyRing::new();
    /// assert!(ring.add(key.id()?.as_str(), key.clone()).is_none());
    /// assert!(ring.add(key.id()?.as_str(), key).is_some());
    /// # Ok(())
    /// # }
    /// ```
    pub fn add(&mut self, id: &str, key: K) -> Option<K> {
        self.keys.insert(id.to_owned(), key)
    }

    /// Removes the key with an id, and returns it.
    ///
    /// ```rust
    /// let mut ring = paseto_proved::keys::KeyRing::new();
    /// ring.add("2026-10", "any type");
    /// assert_eq!(ring.remove("2026-10"), Some("any type"));
    /// assert_eq!(ring.remove("2026-10"), None);
    /// ```
    pub fn remove(&mut self, id: &str) -> Option<K> {
        self.keys.remove(id)
    }

    /// The key with an id.
    ///
    /// ```rust
    /// let mut ring = paseto_proved::keys::KeyRing::new();
    /// ring.add("2026-10", "any type");
    /// assert_eq!(ring.get("2026-10"), Some(&"any type"));
    /// assert_eq!(ring.get("2026-11"), None);
    /// ```
    pub fn get(&self, id: &str) -> Option<&K> {
        self.keys.get(id)
    }

    /// The ids, in their order.
    ///
    /// ```rust
    /// let mut ring = paseto_proved::keys::KeyRing::new();
    /// ring.add("2026-11", "any type");
    /// ring.add("2026-10", "any type");
    /// assert_eq!(ring.ids().collect::<Vec<_>>(), ["2026-10", "2026-11"]);
    /// ```
    pub fn ids(&self) -> impl Iterator<Item = &str> + '_ {
        self.keys.keys().map(String::as_str)
    }

    /// Refuses a token of more bytes with `TooLong`, before any of it is decoded. 0 is no limit.
    ///
    /// ```rust
    /// use paseto_proved::keys::{KeyRing, KeyRingError};
    /// use paseto_proved::prelude::*;
    ///
    /// let mut ring = KeyRing::<PasetoSymmetricKey<V4, Local>>::new();
    /// let refused = ring.set_longest(10).parse(&PasetoParser::default(), "v4.local.payload");
    /// assert!(matches!(refused, Err(KeyRingError::Untrusted { source: PasetoError::TooLong })));
    /// ```
    pub fn set_longest(&mut self, bytes: usize) -> &mut Self {
        self.longest = bytes;
        self
    }

    /// Refuses a token whose footer has more bytes with `TooLong`, before it is decoded. 0 is no limit.
    ///
    /// ```rust
    /// use paseto_proved::keys::{KeyRing, KeyRingError};
    /// use paseto_proved::prelude::*;
    ///
    /// let mut ring = KeyRing::<PasetoSymmetricKey<V4, Local>>::new();
    /// let refused = ring.set_longest_footer(2).parse(&PasetoParser::default(), "v4.local.payload.AAAA");
    /// assert!(matches!(refused, Err(KeyRingError::Untrusted { source: PasetoError::TooLong })));
    /// ```
    pub fn set_longest_footer(&mut self, bytes: usize) -> &mut Self {
        self.longest_footer = bytes;
        self
    }

    // The footer of a token, and the id and the key that it names.
    fn named(&self, token: &str) -> Result<(String, &String, &K), KeyRingError> {
        let untrusted = match self.longest {
            0 => UntrustedToken::try_parse(token)?,
            longest => UntrustedToken::try_parse_within(token, longest)?,
        };
        let section = untrusted.footer_base64().unwrap_or_default();
        // Four letters of base64url are three bytes.
        if self.longest_footer != 0 && section.len() * 3 / 4 > self.longest_footer {
            return Err(PasetoError::TooLong.into());
        }
        let footer = untrusted.footer_str()?.unwrap_or_default();
        let found = kid_of(&footer).and_then(|id| self.keys.get_key_value(&id));
        let (id, key) = found.ok_or(KeyRingError::UnknownKey)?;
        Ok((footer, id, key))
    }
}

// The id that a footer names.
fn kid_of(footer: &str) -> Option<String> {
    let named: Value = serde_json::from_str(footer).ok()?;
    named.get("kid")?.as_str().map(str::to_owned)
}

// An example of a ring of keys of a version.
macro_rules! example {
    ($version:ident: $($line:literal)*) => {
        concat!(
            "```rust\nuse paseto_proved::keys::*;\nuse paseto_proved::prelude::*;\n\ntype Version = ",
            stringify!($version),
            ";\n\n# fn main() -> Result<(), Box<dyn std::error::Error>> {\n",
            $($line, "\n",)*
            "# Ok(())\n# }\n```"
        )
    };
}

macro_rules! parse {
    ($feature:tt $version:ident $purpose:ident $key:ty, $example:expr) => {
        #[cfg(feature = $feature)]
        impl KeyRing<$key> {
            /// The claims of a token, with the id of its key, if it passes the checks of the parser, whose own footer is
            /// not asked.
            ///
            /// Fails with `UnknownKey` if the footer names no key of the ring, `Untrusted` if the token or its footer is
            /// too long or malformed, and `Refused` if the parser refuses the token.
            ///
            #[doc = $example]
            pub fn parse(
                &self,
                parser: &PasetoParser<'_, $version, $purpose>,
                token: &str,
            ) -> Result<(String, Value), KeyRingError> {
                let (footer, id, key) = self.named(token)?;
                let claims = parser.parse_with_footer(token, key, &footer)?;
                Ok((id.clone(), claims))
            }
        }
    };
}

macro_rules! locals {
    ($($feature:tt $version:ident)*) => {$(
        parse!($feature $version Local PasetoSymmetricKey<$version, Local>, example!($version:
            "let (key, footer) = (PasetoSymmetricKey::<Version, Local>::try_new_random()?, key_footer(\"one\"));"
            "let token = PasetoBuilder::<Version, Local>::default().set_footer(Footer::from(footer.as_str())).build(&key)?;"
            "let mut ring = KeyRing::new();"
            "ring.add(\"one\", key);"
            "assert_eq!(ring.parse(&PasetoParser::default(), &token)?.0, \"one\");"
        ));
    )*};
}

macro_rules! publics {
    ($($feature:tt $version:ident)*) => {$(
        parse!($feature $version Public PasetoAsymmetricPublicKey<'_, $version, Public>, example!($version:
            "let (pair, footer) = (KeyPair::<Version>::try_new_random()?, key_footer(\"one\"));"
            "let token = PasetoBuilder::<Version, Public>::default()"
            "    .set_footer(Footer::from(footer.as_str()))"
            "    .build(pair.private_key())?;"
            "let mut ring = KeyRing::new();"
            "ring.add(\"one\", pair.public_key().clone());"
            "assert_eq!(ring.parse(&PasetoParser::default(), &token)?.0, \"one\");"
        ));
    )*};
}

locals! { "v1_local" V1 "v2_local" V2 "v3_local" V3 "v4_local" V4 }
publics! { "v2_public" V2 "v3_public" V3 "v4_public" V4 }
parse!("v1_public" V1 Public PasetoAsymmetricPublicKey<'_, V1, Public>, example!(V1:
    "let ring = KeyRing::<PasetoAsymmetricPublicKey<Version, Public>>::new();"
    "let refused = ring.parse(&PasetoParser::default(), \"v1.public.payload\");"
    "assert!(matches!(refused, Err(KeyRingError::UnknownKey)));"
));

/// Why a ring did not read a token.
///
/// ```rust
/// use paseto_proved::keys::{KeyRing, KeyRingError};
/// use paseto_proved::prelude::*;
///
/// let ring = KeyRing::<PasetoSymmetricKey<V4, Local>>::new();
/// let refused = ring.parse(&PasetoParser::default(), "v4.local.payload");
/// assert!(matches!(refused, Err(KeyRingError::UnknownKey)));
/// ```
#[derive(Debug)]
pub enum KeyRingError {
    /// The footer of the token names no key of the ring.
    UnknownKey,
    /// The token or its footer is too long or malformed.
    Untrusted {
        /// Why.
        source: PasetoError,
    },
    /// The parser refused the token.
    Refused {
        /// Why.
        source: GenericParserError,
    },
}

impl KeyRingError {
    /// The reason of the refusal, in one line: for `Refused` that of its source.
    ///
    /// ```rust
    /// use paseto_proved::keys::{key_footer, KeyRing};
    /// use paseto_proved::prelude::*;
    ///
    /// # fn main() -> Result<(), Box<dyn std::error::Error>> {
    /// let mut ring = KeyRing::<PasetoSymmetricKey<V4, Local>>::new();
    /// ring.add("one", PasetoSymmetricKey::try_new_random()?);
    /// let (footer, other) = (key_footer("one"), PasetoSymmetricKey::<V4, Local>::try_new_random()?);
    /// let token = PasetoBuilder::<V4, Local>::default().set_footer(Footer::from(footer.as_str())).build(&other)?;
    /// let refused = ring.parse(&PasetoParser::default(), &token);
    /// assert_eq!(refused.map_err(|error| error.reason()), Err("An unspecified cryption error occured".to_owned()));
    /// # Ok(())
    /// # }
    /// ```
    pub fn reason(&self) -> String {
        match self {
            KeyRingError::Refused { source } => source.reason(),
            other => other.to_string(),
        }
    }
}

impl fmt::Display for KeyRingError {
    fn fmt(&self, f: &mut fmt::Formatter<'_>) -> fmt::Result {
        match self {
            KeyRingError::UnknownKey => {
                f.write_str("The footer of the token names no key of the ring")
            }
            KeyRingError::Untrusted { source } => source.fmt(f),
            KeyRingError::Refused { source } => source.fmt(f),
        }
    }
}

impl Error for KeyRingError {
    fn source(&self) -> Option<&(dyn Error + 'static)> {
        match self {
            KeyRingError::UnknownKey => None,
            KeyRingError::Untrusted { source } => Some(source),
            KeyRingError::Refused { source } => Some(source),
        }
    }
}

impl From<PasetoError> for KeyRingError {
    fn from(source: PasetoError) -> Self {
        KeyRingError::Untrusted { source }
    }
}

impl From<GenericParserError> for KeyRingError {
    fn from(source: GenericParserError) -> Self {
        KeyRingError::Refused { source }
    }
}
