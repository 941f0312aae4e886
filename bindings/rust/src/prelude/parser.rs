//! A parser that checks the times of tokens.

use crate::core::{
    Footer, ImplicitAssertion, ImplicitAssertionCapable, Local, PasetoAsymmetricPublicKey,
    PasetoSymmetricKey, Public, V1, V2, V3, V4,
};
use crate::generic::{GenericParser, GenericParserError, PasetoClaim, PasetoClaimError};
use serde_json::Value;
use std::time::{Duration, SystemTime};

/// What a token is checked for: by default its times, `exp` and `nbf`, and beside them expected claims, validators, a
/// footer, and in versions 3 and 4 an implicit assertion. [`PasetoParser::new`] checks no times.
///
/// A token without `exp` never expires: `require_claim("exp")` refuses it.
///
/// ```rust
/// use paseto_proved::prelude::*;
///
/// # fn main() -> Result<(), Box<dyn std::error::Error>> {
/// let key = PasetoSymmetricKey::<V4, Local>::try_new_random()?;
/// let token = PasetoBuilder::<V4, Local>::default()
///     .set_claim(ExpirationClaim::try_from("2019-01-01T00:00:00Z")?)
///     .build(&key)?;
/// let refused = PasetoParser::<V4, Local>::default().parse(&token, &key);
/// assert!(matches!(refused, Err(GenericParserError::ClaimError { source: PasetoClaimError::Expired })));
/// assert!(PasetoParser::<V4, Local>::new().parse(&token, &key).is_ok());
/// # Ok(())
/// # }
/// ```
pub struct PasetoParser<'a, Version, Purpose> {
    parser: GenericParser<'a, 'a, Version, Purpose>,
}

impl<'a, Version, Purpose> PasetoParser<'a, Version, Purpose> {
    /// Nothing is checked: tokens that have expired, or are not yet valid, are read too.
    pub fn new() -> Self {
        PasetoParser {
            parser: GenericParser::default(),
        }
    }

    /// Validates the value under the claim's key by a closure, which gets the key and the value, null where there is
    /// none, in place of comparing it. It runs after the library's checks; of a default parser these have `exp` and `nbf`.
    pub fn validate_claim<T: PasetoClaim + 'a + serde::Serialize>(
        &mut self,
        value: T,
        validation_closure: &'a (dyn Fn(&str, &Value) -> Result<(), PasetoClaimError> + 'a),
    ) -> &mut Self {
        self.parser.validate_claim(value, validation_closure);
        self
    }

    /// Expects the claim, with its value. Of a default parser `exp` and `nbf` are checked as times, and not compared.
    pub fn check_claim<T: PasetoClaim + 'a + serde::Serialize>(&mut self, value: T) -> &mut Self {
        self.parser.check_claim(value);
        self
    }

    /// Expects a footer.
    pub fn set_footer(&mut self, footer: Footer<'a>) -> &mut Self {
        self.parser.set_footer(footer);
        self
    }

    /// Requires that a claim is there under the key, and not null.
    ///
    /// ```rust
    /// use paseto_proved::prelude::*;
    ///
    /// # fn main() -> Result<(), Box<dyn std::error::Error>> {
    /// let key = PasetoSymmetricKey::<V4, Local>::try_new_random()?;
    /// let token = PasetoBuilder::<V4, Local>::default().set_no_expiration_danger_acknowledged().build(&key)?;
    /// assert!(PasetoParser::<V4, Local>::default().parse(&token, &key).is_ok());
    /// let refused = PasetoParser::<V4, Local>::default().require_claim("exp").parse(&token, &key);
    /// assert!(matches!(
    ///     refused,
    ///     Err(GenericParserError::ClaimError { source: PasetoClaimError::Missing(key) }) if key == "exp"
    /// ));
    /// # Ok(())
    /// # }
    /// ```
    pub fn require_claim(&mut self, key: &str) -> &mut Self {
        self.parser.require_claim(key);
        self
    }

    /// Refuses a token of more bytes with `CipherError` of `TooLong`, before any of it is decoded. 0 is no limit, as before
    /// the first call. Without one, the sender of a token decides how much memory is allocated.
    ///
    /// ```rust
    /// use paseto_proved::prelude::*;
    ///
    /// # fn main() -> Result<(), Box<dyn std::error::Error>> {
    /// let key = PasetoSymmetricKey::<V4, Local>::try_new_random()?;
    /// let sent = "v4.local.".to_owned() + &"A".repeat(100_000);
    /// let refused = PasetoParser::<V4, Local>::default().set_longest(65_536).parse(&sent, &key);
    /// assert!(matches!(refused, Err(GenericParserError::CipherError { source: PasetoError::TooLong })));
    /// # Ok(())
    /// # }
    /// ```
    pub fn set_longest(&mut self, bytes: usize) -> &mut Self {
        self.parser.set_longest(bytes);
        self
    }

    /// Refuses a token whose footer has more bytes with `CipherError` of `TooLong`, before it is decoded. 0 is no limit, as
    /// before the first call.
    ///
    /// ```rust
    /// use paseto_proved::prelude::*;
    ///
    /// # fn main() -> Result<(), Box<dyn std::error::Error>> {
    /// let key = PasetoSymmetricKey::<V4, Local>::try_new_random()?;
    /// let token = PasetoBuilder::<V4, Local>::default().build(&key)?;
    /// let sent = token + "." + &"A".repeat(2_000);
    /// let refused = PasetoParser::<V4, Local>::default().set_longest_footer(1_024).parse(&sent, &key);
    /// assert!(matches!(refused, Err(GenericParserError::CipherError { source: PasetoError::TooLong })));
    /// # Ok(())
    /// # }
    /// ```
    pub fn set_longest_footer(&mut self, bytes: usize) -> &mut Self {
        self.parser.set_longest_footer(bytes);
        self
    }

    /// By how much the clocks of issuer and reader may differ, in whole seconds of up to 2^32 - 1: a token is taken for so
    /// long after its `exp` and before its `nbf`.
    ///
    /// ```rust
    /// use paseto_proved::prelude::*;
    /// use std::time::{Duration, SystemTime};
    ///
    /// # fn main() -> Result<(), Box<dyn std::error::Error>> {
    /// let key = PasetoSymmetricKey::<V4, Local>::try_new_random()?;
    /// let token = PasetoBuilder::<V4, Local>::default().build(&key)?;
    /// let mut parser = PasetoParser::<V4, Local>::default();
    /// parser.set_now(SystemTime::now() + Duration::from_secs(3_620));
    /// assert!(parser.parse(&token, &key).is_err());
    /// assert!(parser.set_leeway(Duration::from_secs(30)).parse(&token, &key).is_ok());
    /// # Ok(())
    /// # }
    /// ```
    pub fn set_leeway(&mut self, leeway: Duration) -> &mut Self {
        self.parser.set_leeway(leeway);
        self
    }

    /// Reads tokens at a time, in place of that of the clock, for example to test what a service does with a token that has
    /// expired. `parse` returns `ClaimError` of `RFC3339Date` for a time that is more than 292 years from 1970.
    ///
    /// ```rust
    /// use paseto_proved::prelude::*;
    /// use std::time::{Duration, SystemTime};
    ///
    /// # fn main() -> Result<(), Box<dyn std::error::Error>> {
    /// let key = PasetoSymmetricKey::<V4, Local>::try_new_random()?;
    /// let token = PasetoBuilder::<V4, Local>::default().build(&key)?;
    /// let later = SystemTime::now() + Duration::from_secs(3_601);
    /// let refused = PasetoParser::<V4, Local>::default().set_now(later).parse(&token, &key);
    /// assert!(matches!(refused, Err(GenericParserError::ClaimError { source: PasetoClaimError::Expired })));
    /// # Ok(())
    /// # }
    /// ```
    pub fn set_now(&mut self, now: SystemTime) -> &mut Self {
        self.parser.set_now(now);
        self
    }
}

impl<'a, Version: ImplicitAssertionCapable, Purpose> PasetoParser<'a, Version, Purpose> {
    /// Expects an implicit assertion.
    pub fn set_implicit_assertion(
        &mut self,
        implicit_assertion: ImplicitAssertion<'a>,
    ) -> &mut Self {
        self.parser.set_implicit_assertion(implicit_assertion);
        self
    }
}

impl<Version, Purpose> Default for PasetoParser<'_, Version, Purpose> {
    /// The times are checked by the clock: a token is refused from its `exp` on, with `Expired`, and before its `nbf`, with
    /// `UseBeforeAvailable`.
    fn default() -> Self {
        let mut parser = GenericParser::default();
        parser.check_times();
        PasetoParser { parser }
    }
}

macro_rules! parse {
    ($feature:tt $version:ident $purpose:ident $key:ty, $reads:literal) => {
        #[cfg(feature = $feature)]
        impl PasetoParser<'_, $version, $purpose> {
            #[doc = $reads]
            ///
            /// Fails with `CipherError` if the token is not one of this key, footer and implicit assertion,
            /// `PayloadJsonError` if its payload is not JSON, and `ClaimError` if it has expired or may not be used yet, if
            /// a claim does not pass its check, or if `exp` or `nbf` is there and is no date and time.
            pub fn parse(&mut self, token: &str, key: &$key) -> Result<Value, GenericParserError> {
                self.parser.parse(token, key)
            }

            // The same with a footer in place of the one that was set.
            pub(crate) fn parse_with_footer(
                &self,
                token: &str,
                key: &$key,
                footer: &str,
            ) -> Result<Value, GenericParserError> {
                self.parser.parse_with_footer(token, key, footer.as_bytes())
            }
        }
    };
}

macro_rules! parses {
    ($($feature:tt $public_feature:tt $version:ident;)*) => {$(
        parse!(
            $feature $version Local PasetoSymmetricKey<$version, Local>,
            "Decrypts a token, checks it, and returns its claims."
        );
        parse!(
            $public_feature $version Public PasetoAsymmetricPublicKey<'_, $version, Public>,
            "Verifies a token, checks it, and returns its claims."
        );
    )*};
}

parses! {
    "v1_local" "v1_public" V1;
    "v2_local" "v2_public" V2;
    "v3_local" "v3_public" V3;
    "v4_local" "v4_public" V4;
}
