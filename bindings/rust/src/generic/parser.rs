//! A parser that decrypts or verifies tokens, and checks their claims.

use crate::core::{
    Footer, ImplicitAssertion, ImplicitAssertionCapable, Local, PasetoAsymmetricPublicKey,
    PasetoSymmetricKey, Public, V1, V2, V3, V4,
};
use crate::generic::refusals::parser_error;
use crate::generic::{
    GenericParserError, Members, PasetoClaim, PasetoClaimError, ValidatorFn, ValidatorMap,
};
use crate::library::{self, Checks, Refusal, Version};
use crate::moment::Moment;
use serde_json::Value;
use std::collections::{BTreeMap, BTreeSet, HashMap};
use std::marker::PhantomData;
use std::time::{Duration, SystemTime};

// What validates the value under a key. A closure is lent and not boxed, so that one that captures can stand in the
// expression that makes the parser and parses.
enum Validator<'b> {
    Lent(&'b (dyn Fn(&str, &Value) -> Result<(), PasetoClaimError> + 'b)),
    Boxed(Box<ValidatorFn>),
}

impl Validator<'_> {
    fn validate(&self, key: &str, value: &Value) -> Result<(), PasetoClaimError> {
        match self {
            Validator::Lent(closure) => closure(key, value),
            Validator::Boxed(closure) => closure(key, value),
        }
    }
}

/// What a token is checked for: expected claims, validators, a footer, and in versions 3 and 4 an implicit assertion. The
/// times are not checked: [`PasetoParser`](crate::prelude::PasetoParser) does that.
///
/// The library checks the expected claims, in the order of their keys, and the validators run after it, also in the order
/// of their keys.
///
/// ```rust
/// use paseto_proved::generic::*;
///
/// # fn main() -> Result<(), Box<dyn std::error::Error>> {
/// let key = PasetoSymmetricKey::<V4, Local>::try_new_random()?;
/// let token = GenericBuilder::<V4, Local>::default()
///     .set_claim(CustomClaim::try_from(("seats", 4))?)
///     .try_encrypt(&key)?;
/// let most = 3;
/// let refused = GenericParser::<V4, Local>::default()
///     .validate_claim(CustomClaim::try_from("seats")?, &|key, value| match value.as_u64() {
///         Some(seats) if seats <= most => Ok(()),
///         _ => Err(PasetoClaimError::CustomValidation(key.to_owned())),
///     })
///     .parse(&token, &key);
/// assert!(matches!(refused, Err(GenericParserError::ClaimError { source: PasetoClaimError::CustomValidation(_) })));
/// # Ok(())
/// # }
/// ```
pub struct GenericParser<'a, 'b, Version, Purpose> {
    kind: PhantomData<(Version, Purpose)>,
    expected: Members,
    validators: BTreeMap<String, Validator<'b>>,
    required: BTreeSet<String>,
    footer: Footer<'a>,
    implicit_assertion: ImplicitAssertion<'a>,
    checks_times: bool,
    leeway: u32,
    longest: usize,
    longest_footer: usize,
    now: Option<SystemTime>,
}

impl<'a, 'b, Version, Purpose> GenericParser<'a, 'b, Version, Purpose> {
    /// Nothing is expected.
    pub fn new() -> Self {
        GenericParser {
            kind: PhantomData,
            expected: Members::default(),
            validators: BTreeMap::new(),
            required: BTreeSet::new(),
            footer: Footer::default(),
            implicit_assertion: ImplicitAssertion::default(),
            checks_times: false,
            leeway: 0,
            longest: 0,
            longest_footer: 0,
            now: None,
        }
    }

    /// Expects each of the claims, as [`check_claim`](Self::check_claim) does. A value is an object with its key, as a
    /// [`PasetoClaim`] is.
    pub fn extend_check_claims(
        &mut self,
        value: HashMap<String, Box<dyn erased_serde::Serialize + 'b>>,
    ) -> &mut Self {
        for (key, value) in &value {
            self.expected.set_value_under(key, value.as_ref());
        }
        self
    }

    /// Validates the value under each of the keys. Each validator runs, whether a claim is expected under its key or not.
    pub fn extend_validation_claims(&mut self, value: ValidatorMap) -> &mut Self {
        for (key, validator) in value {
            self.validators.insert(key, Validator::Boxed(validator));
        }
        self
    }

    /// Validates the value under the claim's key by a closure, which gets the key and the value, null where there is
    /// none, in place of comparing it.
    pub fn validate_claim<T: PasetoClaim + 'b + serde::Serialize>(
        &mut self,
        value: T,
        validation_closure: &'b (dyn Fn(&str, &Value) -> Result<(), PasetoClaimError> + 'b),
    ) -> &mut Self {
        let key = value.get_key().to_owned();
        self.expected.set(&value);
        self.validators
            .insert(key, Validator::Lent(validation_closure));
        self
    }

    /// Expects the claim, with its value.
    pub fn check_claim<T: PasetoClaim + 'b + serde::Serialize>(&mut self, value: T) -> &mut Self {
        self.expected.set(&value);
        self
    }

    /// The footer that is expected.
    pub fn get_footer(&self) -> Footer<'_> {
        self.footer
    }

    /// Expects a footer.
    pub fn set_footer(&mut self, footer: Footer<'a>) -> &mut Self {
        self.footer = footer;
        self
    }

    /// Requires that a claim is there under the key, and not null.
    ///
    /// ```rust
    /// use paseto_proved::generic::*;
    ///
    /// # fn main() -> Result<(), Box<dyn std::error::Error>> {
    /// let key = PasetoSymmetricKey::<V4, Local>::try_new_random()?;
    /// let token = GenericBuilder::<V4, Local>::default().try_encrypt(&key)?;
    /// let refused = GenericParser::<V4, Local>::default().require_claim("jti").parse(&token, &key);
    /// assert!(matches!(
    ///     refused,
    ///     Err(GenericParserError::ClaimError { source: PasetoClaimError::Missing(key) }) if key == "jti"
    /// ));
    /// # Ok(())
    /// # }
    /// ```
    pub fn require_claim(&mut self, key: &str) -> &mut Self {
        self.required.insert(key.to_owned());
        self
    }

    /// Refuses a token of more bytes with `CipherError` of `TooLong`, before any of it is decoded. 0 is no limit, as before
    /// the first call.
    ///
    /// ```rust
    /// use paseto_proved::generic::*;
    ///
    /// # fn main() -> Result<(), Box<dyn std::error::Error>> {
    /// let key = PasetoSymmetricKey::<V4, Local>::try_new_random()?;
    /// let token = GenericBuilder::<V4, Local>::default().try_encrypt(&key)?;
    /// let refused = GenericParser::<V4, Local>::default().set_longest(20).parse(&token, &key);
    /// assert!(matches!(refused, Err(GenericParserError::CipherError { source: PasetoError::TooLong })));
    /// # Ok(())
    /// # }
    /// ```
    pub fn set_longest(&mut self, bytes: usize) -> &mut Self {
        self.longest = bytes;
        self
    }

    /// Refuses a token whose footer has more bytes with `CipherError` of `TooLong`, before it is decoded. 0 is no limit, as
    /// before the first call.
    ///
    /// ```rust
    /// use paseto_proved::generic::*;
    ///
    /// # fn main() -> Result<(), Box<dyn std::error::Error>> {
    /// let key = PasetoSymmetricKey::<V4, Local>::try_new_random()?;
    /// let footer = Footer::from("a footer of 24 bytes, ..");
    /// let token = GenericBuilder::<V4, Local>::default().set_footer(footer).try_encrypt(&key)?;
    /// let mut parser = GenericParser::<V4, Local>::default();
    /// assert!(parser.set_footer(footer).set_longest_footer(24).parse(&token, &key).is_ok());
    /// let refused = parser.set_longest_footer(23).parse(&token, &key);
    /// assert!(matches!(refused, Err(GenericParserError::CipherError { source: PasetoError::TooLong })));
    /// # Ok(())
    /// # }
    /// ```
    pub fn set_longest_footer(&mut self, bytes: usize) -> &mut Self {
        self.longest_footer = bytes;
        self
    }

    // Checks exp and nbf from now on.
    pub(crate) fn check_times(&mut self) {
        self.checks_times = true;
    }

    // How much the clocks of issuer and reader may differ, in whole seconds.
    pub(crate) fn set_leeway(&mut self, leeway: Duration) {
        self.leeway = u32::try_from(leeway.as_secs()).unwrap_or(u32::MAX);
    }

    // The time at which tokens are read, in place of that of the clock.
    pub(crate) fn set_now(&mut self, now: SystemTime) {
        self.now = Some(now);
    }

    /// The claims of a token, by the call of the library that reads it with these checks.
    pub(crate) fn read(
        &self,
        call: impl Fn(&Checks<'_>) -> Result<String, Refusal>,
    ) -> Result<Value, GenericParserError> {
        self.expected.fault()?;
        let compared = self.compared();
        let required = self.required_names()?;
        let moment = self.now.map_or_else(Moment::now, Moment::from);
        let checks = Checks {
            expected: &serde_json::to_string(&compared)?,
            now: moment
                .nanoseconds()
                .ok_or_else(|| PasetoClaimError::RFC3339Date(moment.to_string()))?,
            leeway: if self.checks_times {
                self.leeway
            } else {
                u32::MAX
            },
            longest: self.longest,
            longest_footer: self.longest_footer,
            required: &required,
        };
        let read = call(&checks).map_err(|refusal| parser_error(refusal, &compared))?;
        let claims: Value = serde_json::from_str(&read)?;
        self.compare_times(&claims)?;
        self.validate(&claims)?;
        Ok(claims)
    }

    // The expected claims that no validator checks.
    fn compared(&self) -> BTreeMap<String, Value> {
        let expected = self.expected.iter();
        expected
            .filter(|(key, _)| !self.validators.contains_key(*key))
            .map(|(key, value)| (key.clone(), value.clone()))
            .collect()
    }

    fn required_names(&self) -> Result<String, serde_json::Error> {
        if self.required.is_empty() {
            return Ok(String::new());
        }
        serde_json::to_string(&self.required)
    }

    // The library reads exp and nbf as times, and compares neither with an expected one. Where times are not checked, that
    // is done here.
    fn compare_times(&self, claims: &Value) -> Result<(), PasetoClaimError> {
        let keys = ["exp", "nbf"].into_iter();
        keys.filter(|key| !self.checks_times && !self.validators.contains_key(*key))
            .try_for_each(|key| match self.expected.get(key) {
                Some(wanted) => compare(key, wanted, &claims[key]),
                None => Ok(()),
            })
    }

    fn validate(&self, claims: &Value) -> Result<(), PasetoClaimError> {
        let null = Value::Null;
        let mut validators = self.validators.iter();
        validators.try_for_each(|(key, validator)| {
            validator.validate(key, claims.get(key).unwrap_or(&null))
        })
    }
}

fn compare(key: &str, wanted: &Value, found: &Value) -> Result<(), PasetoClaimError> {
    if found.is_null() {
        return Err(PasetoClaimError::Missing(key.to_owned()));
    }
    if found == wanted {
        return Ok(());
    }
    match (found.as_str(), wanted.as_str()) {
        (Some(found), Some(wanted)) => Err(PasetoClaimError::Invalid(
            key.to_owned(),
            found.to_owned(),
            wanted.to_owned(),
        )),
        _ => Err(PasetoClaimError::Unexpected(key.to_owned())),
    }
}

impl<'a, Version: ImplicitAssertionCapable, Purpose> GenericParser<'a, '_, Version, Purpose> {
    /// Expects an implicit assertion.
    pub fn set_implicit_assertion(
        &mut self,
        implicit_assertion: ImplicitAssertion<'a>,
    ) -> &mut Self {
        self.implicit_assertion = implicit_assertion;
        self
    }

    /// The implicit assertion that is expected.
    pub fn get_implicit_assertion(&self) -> ImplicitAssertion<'_> {
        self.implicit_assertion
    }
}

impl<Version, Purpose> Default for GenericParser<'_, '_, Version, Purpose> {
    fn default() -> Self {
        Self::new()
    }
}

macro_rules! parse {
    ($feature:tt $version:ident $purpose:ident $call:ident $key:ty, $reads:literal) => {
        #[cfg(feature = $feature)]
        impl GenericParser<'_, '_, $version, $purpose> {
            #[doc = $reads]
            ///
            /// Fails with `CipherError` if the token is not one of this key, footer and implicit assertion,
            /// `PayloadJsonError` if its payload is not JSON, and `ClaimError` if a claim does not pass its check, or if
            /// `exp` or `nbf` is there and is no date and time.
            pub fn parse(
                &self,
                potential_token: &str,
                key: &$key,
            ) -> Result<Value, GenericParserError> {
                self.parse_with_footer(potential_token, key, &self.footer)
            }

            // The same with a footer in place of the one that was set.
            pub(crate) fn parse_with_footer(
                &self,
                token: &str,
                key: &$key,
                footer: &[u8],
            ) -> Result<Value, GenericParserError> {
                self.read(|checks| {
                    library::$call(
                        Version::$version,
                        key.as_ref(),
                        token.as_bytes(),
                        checks,
                        footer,
                        &self.implicit_assertion,
                    )
                })
            }
        }
    };
}

macro_rules! parses {
    ($($feature:tt $public_feature:tt $version:ident;)*) => {$(
        parse!(
            $feature $version Local parse_local PasetoSymmetricKey<$version, Local>,
            "Decrypts a token, checks its claims, and returns its payload."
        );
        parse!(
            $public_feature $version Public parse_public PasetoAsymmetricPublicKey<'_, $version, Public>,
            "Verifies a token, checks its claims, and returns its payload."
        );
    )*};
}

parses! {
    "v1_local" "v1_public" V1;
    "v2_local" "v2_public" V2;
    "v3_local" "v3_public" V3;
    "v4_local" "v4_public" V4;
}
