//! A builder of tokens that expire.

use crate::core::{
    with_end, Footer, ImplicitAssertion, ImplicitAssertionCapable, Local,
    PasetoAsymmetricPrivateKey, PasetoSymmetricKey, Public, V1, V2, V3, V4,
};
use crate::generic::{
    GenericBuilder, GenericBuilderError, IssuedAtClaim, Members, NotBeforeClaim, PasetoClaim,
    PasetoClaimError,
};
use crate::library::{self, Fault, Parts, Version};
use crate::moment::Moment;
use std::collections::HashSet;
use std::marker::PhantomData;

/// The claims of a token, with `exp`, `iat` and `nbf` where they are not set: the token is issued when the builder is made,
/// may be used at once, since its `nbf` is a second before, and expires an hour later. A footer, and in versions 3 and 4 an
/// implicit assertion, are optional.
///
/// The library sets the times, and makes the token. `build` keeps the claims, so that a second token has them too.
///
/// ```rust
/// use paseto_proved::keys::KeyPair;
/// use paseto_proved::prelude::*;
///
/// # fn main() -> Result<(), Box<dyn std::error::Error>> {
/// let pair = KeyPair::<V4>::try_new_random()?;
/// let token = PasetoBuilder::<V4, Public>::default()
///     .set_claim(SubjectClaim::from("ada"))
///     .set_no_expiration_danger_acknowledged()
///     .build(pair.private_key())?;
/// let claims = PasetoParser::<V4, Public>::default().parse(&token, pair.public_key())?;
/// assert!(claims["sub"] == "ada" && claims["iat"].is_string() && claims["exp"].is_null());
/// # Ok(())
/// # }
/// ```
pub struct PasetoBuilder<'a, Version, Purpose> {
    kind: PhantomData<(Version, Purpose)>,
    builder: GenericBuilder<'a, 'a, Version, Purpose>,
    keys: HashSet<String>,
    twice: Option<String>,
    never_expires: bool,
    // When the builder was made. The library sets nbf a second before it, so that readers whose clocks count whole seconds
    // take the token at once too.
    moment: Moment,
}

impl<'a, Version, Purpose> PasetoBuilder<'a, Version, Purpose> {
    /// Sets a claim. A key that is set twice is an error when the token is built.
    pub fn set_claim<T: PasetoClaim + erased_serde::Serialize + Sized + 'a>(
        &mut self,
        value: T,
    ) -> &mut Self {
        let key = value.get_key();
        if !self.keys.insert(key.to_owned()) {
            self.twice = Some(key.to_owned());
        }
        self.builder.set_claim(value);
        self
    }

    /// Makes a token that never expires, also where `exp` was set before. Setting `exp` after it is an error when the token
    /// is built.
    pub fn set_no_expiration_danger_acknowledged(&mut self) -> &mut Self {
        self.keys.insert("exp".to_owned());
        self.never_expires = true;
        self
    }

    /// Sets the footer.
    pub fn set_footer(&mut self, footer: Footer<'a>) -> &mut Self {
        self.builder.set_footer(footer);
        self
    }

    // Whether the claims can be in a token.
    fn ready(&self) -> Result<(), GenericBuilderError> {
        match &self.twice {
            Some(key) => Err(GenericBuilderError::DuplicateTopLevelPayloadClaim(
                key.clone(),
            )),
            None => Ok(()),
        }
    }

    // A token by the call of the library that sets the times and makes it.
    fn build_by(
        &self,
        call: impl Fn(&Parts<'_>) -> Result<String, Fault>,
    ) -> Result<String, GenericBuilderError> {
        let members = self.builder.members();
        let footer = self.builder.footer();
        let now = self.moment.nanoseconds();
        let parts = Parts {
            claims: &members.to_json()?,
            now: now.ok_or_else(|| no_date(self.moment))?,
            footer: &footer.unwrap_or_default(),
            assertion: &self.builder.implicit_assertion().unwrap_or_default(),
        };
        let token = call(&parts).map_err(|fault| error_of(fault, members))?;
        Ok(with_end(token, footer))
    }

    // The builder without exp, for the library always sets one. It has the other times as the library sets them.
    fn without_expiration(
        &self,
    ) -> Result<GenericBuilder<'a, 'a, Version, Purpose>, GenericBuilderError> {
        let date = |moment: Moment| moment.to_date().ok_or_else(|| no_date(moment));
        let mut builder = self.builder.clone();
        builder.remove_claim("exp");
        if builder.members().get("iat").is_none() {
            builder.set_claim(IssuedAtClaim::try_from(date(self.moment)?)?);
        }
        if builder.members().get("nbf").is_none() {
            let begun = self.moment.a_second_before();
            builder.set_claim(NotBeforeClaim::try_from(date(begun)?)?);
        }
        Ok(builder)
    }
}

fn no_date(moment: Moment) -> PasetoClaimError {
    PasetoClaimError::RFC3339Date(moment.to_string())
}

// The library's status says of claims what is wrong, and not of which.
fn error_of(fault: Fault, members: &Members) -> GenericBuilderError {
    match fault {
        Fault::Unexpected => {
            PasetoClaimError::Unexpected(members.odd().unwrap_or_default().to_owned()).into()
        }
        fault => GenericBuilderError::CipherError {
            source: fault.into(),
        },
    }
}

impl<'a, Version: ImplicitAssertionCapable, Purpose> PasetoBuilder<'a, Version, Purpose> {
    /// Sets the implicit assertion, which is not in the token and which its reader must pass too.
    pub fn set_implicit_assertion(
        &mut self,
        implicit_assertion: ImplicitAssertion<'a>,
    ) -> &mut Self {
        self.builder.set_implicit_assertion(implicit_assertion);
        self
    }
}

impl<Version, Purpose> Default for PasetoBuilder<'_, Version, Purpose> {
    /// No claims but the times, by the clock.
    fn default() -> Self {
        PasetoBuilder {
            kind: PhantomData,
            builder: GenericBuilder::default(),
            keys: HashSet::new(),
            twice: None,
            never_expires: false,
            moment: Moment::now(),
        }
    }
}

macro_rules! build {
    ($feature:tt $version:ident $purpose:ident $call:ident $made:ident $key:ty, $makes:literal) => {
        #[cfg(feature = $feature)]
        impl PasetoBuilder<'_, $version, $purpose> {
            #[doc = $makes]
            ///
            /// Fails with `DuplicateTopLevelPayloadClaim` for a key that was set twice, `PayloadJsonError` for a value
            /// that cannot be written as JSON, `ClaimError` of `Unexpected` for a number that is not a 64-bit integer and
            /// of `RFC3339Date` if the clock is more than 292 years from 1970, and `CipherError` of a fault of the key, of
            /// `Cipher` if the system gives no random bytes, or of `Memory` if the library is out of memory.
            pub fn build(&mut self, key: &$key) -> Result<String, GenericBuilderError> {
                self.ready()?;
                if self.never_expires {
                    return self.without_expiration()?.$made(key);
                }
                self.build_by(|parts| library::$call(Version::$version, key.as_ref(), parts))
            }
        }
    };
}

macro_rules! builds {
    ($($feature:tt $public_feature:tt $version:ident;)*) => {$(
        build!(
            $feature $version Local build_local try_encrypt PasetoSymmetricKey<$version, Local>,
            "Encrypts a token of the claims."
        );
        build!(
            $public_feature $version Public build_public try_sign PasetoAsymmetricPrivateKey<'_, $version, Public>,
            "Signs a token of the claims."
        );
    )*};
}

builds! {
    "v1_local" "v1_public" V1;
    "v2_local" "v2_public" V2;
    "v3_local" "v3_public" V3;
    "v4_local" "v4_public" V4;
}
