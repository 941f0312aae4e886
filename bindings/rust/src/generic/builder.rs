//! A builder of tokens with claims.

use crate::core::{
    Footer, ImplicitAssertion, ImplicitAssertionCapable, Key, Local, Paseto,
    PasetoAsymmetricPrivateKey, PasetoNonce, PasetoSymmetricKey, Payload, Public, V1, V2, V3, V4,
};
use crate::generic::{GenericBuilderError, Members, PasetoClaim};
use serde_json::Error;
use std::collections::HashMap;
use std::marker::PhantomData;

/// The claims of a token, an optional footer, and in versions 3 and 4 an optional implicit assertion. There are no claims
/// by default: [`PasetoBuilder`](crate::prelude::PasetoBuilder) adds the times.
///
/// `try_encrypt` and `try_sign` keep the claims, so that a second token has them too.
///
/// ```rust
/// use paseto_proved::generic::*;
///
/// # fn main() -> Result<(), Box<dyn std::error::Error>> {
/// let mut builder = GenericBuilder::<V4, Local>::default();
/// builder.set_claim(SubjectClaim::from("ada")).set_claim(CustomClaim::try_from(("seats", 4))?);
/// assert_eq!(builder.build_payload_from_claims()?, r#"{"seats":4,"sub":"ada"}"#);
/// assert!(builder.try_encrypt(&PasetoSymmetricKey::try_new_random()?)?.starts_with("v4.local."));
/// # Ok(())
/// # }
/// ```
pub struct GenericBuilder<'a, 'b, Version, Purpose> {
    kind: PhantomData<(Version, Purpose)>,
    // Values are written when they are set, so that nothing of them is borrowed.
    lent: PhantomData<&'b ()>,
    members: Members,
    footer: Option<Footer<'a>>,
    implicit_assertion: Option<ImplicitAssertion<'a>>,
}

impl<'a, 'b, Version, Purpose> GenericBuilder<'a, 'b, Version, Purpose> {
    /// No claims, no footer and no implicit assertion.
    pub fn new() -> Self {
        GenericBuilder {
            kind: PhantomData,
            lent: PhantomData,
            members: Members::default(),
            footer: None,
            implicit_assertion: None,
        }
    }

    /// Removes the claim with a key, if there is one.
    pub fn remove_claim(&mut self, claim_key: &str) -> &mut Self {
        self.members.remove(claim_key);
        self
    }

    /// Sets a value for each of the keys. A value is written as it is: that of a [`PasetoClaim`] is an object.
    pub fn extend_claims(
        &mut self,
        value: HashMap<String, Box<dyn erased_serde::Serialize + 'b>>,
    ) -> &mut Self {
        for (key, value) in &value {
            self.members.set_value(key, value.as_ref());
        }
        self
    }

    /// Sets a claim, in place of an earlier one with its key. A claim with an empty key is ignored. A value that cannot be
    /// written as JSON is an error when the token is made.
    pub fn set_claim<T: 'b + PasetoClaim + erased_serde::Serialize>(
        &mut self,
        value: T,
    ) -> &mut Self {
        if !value.get_key().is_empty() {
            self.members.set(&value);
        }
        self
    }

    /// Sets the footer.
    pub fn set_footer(&mut self, footer: Footer<'a>) -> &mut Self {
        self.footer = Some(footer);
        self
    }

    /// The claims as the text of a JSON object, in the order of their keys. Fails for a value that cannot be written as
    /// JSON.
    pub fn build_payload_from_claims(&mut self) -> Result<String, Error> {
        self.members.to_json()
    }

    pub(crate) fn members(&self) -> &Members {
        &self.members
    }

    pub(crate) fn footer(&self) -> Option<Footer<'a>> {
        self.footer
    }

    pub(crate) fn implicit_assertion(&self) -> Option<ImplicitAssertion<'a>> {
        self.implicit_assertion
    }
}

impl<'a, Version: ImplicitAssertionCapable, Purpose> GenericBuilder<'a, '_, Version, Purpose> {
    /// Sets the implicit assertion, which is not in the token and which its reader must pass too.
    pub fn set_implicit_assertion(
        &mut self,
        implicit_assertion: ImplicitAssertion<'a>,
    ) -> &mut Self {
        self.implicit_assertion = Some(implicit_assertion);
        self
    }
}

impl<Version, Purpose> Default for GenericBuilder<'_, '_, Version, Purpose> {
    fn default() -> Self {
        Self::new()
    }
}

impl<Version, Purpose> Clone for GenericBuilder<'_, '_, Version, Purpose> {
    fn clone(&self) -> Self {
        GenericBuilder {
            members: self.members.clone(),
            ..*self
        }
    }
}

// Sets what a token has beside its payload.
macro_rules! attached {
    ($builder:ident of $self:ident $(, $assertion:ident)?) => {
        if let Some(footer) = $self.footer {
            $builder.set_footer(footer);
        }
        $(if let Some($assertion) = $self.$assertion {
            $builder.set_implicit_assertion($assertion);
        })?
    };
}

macro_rules! local {
    ($feature:tt $version:ident $(, $assertion:ident)?) => {
        #[cfg(feature = $feature)]
        impl GenericBuilder<'_, '_, $version, Local> {
            /// Encrypts the claims under a key and a random nonce.
            ///
            /// Fails with `PayloadJsonError` for a value that cannot be written as JSON, `ClaimError` of `Unexpected` for
            /// a number that is not a 64-bit integer, and `CipherError` of `Cipher` if the system gives no random bytes
            /// or of `Memory` if the library is out of memory.
            pub fn try_encrypt(
                &mut self,
                key: &PasetoSymmetricKey<$version, Local>,
            ) -> Result<String, GenericBuilderError> {
                let payload = self.members.to_payload()?;
                let nonce = Key::<32>::try_new_random()?;
                let mut builder = Paseto::<$version, Local>::builder();
                builder.set_payload(Payload::from(payload.as_str()));
                attached!(builder of self $(, $assertion)?);
                Ok(builder.try_encrypt(key, &PasetoNonce::from(&nonce))?)
            }
        }
    };
}

local!("v1_local" V1);
local!("v2_local" V2);
local!("v3_local" V3, implicit_assertion);
local!("v4_local" V4, implicit_assertion);

macro_rules! public {
    ($feature:tt $version:ident $(, $assertion:ident)?) => {
        #[cfg(feature = $feature)]
        impl GenericBuilder<'_, '_, $version, Public> {
            /// Signs the claims with a private key.
            ///
            /// Fails with `PayloadJsonError` for a value that cannot be written as JSON, `ClaimError` of `Unexpected` for
            /// a number that is not a 64-bit integer, and `CipherError` of what
            /// [`try_sign`](crate::core::Paseto::try_sign) fails with.
            pub fn try_sign(
                &mut self,
                key: &PasetoAsymmetricPrivateKey<'_, $version, Public>,
            ) -> Result<String, GenericBuilderError> {
                let payload = self.members.to_payload()?;
                let mut builder = Paseto::<$version, Public>::builder();
                builder.set_payload(Payload::from(payload.as_str()));
                attached!(builder of self $(, $assertion)?);
                Ok(builder.try_sign(key)?)
            }
        }
    };
}

public!("v1_public" V1);
public!("v2_public" V2);
public!("v3_public" V3, implicit_assertion);
public!("v4_public" V4, implicit_assertion);
