//! Tokens: encrypted and decrypted, signed and verified.

use crate::core::{
    Footer, ImplicitAssertion, ImplicitAssertionCapable, Local, PasetoAsymmetricPrivateKey,
    PasetoAsymmetricPublicKey, PasetoError, PasetoNonce, PasetoSymmetricKey, Payload, Public,
    PurposeTrait, VersionTrait, V1, V2, V3, V4,
};
use crate::library::{self, Version};
use std::marker::PhantomData;

/// The parts of a token: a payload, an optional footer, and in versions 3 and 4 an optional implicit assertion.
///
/// `try_encrypt` and `try_sign` make a token of these parts and do not change them; `try_decrypt` and `try_verify` read
/// a token.
///
/// ```rust
/// use paseto_proved::core::*;
///
/// # fn main() -> Result<(), Box<dyn std::error::Error>> {
/// let key = PasetoSymmetricKey::<V4, Local>::try_new_random()?;
/// let nonce = Key::<32>::try_new_random()?;
/// let footer = Footer::from("key-1");
/// let token = Paseto::<V4, Local>::builder()
///     .set_payload(Payload::from("a text"))
///     .set_footer(footer)
///     .try_encrypt(&key, &PasetoNonce::from(&nonce))?;
/// assert_eq!(Paseto::<V4, Local>::try_decrypt(&token, &key, footer, None)?, "a text");
/// assert_eq!(Paseto::<V4, Local>::try_decrypt(&token, &key, None, None), Err(PasetoError::FooterInvalid));
/// # Ok(())
/// # }
/// ```
#[derive(Clone, Copy)]
pub struct Paseto<'a, Version: VersionTrait, Purpose: PurposeTrait> {
    kind: PhantomData<(Version, Purpose)>,
    payload: Payload<'a>,
    footer: Option<Footer<'a>>,
    implicit_assertion: Option<ImplicitAssertion<'a>>,
}

impl<'a, Version: VersionTrait, Purpose: PurposeTrait> Default for Paseto<'a, Version, Purpose> {
    fn default() -> Self {
        Self::builder()
    }
}

impl<'a, Version: VersionTrait, Purpose: PurposeTrait> Paseto<'a, Version, Purpose> {
    /// An empty payload, without footer and implicit assertion.
    pub fn builder() -> Self {
        Paseto {
            kind: PhantomData,
            payload: Payload::default(),
            footer: None,
            implicit_assertion: None,
        }
    }

    /// Sets the payload, and keeps the rest.
    pub fn set_payload(&mut self, payload: Payload<'a>) -> &mut Self {
        self.payload = payload;
        self
    }

    /// Sets the footer, and keeps the rest. With an empty footer the token ends in a dot.
    pub fn set_footer(&mut self, footer: Footer<'a>) -> &mut Self {
        self.footer = Some(footer);
        self
    }
}

/// The token that the library made, with what it does not write: a footer that was set and is empty shows in a dot at
/// the end.
pub(crate) fn with_end(token: String, footer: Option<Footer<'_>>) -> String {
    match footer {
        Some(footer) if footer.is_empty() => token + ".",
        _ => token,
    }
}

impl<'a, Version: ImplicitAssertionCapable, Purpose: PurposeTrait> Paseto<'a, Version, Purpose> {
    /// Sets the implicit assertion, and keeps the rest.
    pub fn set_implicit_assertion(&mut self, assertion: ImplicitAssertion<'a>) -> &mut Self {
        self.implicit_assertion = Some(assertion);
        self
    }
}

macro_rules! local {
    ($feature:tt $version:ident $(, $assertion:ident)?) => {
        #[cfg(feature = $feature)]
        impl<'a> Paseto<'a, $version, Local> {
            /// Encrypts the payload under a key and a nonce, which must not be used for another token under this key.
            ///
            /// Fails with `Memory` if the library is out of memory, and in version 2 with `ChaChaCipherError` for a
            /// text of 2^38 - 63 bytes or more.
            pub fn try_encrypt(
                &self,
                key: &PasetoSymmetricKey<$version, Local>,
                nonce: &PasetoNonce<'_, $version, Local>,
            ) -> Result<String, PasetoError> {
                let token = library::encrypt(
                    Version::$version,
                    key.as_ref(),
                    nonce.as_ref(),
                    &self.payload,
                    &self.footer.unwrap_or_default(),
                    &self.implicit_assertion.unwrap_or_default(),
                )?;
                Ok(with_end(token, self.footer))
            }

            /// Decrypts a token with the expected footer and implicit assertion, and returns its text. `None` is the
            /// same as an empty one.
            ///
            /// Otherwise returns the first error of `IncorrectSize`, `FooterInvalid`, `WrongHeader`,
            /// `PayloadBase64Decode`, `Cryption` (in version 2 `ChaChaCipherError`) and `Utf8Error`. `Memory` may take
            /// the place of any.
            pub fn try_decrypt(
                token: &str,
                key: &PasetoSymmetricKey<$version, Local>,
                footer: impl Into<Option<Footer<'a>>> + Copy,
                $($assertion: impl Into<Option<ImplicitAssertion<'a>>> + Copy,)?
            ) -> Result<String, PasetoError> {
                let assertion = ImplicitAssertion::default();
                $(let assertion = $assertion.into().unwrap_or(assertion);)?
                Ok(library::decrypt(
                    Version::$version,
                    key.as_ref(),
                    token.as_bytes(),
                    &footer.into().unwrap_or_default(),
                    &assertion,
                )?)
            }
        }
    };
}

local!("v1_local" V1);
local!("v2_local" V2);
local!("v3_local" V3, implicit_assertion);
local!("v4_local" V4, implicit_assertion);

macro_rules! public {
    ($feature:tt $version:ident $(, $assertion:ident)?) => {
        #[cfg(feature = $feature)]
        impl<'a> Paseto<'a, $version, Public> {
            /// Signs the payload with a private key, in version 1 with a random salt from the system.
            ///
            /// Fails with `InvalidKey` for a key of another length, `KeyRejected` for one that is not valid,
            /// `Signature` for one whose two halves do not belong together, in version 1 `RsaCipher` for one whose
            /// numbers are inconsistent and `Cipher` if the system gives no random bytes, and `Memory` if the library
            /// is out of memory.
            pub fn try_sign(
                &self,
                key: &PasetoAsymmetricPrivateKey<'_, $version, Public>,
            ) -> Result<String, PasetoError> {
                let token = library::sign(
                    Version::$version,
                    key.as_ref(),
                    &self.payload,
                    &self.footer.unwrap_or_default(),
                    &self.implicit_assertion.unwrap_or_default(),
                )?;
                Ok(with_end(token, self.footer))
            }

            /// Verifies a token with the expected footer and implicit assertion, and returns its text. `None` is the
            /// same as an empty one.
            ///
            /// Otherwise returns the first error of `InvalidKey`, `IncorrectSize`, `FooterInvalid`, `WrongHeader`,
            /// `PayloadBase64Decode`, `InvalidSignature` and `FromUtf8Error`. `Memory` may take the place of any.
            pub fn try_verify(
                token: &str,
                key: &PasetoAsymmetricPublicKey<'_, $version, Public>,
                footer: impl Into<Option<Footer<'a>>> + Copy,
                $($assertion: impl Into<Option<ImplicitAssertion<'a>>> + Copy,)?
            ) -> Result<String, PasetoError> {
                let assertion = ImplicitAssertion::default();
                $(let assertion = $assertion.into().unwrap_or(assertion);)?
                Ok(library::verify(
                    Version::$version,
                    key.as_ref(),
                    token.as_bytes(),
                    &footer.into().unwrap_or_default(),
                    &assertion,
                )?)
            }
        }
    };
}

public!("v1_public" V1);
public!("v2_public" V2);
public!("v3_public" V3, implicit_assertion);
public!("v4_public" V4, implicit_assertion);
