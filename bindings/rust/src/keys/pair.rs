//! Key pairs.

use crate::core::{
    Key, PasetoAsymmetricPrivateKey, PasetoAsymmetricPublicKey, PasetoError, Public, V1, V2, V3, V4,
};
use crate::library::{self, Version};
use std::fmt;

/// A private key and its public key, of versions 2, 3 and 4. `openssl genpkey` makes keys of version 1.
///
/// ```rust
/// use paseto_proved::core::{Key, Paseto, Payload, Public, V4};
/// use paseto_proved::keys::KeyPair;
///
/// # fn main() -> Result<(), Box<dyn std::error::Error>> {
/// let pair = KeyPair::<V4>::try_new_random()?;
/// let token = Paseto::<V4, Public>::builder()
///     .set_payload(Payload::from("a text"))
///     .try_sign(pair.private_key())?;
/// assert_eq!(Paseto::<V4, Public>::try_verify(&token, pair.public_key(), None, None)?, "a text");
///
/// let (one, same) = (KeyPair::<V4>::try_from_seed(&Key::from([7; 32]))?, KeyPair::<V4>::try_from_seed(&Key::from([7; 32]))?);
/// assert_eq!(one.public_key().as_ref(), same.public_key().as_ref());
/// # Ok(())
/// # }
/// ```
#[derive(Clone)]
pub struct KeyPair<Version> {
    private_key: PasetoAsymmetricPrivateKey<'static, Version, Public>,
    public_key: PasetoAsymmetricPublicKey<'static, Version, Public>,
}

impl<Version> KeyPair<Version> {
    /// The key that signs.
    ///
    /// ```rust
    /// use paseto_proved::core::V4;
    /// use paseto_proved::keys::KeyPair;
    ///
    /// # fn main() -> Result<(), Box<dyn std::error::Error>> {
    /// assert!(KeyPair::<V4>::try_new_random()?.private_key().to_paserk()?.starts_with("k4.secret."));
    /// # Ok(())
    /// # }
    /// ```
    pub fn private_key(&self) -> &PasetoAsymmetricPrivateKey<'static, Version, Public> {
        &self.private_key
    }

    /// The key that verifies.
    ///
    /// ```rust
    /// use paseto_proved::core::V4;
    /// use paseto_proved::keys::KeyPair;
    ///
    /// # fn main() -> Result<(), Box<dyn std::error::Error>> {
    /// assert!(KeyPair::<V4>::try_new_random()?.public_key().to_paserk()?.starts_with("k4.public."));
    /// # Ok(())
    /// # }
    /// ```
    pub fn public_key(&self) -> &PasetoAsymmetricPublicKey<'static, Version, Public> {
        &self.public_key
    }
}

impl<Version> fmt::Debug for KeyPair<Version> {
    fn fmt(&self, f: &mut fmt::Formatter<'_>) -> fmt::Result {
        self.private_key.fmt(f)
    }
}

macro_rules! pair {
    ($feature:tt $version:ident, $length:literal of $private:literal) => {
        #[cfg(feature = $feature)]
        impl KeyPair<$version> {
            /// A new random key pair. Fails with `Cipher` if the system gives no random bytes.
            ///
            /// ```rust
            #[doc = concat!("use paseto_proved::core::", stringify!($version), ";")]
            /// use paseto_proved::keys::KeyPair;
            ///
            /// # fn main() -> Result<(), Box<dyn std::error::Error>> {
            #[doc = concat!("let pair = KeyPair::<", stringify!($version), ">::try_new_random()?;")]
            #[doc = concat!("let other = KeyPair::<", stringify!($version), ">::try_new_random()?;")]
            /// assert_ne!(pair.public_key().as_ref(), other.public_key().as_ref());
            /// # Ok(())
            /// # }
            /// ```
            pub fn try_new_random() -> Result<Self, PasetoError> {
                loop {
                    match Self::try_from_seed(&Key::<$length>::try_new_random()?) {
                        // Of version 3, less than one in 2^189 random seeds is not a private key.
                        Err(PasetoError::KeyRejected) => {}
                        made => return made,
                    }
                }
            }

            /// The key pair of a seed: 32 bytes, or 48 in version 3, where the seed is the private key. Fails with
            /// `KeyRejected` for a seed of version 3 that is not a private key.
            ///
            /// ```rust
            #[doc = concat!("use paseto_proved::core::{Key, ", stringify!($version), "};")]
            /// use paseto_proved::keys::KeyPair;
            ///
            /// # fn main() -> Result<(), Box<dyn std::error::Error>> {
            #[doc = concat!("let seed = Key::from([7; ", stringify!($length), "]);")]
            #[doc = concat!("let pair = KeyPair::<", stringify!($version), ">::try_from_seed(&seed)?;")]
            #[doc = concat!("assert_eq!(pair.private_key().as_ref()[..", stringify!($length), "], seed[..]);")]
            /// # Ok(())
            /// # }
            /// ```
            pub fn try_from_seed(seed: &Key<$length>) -> Result<Self, PasetoError> {
                let (private, public) = library::key_pair(Version::$version, seed.as_ref())?;
                Ok(KeyPair {
                    private_key: PasetoAsymmetricPrivateKey::owning(private),
                    public_key: PasetoAsymmetricPublicKey::owning(public),
                })
            }
        }

        #[cfg(feature = $feature)]
        impl PasetoAsymmetricPrivateKey<'_, $version, Public> {
            /// The public key of this private key. Fails with `InvalidKey` for a key of another length, and in version 3
            /// with `KeyRejected` for one that is not valid.
            ///
            /// ```rust
            #[doc = concat!("use paseto_proved::core::", stringify!($version), ";")]
            /// use paseto_proved::keys::KeyPair;
            ///
            /// # fn main() -> Result<(), Box<dyn std::error::Error>> {
            #[doc = concat!("let pair = KeyPair::<", stringify!($version), ">::try_new_random()?;")]
            /// assert_eq!(pair.private_key().public_key()?.as_ref(), pair.public_key().as_ref());
            /// # Ok(())
            /// # }
            /// ```
            pub fn public_key(
                &self,
            ) -> Result<PasetoAsymmetricPublicKey<'static, $version, Public>, PasetoError> {
                let bytes: &[u8; $private] = self
                    .as_ref()
                    .try_into()
                    .map_err(|_| PasetoError::InvalidKey)?;
                let (_, public) = library::key_pair(Version::$version, &bytes[..$length])?;
                Ok(PasetoAsymmetricPublicKey::owning(public))
            }
        }
    };
}

#[cfg(feature = "v1_public")]
impl PasetoAsymmetricPrivateKey<'_, V1, Public> {
    /// The public key of this private key. Fails with `InvalidKey` for DER that is not such a key, and with `Memory`.
    ///
    /// ```rust
    /// use paseto_proved::core::{PasetoAsymmetricPrivateKey, PasetoError, Public, V1};
    ///
    /// let no_key = PasetoAsymmetricPrivateKey::<V1, Public>::from(&b"no DER"[..]);
    /// assert_eq!(no_key.public_key().err(), Some(PasetoError::InvalidKey));
    /// ```
    pub fn public_key(
        &self,
    ) -> Result<PasetoAsymmetricPublicKey<'static, V1, Public>, PasetoError> {
        let bytes = library::public_half(Version::V1, self.as_ref())?;
        Ok(PasetoAsymmetricPublicKey::owning(bytes))
    }
}

pair!("v2_public" V2, 32 of 64);
pair!("v3_public" V3, 48 of 48);
pair!("v4_public" V4, 32 of 64);
