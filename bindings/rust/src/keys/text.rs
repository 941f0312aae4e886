//! Keys as PASERK and PEM text.

use crate::core::{Key, PasetoSymmetricKey, Public, V1, V2, V3, V4};
use crate::core::{Local, PasetoAsymmetricPrivateKey, PasetoAsymmetricPublicKey};
use crate::keys::{KeyId, KeyTextError};
use crate::library::{self, Fault, KeyType, Version};
use std::str::FromStr;

// The bytes of a key in PEM, or in PASERK, where one newline may follow, as in the key files of the program `paseto`.
fn bytes_of(version: Version, kind: KeyType, text: &str) -> Result<Vec<u8>, Fault> {
    if library::holds_pem(text) {
        library::from_pem(version, kind, text)
    } else {
        library::from_paserk(version, kind, text.as_bytes())
    }
}

// An example of a method of keys of a version.
macro_rules! example {
    ($version:ident: $($line:literal)*) => {
        concat!(
            "```rust\nuse paseto_proved::core::*;\nuse paseto_proved::keys::*;\n\ntype Version = ",
            stringify!($version),
            ";\n\n# fn main() -> Result<(), Box<dyn std::error::Error>> {\n",
            $($line, "\n",)*
            "# Ok(())\n# }\n```"
        )
    };
}

// The key of bytes that are a secret, and are wiped.
fn symmetric<Version>(
    mut bytes: Vec<u8>,
) -> Result<PasetoSymmetricKey<Version, Local>, KeyTextError> {
    let key = <&[u8; 32]>::try_from(bytes.as_slice()).map(Key::from);
    library::wipe(&mut bytes);
    Ok(PasetoSymmetricKey::from(
        key.map_err(|_| KeyTextError::InvalidKey)?,
    ))
}

macro_rules! local {
    ($feature:tt $version:ident) => {
        #[cfg(feature = $feature)]
        impl PasetoSymmetricKey<$version, Local> {
            /// The key as PASERK text, as in the key files of the program `paseto`. The text is a secret. Fails with
            /// `Memory` alone.
            ///
            #[doc = example!($version:
                "let key = PasetoSymmetricKey::<Version, Local>::try_new_random()?;"
                "let same: PasetoSymmetricKey<Version, Local> = key.to_paserk()?.parse()?;"
                "assert_eq!(same.as_ref(), key.as_ref());"
            )]
            pub fn to_paserk(&self) -> Result<String, KeyTextError> {
                Ok(library::to_paserk(
                    Version::$version,
                    KeyType::Local,
                    self.as_ref(),
                )?)
            }

            /// The PASERK id of the key, which identifies it without revealing it. Fails with `Memory` alone.
            ///
            #[doc = example!($version:
                "let key = PasetoSymmetricKey::<Version, Local>::try_new_random()?;"
                "assert!(key.id()?.as_str()[2..].starts_with(\".lid.\"));"
            )]
            pub fn id(&self) -> Result<KeyId, KeyTextError> {
                let id = library::key_id(Version::$version, KeyType::Local, self.as_ref())?;
                Ok(KeyId::new(id))
            }

            /// The key as text under a password, `k4.local-pw..`: in versions 1 and 3 by 100,000 iterations of PBKDF2, in
            /// 2 and 4 by two passes of Argon2id over 64 MiB. `try_unlock` reads it.
            ///
            /// Fails with `LongPassword` for one of 4 GiB, `NoRandom` if the system gives no random bytes, and `Memory`.
            ///
            #[doc = example!($version:
                "let key = PasetoSymmetricKey::<Version, Local>::try_new_random()?;"
                "let text = key.to_protected(b\"a password\")?;"
                "let same = PasetoSymmetricKey::<Version, Local>::try_unlock(&text, b\"a password\")?;"
                "assert_eq!(same.as_ref(), key.as_ref());"
            )]
            pub fn to_protected(&self, password: &[u8]) -> Result<String, KeyTextError> {
                let (version, kind) = (Version::$version, KeyType::Local);
                Ok(library::protected(version, kind, self.as_ref(), password)?)
            }

            /// The key as text that is wrapped under another one, `k4.local-wrap..`. `try_unwrap` reads it.
            ///
            /// Fails with `NoRandom` if the system gives no random bytes, and `Memory`.
            ///
            #[doc = example!($version:
                "let (key, wrapping) = (PasetoSymmetricKey::<Version, Local>::try_new_random()?, PasetoSymmetricKey::try_new_random()?);"
                "let text = key.to_wrapped(&wrapping)?;"
                "let same = PasetoSymmetricKey::<Version, Local>::try_unwrap(&text, &wrapping)?;"
                "assert_eq!(same.as_ref(), key.as_ref());"
            )]
            pub fn to_wrapped(&self, wrapping: &Self) -> Result<String, KeyTextError> {
                let (version, kind) = (Version::$version, KeyType::Local);
                Ok(library::wrapped(version, kind, self.as_ref(), wrapping.as_ref())?)
            }

            /// The key of a text that is under a password, `k4.local-pw..`. Fails with `WrongKey` for a wrong one,
            /// `TooCostly`, `LongPassword`, and as `from_str` does.
            ///
            #[doc = example!($version:
                "let text = PasetoSymmetricKey::<Version, Local>::try_new_random()?.to_protected(b\"a password\")?;"
                "let refused = PasetoSymmetricKey::<Version, Local>::try_unlock(&text, b\"another\");"
                "assert_eq!(refused.err(), Some(KeyTextError::WrongKey));"
            )]
            pub fn try_unlock(text: &str, password: &[u8]) -> Result<Self, KeyTextError> {
                let (version, text) = (Version::$version, text.as_bytes());
                symmetric(library::unlocked(version, KeyType::Local, text, password)?)
            }

            /// The key of a text that is wrapped under another one, `k4.local-wrap..`. Fails with `WrongKey` for another
            /// wrapping key, and as `from_str` does.
            ///
            #[doc = example!($version:
                "let key = PasetoSymmetricKey::<Version, Local>::try_new_random()?;"
                "let refused = PasetoSymmetricKey::<Version, Local>::try_unwrap(&key.to_wrapped(&key)?, &Key::from([7; 32]).into());"
                "assert_eq!(refused.err(), Some(KeyTextError::WrongKey));"
            )]
            pub fn try_unwrap(text: &str, wrapping: &Self) -> Result<Self, KeyTextError> {
                let (version, text) = (Version::$version, text.as_bytes());
                let opener = (KeyType::Local, wrapping.as_ref());
                symmetric(library::unwrapped(version, KeyType::Local, text, opener)?)
            }
        }

        #[cfg(feature = $feature)]
        impl FromStr for PasetoSymmetricKey<$version, Local> {
            type Err = KeyTextError;

            /// The key of PASERK text, behind which one newline may follow. Fails with `NoPaserk`, `OtherVersion`,
            /// `OtherType`, `NeedsPassword`, `NeedsKey` or `InvalidKey`, with `NotPem` for a text in PEM, and with `Memory`.
            fn from_str(text: &str) -> Result<Self, KeyTextError> {
                symmetric(bytes_of(Version::$version, KeyType::Local, text)?)
            }
        }
    };
}

local!("v1_local" V1);
local!("v2_local" V2);
local!("v3_local" V3);
local!("v4_local" V4);

macro_rules! half {
    ($feature:tt $version:ident $name:ident $type:ident, $example:expr) => {
        #[cfg(feature = $feature)]
        impl $name<'_, $version, Public> {
            /// The key in PEM, byte for byte as `openssl pkey` writes it. That of a private key is a secret.
            ///
            /// Fails with `InvalidKey` for an invalid key: a wrong length, halves that do not belong together, a point
            /// that is not on the curve, or DER that is not such a key; and with `Memory`.
            ///
            #[doc = $example]
            pub fn to_pem(&self) -> Result<String, KeyTextError> {
                Ok(library::to_pem(
                    Version::$version,
                    KeyType::$type,
                    self.as_ref(),
                )?)
            }
        }

        #[cfg(feature = $feature)]
        impl FromStr for $name<'static, $version, Public> {
            type Err = KeyTextError;

            /// The key of a text in PEM, as `openssl` writes it, or of PASERK text, behind which one newline may follow.
            ///
            /// Fails with `NoPaserk`, `OtherVersion`, `OtherType`, `NeedsPassword`, `NeedsKey`, `NotPem`, `EncryptedKey`,
            /// `OtherLabel`, `OtherAlgorithm`, `OtherCurve`, `OtherSize` or `InvalidKey`, and with `Memory`.
            fn from_str(text: &str) -> Result<Self, KeyTextError> {
                Ok($name::owning(bytes_of(
                    Version::$version,
                    KeyType::$type,
                    text,
                )?))
            }
        }
    };
}

macro_rules! halves {
    ($($feature:tt $version:ident)*) => {$(
        half!($feature $version PasetoAsymmetricPrivateKey Private, example!($version:
            "let pair = KeyPair::<Version>::try_new_random()?;"
            "let same: PasetoAsymmetricPrivateKey<Version, Public> = pair.private_key().to_pem()?.parse()?;"
            "assert_eq!(same.as_ref(), pair.private_key().as_ref());"
        ));
        half!($feature $version PasetoAsymmetricPublicKey Public, example!($version:
            "let pair = KeyPair::<Version>::try_new_random()?;"
            "let same: PasetoAsymmetricPublicKey<Version, Public> = pair.public_key().to_pem()?.parse()?;"
            "assert_eq!(same.as_ref(), pair.public_key().as_ref());"
        ));
    )*};
}

halves! {
    "v2_public" V2
    "v3_public" V3
    "v4_public" V4
}
half!("v1_public" V1 PasetoAsymmetricPrivateKey Private, example!(V1:
    "let no_key = PasetoAsymmetricPrivateKey::<Version, Public>::from(&b\"no DER\"[..]);"
    "assert_eq!(no_key.to_pem(), Err(KeyTextError::InvalidKey));"
));
half!("v1_public" V1 PasetoAsymmetricPublicKey Public, example!(V1:
    "let no_key = PasetoAsymmetricPublicKey::<Version, Public>::from(&b\"no DER\"[..]);"
    "assert_eq!(no_key.to_pem(), Err(KeyTextError::InvalidKey));"
));

macro_rules! paserk {
    ($feature:tt $version:ident $name:ident $type:ident, $written:expr, $named:expr) => {
        #[cfg(feature = $feature)]
        impl $name<'_, $version, Public> {
            /// The key as PASERK text, as in the key files of the program `paseto`. That of a private key is a secret.
            ///
            /// Fails with `InvalidKey` for a key of another length, or DER that is not such a key, and with `Memory`.
            ///
            #[doc = $written]
            pub fn to_paserk(&self) -> Result<String, KeyTextError> {
                Ok(library::to_paserk(
                    Version::$version,
                    KeyType::$type,
                    self.as_ref(),
                )?)
            }

            /// The PASERK id of the key, which identifies it without revealing it. It fails as `to_paserk` does.
            ///
            #[doc = $named]
            pub fn id(&self) -> Result<KeyId, KeyTextError> {
                let id = library::key_id(Version::$version, KeyType::$type, self.as_ref())?;
                Ok(KeyId::new(id))
            }
        }
    };
}

macro_rules! paserks {
    ($($feature:tt $version:ident)*) => {$(
        paserk!($feature $version PasetoAsymmetricPrivateKey Private, example!($version:
            "let pair = KeyPair::<Version>::try_new_random()?;"
            "let same: PasetoAsymmetricPrivateKey<Version, Public> = pair.private_key().to_paserk()?.parse()?;"
            "assert_eq!(same.as_ref(), pair.private_key().as_ref());"
        ), example!($version:
            "let id = KeyPair::<Version>::try_new_random()?.private_key().id()?;"
            "assert!(id.as_str()[2..].starts_with(\".sid.\"));"
        ));
        paserk!($feature $version PasetoAsymmetricPublicKey Public, example!($version:
            "let pair = KeyPair::<Version>::try_new_random()?;"
            "let same: PasetoAsymmetricPublicKey<Version, Public> = pair.public_key().to_paserk()?.parse()?;"
            "assert_eq!(same.as_ref(), pair.public_key().as_ref());"
        ), example!($version:
            "let id = KeyPair::<Version>::try_new_random()?.public_key().id()?;"
            "assert!(id.as_str()[2..].starts_with(\".pid.\"));"
        ));
    )*};
}

paserks! {
    "v2_public" V2
    "v3_public" V3
    "v4_public" V4
}
paserk!("v1_public" V1 PasetoAsymmetricPrivateKey Private, example!(V1:
    "let no_key = PasetoAsymmetricPrivateKey::<Version, Public>::from(&b\"no DER\"[..]);"
    "assert_eq!(no_key.to_paserk(), Err(KeyTextError::InvalidKey));"
), example!(V1:
    "let no_key = PasetoAsymmetricPrivateKey::<Version, Public>::from(&b\"no DER\"[..]);"
    "assert_eq!(no_key.id(), Err(KeyTextError::InvalidKey));"
));
paserk!("v1_public" V1 PasetoAsymmetricPublicKey Public, example!(V1:
    "let no_key = PasetoAsymmetricPublicKey::<Version, Public>::from(&b\"no DER\"[..]);"
    "assert_eq!(no_key.to_paserk(), Err(KeyTextError::InvalidKey));"
), example!(V1:
    "let no_key = PasetoAsymmetricPublicKey::<Version, Public>::from(&b\"no DER\"[..]);"
    "assert_eq!(no_key.id(), Err(KeyTextError::InvalidKey));"
));

macro_rules! locked {
    ($feature:tt $local:tt $version:ident, $protected:expr, $wrapped:expr, $unlocked:expr, $unwrapped:expr) => {
        #[cfg(feature = $feature)]
        impl PasetoAsymmetricPrivateKey<'_, $version, Public> {
            /// The key as text under a password, `k4.secret-pw..`: in versions 1 and 3 by 100,000 iterations of PBKDF2, in
            /// 2 and 4 by two passes of Argon2id over 64 MiB. `try_unlock` reads it.
            ///
            /// Fails with `InvalidKey` for a key of another length, or DER that is not such a key, `LongPassword` for a
            /// password of 4 GiB, `NoRandom` if the system gives no random bytes, and `Memory`.
            ///
            #[doc = $protected]
            pub fn to_protected(&self, password: &[u8]) -> Result<String, KeyTextError> {
                let (version, kind) = (Version::$version, KeyType::Private);
                Ok(library::protected(version, kind, self.as_ref(), password)?)
            }
        }

        #[cfg(all(feature = $feature, feature = $local))]
        impl PasetoAsymmetricPrivateKey<'_, $version, Public> {
            /// The key as text that is wrapped under a key for local tokens, `k4.secret-wrap..`. `try_unwrap` reads it.
            ///
            /// Fails with `InvalidKey` for a key of another length, or DER that is not such a key, `NoRandom` if the system
            /// gives no random bytes, and `Memory`.
            ///
            #[doc = $wrapped]
            pub fn to_wrapped(
                &self,
                wrapping: &PasetoSymmetricKey<$version, Local>,
            ) -> Result<String, KeyTextError> {
                let (version, kind) = (Version::$version, KeyType::Private);
                Ok(library::wrapped(
                    version,
                    kind,
                    self.as_ref(),
                    wrapping.as_ref(),
                )?)
            }
        }

        #[cfg(feature = $feature)]
        impl PasetoAsymmetricPrivateKey<'static, $version, Public> {
            /// The key of a text that is under a password, `k4.secret-pw..`. Fails with `WrongKey` for a wrong one,
            /// `TooCostly`, `LongPassword`, and as `from_str` does.
            ///
            #[doc = $unlocked]
            pub fn try_unlock(text: &str, password: &[u8]) -> Result<Self, KeyTextError> {
                let (version, text) = (Version::$version, text.as_bytes());
                let bytes = library::unlocked(version, KeyType::Private, text, password)?;
                Ok(PasetoAsymmetricPrivateKey::owning(bytes))
            }
        }

        #[cfg(all(feature = $feature, feature = $local))]
        impl PasetoAsymmetricPrivateKey<'static, $version, Public> {
            /// The key of a text that is wrapped under a key for local tokens, `k4.secret-wrap..`. Fails with `WrongKey`
            /// for another wrapping key, and as `from_str` does.
            ///
            #[doc = $unwrapped]
            pub fn try_unwrap(
                text: &str,
                wrapping: &PasetoSymmetricKey<$version, Local>,
            ) -> Result<Self, KeyTextError> {
                let (version, text) = (Version::$version, text.as_bytes());
                let opener = (KeyType::Local, wrapping.as_ref());
                let bytes = library::unwrapped(version, KeyType::Private, text, opener)?;
                Ok(PasetoAsymmetricPrivateKey::owning(bytes))
            }
        }
    };
}

macro_rules! lockeds {
    ($($feature:tt $local:tt $version:ident)*) => {$(
        locked!($feature $local $version, example!($version:
            "let pair = KeyPair::<Version>::try_new_random()?;"
            "let text = pair.private_key().to_protected(b\"a password\")?;"
            "let same = PasetoAsymmetricPrivateKey::<Version, Public>::try_unlock(&text, b\"a password\")?;"
            "assert_eq!(same.as_ref(), pair.private_key().as_ref());"
        ), example!($version:
            "let (pair, wrapping) = (KeyPair::<Version>::try_new_random()?, PasetoSymmetricKey::try_new_random()?);"
            "let text = pair.private_key().to_wrapped(&wrapping)?;"
            "let same = PasetoAsymmetricPrivateKey::<Version, Public>::try_unwrap(&text, &wrapping)?;"
            "assert_eq!(same.as_ref(), pair.private_key().as_ref());"
        ), example!($version:
            "let text = KeyPair::<Version>::try_new_random()?.private_key().to_protected(b\"a password\")?;"
            "let refused = PasetoAsymmetricPrivateKey::<Version, Public>::try_unlock(&text, b\"another\");"
            "assert_eq!(refused.err(), Some(KeyTextError::WrongKey));"
        ), example!($version:
            "let (pair, wrapping) = (KeyPair::<Version>::try_new_random()?, PasetoSymmetricKey::try_new_random()?);"
            "let text = pair.private_key().to_wrapped(&wrapping)?;"
            "let refused = PasetoAsymmetricPrivateKey::<Version, Public>::try_unwrap(&text, &Key::from([7; 32]).into());"
            "assert_eq!(refused.err(), Some(KeyTextError::WrongKey));"
        ));
    )*};
}

lockeds! {
    "v2_public" "v2_local" V2
    "v3_public" "v3_local" V3
    "v4_public" "v4_local" V4
}
locked!("v1_public" "v1_local" V1, example!(V1:
    "let no_key = PasetoAsymmetricPrivateKey::<Version, Public>::from(&b\"no DER\"[..]);"
    "assert_eq!(no_key.to_protected(b\"a password\"), Err(KeyTextError::InvalidKey));"
), example!(V1:
    "let no_key = PasetoAsymmetricPrivateKey::<Version, Public>::from(&b\"no DER\"[..]);"
    "let wrapping = PasetoSymmetricKey::try_new_random()?;"
    "assert_eq!(no_key.to_wrapped(&wrapping), Err(KeyTextError::InvalidKey));"
), example!(V1:
    "let text = PasetoSymmetricKey::<Version, Local>::try_new_random()?.to_protected(b\"a password\")?;"
    "let refused = PasetoAsymmetricPrivateKey::<Version, Public>::try_unlock(&text, b\"a password\");"
    "assert_eq!(refused.err(), Some(KeyTextError::OtherType));"
), example!(V1:
    "let key = PasetoSymmetricKey::<Version, Local>::try_new_random()?;"
    "let refused = PasetoAsymmetricPrivateKey::<Version, Public>::try_unwrap(&key.to_wrapped(&key)?, &key);"
    "assert_eq!(refused.err(), Some(KeyTextError::OtherType));"
));

macro_rules! sealed {
    ($feature:tt $local:tt $version:ident) => {
        #[cfg(all(feature = $feature, feature = $local))]
        impl PasetoSymmetricKey<$version, Local> {
            /// The key as text that is sealed to a public key, `k4.seal..`. `try_unseal` reads it, by the private key.
            ///
            /// Fails with `InvalidKey` for a public key that is none, `NoRandom` if the system gives no random bytes, and
            /// `Memory`.
            ///
            #[doc = example!($version:
                "let (key, pair) = (PasetoSymmetricKey::<Version, Local>::try_new_random()?, KeyPair::<Version>::try_new_random()?);"
                "let text = key.to_sealed(pair.public_key())?;"
                "let same = PasetoSymmetricKey::<Version, Local>::try_unseal(&text, pair.private_key())?;"
                "assert_eq!(same.as_ref(), key.as_ref());"
            )]
            pub fn to_sealed(
                &self,
                public: &PasetoAsymmetricPublicKey<'_, $version, Public>,
            ) -> Result<String, KeyTextError> {
                loop {
                    match library::sealed(Version::$version, self.as_ref(), public.as_ref()) {
                        // Of version 3, less than one in 2^189 random seeds is not a private key.
                        Err(Fault::KeyRejected) => {}
                        made => return Ok(made?),
                    }
                }
            }

            /// The key of a text that is sealed to the public key of a private one, `k4.seal..`. Fails with `WrongKey`
            /// for another private key, and as `from_str` does.
            ///
            #[doc = example!($version:
                "let (key, pair) = (PasetoSymmetricKey::<Version, Local>::try_new_random()?, KeyPair::<Version>::try_new_random()?);"
                "let (text, other) = (key.to_sealed(pair.public_key())?, KeyPair::<Version>::try_new_random()?);"
                "let refused = PasetoSymmetricKey::<Version, Local>::try_unseal(&text, other.private_key());"
                "assert_eq!(refused.err(), Some(KeyTextError::WrongKey));"
            )]
            pub fn try_unseal(
                text: &str,
                private: &PasetoAsymmetricPrivateKey<'_, $version, Public>,
            ) -> Result<Self, KeyTextError> {
                let (version, text) = (Version::$version, text.as_bytes());
                let opener = (KeyType::Private, private.as_ref());
                symmetric(library::unwrapped(version, KeyType::Local, text, opener)?)
            }
        }
    };
}

// Keys of version 1 are not sealed.
sealed!("v2_public" "v2_local" V2);
sealed!("v3_public" "v3_local" V3);
sealed!("v4_public" "v4_local" V4);
