//! The versions and purposes of tokens.

use std::fmt::Display;

/// A version of PASETO, as a type.
///
/// ```rust
/// use paseto_proved::core::{VersionTrait, V4};
///
/// fn name<Version: VersionTrait>() -> String {
///     Version::default().to_string()
/// }
/// assert_eq!(name::<V4>(), "v4");
/// ```
pub trait VersionTrait: Display + Default + AsRef<str> {}

/// A purpose of tokens, as a type.
///
/// ```rust
/// use paseto_proved::core::{Local, PurposeTrait};
///
/// fn name<Purpose: PurposeTrait>() -> String {
///     Purpose::default().to_string()
/// }
/// assert_eq!(name::<Local>(), "local");
/// ```
pub trait PurposeTrait: Display + Default + AsRef<str> {}

/// A version with implicit assertions: 3 and 4.
///
/// ```rust
/// use paseto_proved::core::{ImplicitAssertion, ImplicitAssertionCapable, Local, Paseto, V3};
///
/// fn bind<'a, Version: ImplicitAssertionCapable>(token: &mut Paseto<'a, Version, Local>, to: &'a str) {
///     token.set_implicit_assertion(ImplicitAssertion::from(to));
/// }
/// bind(&mut Paseto::<V3, Local>::builder(), "account 7");
/// ```
pub trait ImplicitAssertionCapable: VersionTrait {}

/// A version whose key pairs are Ed25519 keys: 2 and 4.
///
/// ```rust
/// use paseto_proved::core::{PasetoAsymmetricPrivateKey, Public, V2orV4, V4};
///
/// fn lent<Version: V2orV4>(bytes: &[u8]) -> PasetoAsymmetricPrivateKey<'_, Version, Public> {
///     PasetoAsymmetricPrivateKey::from(bytes)
/// }
/// assert_eq!(lent::<V4>(&[7; 64]).as_ref(), [7; 64]);
/// ```
pub trait V2orV4: VersionTrait {}

macro_rules! named {
    ($(#[$about:meta])* $name:ident, $text:literal, $kind:ident) => {
        $(#[$about])*
        ///
        /// ```rust
        #[doc = concat!("assert_eq!(paseto_proved::core::", stringify!($name), ".to_string(), \"", $text, "\");")]
        /// ```
        #[derive(Clone, Copy, Debug, Default, PartialEq, Eq)]
        pub struct $name;

        impl AsRef<str> for $name {
            fn as_ref(&self) -> &str {
                $text
            }
        }

        impl Display for $name {
            fn fmt(&self, f: &mut std::fmt::Formatter<'_>) -> std::fmt::Result {
                f.write_str($text)
            }
        }

        impl $kind for $name {}
    };
}

named! {
    /// Version 1: AES-256, HMAC-SHA384 and RSA-PSS. Use it only for existing tokens.
    V1, "v1", VersionTrait
}
named! {
    /// Version 2: XChaCha20-Poly1305 and Ed25519. Use it only for existing tokens.
    V2, "v2", VersionTrait
}
named! {
    /// Version 3: AES-256, HMAC-SHA384 and ECDSA over P-384, for projects that need NIST algorithms.
    V3, "v3", VersionTrait
}
named! {
    /// Version 4: XChaCha20, BLAKE2b and Ed25519. New projects should use it.
    V4, "v4", VersionTrait
}
named! {
    /// Tokens that are encrypted and authenticated with a secret key.
    Local, "local", PurposeTrait
}
named! {
    /// Tokens that are signed with a private key and readable by everybody.
    Public, "public", PurposeTrait
}

impl ImplicitAssertionCapable for V3 {}
impl ImplicitAssertionCapable for V4 {}
impl V2orV4 for V2 {}
impl V2orV4 for V4 {}
