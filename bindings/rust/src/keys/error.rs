//! The error of keys as text.

use crate::library::{self, Fault};
use std::error::Error;
use std::fmt;

/// Why a text is no key, or a key has no text.
///
/// ```rust
/// use paseto_proved::core::{Local, PasetoSymmetricKey, V4};
/// use paseto_proved::keys::KeyTextError;
///
/// let read = "k3.local.cHFyc3R1dnd4eXp7fH1-f4CBgoOEhYaHiImKi4yNjo8".parse::<PasetoSymmetricKey<V4, Local>>();
/// assert_eq!(read.err(), Some(KeyTextError::OtherVersion));
/// ```
#[derive(Clone, Copy, Debug, PartialEq, Eq)]
#[non_exhaustive]
pub enum KeyTextError {
    /// The key has the wrong length or form, or its halves do not belong together.
    InvalidKey,
    /// The text does not begin as a PASERK key.
    NoPaserk,
    /// The text is a key of another version.
    OtherVersion,
    /// The text is a key of another type: local, private or public.
    OtherType,
    /// The text is not a key in PEM, or has more than one.
    NotPem,
    /// The key in PEM is encrypted.
    EncryptedKey,
    /// The text in PEM has another label, for example that of a public key in place of a private one.
    OtherLabel,
    /// The key in PEM is of another algorithm.
    OtherAlgorithm,
    /// The key in PEM is of another curve.
    OtherCurve,
    /// The key in PEM is an RSA key of another size than 2048 bits.
    OtherSize,
    /// The key is under a password: `try_unlock` reads it.
    NeedsPassword,
    /// The key is wrapped or sealed: `try_unwrap` or `try_unseal` reads it.
    NeedsKey,
    /// The password or the key is a wrong one, or the text was modified.
    WrongKey,
    /// The password of the key asks for more work than the library does.
    TooCostly,
    /// The password has 4 GiB or more.
    LongPassword,
    /// The system gave no random bytes.
    NoRandom,
    /// Out of memory.
    Memory,
}

impl fmt::Display for KeyTextError {
    fn fmt(&self, f: &mut fmt::Formatter<'_>) -> fmt::Result {
        f.write_str(&library::text_of(match self {
            KeyTextError::InvalidKey => Fault::InvalidKey,
            KeyTextError::NoPaserk => Fault::NoPaserk,
            KeyTextError::OtherVersion => Fault::OtherVersion,
            KeyTextError::OtherType => Fault::OtherType,
            KeyTextError::NotPem => Fault::NotPem,
            KeyTextError::EncryptedKey => Fault::EncryptedKey,
            KeyTextError::OtherLabel => Fault::OtherLabel,
            KeyTextError::OtherAlgorithm => Fault::OtherAlgorithm,
            KeyTextError::OtherCurve => Fault::OtherCurve,
            KeyTextError::OtherSize => Fault::OtherSize,
            KeyTextError::NeedsPassword => Fault::NeedsPassword,
            KeyTextError::NeedsKey => Fault::NeedsKey,
            KeyTextError::WrongKey => Fault::WrongKey,
            KeyTextError::TooCostly => Fault::TooCostly,
            KeyTextError::LongPassword => return f.write_str("The password is too long"),
            KeyTextError::NoRandom => Fault::NoRandom,
            KeyTextError::Memory => Fault::Memory,
        }))
    }
}

impl Error for KeyTextError {}

impl From<Fault> for KeyTextError {
    fn from(fault: Fault) -> KeyTextError {
        match fault {
            Fault::Memory => KeyTextError::Memory,
            Fault::NoPaserk => KeyTextError::NoPaserk,
            Fault::OtherVersion => KeyTextError::OtherVersion,
            Fault::OtherType => KeyTextError::OtherType,
            Fault::NotPem => KeyTextError::NotPem,
            Fault::EncryptedKey => KeyTextError::EncryptedKey,
            Fault::OtherLabel => KeyTextError::OtherLabel,
            Fault::OtherAlgorithm => KeyTextError::OtherAlgorithm,
            Fault::OtherCurve => KeyTextError::OtherCurve,
            Fault::OtherSize => KeyTextError::OtherSize,
            Fault::NeedsPassword => KeyTextError::NeedsPassword,
            Fault::NeedsKey => KeyTextError::NeedsKey,
            Fault::WrongKey => KeyTextError::WrongKey,
            Fault::TooCostly => KeyTextError::TooCostly,
            Fault::TooLong => KeyTextError::LongPassword,
            Fault::NoRandom => KeyTextError::NoRandom,
            _ => KeyTextError::InvalidKey,
        }
    }
}
