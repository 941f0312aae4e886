//! The error type.

use crate::library::Fault;
use std::array::TryFromSliceError;
use std::convert::Infallible;
use std::error::Error;
use std::fmt;
use std::str::Utf8Error;
use std::string::FromUtf8Error;

/// Why a token was not made or not accepted. The names and the texts are those of the crate rusty_paseto; the errors of
/// the crates that it depends on are not in them, so that a pattern such as `PasetoError::Cipher { .. }` matches, and one
/// that names `source` does not. `Memory` and `TooLong` are new.
///
/// ```rust
/// use paseto_proved::core::PasetoError;
///
/// fn text_of(bytes: Vec<u8>) -> Result<String, PasetoError> {
///     Ok(String::from_utf8(bytes)?)
/// }
/// assert_eq!(text_of(vec![255]), Err(PasetoError::FromUtf8Error));
/// ```
#[derive(Clone, Debug, PartialEq, Eq)]
#[non_exhaustive]
pub enum PasetoError {
    /// No call returns it.
    PasetoCipherError(Box<PasetoError>),
    /// The key or the implicit assertion is wrong, or the token was modified: local tokens of versions 1, 3 and 4.
    Cryption,
    /// The same in version 2. When encrypting: the text is too long for the cipher.
    ChaChaCipherError,
    /// A key has the wrong length or form.
    InvalidKey,
    /// A private key is not valid.
    KeyRejected,
    /// The two halves of a private key do not belong together.
    Signature,
    /// The numbers of a version 1 private key are inconsistent.
    RsaCipher,
    /// No call returns it: an invalid signature is `InvalidSignature` in each version.
    ECSDAError,
    /// No call returns it.
    InvalidLength,
    /// The signature is not valid.
    InvalidSignature,
    /// Bytes have another length than an array that was made of them by `?`.
    TryFromSlice,
    /// The token does not have three or four sections, or its payload is too short.
    IncorrectSize,
    /// The token has another version or purpose.
    WrongHeader,
    /// The token has a different footer.
    FooterInvalid,
    /// A section of the token is not valid base64url.
    PayloadBase64Decode,
    /// The decrypted text, or the token's footer, is not UTF-8.
    Utf8Error,
    /// The signed text is not UTF-8.
    FromUtf8Error,
    /// No call returns it.
    Infallibale,
    /// The system gave no random bytes.
    Cipher,
    /// Out of memory.
    Memory,
    /// The token or its footer is longer than the limit.
    TooLong,
}

impl fmt::Display for PasetoError {
    fn fmt(&self, f: &mut fmt::Formatter<'_>) -> fmt::Result {
        f.write_str(match self {
            PasetoError::PasetoCipherError(_) => "A cipher error occurred",
            PasetoError::Cryption => "An unspecified cryption error occured",
            PasetoError::ChaChaCipherError
            | PasetoError::Cipher
            | PasetoError::RsaCipher
            | PasetoError::InvalidLength => "An unspecified cipher error occurred",
            PasetoError::ECSDAError => "An unspecified ECSDA error occurred",
            PasetoError::InvalidKey => "Key was not in the correct format",
            PasetoError::KeyRejected => "A private RSA key was not in the correct format",
            PasetoError::Signature => "Could not assemble final signature.",
            PasetoError::InvalidSignature => "The token signature could not be verified",
            PasetoError::TryFromSlice => "A slice conversion error occurred",
            PasetoError::IncorrectSize => {
                "This string has an incorrect number of parts and cannot be parsed into a token"
            }
            PasetoError::WrongHeader => "The token header is invalid",
            PasetoError::FooterInvalid => "The provided footer is invalid",
            PasetoError::PayloadBase64Decode => "A base64 decode error occurred",
            PasetoError::Utf8Error | PasetoError::FromUtf8Error | PasetoError::Infallibale => {
                "A Utf8 parsing error occurred"
            }
            PasetoError::Memory => "No memory was found",
            PasetoError::TooLong => "The token or its footer is longer than allowed",
        })
    }
}

impl Error for PasetoError {}

impl From<Utf8Error> for PasetoError {
    fn from(_source: Utf8Error) -> PasetoError {
        PasetoError::Utf8Error
    }
}

impl From<FromUtf8Error> for PasetoError {
    fn from(_source: FromUtf8Error) -> PasetoError {
        PasetoError::FromUtf8Error
    }
}

impl From<TryFromSliceError> for PasetoError {
    fn from(_source: TryFromSliceError) -> PasetoError {
        PasetoError::TryFromSlice
    }
}

impl From<Infallible> for PasetoError {
    fn from(source: Infallible) -> PasetoError {
        match source {}
    }
}

// Faults of arguments that the types exclude, and those of claims, which other errors have, come as `InvalidKey`.
impl From<Fault> for PasetoError {
    fn from(fault: Fault) -> PasetoError {
        match fault {
            Fault::Memory => PasetoError::Memory,
            Fault::IncorrectSize => PasetoError::IncorrectSize,
            Fault::FooterInvalid => PasetoError::FooterInvalid,
            Fault::WrongHeader => PasetoError::WrongHeader,
            Fault::PayloadBase64Decode => PasetoError::PayloadBase64Decode,
            Fault::Cryption => PasetoError::Cryption,
            Fault::ChaChaCipherError => PasetoError::ChaChaCipherError,
            Fault::InvalidSignature => PasetoError::InvalidSignature,
            Fault::Utf8Error => PasetoError::Utf8Error,
            Fault::FromUtf8Error => PasetoError::FromUtf8Error,
            Fault::KeyRejected => PasetoError::KeyRejected,
            Fault::Signature => PasetoError::Signature,
            Fault::RsaCipher => PasetoError::RsaCipher,
            Fault::TooLong => PasetoError::TooLong,
            Fault::NoRandom => PasetoError::Cipher,
            _ => PasetoError::InvalidKey,
        }
    }
}

#[cfg(test)]
mod tests {
    use super::*;
    use crate::library::text_of;

    #[test]
    fn texts_are_those_of_the_library() {
        let faults = [
            Fault::Memory,
            Fault::InvalidKey,
            Fault::IncorrectSize,
            Fault::FooterInvalid,
            Fault::WrongHeader,
            Fault::PayloadBase64Decode,
            Fault::Cryption,
            Fault::ChaChaCipherError,
            Fault::InvalidSignature,
            Fault::Utf8Error,
            Fault::FromUtf8Error,
            Fault::KeyRejected,
            Fault::Signature,
            Fault::RsaCipher,
            Fault::TooLong,
        ];
        for fault in faults {
            assert_eq!(PasetoError::from(fault).to_string(), text_of(fault));
        }
    }
}
