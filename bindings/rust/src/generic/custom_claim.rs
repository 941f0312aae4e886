//! A claim of the caller's own.

use crate::generic::{PasetoClaim, PasetoClaimError};
use serde::{Serialize, Serializer};

const RESERVED: [&str; 7] = ["iss", "sub", "aud", "exp", "nbf", "iat", "jti"];

/// A claim with any key but the seven reserved ones, and any value that serializes: `CustomClaim::try_from(("seats", 4))`.
/// Of a key alone it is one with an empty text, to be checked by a closure.
///
/// A reserved key gives `Reserved`. Numbers are 64-bit integers: a token with another one is not built.
///
/// ```rust
/// use paseto_proved::generic::{CustomClaim, PasetoClaim, PasetoClaimError};
///
/// # fn main() -> Result<(), PasetoClaimError> {
/// assert_eq!(CustomClaim::try_from(("seats", vec![4, 5]))?.get_key(), "seats");
/// let refused = CustomClaim::try_from(("exp", 4)).err();
/// assert_eq!(refused, Some(PasetoClaimError::Reserved("exp".to_owned())));
/// # Ok(())
/// # }
/// ```
#[derive(Clone, Debug)]
pub struct CustomClaim<T>((String, T));

fn not_reserved(key: &str) -> Result<String, PasetoClaimError> {
    if RESERVED.contains(&key) {
        return Err(PasetoClaimError::Reserved(key.to_owned()));
    }
    Ok(key.to_owned())
}

impl<T: Serialize> PasetoClaim for CustomClaim<T> {
    fn get_key(&self) -> &str {
        &self.0 .0
    }
}

impl TryFrom<&str> for CustomClaim<&str> {
    type Error = PasetoClaimError;

    fn try_from(key: &str) -> Result<Self, PasetoClaimError> {
        Ok(CustomClaim((not_reserved(key)?, "")))
    }
}

impl<T> TryFrom<(String, T)> for CustomClaim<T> {
    type Error = PasetoClaimError;

    fn try_from((key, value): (String, T)) -> Result<Self, PasetoClaimError> {
        Ok(CustomClaim((not_reserved(&key)?, value)))
    }
}

impl<T> TryFrom<(&str, T)> for CustomClaim<T> {
    type Error = PasetoClaimError;

    fn try_from((key, value): (&str, T)) -> Result<Self, PasetoClaimError> {
        Ok(CustomClaim((not_reserved(key)?, value)))
    }
}

impl<T> AsRef<(String, T)> for CustomClaim<T> {
    fn as_ref(&self) -> &(String, T) {
        &self.0
    }
}

impl<T: Serialize> Serialize for CustomClaim<T> {
    fn serialize<S: Serializer>(&self, serializer: S) -> Result<S::Ok, S::Error> {
        serializer.collect_map([(&self.0 .0, &self.0 .1)])
    }
}
