//! What a claim is, and what validates one.

use crate::generic::PasetoClaimError;
use serde_json::Value;
use std::collections::HashMap;

/// A claim: its key, and by `Serialize` an object with this key and its value. A type of the caller can be one.
///
/// ```rust
/// use paseto_proved::prelude::*;
///
/// struct Seats(u8);
///
/// impl PasetoClaim for Seats {
///     fn get_key(&self) -> &str {
///         "seats"
///     }
/// }
///
/// impl serde::Serialize for Seats {
///     fn serialize<S: serde::Serializer>(&self, serializer: S) -> Result<S::Ok, S::Error> {
///         serializer.collect_map([("seats", self.0)])
///     }
/// }
///
/// # fn main() -> Result<(), Box<dyn std::error::Error>> {
/// let key = PasetoSymmetricKey::<V4, Local>::try_new_random()?;
/// let token = PasetoBuilder::<V4, Local>::default().set_claim(Seats(4)).build(&key)?;
/// assert_eq!(PasetoParser::<V4, Local>::default().parse(&token, &key)?["seats"], 4);
/// # Ok(())
/// # }
/// ```
pub trait PasetoClaim: erased_serde::Serialize {
    /// The key of the claim in the token's payload.
    fn get_key(&self) -> &str;
}

/// What validates the value under a key, which is null where the token has none.
pub type ValidatorFn = dyn Fn(&str, &Value) -> Result<(), PasetoClaimError>;

/// Validators by their keys.
pub type ValidatorMap = HashMap<String, Box<ValidatorFn>>;
