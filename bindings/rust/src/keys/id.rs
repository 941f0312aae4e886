//! Ids of keys.

use std::fmt;

/// The PASERK id of a key, which identifies it without revealing it: `k4.lid.` of a key for local tokens, `k4.sid.` of a
/// private key and `k4.pid.` of a public one, and 44 characters.
///
/// ```rust
/// use paseto_proved::core::{Local, PasetoSymmetricKey, V4};
///
/// # fn main() -> Result<(), Box<dyn std::error::Error>> {
/// let id = PasetoSymmetricKey::<V4, Local>::try_new_random()?.id()?;
/// assert!(id.as_str().starts_with("k4.lid."));
/// assert_eq!(id.to_string(), id.as_str());
/// # Ok(())
/// # }
/// ```
#[derive(Clone, Debug, PartialEq, Eq, PartialOrd, Ord, Hash)]
pub struct KeyId(String);

impl KeyId {
    pub(super) fn new(text: String) -> Self {
        KeyId(text)
    }

    /// The text of the id.
    ///
    /// ```rust
    /// use paseto_proved::core::{Key, Local, PasetoSymmetricKey, V4};
    ///
    /// # fn main() -> Result<(), Box<dyn std::error::Error>> {
    /// let id = PasetoSymmetricKey::<V4, Local>::from(Key::from([0; 32])).id()?;
    /// assert_eq!(id.as_str(), "k4.lid.bqltbNc4JLUAmc9Xtpok-fBuI0dQN5_m3CD9W_nbh559");
    /// # Ok(())
    /// # }
    /// ```
    pub fn as_str(&self) -> &str {
        &self.0
    }
}

impl AsRef<str> for KeyId {
    fn as_ref(&self) -> &str {
        &self.0
    }
}

impl fmt::Display for KeyId {
    fn fmt(&self, f: &mut fmt::Formatter<'_>) -> fmt::Result {
        f.write_str(&self.0)
    }
}
