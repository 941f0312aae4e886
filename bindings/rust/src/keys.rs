//! What rusty_paseto 0.8.0 has not: keys as PASERK and PEM text, their ids, key pairs, and rings of keys.
//!
//! ```rust
//! use paseto_proved::core::{Local, PasetoSymmetricKey, V4};
//! use paseto_proved::keys::KeyTextError;
//!
//! let text = "k4.local.cHFyc3R1dnd4eXp7fH1-f4CBgoOEhYaHiImKi4yNjo8";
//! let key = text.parse::<PasetoSymmetricKey<V4, Local>>();
//! assert_eq!(key.and_then(|key| key.to_paserk()), Ok(text.to_owned()));
//! assert_eq!("k4.local.".parse::<PasetoSymmetricKey<V4, Local>>().err(), Some(KeyTextError::InvalidKey));
//! ```

mod error;
mod id;
mod pair;
#[cfg(feature = "batteries_included")]
mod ring;
mod text;

pub use error::KeyTextError;
pub use id::KeyId;
pub use pair::KeyPair;
#[cfg(feature = "batteries_included")]
pub use ring::{key_footer, KeyRing, KeyRingError};
