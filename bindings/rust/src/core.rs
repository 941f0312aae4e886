//! Keys, payloads, footers and tokens: encrypting and decrypting, signing and verifying.
//!
//! ```rust
//! use paseto_proved::core::*;
//! use paseto_proved::keys::KeyPair;
//!
//! # fn main() -> Result<(), Box<dyn std::error::Error>> {
//! let pair = KeyPair::<V4>::try_new_random()?;
//! let mut parts = Paseto::<V4, Public>::builder();
//! let token = parts.set_payload(Payload::from("a text")).try_sign(pair.private_key())?;
//! assert_eq!(Paseto::<V4, Public>::try_verify(&token, pair.public_key(), None, None)?, "a text");
//! # Ok(())
//! # }
//! ```

mod base64url;
mod error;
mod keys;
mod paseto;
mod secret;
mod texts;
mod untrusted_token;
mod versions;

pub use error::PasetoError;
pub use keys::{
    Key, PasetoAsymmetricPrivateKey, PasetoAsymmetricPublicKey, PasetoNonce, PasetoSymmetricKey,
};
#[cfg(feature = "batteries_included")]
pub(crate) use paseto::with_end;
pub use paseto::Paseto;
pub use texts::{Footer, ImplicitAssertion, Payload};
pub use untrusted_token::UntrustedToken;
pub use versions::{
    ImplicitAssertionCapable, Local, Public, PurposeTrait, V2orV4, VersionTrait, V1, V2, V3, V4,
};
