//! Claims, a builder of tokens with claims, and a parser that checks them, without default claims and without a check of
//! times. For tokens that expire use [`prelude`](crate::prelude).
//!
//! ```rust
//! use paseto_proved::generic::*;
//!
//! # fn main() -> Result<(), Box<dyn std::error::Error>> {
//! let key = PasetoSymmetricKey::<V4, Local>::from(Key::from([7; 32]));
//! let token = GenericBuilder::<V4, Local>::default()
//!     .set_claim(AudienceClaim::from("customers"))
//!     .set_claim(CustomClaim::try_from(("seats", 4))?)
//!     .try_encrypt(&key)?;
//! let claims = GenericParser::<V4, Local>::default()
//!     .check_claim(AudienceClaim::from("customers"))
//!     .parse(&token, &key)?;
//! assert_eq!(claims["seats"], 4);
//! # Ok(())
//! # }
//! ```

mod builder;
mod builder_error;
mod claim;
mod claim_error;
mod custom_claim;
mod date_claims;
mod members;
mod parser;
mod parser_error;
mod refusals;
mod text_claims;

pub use crate::core::*;
pub use builder::GenericBuilder;
pub use builder_error::GenericBuilderError;
pub use claim::{PasetoClaim, ValidatorFn, ValidatorMap};
pub use claim_error::PasetoClaimError;
pub use custom_claim::CustomClaim;
pub use date_claims::{ExpirationClaim, IssuedAtClaim, NotBeforeClaim};
pub(crate) use members::Members;
pub use parser::GenericParser;
pub use parser_error::GenericParserError;
pub use text_claims::{AudienceClaim, IssuerClaim, SubjectClaim, TokenIdentifierClaim};
