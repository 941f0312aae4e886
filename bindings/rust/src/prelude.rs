//! What most services need: tokens that expire, and a parser that checks their times. `use paseto_proved::prelude::*;`
//! brings all of `generic` and `core` too.
//!
//! ```rust
//! use paseto_proved::prelude::*;
//!
//! # fn main() -> Result<(), Box<dyn std::error::Error>> {
//! let key = PasetoSymmetricKey::<V4, Local>::try_new_random()?;
//! let token = PasetoBuilder::<V4, Local>::default()
//!     .set_claim(SubjectClaim::from("ada"))
//!     .build(&key)?;
//! let claims = PasetoParser::<V4, Local>::default().parse(&token, &key)?;
//! assert_eq!(claims["sub"], "ada");
//! # Ok(())
//! # }
//! ```

mod builder;
mod error;
mod parser;

pub use crate::generic::*;
pub use builder::PasetoBuilder;
pub use error::GeneralPasetoError;
pub use parser::PasetoParser;
