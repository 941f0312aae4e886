//! PASETO tokens, versions 1 to 4, on top of the proved library `libpaseto.a`, with the interface of the crate rusty_paseto
//! 0.8.0. A service that uses that crate changes one line of its `Cargo.toml`:
//!
//! ```toml
//! [dependencies]
//! rusty_paseto = { package = "paseto-proved", path = "paseto-proved-1.0.0" }
//! ```
//!
//! - [`prelude`]: tokens with claims that expire, and a parser that checks them; it brings the other two modules of
//!   rusty_paseto too. Begin here.
//! - [`generic`]: builders and parsers without default claims and without a check of times.
//! - [`core`]: texts as tokens, under keys and nonces.
//! - [`keys`]: what rusty_paseto has not: keys as PASERK and PEM text, ids, key pairs, and rings of keys.
//!
//! ```rust
//! use paseto_proved::prelude::*;
//!
//! # fn main() -> Result<(), Box<dyn std::error::Error>> {
//! let key = PasetoSymmetricKey::<V4, Local>::try_new_random()?;
//! let token = PasetoBuilder::<V4, Local>::default()
//!     .set_claim(SubjectClaim::from("ada"))
//!     .set_claim(CustomClaim::try_from(("seats", 4))?)
//!     .set_footer(Footer::from("a footer"))
//!     .build(&key)?;
//! let claims = PasetoParser::<V4, Local>::default()
//!     .check_claim(SubjectClaim::from("ada"))
//!     .set_footer(Footer::from("a footer"))
//!     .parse(&token, &key)?;
//! assert_eq!(claims["seats"], 4);
//! # Ok(())
//! # }
//! ```
//!
//! The library makes and reads the tokens; it sets the times of a token, and checks times and expected claims. This crate
//! writes claims as JSON, reads the clock, and runs validators. One of its files declares the functions of the library; no
//! other code here is `unsafe`.
#![deny(missing_docs, unsafe_code)]
// With every feature nothing is unused; where some are off, some is.
#![cfg_attr(
    not(all(
        feature = "batteries_included",
        feature = "v1_local",
        feature = "v2_local",
        feature = "v3_local",
        feature = "v4_local",
        feature = "v1_public",
        feature = "v2_public",
        feature = "v3_public",
        feature = "v4_public"
    )),
    allow(dead_code, unused_imports, unused_macros)
)]

pub mod core;
#[cfg(feature = "generic")]
pub mod generic;
pub mod keys;
#[allow(unsafe_code)]
mod library;
#[cfg(feature = "generic")]
mod moment;
#[cfg(feature = "batteries_included")]
pub mod prelude;
