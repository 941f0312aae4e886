//! A token of the subject ada by the key of a file, or the subject of a token; the texts and the ids of a key, and of the public
//! key of a private one; and the text of a private key that is locked:
//!
//!     user make v4.public KEY
//!     user read v4.public KEY TOKEN
//!     user tell v4.public KEY
//!     user unlock v4.public KEY PASSWORD
//!     user unwrap v4.public KEY OPENER

use rusty_paseto::prelude::*;
use std::error::Error;

type Answer = Result<String, Box<dyn Error>>;

macro_rules! made {
    ($version:ident $purpose:ident, $key:expr) => {{
        let mut builder = PasetoBuilder::<$version, $purpose>::default();
        Ok(builder.set_claim(SubjectClaim::from("ada")).build($key)?)
    }};
}

macro_rules! read {
    ($version:ident $purpose:ident, $key:expr, $words:expr) => {{
        let claims = PasetoParser::<$version, $purpose>::default().parse(&$words[3], $key)?;
        Ok(claims["sub"].as_str().unwrap_or_default().to_owned())
    }};
}

macro_rules! local {
    ($version:ident, $words:expr, $text:expr) => {{
        let key: PasetoSymmetricKey<$version, Local> = $text.parse()?;
        match $words[0].as_str() {
            "make" => made!($version Local, &key),
            "read" => read!($version Local, &key, $words),
            _ => Ok(format!("{}\n{}", key.to_paserk()?, key.id()?)),
        }
    }};
}

macro_rules! public {
    ($version:ident, $words:expr, $text:expr) => {{
        type Signs = PasetoAsymmetricPrivateKey<'static, $version, Public>;
        type Verifies = PasetoAsymmetricPublicKey<'static, $version, Public>;
        match $words[0].as_str() {
            "make" => made!($version Public, &$text.parse::<Signs>()?),
            "read" => read!($version Public, &$text.parse::<Verifies>()?, $words),
            "tell" => {
                let key: Signs = $text.parse()?;
                let half = key.public_key()?;
                let texts = [key.to_paserk()?, half.to_paserk()?];
                Ok(format!("{}\n{}\n{}\n{}", texts[0], key.id()?, texts[1], half.id()?))
            }
            "unlock" => Ok(Signs::try_unlock(&$text, $words[3].as_bytes())?.to_paserk()?),
            _ => {
                let opener = std::fs::read_to_string(&$words[3])?.parse()?;
                Ok(Signs::try_unwrap(&$text, &opener)?.to_paserk()?)
            }
        }
    }};
}

fn run(words: &[String]) -> Answer {
    let text = std::fs::read_to_string(&words[2])?;
    match words[1].as_str() {
        "v1.local" => local!(V1, words, text),
        "v2.local" => local!(V2, words, text),
        "v3.local" => local!(V3, words, text),
        "v4.local" => local!(V4, words, text),
        "v1.public" => public!(V1, words, text),
        "v2.public" => public!(V2, words, text),
        "v3.public" => public!(V3, words, text),
        "v4.public" => public!(V4, words, text),
        _ => Err("no such kind".into()),
    }
}

fn main() {
    let words: Vec<String> = std::env::args().skip(1).collect();
    match run(&words) {
        Ok(told) => println!("{told}"),
        Err(fault) => {
            eprintln!("{fault}");
            std::process::exit(1);
        }
    }
}
