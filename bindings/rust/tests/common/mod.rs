//! The RSA keys of version 1, which OpenSSL made, and their texts (`tests/c_library/rsa.h`).
#![allow(dead_code)]

use std::error::Error;

const KEYS: &str = include_str!("../../../../tests/c_library/rsa.h");

pub type Outcome = Result<(), Box<dyn Error>>;

/// The text of a constant of the header, whose pieces stand in quotes.
pub fn constant(name: &str) -> Result<String, Box<dyn Error>> {
    let (_, rest) = KEYS
        .split_once(&format!("{name}[] ="))
        .ok_or("no such constant")?;
    let (pieces, _) = rest.split_once(';').ok_or("no end")?;
    Ok(pieces.split('"').skip(1).step_by(2).collect())
}

/// The bytes of a constant of the header.
pub fn bytes(name: &str) -> Result<Vec<u8>, Box<dyn Error>> {
    let digits = constant(name)?;
    let bytes = (0..digits.len())
        .step_by(2)
        .map(|at| u8::from_str_radix(&digits[at..at + 2], 16));
    Ok(bytes.collect::<Result<_, _>>()?)
}

/// The text in PEM of contents in base64url.
pub fn armored(label: &str, contents: &str) -> String {
    let mut letters = contents.replace('-', "+").replace('_', "/");
    while letters.len() % 4 != 0 {
        letters.push('=');
    }
    let lines = letters.as_bytes().chunks(64).map(String::from_utf8_lossy);
    let body: String = lines.map(|line| format!("{line}\n")).collect();
    format!("-----BEGIN {label}-----\n{body}-----END {label}-----\n")
}

/// The contents of a text in PEM, in base64url.
pub fn contents(pem: &str) -> String {
    let lines = pem.lines().filter(|line| !line.starts_with("-----"));
    let letters = lines.collect::<String>().replace('+', "-");
    letters.replace('/', "_").trim_end_matches('=').to_owned()
}
