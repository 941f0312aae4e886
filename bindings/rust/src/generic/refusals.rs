//! What the library says about a token, as errors by name. The library decides what is wrong; here its message is taken
//! apart into the key and the texts that it names.

use crate::core::PasetoError;
use crate::generic::members::odd_key;
use crate::generic::{GenericParserError, PasetoClaimError};
use crate::library::{Fault, Refusal};
use serde::de::Error;
use serde_json::Value;
use std::collections::BTreeMap;

/// The error of a refusal of a token of which the claims were expected.
pub(super) fn parser_error(
    refusal: Refusal,
    expected: &BTreeMap<String, Value>,
) -> GenericParserError {
    let line = refusal.line.as_str();
    match refusal.fault {
        Fault::PayloadJsonError => serde_json::Error::custom(line).into(),
        Fault::Expired => PasetoClaimError::Expired.into(),
        Fault::UseBeforeAvailable => {
            PasetoClaimError::UseBeforeAvailable(part(line, "The token cannot be used before ", ""))
                .into()
        }
        Fault::Rfc3339Date => {
            PasetoClaimError::RFC3339Date(part(line, "The value ", " is a malformed RFC3339 date"))
                .into()
        }
        Fault::Missing => {
            let key = part(
                line,
                "The expected claim '",
                "' was not found in the payload",
            );
            PasetoClaimError::Missing(key).into()
        }
        Fault::Unexpected => {
            // The message about an expected claim that the library does not take names no key.
            let key = odd_key(expected).map_or_else(
                || {
                    part(
                        line,
                        "Could not convert claim '",
                        "' to the expected data type",
                    )
                },
                str::to_owned,
            );
            PasetoClaimError::Unexpected(key).into()
        }
        Fault::Invalid => invalid(line, expected).into(),
        fault => PasetoError::from(fault).into(),
    }
}

// What a line has between its beginning and its end, or all of it where it has others.
fn part(line: &str, front: &str, end: &str) -> String {
    let rest = line
        .strip_prefix(front)
        .and_then(|rest| rest.strip_suffix(end));
    rest.unwrap_or(line).to_owned()
}

// The claim whose message a line is: the texts are between what is known of an expected claim.
fn invalid(line: &str, expected: &BTreeMap<String, Value>) -> PasetoClaimError {
    let named = expected.iter().find_map(|(key, value)| {
        let wanted = text_of(value);
        let found = line
            .strip_prefix(&format!("The claim '{key}' failed validation.  Expected '"))?
            .strip_suffix(&format!("' but received '{wanted}'"))?;
        Some(PasetoClaimError::Invalid(
            key.clone(),
            found.to_owned(),
            wanted,
        ))
    });
    named
        .unwrap_or_else(|| PasetoClaimError::Invalid(line.to_owned(), String::new(), String::new()))
}

// How a message shows a value: a text as it is, and another value as JSON.
fn text_of(value: &Value) -> String {
    match value {
        Value::String(text) => text.clone(),
        other => other.to_string(),
    }
}
