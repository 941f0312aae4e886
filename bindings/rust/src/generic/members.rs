//! Claims as the members of a JSON object.

use crate::generic::{GenericBuilderError, PasetoClaim, PasetoClaimError};
use serde::ser::Error;
use serde_json::Value;
use std::collections::BTreeMap;

/// The values of claims by their keys, in the order of the keys, and why one is missing, where it could not be written.
#[derive(Clone, Debug, Default)]
pub(crate) struct Members {
    values: BTreeMap<String, Value>,
    fault: Option<String>,
}

impl Members {
    /// The value of a claim: what its object has under its key, or all that it serializes to.
    pub(crate) fn set<T: PasetoClaim + ?Sized>(&mut self, claim: &T) {
        let key = claim.get_key();
        let written = erased_serde::serialize(claim, serde_json::value::Serializer);
        self.put(key, written.map(|value| under(key, value)));
    }

    /// A value as it is.
    pub(crate) fn set_value(&mut self, key: &str, value: &dyn erased_serde::Serialize) {
        self.put(key, serde_json::to_value(value));
    }

    /// The value that an object has under the key, or all that is written.
    pub(crate) fn set_value_under(&mut self, key: &str, value: &dyn erased_serde::Serialize) {
        self.put(
            key,
            serde_json::to_value(value).map(|value| under(key, value)),
        );
    }

    fn put(&mut self, key: &str, written: Result<Value, serde_json::Error>) {
        match written {
            Ok(value) => {
                self.values.insert(key.to_owned(), value);
            }
            Err(fault) => self.fault = Some(format!("the claim '{key}': {fault}")),
        }
    }

    pub(crate) fn remove(&mut self, key: &str) {
        self.values.remove(key);
    }

    pub(crate) fn get(&self, key: &str) -> Option<&Value> {
        self.values.get(key)
    }

    pub(crate) fn iter(&self) -> impl Iterator<Item = (&String, &Value)> + '_ {
        self.values.iter()
    }

    /// The text of the object, or why there is none.
    pub(crate) fn to_json(&self) -> Result<String, serde_json::Error> {
        self.fault()?;
        serde_json::to_string(&self.values)
    }

    /// Why there is no text.
    pub(crate) fn fault(&self) -> Result<(), serde_json::Error> {
        match &self.fault {
            Some(fault) => Err(serde_json::Error::custom(fault)),
            None => Ok(()),
        }
    }

    /// The text of the object, or `Unexpected` with the key of the first value that has a number that is not a 64-bit
    /// integer: the library reads no other.
    pub(crate) fn to_payload(&self) -> Result<String, GenericBuilderError> {
        let text = self.to_json()?;
        match self.odd() {
            Some(key) => Err(PasetoClaimError::Unexpected(key.to_owned()).into()),
            None => Ok(text),
        }
    }

    /// The first key whose value has a number that is not a 64-bit integer.
    pub(crate) fn odd(&self) -> Option<&str> {
        odd_key(&self.values)
    }
}

/// The first key whose value has a number that is not a 64-bit integer.
pub(super) fn odd_key(values: &BTreeMap<String, Value>) -> Option<&str> {
    let odd = values.iter().find(|(_, value)| has_float(value));
    odd.map(|(key, _)| key.as_str())
}

fn under(key: &str, value: Value) -> Value {
    match value {
        Value::Object(mut members) if members.len() == 1 && members.contains_key(key) => {
            members.remove(key).unwrap_or_default()
        }
        other => other,
    }
}

fn has_float(value: &Value) -> bool {
    match value {
        Value::Number(number) => !(number.is_i64() || number.is_u64()),
        Value::Array(items) => items.iter().any(has_float),
        Value::Object(members) => members.values().any(has_float),
        _ => false,
    }
}
