//! The bytes of a key that is of any length.

use crate::library;

/// Bytes that are overwritten when they are dropped.
#[derive(Clone)]
pub(crate) struct Secret(Vec<u8>);

impl Secret {
    pub(crate) fn new(bytes: Vec<u8>) -> Self {
        Secret(bytes)
    }
}

impl Drop for Secret {
    fn drop(&mut self) {
        library::wipe(&mut self.0);
    }
}

/// The bytes of a key: the caller's, or the key's own.
#[derive(Clone)]
pub(crate) enum Bytes<'a> {
    Lent(&'a [u8]),
    Owned(Secret),
}

impl AsRef<[u8]> for Bytes<'_> {
    fn as_ref(&self) -> &[u8] {
        match self {
            Bytes::Lent(bytes) => bytes,
            Bytes::Owned(Secret(bytes)) => bytes,
        }
    }
}
