//! The functions of `libpaseto.a`, as `paseto.h` declares them, behind safe functions that take a version. The only file
//! with `unsafe`, and the only one that knows the form of the C calls.

use std::sync::atomic::{compiler_fence, Ordering};

/// A version of PASETO.
#[derive(Clone, Copy, Debug, PartialEq, Eq)]
pub(crate) enum Version {
    V1 = 1,
    V2 = 2,
    V3 = 3,
    V4 = 4,
}

/// What a key is for, by the numbers of the library.
#[derive(Clone, Copy, Debug, PartialEq, Eq)]
pub(crate) enum KeyType {
    Local = 1,
    Private = 2,
    Public = 3,
}

macro_rules! faults {
    ($($number:literal = $name:ident,)*) => {
        /// Why a call made nothing, by the names of c/statuses.txt.
        #[derive(Clone, Copy, Debug, PartialEq, Eq)]
        pub(crate) enum Fault {
            $($name,)*
            /// The system gave no random bytes.
            NoRandom,
            /// A status that this crate does not know.
            Other,
        }

        fn fault_of(status: Status) -> Fault {
            match status {
                $($number => Fault::$name,)*
                _ => Fault::Other,
            }
        }

        /// The line of English that the library has for a fault.
        pub(crate) fn text_of(fault: Fault) -> String {
            match fault {
                $(Fault::$name => error_text($number),)*
                Fault::NoRandom => error_text(RANDOM),
                Fault::Other => "An unknown error occurred".to_owned(),
            }
        }
    };
}

// The statuses, from c/statuses.txt:
faults! {
    2 = Memory,
    3 = InvalidKey,
    4 = InvalidNonce,
    5 = NotUtf8,
    6 = NotObject,
    7 = InvalidMoment,
    8 = IncorrectSize,
    9 = FooterInvalid,
    10 = WrongHeader,
    11 = PayloadBase64Decode,
    12 = Cryption,
    13 = ChaChaCipherError,
    14 = InvalidSignature,
    15 = Utf8Error,
    16 = FromUtf8Error,
    17 = KeyRejected,
    18 = Signature,
    19 = PayloadJsonError,
    20 = Expired,
    21 = UseBeforeAvailable,
    22 = Rfc3339Date,
    23 = Missing,
    24 = Unexpected,
    25 = Invalid,
    26 = DuplicateTopLevelPayloadClaim,
    28 = RsaCipher,
    29 = TooLong,
    30 = NotNames,
    31 = NoPaserk,
    32 = OtherVersion,
    33 = OtherType,
    34 = NotPem,
    35 = EncryptedKey,
    36 = OtherLabel,
    37 = OtherAlgorithm,
    38 = OtherCurve,
    39 = OtherSize,
    40 = NoAssertion,
    41 = NeedsPassword,
    42 = NeedsKey,
    43 = WrongKey,
    44 = TooCostly,
    45 = InvalidOptions,
    46 = NoFooter,
    47 = FooterNotObject,
    48 = NoKeyId,
    49 = UnknownKey,
}

/// Why a token was refused, and the library's message about it, which names the claim.
#[derive(Debug)]
pub(crate) struct Refusal {
    pub(crate) fault: Fault,
    pub(crate) line: String,
}

/// What a token is checked for.
pub(crate) struct Checks<'a> {
    /// The expected claims, a JSON object.
    pub(crate) expected: &'a str,
    /// The moment, in nanoseconds after 1970.
    pub(crate) now: i64,
    /// By how many seconds clocks may differ.
    pub(crate) leeway: u32,
    /// How many bytes the token may have; 0 is no limit.
    pub(crate) longest: usize,
    /// How many bytes its footer may have; 0 is no limit.
    pub(crate) longest_footer: usize,
    /// The names of the claims that must be there, a JSON array, or nothing.
    pub(crate) required: &'a str,
}

type Status = u8;

const OK: Status = 0;
const ROOM: Status = 1;
const RANDOM: Status = 50;

// The room that a first call lends beyond the length of what it is given: a header, a nonce, a signature or a tag.
const MORE: usize = 256;

// How many characters a signature of version 1 has, which is longer than all that.
const RSA_SIGNATURE: usize = 344;

// The room for the text of a key.
const TEXT: usize = 2048;

// The room for the line of a refusal.
const LINE: usize = 512;

// How many random bytes are enough for each call that takes some.
const DRAWN: usize = 48;

// `struct paseto_key`.
#[repr(C)]
struct Key {
    version: u8,
    kind: u8,
    length: u16,
    bytes: [u8; 1244],
}

impl Key {
    fn none() -> Self {
        Key {
            version: 0,
            kind: 0,
            length: 0,
            bytes: [0; 1244],
        }
    }

    // Of bytes that are too long for a key it fails with what the library says of a key that is none.
    fn of(version: Version, kind: KeyType, bytes: &[u8]) -> Result<Self, Fault> {
        let mut key = Key::none();
        match key.bytes.get_mut(..bytes.len()) {
            Some(room) => room.copy_from_slice(bytes),
            None => {
                return Err(match (version, kind) {
                    (Version::V1, KeyType::Private) => Fault::KeyRejected,
                    (Version::V1, KeyType::Public) => Fault::InvalidSignature,
                    _ => Fault::InvalidKey,
                })
            }
        }
        key.version = version as u8;
        key.kind = kind as u8;
        key.length = bytes.len() as u16;
        Ok(key)
    }

    fn to_vec(&self) -> Vec<u8> {
        self.bytes[..usize::from(self.length)].to_vec()
    }
}

impl Drop for Key {
    fn drop(&mut self) {
        wipe(&mut self.bytes);
    }
}

// `struct paseto_options`.
#[repr(C)]
struct Options {
    size: usize,
    leeway: u32,
    longest: usize,
    longest_footer: usize,
    required: *const u8,
    required_length: usize,
}

// A slice as C takes it.
type Bytes = *const u8;

#[rustfmt::skip]
extern "C" {
    fn paseto_encrypt_with(
        key: *const Key, drawn: Bytes, _: usize, text: Bytes, _: usize, footer: Bytes, _: usize, assertion: Bytes, _: usize,
        room: *mut u8, _: usize, written: *mut usize, line: *mut u8, _: usize, told: *mut usize,
    ) -> Status;
    fn paseto_sign_with(
        key: *const Key, drawn: Bytes, _: usize, text: Bytes, _: usize, footer: Bytes, _: usize, assertion: Bytes, _: usize,
        room: *mut u8, _: usize, written: *mut usize, line: *mut u8, _: usize, told: *mut usize,
    ) -> Status;
    fn paseto_issue_with(
        key: *const Key, drawn: Bytes, _: usize, claims: Bytes, _: usize, now: i64, footer: Bytes, _: usize, assertion: Bytes,
        _: usize, room: *mut u8, _: usize, written: *mut usize, line: *mut u8, _: usize, told: *mut usize,
    ) -> Status;
    fn paseto_decrypt(
        key: *const Key, token: Bytes, _: usize, footer: Bytes, _: usize, assertion: Bytes, _: usize,
        room: *mut u8, _: usize, written: *mut usize, line: *mut u8, _: usize, told: *mut usize,
    ) -> Status;
    fn paseto_verify(
        key: *const Key, token: Bytes, _: usize, footer: Bytes, _: usize, assertion: Bytes, _: usize,
        room: *mut u8, _: usize, written: *mut usize, line: *mut u8, _: usize, told: *mut usize,
    ) -> Status;
    fn paseto_admit(
        key: *const Key, token: Bytes, _: usize, expected: Bytes, _: usize, now: i64, footer: Bytes, _: usize,
        assertion: Bytes, _: usize, options: *const Options,
        room: *mut u8, _: usize, written: *mut usize, line: *mut u8, _: usize, told: *mut usize,
    ) -> Status;
    fn paseto_key_text(
        key: *const Key, room: *mut u8, _: usize, written: *mut usize, line: *mut u8, _: usize, told: *mut usize,
    ) -> Status;
    fn paseto_key_pem(
        key: *const Key, room: *mut u8, _: usize, written: *mut usize, line: *mut u8, _: usize, told: *mut usize,
    ) -> Status;
    fn paseto_key_id(
        key: *const Key, room: *mut u8, _: usize, written: *mut usize, line: *mut u8, _: usize, told: *mut usize,
    ) -> Status;
    fn paseto_key_read(text: Bytes, _: usize, made: *mut Key, line: *mut u8, _: usize, told: *mut usize) -> Status;
    fn paseto_key_unlock(
        text: Bytes, _: usize, password: Bytes, _: usize, made: *mut Key, line: *mut u8, _: usize, told: *mut usize,
    ) -> Status;
    fn paseto_key_unwrap(
        text: Bytes, _: usize, opener: *const Key, made: *mut Key, line: *mut u8, _: usize, told: *mut usize,
    ) -> Status;
    fn paseto_key_protect_with(
        key: *const Key, password: Bytes, _: usize, drawn: Bytes, _: usize,
        room: *mut u8, _: usize, written: *mut usize, line: *mut u8, _: usize, told: *mut usize,
    ) -> Status;
    fn paseto_key_wrap_with(
        key: *const Key, wrapping: *const Key, drawn: Bytes, _: usize,
        room: *mut u8, _: usize, written: *mut usize, line: *mut u8, _: usize, told: *mut usize,
    ) -> Status;
    fn paseto_key_seal_with(
        key: *const Key, public: *const Key, drawn: Bytes, _: usize,
        room: *mut u8, _: usize, written: *mut usize, line: *mut u8, _: usize, told: *mut usize,
    ) -> Status;
    fn paseto_key_public(key: *const Key, made: *mut Key, line: *mut u8, _: usize, told: *mut usize) -> Status;
    fn paseto_key_generate_with(
        version: u8, kind: u8, drawn: Bytes, _: usize, made: *mut Key, line: *mut u8, _: usize, told: *mut usize,
    ) -> Status;
    fn paseto_token_footer(
        token: Bytes, _: usize, room: *mut u8, _: usize, written: *mut usize, line: *mut u8, _: usize, told: *mut usize,
    ) -> Status;
    fn paseto_error_text(status: Status, room: *mut u8, _: usize, written: *mut usize) -> Status;
    fn getrandom(bytes: *mut u8, length: usize, flags: u32) -> isize;
}

// The rooms that are lent to a call: for its answer, and for the line of its refusal.
struct Rooms {
    answer: Vec<u8>,
    written: usize,
    line: Vec<u8>,
    told: usize,
}

// Why a call failed. The line becomes a text where somebody reads it: where memory is out, there is none for that.
struct Failed {
    fault: Fault,
    line: Vec<u8>,
}

impl From<Failed> for Fault {
    fn from(failed: Failed) -> Fault {
        failed.fault
    }
}

impl From<Failed> for Refusal {
    fn from(failed: Failed) -> Refusal {
        Refusal {
            fault: failed.fault,
            line: String::from_utf8_lossy(&failed.line).into_owned(),
        }
    }
}

// What a call writes, or why it writes nothing. Both rooms grow where they are too short.
fn telling(first_length: usize, call: impl Fn(&mut Rooms) -> Status) -> Result<Vec<u8>, Failed> {
    let mut rooms = Rooms {
        answer: vec![0; first_length],
        written: 0,
        line: vec![0; LINE],
        told: 0,
    };
    loop {
        match call(&mut rooms) {
            OK => {
                rooms.answer.truncate(rooms.written);
                return Ok(rooms.answer);
            }
            ROOM => rooms.answer.resize(rooms.written, 0),
            _ if rooms.told > rooms.line.len() => rooms.line.resize(rooms.told, 0),
            status => {
                rooms.line.truncate(rooms.told);
                return Err(Failed {
                    fault: fault_of(status),
                    line: rooms.line,
                });
            }
        }
    }
}

// A call with these words, and behind them the room for an answer, if there is one, and that for a line.
//
// Safety: each pointer is valid for the length that is passed beside it, a key and options are valid, the library keeps no
// pointer, and it writes within the rooms, to the key that it makes, and to the lengths alone.
macro_rules! ask {
    ($length:expr; $call:ident($($word:expr),*)) => {
        telling($length, |rooms| unsafe {
            $call(
                $($word,)*
                rooms.answer.as_mut_ptr(),
                rooms.answer.len(),
                &mut rooms.written,
                rooms.line.as_mut_ptr(),
                rooms.line.len(),
                &mut rooms.told,
            )
        })
    };
    ($call:ident($($word:expr),*)) => {{
        let made = std::cell::RefCell::new(Key::none());
        let asked = telling(0, |rooms| unsafe {
            $call(
                $($word,)*
                &mut *made.borrow_mut(),
                rooms.line.as_mut_ptr(),
                rooms.line.len(),
                &mut rooms.told,
            )
        });
        asked.map(|_| made.into_inner()).map_err(Fault::from)
    }};
}

fn string(bytes: Result<Vec<u8>, Failed>) -> Result<String, Fault> {
    String::from_utf8(bytes?).map_err(|_| Fault::Utf8Error)
}

// How long a token may be: base64url has four characters for three bytes.
fn token_length(parts: &[&[u8]]) -> usize {
    parts.iter().map(|part| part.len()).sum::<usize>() / 3 * 4 + MORE + RSA_SIGNATURE
}

fn error_text(status: Status) -> String {
    let text = telling(MORE, |rooms| unsafe {
        // Safety: the room is valid for its length, and the library writes within it and to `written` alone.
        paseto_error_text(
            status,
            rooms.answer.as_mut_ptr(),
            rooms.answer.len(),
            &mut rooms.written,
        )
    });
    string(text).unwrap_or_default()
}

/// Encrypts a text under a key of 32 bytes and a nonce. The assertion must be empty in versions 1 and 2.
pub(crate) fn encrypt(
    version: Version,
    key: &[u8],
    nonce: &[u8],
    text: &[u8],
    footer: &[u8],
    assertion: &[u8],
) -> Result<String, Fault> {
    let key = Key::of(version, KeyType::Local, key)?;
    string(ask!(token_length(&[text, footer]); paseto_encrypt_with(
        &key, nonce.as_ptr(), nonce.len(), text.as_ptr(), text.len(), footer.as_ptr(), footer.len(), assertion.as_ptr(),
        assertion.len()
    )))
}

/// The text of a local token.
pub(crate) fn decrypt(
    version: Version,
    key: &[u8],
    token: &[u8],
    footer: &[u8],
    assertion: &[u8],
) -> Result<String, Fault> {
    let key = Key::of(version, KeyType::Local, key)?;
    string(ask!(token.len(); paseto_decrypt(
        &key, token.as_ptr(), token.len(), footer.as_ptr(), footer.len(), assertion.as_ptr(), assertion.len()
    )))
}

/// The footer of a token that is not verified yet, empty if it has none.
pub(crate) fn token_footer(token: &[u8]) -> Result<String, Fault> {
    string(ask!(token.len(); paseto_token_footer(token.as_ptr(), token.len())))
}

/// Signs a text with a private key. In version 1 it draws a salt.
pub(crate) fn sign(
    version: Version,
    key: &[u8],
    text: &[u8],
    footer: &[u8],
    assertion: &[u8],
) -> Result<String, Fault> {
    let (key, salt) = (Key::of(version, KeyType::Private, key)?, salt_of(version)?);
    let salt = salt.bytes();
    string(ask!(token_length(&[text, footer]); paseto_sign_with(
        &key, salt.as_ptr(), salt.len(), text.as_ptr(), text.len(), footer.as_ptr(), footer.len(), assertion.as_ptr(),
        assertion.len()
    )))
}

/// The text of a public token.
pub(crate) fn verify(
    version: Version,
    key: &[u8],
    token: &[u8],
    footer: &[u8],
    assertion: &[u8],
) -> Result<String, Fault> {
    let key = Key::of(version, KeyType::Public, key)?;
    string(ask!(token.len(); paseto_verify(
        &key, token.as_ptr(), token.len(), footer.as_ptr(), footer.len(), assertion.as_ptr(), assertion.len()
    )))
}

/// What a token of claims is made of.
pub(crate) struct Parts<'a> {
    /// A JSON object.
    pub(crate) claims: &'a str,
    /// In nanoseconds after 1970.
    pub(crate) now: i64,
    pub(crate) footer: &'a [u8],
    /// Empty in versions 1 and 2.
    pub(crate) assertion: &'a [u8],
}

/// A local token with claims, and the default times where they set none. It draws the nonce.
pub(crate) fn build_local(
    version: Version,
    key: &[u8],
    parts: &Parts<'_>,
) -> Result<String, Fault> {
    issue(
        &Key::of(version, KeyType::Local, key)?,
        &Drawn::new()?,
        parts,
    )
}

/// A public token with claims, and the default times where they set none. In version 1 it draws a salt.
pub(crate) fn build_public(
    version: Version,
    key: &[u8],
    parts: &Parts<'_>,
) -> Result<String, Fault> {
    issue(
        &Key::of(version, KeyType::Private, key)?,
        &salt_of(version)?,
        parts,
    )
}

fn issue(key: &Key, drawn: &Drawn, parts: &Parts<'_>) -> Result<String, Fault> {
    let (claims, footer, assertion) = (parts.claims.as_bytes(), parts.footer, parts.assertion);
    let drawn = drawn.bytes();
    string(ask!(token_length(&[claims, footer]); paseto_issue_with(
        key, drawn.as_ptr(), drawn.len(), claims.as_ptr(), claims.len(), parts.now, footer.as_ptr(), footer.len(),
        assertion.as_ptr(), assertion.len()
    )))
}

/// The claims of a local token, as JSON.
pub(crate) fn parse_local(
    version: Version,
    key: &[u8],
    token: &[u8],
    checks: &Checks<'_>,
    footer: &[u8],
    assertion: &[u8],
) -> Result<String, Refusal> {
    admit(
        Key::of(version, KeyType::Local, key),
        token,
        checks,
        footer,
        assertion,
    )
}

/// The claims of a public token, as JSON.
pub(crate) fn parse_public(
    version: Version,
    key: &[u8],
    token: &[u8],
    checks: &Checks<'_>,
    footer: &[u8],
    assertion: &[u8],
) -> Result<String, Refusal> {
    admit(
        Key::of(version, KeyType::Public, key),
        token,
        checks,
        footer,
        assertion,
    )
}

fn admit(
    key: Result<Key, Fault>,
    token: &[u8],
    checks: &Checks<'_>,
    footer: &[u8],
    assertion: &[u8],
) -> Result<String, Refusal> {
    let (key, expected) = (key.map_err(refusal)?, checks.expected.as_bytes());
    let options = Options {
        size: std::mem::size_of::<Options>(),
        leeway: checks.leeway,
        longest: checks.longest,
        longest_footer: checks.longest_footer,
        required: checks.required.as_ptr(),
        required_length: checks.required.len(),
    };
    let claims = ask!(token.len(); paseto_admit(
        &key, token.as_ptr(), token.len(), expected.as_ptr(), expected.len(), checks.now, footer.as_ptr(), footer.len(),
        assertion.as_ptr(), assertion.len(), &options
    ))?;
    String::from_utf8(claims).map_err(|_| refusal(Fault::Utf8Error))
}

// A refusal with the library's text.
fn refusal(fault: Fault) -> Refusal {
    Refusal {
        fault,
        line: text_of(fault),
    }
}

/// The private and the public key of a seed: 32 bytes, or 48 in version 3, where it is the private key. Version 1 has
/// no such call: `InvalidKey`.
pub(crate) fn key_pair(version: Version, seed: &[u8]) -> Result<(Vec<u8>, Vec<u8>), Fault> {
    if version == Version::V1 {
        return Err(Fault::InvalidKey);
    }
    let private = ask!(paseto_key_generate_with(
        version as u8,
        KeyType::Private as u8,
        seed.as_ptr(),
        seed.len()
    ))?;
    let public = ask!(paseto_key_public(&private))?;
    Ok((private.to_vec(), public.to_vec()))
}

/// The public key of a private one.
pub(crate) fn public_half(version: Version, key: &[u8]) -> Result<Vec<u8>, Fault> {
    let key = Key::of(version, KeyType::Private, key).map_err(|_| Fault::InvalidKey)?;
    Ok(ask!(paseto_key_public(&key))?.to_vec())
}

/// A key's PASERK text.
pub(crate) fn to_paserk(version: Version, kind: KeyType, key: &[u8]) -> Result<String, Fault> {
    let key = Key::of(version, kind, key)?;
    string(ask!(TEXT; paseto_key_text(&key)))
}

/// The key of a PASERK text.
pub(crate) fn from_paserk(version: Version, kind: KeyType, text: &[u8]) -> Result<Vec<u8>, Fault> {
    match kind_of(text) {
        Some((found, _)) if found != version => return Err(Fault::OtherVersion),
        Some((_, found)) if found != kind => return Err(Fault::OtherType),
        _ => {}
    }
    let key = ask!(paseto_key_read(text.as_ptr(), text.len()))?;
    bytes_of(&key, version, kind)
}

/// The key of a text that is under a password.
pub(crate) fn unlocked(
    version: Version,
    kind: KeyType,
    text: &[u8],
    password: &[u8],
) -> Result<Vec<u8>, Fault> {
    let key = ask!(paseto_key_unlock(
        text.as_ptr(),
        text.len(),
        password.as_ptr(),
        password.len()
    ))?;
    bytes_of(&key, version, kind)
}

/// The key of a text that another key of the version opens, one for local tokens or a private one.
pub(crate) fn unwrapped(
    version: Version,
    kind: KeyType,
    text: &[u8],
    opener: (KeyType, &[u8]),
) -> Result<Vec<u8>, Fault> {
    let opener = Key::of(version, opener.0, opener.1)?;
    let key = ask!(paseto_key_unwrap(text.as_ptr(), text.len(), &opener))?;
    bytes_of(&key, version, kind)
}

/// The text of a key under a password.
pub(crate) fn protected(
    version: Version,
    kind: KeyType,
    key: &[u8],
    password: &[u8],
) -> Result<String, Fault> {
    let (key, drawn) = (Key::of(version, kind, key)?, Drawn::new()?);
    let drawn = drawn.bytes();
    string(ask!(TEXT; paseto_key_protect_with(
        &key, password.as_ptr(), password.len(), drawn.as_ptr(), drawn.len()
    )))
}

/// The text of a key under a wrapping key, which is one for local tokens of the version.
pub(crate) fn wrapped(
    version: Version,
    kind: KeyType,
    key: &[u8],
    wrapping: &[u8],
) -> Result<String, Fault> {
    let key = Key::of(version, kind, key)?;
    let wrapping = Key::of(version, KeyType::Local, wrapping)?;
    let drawn = Drawn::new()?;
    let drawn = drawn.bytes();
    string(ask!(TEXT; paseto_key_wrap_with(&key, &wrapping, drawn.as_ptr(), drawn.len())))
}

/// The text of a key for local tokens that is sealed to a public key of the version. In version 3 it fails with
/// `KeyRejected` for random bytes that are no private key.
pub(crate) fn sealed(version: Version, key: &[u8], public: &[u8]) -> Result<String, Fault> {
    let key = Key::of(version, KeyType::Local, key)?;
    let public = Key::of(version, KeyType::Public, public)?;
    let drawn = Drawn::new()?;
    let drawn = drawn.bytes();
    string(ask!(TEXT; paseto_key_seal_with(&key, &public, drawn.as_ptr(), drawn.len())))
}

// The bytes of a key that must be of a version and of a type.
fn bytes_of(key: &Key, version: Version, kind: KeyType) -> Result<Vec<u8>, Fault> {
    if key.version != version as u8 {
        Err(Fault::OtherVersion)
    } else if key.kind != kind as u8 {
        Err(Fault::OtherType)
    } else {
        Ok(key.to_vec())
    }
}

// Which key a text begins as: k4.local. and so on.
fn kind_of(text: &[u8]) -> Option<(Version, KeyType)> {
    let version = match text.get(..2)? {
        b"k1" => Version::V1,
        b"k2" => Version::V2,
        b"k3" => Version::V3,
        b"k4" => Version::V4,
        _ => return None,
    };
    let kinds = [
        (&b".local."[..], KeyType::Local),
        (b".secret.", KeyType::Private),
        (b".public.", KeyType::Public),
    ];
    let found = kinds.iter().find(|(name, _)| text[2..].starts_with(name));
    found.map(|(_, kind)| (version, *kind))
}

/// A key's PASERK id.
pub(crate) fn key_id(version: Version, kind: KeyType, key: &[u8]) -> Result<String, Fault> {
    let key = Key::of(version, kind, key)?;
    string(ask!(TEXT; paseto_key_id(&key)))
}

// In PEM the keys of version 2 are those of version 4.
fn pem_version(version: Version) -> Version {
    match version {
        Version::V2 => Version::V4,
        version => version,
    }
}

/// A key in PEM. A key for local tokens has none: `NotPem`.
pub(crate) fn to_pem(version: Version, kind: KeyType, key: &[u8]) -> Result<String, Fault> {
    if kind == KeyType::Local {
        return Err(Fault::NotPem);
    }
    let key = Key::of(pem_version(version), kind, key).map_err(|_| Fault::InvalidKey)?;
    string(ask!(TEXT; paseto_key_pem(&key)))
}

/// Whether a line of a text begins a block of PEM. Other text may stand before it.
pub(crate) fn holds_pem(text: &str) -> bool {
    text.lines().any(begins_block)
}

/// The key of a text in PEM. A key for local tokens has none: `NotPem`.
pub(crate) fn from_pem(version: Version, kind: KeyType, text: &str) -> Result<Vec<u8>, Fault> {
    if kind == KeyType::Local {
        return Err(Fault::NotPem);
    }
    let read = ask!(paseto_key_read(text.as_ptr(), text.len()));
    match read {
        Err(
            fault @ (Fault::Memory
            | Fault::NotUtf8
            | Fault::NotPem
            | Fault::EncryptedKey
            | Fault::OtherLabel),
        ) => Err(fault),
        _ if !has_label(version, kind, text) => Err(Fault::OtherLabel),
        Ok(key) if key.version != pem_version(version) as u8 => Err(Fault::OtherAlgorithm),
        Ok(key) => bytes_of(&key, pem_version(version), kind),
        Err(Fault::OtherCurve) if version != Version::V3 => Err(Fault::OtherAlgorithm),
        Err(Fault::OtherSize) if version != Version::V1 => Err(Fault::OtherAlgorithm),
        Err(fault) => Err(fault),
    }
}

fn begins_block(line: &str) -> bool {
    line.starts_with("-----BEGIN ")
}

// Whether a text in PEM has a label for keys of this version and type. The parameters of a curve may stand before the key.
fn has_label(version: Version, kind: KeyType, text: &str) -> bool {
    let mut begins = text.lines().filter(|line| begins_block(line));
    let begin = begins.find(|line| *line != "-----BEGIN EC PARAMETERS-----");
    let is = |label: &str| begin == Some(format!("-----BEGIN {label}-----").as_str());
    match (kind, version) {
        (KeyType::Private, Version::V1) => is("PRIVATE KEY") || is("RSA PRIVATE KEY"),
        (KeyType::Private, Version::V3) => is("PRIVATE KEY") || is("EC PRIVATE KEY"),
        (KeyType::Private, _) => is("PRIVATE KEY"),
        (_, Version::V1) => is("PUBLIC KEY") || is("RSA PUBLIC KEY"),
        _ => is("PUBLIC KEY"),
    }
}

// What signing takes beside a key: a random salt in version 1.
fn salt_of(version: Version) -> Result<Drawn, Fault> {
    match version {
        Version::V1 => Drawn::new(),
        _ => Ok(Drawn {
            bytes: [0; DRAWN],
            length: 0,
        }),
    }
}

// Random bytes for one call: a nonce, a salt or a private key, which is why they are wiped.
struct Drawn {
    bytes: [u8; DRAWN],
    length: usize,
}

impl Drawn {
    fn new() -> Result<Self, Fault> {
        let mut drawn = Drawn {
            bytes: [0; DRAWN],
            length: DRAWN,
        };
        if fill_random(&mut drawn.bytes) {
            Ok(drawn)
        } else {
            Err(Fault::NoRandom)
        }
    }

    fn bytes(&self) -> &[u8] {
        &self.bytes[..self.length]
    }
}

impl Drop for Drawn {
    fn drop(&mut self) {
        wipe(&mut self.bytes);
    }
}

/// Fills the bytes by getrandom(2), and returns whether that succeeded.
pub(crate) fn fill_random(bytes: &mut [u8]) -> bool {
    let mut filled = 0;
    while filled < bytes.len() {
        let rest = &mut bytes[filled..];
        // Safety: `rest` is valid for its length.
        let drawn = unsafe { getrandom(rest.as_mut_ptr(), rest.len(), 0) };
        match usize::try_from(drawn) {
            Ok(count) => filled += count,
            Err(_) if std::io::Error::last_os_error().kind() == std::io::ErrorKind::Interrupted => {
            }
            Err(_) => return false,
        }
    }
    true
}

/// Overwrites bytes with zeros, which the compiler may not optimize away.
pub(crate) fn wipe(bytes: &mut [u8]) {
    for byte in bytes {
        // Safety: `byte` is valid.
        unsafe { std::ptr::write_volatile(byte, 0) };
    }
    compiler_fence(Ordering::SeqCst);
}
