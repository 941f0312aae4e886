//! Each refusal by its name: of tokens, claims, builders, parsers, key texts and rings. `Memory` is in `memory.rs`, and
//! `Cipher`, of a system that gives no random bytes, in `random.rs`.

mod common;

use common::{bytes, Outcome};
use paseto_proved::keys::{key_footer, KeyPair, KeyRing, KeyRingError, KeyTextError};
use paseto_proved::prelude::*;
use serde::{Serialize, Serializer};
use std::time::{Duration, SystemTime};

const EARLIER: &str = "2019-01-01T00:00:00+00:00";
const LATER: &str = "2099-01-01T00:00:00+00:00";

fn key() -> PasetoSymmetricKey<V4, Local> {
    PasetoSymmetricKey::from(Key::from([7; 32]))
}

// A local token of version 4 with a payload.
fn token_of(payload: &str) -> Result<String, PasetoError> {
    Paseto::<V4, Local>::builder()
        .set_payload(Payload::from(payload))
        .try_encrypt(&key(), &PasetoNonce::from(&Key::try_new_random()?))
}

// What the default parser says of a payload.
fn read(payload: &str) -> Result<serde_json::Value, GenericParserError> {
    PasetoParser::<V4, Local>::default().parse(&token_of(payload)?, &key())
}

fn claim_fault<T: std::fmt::Debug>(
    read: Result<T, GenericParserError>,
) -> Result<PasetoClaimError, String> {
    match read {
        Err(GenericParserError::ClaimError { source }) => Ok(source),
        other => Err(format!("{other:?}")),
    }
}

fn cipher_fault<T: std::fmt::Debug>(
    read: Result<T, GenericParserError>,
) -> Result<PasetoError, String> {
    match read {
        Err(GenericParserError::CipherError { source }) => Ok(source),
        other => Err(format!("{other:?}")),
    }
}

// A claim of the caller's own, with any key and any value.
struct AnyClaim<T>(&'static str, T);

impl<T: Serialize> PasetoClaim for AnyClaim<T> {
    fn get_key(&self) -> &str {
        self.0
    }
}

impl<T: Serialize> Serialize for AnyClaim<T> {
    fn serialize<S: Serializer>(&self, serializer: S) -> Result<S::Ok, S::Error> {
        serializer.collect_map([(self.0, &self.1)])
    }
}

// A value that cannot be written.
struct Unwritable;

impl Serialize for Unwritable {
    fn serialize<S: Serializer>(&self, _serializer: S) -> Result<S::Ok, S::Error> {
        Err(serde::ser::Error::custom("it cannot be written"))
    }
}

#[test]
fn faults_of_tokens() -> Outcome {
    let token = PasetoBuilder::<V4, Local>::default().build(&key())?;
    let cases = [
        ("v4.local".to_owned(), PasetoError::IncorrectSize),
        (token.clone() + ".AAAA", PasetoError::FooterInvalid),
        (token.replacen("v4.", "v2.", 1), PasetoError::WrongHeader),
        (
            token.replacen("v4.local.", "v4.local.!", 1),
            PasetoError::PayloadBase64Decode,
        ),
        (
            token.replacen("v4.local.", "v4.local.AAAA", 1),
            PasetoError::Cryption,
        ),
    ];
    for (case, fault) in cases {
        let read = PasetoParser::<V4, Local>::default().parse(&case, &key());
        assert_eq!(cipher_fault(read)?, fault, "{case}");
    }
    let read = PasetoParser::<V4, Local>::default()
        .set_longest(9)
        .parse(&token, &key());
    assert_eq!(cipher_fault(read)?, PasetoError::TooLong);
    let read = PasetoParser::<V4, Local>::default()
        .set_longest_footer(2)
        .parse(&(token.clone() + ".AAAA"), &key());
    assert_eq!(cipher_fault(read)?, PasetoError::TooLong);
    let read = PasetoParser::<V4, Local>::default()
        .set_longest_footer(3)
        .parse(&(token.clone() + ".AAAA"), &key());
    assert_eq!(cipher_fault(read)?, PasetoError::FooterInvalid);
    let read = GenericParser::<V4, Local>::default()
        .parse(&token, &PasetoSymmetricKey::from(Key::default()));
    assert_eq!(cipher_fault(read)?, PasetoError::Cryption);
    Ok(())
}

#[test]
fn faults_of_boxes_and_signatures() -> Outcome {
    let two = PasetoSymmetricKey::<V2, Local>::try_new_random()?;
    let token = PasetoBuilder::<V2, Local>::default().build(&two)?;
    let read = PasetoParser::<V2, Local>::default()
        .parse(&token, &PasetoSymmetricKey::from(Key::default()));
    assert_eq!(cipher_fault(read)?, PasetoError::ChaChaCipherError);

    let (pair, other) = (
        KeyPair::<V4>::try_new_random()?,
        KeyPair::<V4>::try_new_random()?,
    );
    let token = PasetoBuilder::<V4, Public>::default().build(pair.private_key())?;
    let read = PasetoParser::<V4, Public>::default().parse(&token, other.public_key());
    assert_eq!(cipher_fault(read)?, PasetoError::InvalidSignature);
    Ok(())
}

#[test]
fn faults_of_texts_and_slices() {
    let text = |bytes: Vec<u8>| -> Result<String, PasetoError> { Ok(String::from_utf8(bytes)?) };
    assert_eq!(text(vec![255]), Err(PasetoError::FromUtf8Error));
    let array = |bytes: &[u8]| -> Result<[u8; 2], PasetoError> { Ok(bytes.try_into()?) };
    assert_eq!(array(b"one"), Err(PasetoError::TryFromSlice));
    assert_eq!(
        Footer::try_from_token("v4.local.a._w"),
        Err(PasetoError::Utf8Error)
    );
    assert!(matches!(
        PasetoSymmetricKey::<V4, Local>::try_from(&[7; 31][..]),
        Err(PasetoError::InvalidKey)
    ));
}

fn signing_fault<T>(built: Result<T, GenericBuilderError>) -> Option<PasetoError> {
    match built {
        Err(GenericBuilderError::CipherError { source }) => Some(source),
        _ => None,
    }
}

#[test]
fn faults_of_private_keys() -> Outcome {
    let build = |bytes: &[u8]| {
        PasetoBuilder::<V4, Public>::default().build(&PasetoAsymmetricPrivateKey::from(bytes))
    };
    assert_eq!(
        signing_fault(build(&[0; 63])),
        Some(PasetoError::InvalidKey)
    );
    assert_eq!(signing_fault(build(&[0; 64])), Some(PasetoError::Signature));
    let zero = Key::<48>::default();
    let built =
        PasetoBuilder::<V3, Public>::default().build(&PasetoAsymmetricPrivateKey::from(&zero));
    assert_eq!(signing_fault(built), Some(PasetoError::KeyRejected));
    let mut private = bytes("RSA_PRIVATE")?;
    *private.last_mut().ok_or("no bytes")? ^= 1;
    let private = PasetoAsymmetricPrivateKey::<V1, Public>::from(private.as_slice());
    let lasting = PasetoBuilder::<V1, Public>::default()
        .set_no_expiration_danger_acknowledged()
        .build(&private);
    assert_eq!(signing_fault(lasting), Some(PasetoError::RsaCipher));
    assert_eq!(
        signing_fault(PasetoBuilder::<V1, Public>::default().build(&private)),
        Some(PasetoError::RsaCipher)
    );
    Ok(())
}

#[test]
fn faults_of_times() -> Outcome {
    let expired = claim_fault(read(&format!(r#"{{"exp":"{EARLIER}"}}"#)))?;
    assert_eq!(expired, PasetoClaimError::Expired);
    let early = claim_fault(read(&format!(r#"{{"nbf":"{LATER}"}}"#)))?;
    assert_eq!(
        early,
        PasetoClaimError::UseBeforeAvailable(LATER.to_owned())
    );
    let no_date = claim_fault(read(r#"{"exp":"tomorrow"}"#))?;
    assert_eq!(
        no_date,
        PasetoClaimError::RFC3339Date("tomorrow".to_owned())
    );
    let number = claim_fault(read(r#"{"exp":1700000000}"#))?;
    assert_eq!(number, PasetoClaimError::Unexpected("exp".to_owned()));
    let refused = NotBeforeClaim::try_from("tomorrow").err();
    assert_eq!(
        refused,
        Some(PasetoClaimError::RFC3339Date("tomorrow".to_owned()))
    );
    Ok(())
}

#[test]
fn faults_of_expected_claims() -> Outcome {
    let token = token_of(r#"{"aud":"customers","seats":4,"gone":null}"#)?;
    let check = |parser: &mut PasetoParser<V4, Local>| claim_fault(parser.parse(&token, &key()));
    let mut parser = PasetoParser::<V4, Local>::default();
    let missing = check(parser.check_claim(SubjectClaim::from("ada")))?;
    assert_eq!(missing, PasetoClaimError::Missing("sub".to_owned()));
    let mut parser = PasetoParser::<V4, Local>::default();
    let missing = check(parser.require_claim("gone"))?;
    assert_eq!(missing, PasetoClaimError::Missing("gone".to_owned()));
    let mut parser = PasetoParser::<V4, Local>::default();
    let invalid = check(parser.check_claim(AudienceClaim::from("it's 'others'")))?;
    let texts = ["aud", "customers", "it's 'others'"].map(str::to_owned);
    let [key, found, wanted] = texts;
    assert_eq!(invalid, PasetoClaimError::Invalid(key, found, wanted));
    let mut parser = PasetoParser::<V4, Local>::default();
    let unexpected = check(parser.check_claim(CustomClaim::try_from(("seats", 5))?))?;
    assert_eq!(unexpected, PasetoClaimError::Unexpected("seats".to_owned()));
    let mut parser = PasetoParser::<V4, Local>::default();
    let refused = check(
        parser.validate_claim(CustomClaim::try_from("seats")?, &|key, _| {
            Err(PasetoClaimError::CustomValidation(key.to_owned()))
        }),
    )?;
    assert_eq!(
        refused,
        PasetoClaimError::CustomValidation("seats".to_owned())
    );
    let reserved = CustomClaim::try_from(("jti", 1)).err();
    assert_eq!(reserved, Some(PasetoClaimError::Reserved("jti".to_owned())));
    Ok(())
}

#[test]
fn faults_of_payloads() -> Outcome {
    for payload in ["", "no JSON", "{\"a\":1", "{\"a\":01}"] {
        match read(payload) {
            Err(fault @ GenericParserError::PayloadJsonError { .. }) => {
                assert_eq!(
                    fault.to_string(),
                    "The payload was unable to be serialized into json"
                );
                assert!(!fault.reason().is_empty());
            }
            other => return Err(format!("{payload}: {other:?}").into()),
        }
    }
    Ok(())
}

#[test]
fn faults_of_builders() -> Outcome {
    let twice = PasetoBuilder::<V4, Local>::default()
        .set_claim(SubjectClaim::from("ada"))
        .set_claim(SubjectClaim::from("bob"))
        .build(&key());
    assert!(
        matches!(&twice, Err(GenericBuilderError::DuplicateTopLevelPayloadClaim(key)) if key == "sub"),
        "{twice:?}"
    );
    let expires = PasetoBuilder::<V4, Local>::default()
        .set_no_expiration_danger_acknowledged()
        .set_claim(ExpirationClaim::try_from(LATER)?)
        .build(&key());
    assert!(
        matches!(&expires, Err(GenericBuilderError::DuplicateTopLevelPayloadClaim(key)) if key == "exp"),
        "{expires:?}"
    );
    let unwritable = PasetoBuilder::<V4, Local>::default()
        .set_claim(AnyClaim("a", Unwritable))
        .build(&key());
    match &unwritable {
        Err(GenericBuilderError::PayloadJsonError { source }) => {
            assert_eq!(source.to_string(), "the claim 'a': it cannot be written")
        }
        other => return Err(format!("{other:?}").into()),
    }
    Ok(())
}

#[test]
fn numbers_are_64_bit_integers() -> Outcome {
    let is_odd = |built: &Result<String, GenericBuilderError>| matches!(built, Err(GenericBuilderError::ClaimError { source: PasetoClaimError::Unexpected(key) }) if key == "part");
    let built = PasetoBuilder::<V4, Local>::default()
        .set_claim(AnyClaim("all", u64::MAX))
        .set_claim(AnyClaim("part", [0.5]))
        .build(&key());
    assert!(is_odd(&built), "{built:?}");
    let built = GenericBuilder::<V4, Local>::default()
        .set_claim(AnyClaim("part", 0.5))
        .try_encrypt(&key());
    assert!(is_odd(&built), "{built:?}");
    let refused = GenericParser::<V4, Local>::default()
        .check_claim(AnyClaim("part", 0.5))
        .parse(&token_of("{}")?, &key());
    assert_eq!(
        claim_fault(refused)?,
        PasetoClaimError::Unexpected("part".to_owned())
    );
    Ok(())
}

#[test]
fn times_are_asked_of_a_default_parser_alone() -> Outcome {
    let token = token_of(&format!(r#"{{"exp":"{EARLIER}","nbf":"{LATER}"}}"#))?;
    assert!(PasetoParser::<V4, Local>::new()
        .parse(&token, &key())
        .is_ok());
    assert!(GenericParser::<V4, Local>::default()
        .parse(&token, &key())
        .is_ok());
    let mut parser = PasetoParser::<V4, Local>::new();
    assert!(parser
        .check_claim(ExpirationClaim::try_from(EARLIER)?)
        .parse(&token, &key())
        .is_ok());
    let other = claim_fault(
        parser
            .check_claim(ExpirationClaim::try_from(LATER)?)
            .parse(&token, &key()),
    )?;
    let [key_of, found, wanted] = ["exp", EARLIER, LATER].map(str::to_owned);
    assert_eq!(other, PasetoClaimError::Invalid(key_of, found, wanted));
    let mut parser = PasetoParser::<V4, Local>::new();
    parser.check_claim(NotBeforeClaim::try_from(LATER)?);
    let missing = claim_fault(parser.parse(&token_of("{}")?, &key()))?;
    assert_eq!(missing, PasetoClaimError::Missing("nbf".to_owned()));
    let number = claim_fault(parser.check_claim(AnyClaim("nbf", 5)).parse(&token, &key()))?;
    assert_eq!(number, PasetoClaimError::Unexpected("nbf".to_owned()));
    Ok(())
}

#[test]
fn a_token_is_taken_after_its_beginning_and_before_its_end() -> Outcome {
    let token = token_of(r#"{"nbf":"2026-11-29T12:00:00Z","exp":"2026-11-29T13:00:00Z"}"#)?;
    let noon = SystemTime::UNIX_EPOCH + Duration::from_secs(1_795_953_600);
    let at = |time: SystemTime| {
        claim_fault(
            PasetoParser::<V4, Local>::default()
                .set_now(time)
                .parse(&token, &key()),
        )
        .ok()
    };
    let early = PasetoClaimError::UseBeforeAvailable("2026-11-29T12:00:00Z".to_owned());
    let (nanosecond, hour) = (Duration::from_nanos(1), Duration::from_secs(3_600));
    assert_eq!(at(noon - nanosecond), Some(early.clone()));
    assert_eq!(at(noon), Some(early));
    assert_eq!(at(noon + nanosecond), None);
    assert_eq!(at(noon + hour - nanosecond), None);
    assert_eq!(at(noon + hour), Some(PasetoClaimError::Expired));
    // The library counts 64 bits of nanoseconds.
    let far = SystemTime::UNIX_EPOCH + Duration::from_secs(1 << 34);
    assert_eq!(
        at(far),
        Some(PasetoClaimError::RFC3339Date(
            "17179869184 seconds after 1970".to_owned()
        ))
    );
    Ok(())
}

#[test]
fn a_password_is_not_too_long() {
    // The system gives the zeros of what is never written without memory for them.
    let password = vec![0; 1 << 32];
    let written = key().to_protected(&password);
    assert_eq!(written, Err(KeyTextError::LongPassword));
    assert_eq!(
        KeyTextError::LongPassword.to_string(),
        "The password is too long"
    );
}

fn local(text: &str) -> Option<KeyTextError> {
    text.parse::<PasetoSymmetricKey<V4, Local>>().err()
}

fn public_of<K: std::str::FromStr<Err = KeyTextError>>(text: &str) -> Option<KeyTextError> {
    text.parse::<K>().err()
}

const P256: &str = "-----BEGIN PUBLIC KEY-----
MFkwEwYHKoZIzj0CAQYIKoZIzj0DAQcDQgAEGlQmWHqcOrqmNin8RbcBaIrh5LXn
Y68KIjf9/XFFUB29wHqZMHCA7rrjihLSnBuPZzxslaME3tu+/+pu0vV7OQ==
-----END PUBLIC KEY-----
";
const RSA_OF_1024: &str = "-----BEGIN PUBLIC KEY-----
MIGfMA0GCSqGSIb3DQEBAQUAA4GNADCBiQKBgQCWPzafgFshJfvJA1FisCReFGqH
EOo4xKGNiRaXng4Ngi/LcUemcFiFHFbavGVU8W8br7WIFiGSlJsCf5x1l1G4AmaC
KoaYz4zYRDrDSiIiHBkcsnq35BL1MV2DomEkPkhtmBLDFNp9LqywpS271uOQRiLY
FaBWsExHiVgdVfqFoQIDAQAB
-----END PUBLIC KEY-----
";

#[test]
fn faults_of_key_texts() -> Outcome {
    type Verifies<V> = PasetoAsymmetricPublicKey<'static, V, Public>;
    assert_eq!(local("a key"), Some(KeyTextError::NoPaserk));
    assert_eq!(local("k3.local.AAAA"), Some(KeyTextError::OtherVersion));
    assert_eq!(local("k4.public.AAAA"), Some(KeyTextError::OtherType));
    assert_eq!(local("k4.local.AAAA"), Some(KeyTextError::InvalidKey));
    let lines = key().to_paserk()? + "\n\n";
    assert_eq!(local(&lines), Some(KeyTextError::InvalidKey));
    assert_eq!(local(P256), Some(KeyTextError::NotPem));
    assert_eq!(
        public_of::<Verifies<V4>>("-----BEGIN nothing"),
        Some(KeyTextError::NotPem)
    );
    assert_eq!(
        public_of::<Verifies<V4>>(P256),
        Some(KeyTextError::OtherAlgorithm)
    );
    assert_eq!(
        public_of::<Verifies<V3>>(P256),
        Some(KeyTextError::OtherCurve)
    );
    assert_eq!(
        public_of::<Verifies<V1>>(RSA_OF_1024),
        Some(KeyTextError::OtherSize)
    );
    assert_eq!(
        public_of::<Verifies<V1>>("k1.public.AAAA"),
        Some(KeyTextError::InvalidKey)
    );
    let pair = KeyPair::<V4>::try_new_random()?;
    let private = pair.private_key().to_pem()?;
    assert_eq!(
        public_of::<Verifies<V4>>(&private),
        Some(KeyTextError::OtherLabel)
    );
    let encrypted = private.replace("PRIVATE KEY", "ENCRYPTED PRIVATE KEY");
    let read = encrypted
        .parse::<PasetoAsymmetricPrivateKey<V4, Public>>()
        .err();
    assert_eq!(read, Some(KeyTextError::EncryptedKey));
    let short: &[u8] = &[0; 63];
    let written = PasetoAsymmetricPrivateKey::<V4, Public>::from(short).to_paserk();
    assert_eq!(written, Err(KeyTextError::InvalidKey));
    assert!(KeyTextError::OtherCurve.to_string().len() > 10);
    Ok(())
}

// Text that may stand before a key in PEM.
const BEFORE: [&str; 4] = [
    "\n",
    "Key Info:\n\tAlgorithm\n\n",
    "k4.local.cHFyc3R1dnd4eXp7fH1-f4CBgoOEhYaHiImKi4yNjo8\n",
    "-----BEGIN EC PARAMETERS-----\nBgUrgQQAIg==\n-----END EC PARAMETERS-----\n",
];

#[test]
fn a_key_in_pem_behind_other_text_is_of_one_version_and_type() -> Outcome {
    type Signs<V> = PasetoAsymmetricPrivateKey<'static, V, Public>;
    type Verifies<V> = PasetoAsymmetricPublicKey<'static, V, Public>;
    let pair = KeyPair::<V4>::try_new_random()?;
    let (private, public) = (pair.private_key().to_pem()?, pair.public_key().to_pem()?);
    for before in BEFORE {
        let (half, own) = (format!("{before}{public}"), format!("{before}{private}"));
        assert_eq!(
            half.parse::<Verifies<V4>>()?.as_ref(),
            pair.public_key().as_ref()
        );
        assert_eq!(
            half.parse::<Verifies<V2>>()?.as_ref(),
            pair.public_key().as_ref()
        );
        assert_eq!(
            own.parse::<Signs<V4>>()?.as_ref(),
            pair.private_key().as_ref()
        );
        let refused = [
            (local(&half), KeyTextError::NotPem),
            (
                public_of::<Verifies<V3>>(&half),
                KeyTextError::OtherAlgorithm,
            ),
            (public_of::<Signs<V4>>(&half), KeyTextError::OtherLabel),
            (local(&own), KeyTextError::NotPem),
            (public_of::<Signs<V1>>(&own), KeyTextError::OtherAlgorithm),
            (public_of::<Verifies<V4>>(&own), KeyTextError::OtherLabel),
        ];
        for (found, wanted) in refused {
            assert_eq!(found, Some(wanted), "behind {before:?}");
        }
    }
    Ok(())
}

#[test]
fn keys_of_others() -> Outcome {
    type Signs<V> = PasetoAsymmetricPrivateKey<'static, V, Public>;
    let folder = concat!(env!("CARGO_MANIFEST_DIR"), "/../../tests/keys_of_others");
    let mut read = 0;
    for entry in std::fs::read_dir(folder)? {
        let path = entry?.path();
        let name = path
            .file_stem()
            .unwrap_or_default()
            .to_string_lossy()
            .into_owned();
        if name.starts_with("refused") || path.extension() != Some("pem".as_ref()) {
            continue;
        }
        let text = std::fs::read_to_string(&path)?;
        let is = |part: &str| name.contains(part);
        let found = [
            (is("rsa"), public_of::<Signs<V1>>(&text)),
            (is("p384"), public_of::<Signs<V3>>(&text)),
            (is("ed25519"), public_of::<Signs<V4>>(&text)),
        ];
        for (is_its_own, fault) in found {
            assert_eq!(is_its_own, fault.is_none(), "{name}: {fault:?}");
        }
        read += 1;
    }
    assert!(read > 15, "{read}");
    Ok(())
}

#[test]
fn faults_of_rings() -> Outcome {
    let mut ring = KeyRing::new();
    ring.add("one", key());
    let parser = PasetoParser::default();
    let token = |footer: &str| {
        PasetoBuilder::<V4, Local>::default()
            .set_footer(Footer::from(footer))
            .build(&key())
    };
    let named = token(&key_footer("one"))?;
    assert!(ring.parse(&parser, &named).is_ok());
    for footer in ["", "one", r#"{"kid":1}"#, r#"{"kid":"two"}"#, r#"["kid"]"#] {
        assert!(
            matches!(
                ring.parse(&parser, &token(footer)?),
                Err(KeyRingError::UnknownKey)
            ),
            "{footer}"
        );
    }
    let refused = ring.parse(&parser, "v4.local");
    assert!(matches!(
        refused,
        Err(KeyRingError::Untrusted {
            source: PasetoError::IncorrectSize
        })
    ));
    let mixed = named.replacen("v4.local.", "v4.local.AAAA", 1);
    let refused = ring.parse(&parser, &mixed);
    assert!(matches!(
        refused,
        Err(KeyRingError::Refused {
            source: GenericParserError::CipherError {
                source: PasetoError::Cryption
            }
        })
    ));
    ring.set_longest_footer(key_footer("one").len());
    assert!(ring.parse(&parser, &named).is_ok());
    ring.set_longest_footer(key_footer("one").len() - 1);
    assert!(matches!(
        ring.parse(&parser, &named),
        Err(KeyRingError::Untrusted {
            source: PasetoError::TooLong
        })
    ));
    ring.set_longest(4);
    assert!(matches!(
        ring.parse(&parser, &named),
        Err(KeyRingError::Untrusted {
            source: PasetoError::TooLong
        })
    ));
    Ok(())
}

#[test]
fn no_key_is_shown() -> Outcome {
    let (key, pair) = (key(), KeyPair::<V4>::try_new_random()?);
    let mut ring = KeyRing::new();
    ring.add("one", key.clone());
    let nonce = Key::<32>::from([0xab; 32]);
    let private = "!!! KEY IS PRIVATE !!!";
    assert_eq!(format!("{key:?}"), private);
    assert_eq!(format!("{:?}", pair.private_key()), private);
    assert_eq!(format!("{pair:?}"), private);
    assert_eq!(format!("{nonce:?}"), private);
    assert_eq!(
        format!("{:?}", PasetoNonce::<V4, Local>::from(&nonce)),
        "PasetoNonce"
    );
    assert_eq!(
        format!("{:?}", pair.public_key()),
        "PasetoAsymmetricPublicKey"
    );
    assert!(format!("{ring:?}").contains(&format!("{{\"one\": {private}}}")));
    Ok(())
}
