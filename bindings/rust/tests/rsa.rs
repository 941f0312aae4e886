//! Public tokens of version 1, under keys that OpenSSL made, and one that OpenSSL signed; and the texts of these keys, which
//! OpenSSL and an independent program made (`tests/c_library/rsa.h`).

mod common;

use common::{armored, bytes, constant, contents, Outcome};
use paseto_proved::core::{
    Footer, Key, Local, Paseto, PasetoAsymmetricPrivateKey, PasetoAsymmetricPublicKey, PasetoError,
    PasetoSymmetricKey, Payload, Public, V1, V3, V4,
};
use paseto_proved::keys::{key_footer, KeyPair, KeyRing, KeyRingError, KeyTextError};
use paseto_proved::prelude::{GenericParserError, PasetoBuilder, PasetoParser};
use std::str::FromStr;

type Signs<V> = PasetoAsymmetricPrivateKey<'static, V, Public>;
type Verifies<V> = PasetoAsymmetricPublicKey<'static, V, Public>;

// How many letters of base64url stand before the RSAPublicKey of a SubjectPublicKeyInfo: its first 24 bytes.
const FRONT: usize = 32;

fn signed(key: &[u8], text: &str, footer: &str) -> Result<String, PasetoError> {
    Paseto::<V1, Public>::builder()
        .set_payload(Payload::from(text))
        .set_footer(Footer::from(footer))
        .try_sign(&PasetoAsymmetricPrivateKey::from(key))
}

fn verified(key: &[u8], token: &str, footer: &str) -> Result<String, PasetoError> {
    let key = PasetoAsymmetricPublicKey::from(key);
    Paseto::<V1, Public>::try_verify(token, &key, Footer::from(footer))
}

#[test]
fn a_token_of_openssl_is_verified() -> Outcome {
    let text = verified(&bytes("RSA_PUBLIC")?, &constant("RSA_TOKEN")?, "a footer")?;
    assert_eq!(text, "{\"data\":\"this is a signed message\"}");
    Ok(())
}

#[test]
fn a_token_is_signed_and_verified() -> Outcome {
    let (private, public) = (bytes("RSA_PRIVATE")?, bytes("RSA_PUBLIC")?);
    let token = signed(&private, "a text", "a footer")?;
    assert!(token.starts_with("v1.public."), "{token}");
    assert_eq!(verified(&public, &token, "a footer")?, "a text");
    assert_ne!(
        signed(&private, "a text", "a footer")?,
        token,
        "a salt is drawn for each signature"
    );
    let long = "x".repeat(100_000);
    assert_eq!(verified(&public, &signed(&private, &long, "")?, "")?, long);
    Ok(())
}

#[test]
fn refusals_of_tokens() -> Outcome {
    let (private, public) = (bytes("RSA_PRIVATE")?, bytes("RSA_PUBLIC")?);
    let token = signed(&private, "a text", "a footer")?;
    let other = signed(&private, "b text", "a footer")?;
    let (front, rest) = token.split_at("v1.public.".len() + 8);
    let mixed = format!("{}{rest}", &other[..front.len()]);
    let cases = [
        ("v1.public".to_owned(), PasetoError::IncorrectSize),
        (token.replacen("v1.", "v2.", 1), PasetoError::WrongHeader),
        (
            token.replacen("v1.public.", "v1.public.!", 1),
            PasetoError::PayloadBase64Decode,
        ),
        (mixed, PasetoError::InvalidSignature),
    ];
    for (case, error) in cases {
        assert_eq!(verified(&public, &case, "a footer"), Err(error), "{case}");
    }
    assert_eq!(
        verified(&public, &token, ""),
        Err(PasetoError::FooterInvalid)
    );
    assert_eq!(
        verified(&private, &token, "a footer"),
        Err(PasetoError::InvalidSignature)
    );
    Ok(())
}

#[test]
fn refusals_of_private_keys() -> Outcome {
    let (mut private, public) = (bytes("RSA_PRIVATE")?, bytes("RSA_PUBLIC")?);
    assert_eq!(signed(&public, "a text", ""), Err(PasetoError::KeyRejected));
    assert_eq!(signed(&[], "a text", ""), Err(PasetoError::KeyRejected));
    // The last number of the key, the coefficient, ends in another bit.
    *private.last_mut().ok_or("no bytes")? ^= 1;
    assert_eq!(signed(&private, "a text", ""), Err(PasetoError::RsaCipher));
    Ok(())
}

#[test]
fn texts_are_those_of_openssl() -> Outcome {
    let (secret, public) = (constant("RSA_SECRET_TEXT")?, constant("RSA_PUBLIC_TEXT")?);
    let (private_bytes, public_bytes) = (bytes("RSA_PRIVATE")?, bytes("RSA_PUBLIC")?);
    let private = PasetoAsymmetricPrivateKey::<V1, Public>::from(private_bytes.as_slice());
    let half = PasetoAsymmetricPublicKey::<V1, Public>::from(public_bytes.as_slice());
    assert_eq!(private.to_paserk()?, secret);
    assert_eq!(half.to_paserk()?, public);
    assert_eq!(private.id()?.as_str(), constant("RSA_SECRET_ID")?);
    assert_eq!(half.id()?.as_str(), constant("RSA_PUBLIC_ID")?);
    assert_eq!(private.public_key()?.as_ref(), half.as_ref());
    // A private key is also read in PKCS #8, and in PEM in either form.
    let inner = secret.replacen("k1.secret.", "", 1);
    let texts = [
        secret.clone(),
        secret.clone() + "\n",
        format!("k1.secret.{}", contents(&private.to_pem()?)),
        private.to_pem()?,
        armored("RSA PRIVATE KEY", &inner),
    ];
    for text in texts {
        assert_eq!(text.parse::<Signs<V1>>()?.as_ref(), private_bytes, "{text}");
    }
    let outer = public.replacen("k1.public.", "", 1);
    let texts = [
        public.clone(),
        public.clone() + "\n",
        armored("PUBLIC KEY", &outer),
        armored("RSA PUBLIC KEY", &outer[FRONT..]),
    ];
    for text in texts {
        assert_eq!(
            text.parse::<Verifies<V1>>()?.as_ref(),
            public_bytes,
            "{text}"
        );
    }
    let key: Verifies<V1> = public.parse()?;
    let text =
        Paseto::<V1, Public>::try_verify(&constant("RSA_TOKEN")?, &key, Footer::from("a footer"))?;
    assert_eq!(text, "{\"data\":\"this is a signed message\"}");
    Ok(())
}

fn wrapping_key() -> Result<PasetoSymmetricKey<V1, Local>, PasetoError> {
    let digits = constant("RSA_WRAPPING_KEY").map_err(|_| PasetoError::InvalidKey)?;
    Ok(Key::<32>::try_from(digits.as_str())?.into())
}

#[test]
fn locked_keys() -> Outcome {
    let (wrapped, protected) = (constant("RSA_WRAPPED")?, constant("RSA_PROTECTED")?);
    let (private, wrapping) = (bytes("RSA_PRIVATE")?, wrapping_key()?);
    let password = "paßwort".as_bytes();
    let unwrapped = Signs::<V1>::try_unwrap(&wrapped, &wrapping)?;
    assert_eq!(unwrapped.as_ref(), private);
    let unlocked = Signs::<V1>::try_unlock(&protected, password)?;
    assert_eq!(unlocked.as_ref(), private);
    // What is written is read again.
    let text = unlocked.to_wrapped(&wrapping)?;
    assert!(text.starts_with("k1.secret-wrap.pie.") && text.len() == wrapped.len());
    assert_eq!(Signs::<V1>::try_unwrap(&text, &wrapping)?.as_ref(), private);
    let text = unlocked.to_protected(b"another")?;
    assert!(text.starts_with("k1.secret-pw.") && text.len() == protected.len());
    assert_eq!(
        Signs::<V1>::try_unlock(&text, b"another")?.as_ref(),
        private
    );
    let other = PasetoSymmetricKey::<V1, Local>::try_new_random()?;
    let as_local = PasetoSymmetricKey::<V1, Local>::try_unwrap(&wrapped, &wrapping).err();
    let of_third = PasetoSymmetricKey::<V3, Local>::try_new_random()?;
    let refusals = [
        (wrapped.parse::<Signs<V1>>().err(), KeyTextError::NeedsKey),
        (
            protected.parse::<Signs<V1>>().err(),
            KeyTextError::NeedsPassword,
        ),
        (
            Signs::<V1>::try_unlock(&protected, b"passwort").err(),
            KeyTextError::WrongKey,
        ),
        (
            Signs::<V1>::try_unwrap(&wrapped, &other).err(),
            KeyTextError::WrongKey,
        ),
        (as_local, KeyTextError::OtherType),
        (
            Signs::<V3>::try_unlock(&protected, password).err(),
            KeyTextError::OtherVersion,
        ),
        (
            Signs::<V3>::try_unwrap(&wrapped, &of_third).err(),
            KeyTextError::OtherVersion,
        ),
    ];
    for (number, (refused, wanted)) in refusals.into_iter().enumerate() {
        assert_eq!(refused, Some(wanted), "{number}");
    }
    Ok(())
}

fn fault_of<K: FromStr<Err = KeyTextError>>(text: &str) -> Option<KeyTextError> {
    text.parse::<K>().err()
}

#[test]
fn refusals_of_texts() -> Outcome {
    let (secret, public) = (constant("RSA_SECRET_TEXT")?, constant("RSA_PUBLIC_TEXT")?);
    let (short, info) = (constant("RSA_SHORT_TEXT")?, bytes("RSA_PRIVATE")?);
    let info = PasetoAsymmetricPrivateKey::<V1, Public>::from(info.as_slice()).to_pem()?;
    let (inner, outer) = (&secret["k1.secret.".len()..], &public["k1.public.".len()..]);
    let old = armored("RSA PRIVATE KEY", inner);
    let encrypted = "Y-----\nProc-Type: 4,ENCRYPTED\nDEK-Info: AES-256-CBC,00\n\n";
    let first = KeyPair::<V3>::try_new_random()?;
    let third = first.private_key().to_paserk()?;
    let cases = [
        (short.clone(), KeyTextError::InvalidKey),
        (
            armored("RSA PRIVATE KEY", &short["k1.secret.".len()..]),
            KeyTextError::OtherSize,
        ),
        (
            info.replace("PRIVATE", "ENCRYPTED PRIVATE"),
            KeyTextError::EncryptedKey,
        ),
        (
            old.replacen("Y-----\n", encrypted, 1),
            KeyTextError::EncryptedKey,
        ),
        (public.clone(), KeyTextError::OtherType),
        (format!("k1.secret.{outer}"), KeyTextError::InvalidKey),
        (format!("{secret}AAAA"), KeyTextError::InvalidKey),
        ("k1.secret.".to_owned(), KeyTextError::InvalidKey),
        (third, KeyTextError::OtherVersion),
        ("k1.seal.AAAA".to_owned(), KeyTextError::OtherVersion),
        (constant("RSA_SECRET_ID")?, KeyTextError::NoPaserk),
        (armored("PUBLIC KEY", outer), KeyTextError::OtherLabel),
        (
            armored("RSA PUBLIC KEY", &outer[FRONT..]),
            KeyTextError::OtherLabel,
        ),
        (first.private_key().to_pem()?, KeyTextError::OtherAlgorithm),
    ];
    for (text, fault) in cases {
        assert_eq!(fault_of::<Signs<V1>>(&text), Some(fault), "{text}");
    }
    // A private key where a public one is asked, a public key in PKCS #1, and another version.
    let cases = [
        (secret.clone(), KeyTextError::OtherType),
        (info.clone(), KeyTextError::OtherLabel),
        (old.clone(), KeyTextError::OtherLabel),
        (format!("k1.public.{inner}"), KeyTextError::InvalidKey),
        (
            format!("k1.public.{}", &outer[FRONT..]),
            KeyTextError::InvalidKey,
        ),
        ("k1.public.".to_owned(), KeyTextError::InvalidKey),
        (first.public_key().to_paserk()?, KeyTextError::OtherVersion),
    ];
    for (text, fault) in cases {
        assert_eq!(fault_of::<Verifies<V1>>(&text), Some(fault), "{text}");
    }
    let others = [
        (fault_of::<Signs<V3>>(&secret), KeyTextError::OtherVersion),
        (fault_of::<Signs<V4>>(&info), KeyTextError::OtherAlgorithm),
        (fault_of::<Signs<V4>>(&old), KeyTextError::OtherLabel),
        (
            fault_of::<PasetoSymmetricKey<V1, Local>>(&secret),
            KeyTextError::OtherType,
        ),
    ];
    for (found, wanted) in others {
        assert_eq!(found, Some(wanted));
    }
    Ok(())
}

#[test]
fn what_has_no_text() -> Outcome {
    let (private, public, wrapping) =
        (bytes("RSA_PRIVATE")?, bytes("RSA_PUBLIC")?, wrapping_key()?);
    let none = Some(KeyTextError::InvalidKey);
    for bytes in [public.as_slice(), b"no key", b"", &[0x30; 2000]] {
        let key = PasetoAsymmetricPrivateKey::<V1, Public>::from(bytes);
        assert_eq!(key.to_paserk().err(), none);
        assert_eq!(key.id().err(), none);
        assert_eq!(key.to_pem().err(), none);
        assert_eq!(key.to_wrapped(&wrapping).err(), none);
        assert_eq!(key.to_protected(b"a password").err(), none);
        assert_eq!(key.public_key().err(), Some(PasetoError::InvalidKey));
    }
    for bytes in [private.as_slice(), b"no key", b"", &[0x30; 2000]] {
        let key = PasetoAsymmetricPublicKey::<V1, Public>::from(bytes);
        assert_eq!(key.to_paserk().err(), none);
        assert_eq!(key.id().err(), none);
        assert_eq!(key.to_pem().err(), none);
    }
    Ok(())
}

#[test]
fn a_ring_finds_a_key_by_its_id() -> Outcome {
    let private: Signs<V1> = constant("RSA_SECRET_TEXT")?.parse()?;
    let public = private.public_key()?;
    let id = public.id()?;
    assert_eq!(id.as_str(), constant("RSA_PUBLIC_ID")?);
    let footer = key_footer(id.as_str());
    let token = PasetoBuilder::<V1, Public>::default()
        .set_footer(Footer::from(footer.as_str()))
        .build(&private)?;
    let mut ring = KeyRing::<Verifies<V1>>::new();
    let refused = ring.parse(&PasetoParser::default(), &token);
    assert!(
        matches!(refused, Err(KeyRingError::UnknownKey)),
        "{refused:?}"
    );
    ring.add(id.as_str(), public);
    let (found, claims) = ring.parse(&PasetoParser::default(), &token)?;
    assert!(found == id.as_str() && claims["exp"].is_string());
    // Another key under the id.
    let others = concat!(env!("CARGO_MANIFEST_DIR"), "/../../tests/keys_of_others");
    let other: Signs<V1> = std::fs::read_to_string(format!("{others}/openssl_rsa.pem"))?.parse()?;
    ring.add(id.as_str(), other.public_key()?);
    let refused = ring.parse(&PasetoParser::default(), &token);
    assert!(
        matches!(
            refused,
            Err(KeyRingError::Refused {
                source: GenericParserError::CipherError {
                    source: PasetoError::InvalidSignature
                }
            })
        ),
        "{refused:?}"
    );
    Ok(())
}
