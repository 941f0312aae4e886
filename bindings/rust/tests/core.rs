//! Each call once, and each refusal by its name.

use paseto_proved::core::{
    Footer, ImplicitAssertion, Key, Local, Paseto, PasetoAsymmetricPrivateKey,
    PasetoAsymmetricPublicKey, PasetoError, PasetoNonce, PasetoSymmetricKey, Payload, Public,
    UntrustedToken, V1, V2, V3, V4,
};
use paseto_proved::keys::KeyTextError;
use std::error::Error;

type Outcome = Result<(), Box<dyn Error>>;

const DIGITS: &str = "707172737475767778797a7b7c7d7e7f808182838485868788898a8b8c8d8e8f";
const PRIVATE: &str = "b4cbfb43df4ce210727d953e4a713307fa19bb7d9f85041438d9e11b942a37741eb9dbbbbc047c03fd70604e0071f0987e16b28b757225c11f00415d0e20b1a2";

fn key() -> Result<PasetoSymmetricKey<V4, Local>, PasetoError> {
    Ok(PasetoSymmetricKey::from(Key::<32>::try_from(DIGITS)?))
}

fn encrypted(text: &str, footer: &str, assertion: &str) -> Result<String, PasetoError> {
    let nonce = Key::<32>::try_new_random()?;
    Paseto::<V4, Local>::builder()
        .set_payload(Payload::from(text))
        .set_footer(Footer::from(footer))
        .set_implicit_assertion(ImplicitAssertion::from(assertion))
        .try_encrypt(&key()?, &PasetoNonce::from(&nonce))
}

fn decrypted(token: &str, footer: &str, assertion: &str) -> Result<String, PasetoError> {
    let (footer, assertion) = (Footer::from(footer), ImplicitAssertion::from(assertion));
    Paseto::<V4, Local>::try_decrypt(token, &key()?, footer, assertion)
}

fn signed(text: &str) -> Result<String, PasetoError> {
    let private = Key::<64>::try_from(PRIVATE)?;
    Paseto::<V4, Public>::builder()
        .set_payload(Payload::from(text))
        .try_sign(&PasetoAsymmetricPrivateKey::from(&private))
}

fn verified(token: &str) -> Result<String, PasetoError> {
    let public = Key::<32>::try_from(&PRIVATE[64..])?;
    Paseto::<V4, Public>::try_verify(token, &PasetoAsymmetricPublicKey::from(&public), None, None)
}

#[test]
fn a_token_opens_under_its_key_footer_and_assertion() -> Outcome {
    let token = encrypted("a text", "a footer", "an assertion")?;
    assert_eq!(decrypted(&token, "a footer", "an assertion")?, "a text");
    assert_eq!(
        decrypted(&token, "another", "an assertion"),
        Err(PasetoError::FooterInvalid)
    );
    assert_eq!(
        decrypted(&token, "a footer", "another"),
        Err(PasetoError::Cryption)
    );
    Ok(())
}

#[test]
fn two_tokens_differ_by_their_nonces() -> Outcome {
    assert_ne!(encrypted("a text", "", "")?, encrypted("a text", "", "")?);
    Ok(())
}

#[test]
fn a_footer_that_is_set_and_empty_ends_in_a_dot() -> Outcome {
    let token = encrypted("a text", "", "")?;
    assert!(token.ends_with('.'), "{token}");
    assert_eq!(decrypted(&token, "", "")?, "a text");
    Ok(())
}

#[test]
fn a_text_of_a_megabyte_has_room() -> Outcome {
    let text = "a".repeat(1 << 20);
    assert_eq!(decrypted(&encrypted(&text, "", "")?, "", "")?, text);
    Ok(())
}

// Tokens of a byte 255, which is no text: Python's hashlib and a ChaCha20 written by the definition, which make the published
// tokens too, encrypted the one, and OpenSSL signed the other.
const NO_TEXT: &str = "v4.local.AAAAAAAAAAAAAAAAAAAAAAAAAAAAAAAAAAAAAAAAAACUxPhIoEOkuhIMDdH2KFRu2qm0q_sDr-gr_cFuLB3zAnU";
const NO_SIGNED_TEXT: &str =
    "v4.public._9V3tqI1lccdpRc9YXuHTY1BgR5JQqKPjKhcKWt-cuTafwGfQRQtx-KlwXa1P0yA6vgRTLKWSelIfXdvGoSjLws";

#[test]
fn what_a_token_holds_is_a_text() {
    assert_eq!(decrypted(NO_TEXT, "", ""), Err(PasetoError::Utf8Error));
    assert_eq!(verified(NO_SIGNED_TEXT), Err(PasetoError::FromUtf8Error));
}

fn with_another_nonce(token: &str) -> String {
    let other = if &token[20..21] == "A" { "B" } else { "A" };
    format!("{}{other}{}", &token[..20], &token[21..])
}

#[test]
fn refusals_of_local_tokens() -> Outcome {
    let token = encrypted("a text", "a footer", "")?;
    let cases = [
        ("v4.local".to_owned(), PasetoError::IncorrectSize),
        (token.replacen("v4.", "v3.", 1), PasetoError::WrongHeader),
        (
            token.replacen("v4.local.", "v4.local.!", 1),
            PasetoError::PayloadBase64Decode,
        ),
        (with_another_nonce(&token), PasetoError::Cryption),
    ];
    for (case, error) in cases {
        assert_eq!(decrypted(&case, "a footer", ""), Err(error), "{case}");
    }
    Ok(())
}

#[test]
fn refusals_of_public_tokens() -> Outcome {
    let token = signed("a text")?;
    assert_eq!(verified(&token)?, "a text");
    let other = signed("b text")?;
    let (front, _) = token.split_at(token.len() - 86);
    let (_, signature) = other.split_at(other.len() - 86);
    assert_eq!(
        verified(&format!("{front}{signature}")),
        Err(PasetoError::InvalidSignature)
    );
    Ok(())
}

#[test]
fn a_public_key_that_is_no_point_verifies_nothing() -> Outcome {
    // No point of P-384 has this first coordinate, and none of edwards25519 the second one of the other key.
    let mut bytes = [9; 49];
    (bytes[0], bytes[48]) = (2, 1);
    let key = Key::<49>::from(bytes);
    let public = PasetoAsymmetricPublicKey::<V3, Public>::try_from(&key)?;
    let token = format!("v3.public.{}", "A".repeat(200));
    let read = Paseto::<V3, Public>::try_verify(&token, &public, None, None);
    assert_eq!(read, Err(PasetoError::InvalidSignature));
    let key = Key::<32>::from([2; 32]);
    let public = PasetoAsymmetricPublicKey::<V4, Public>::from(&key);
    let read = Paseto::<V4, Public>::try_verify(&signed("a text")?, &public, None, None);
    assert_eq!(read, Err(PasetoError::InvalidSignature));
    Ok(())
}

#[test]
fn private_keys_are_asked() -> Outcome {
    let short: &[u8] = &[0; 63];
    let of = |key: &[u8]| {
        Paseto::<V4, Public>::builder().try_sign(&PasetoAsymmetricPrivateKey::from(key))
    };
    assert_eq!(of(short), Err(PasetoError::InvalidKey));
    assert_eq!(of(&[0; 64]), Err(PasetoError::Signature));
    let zero = Key::<48>::default();
    let refused =
        Paseto::<V3, Public>::builder().try_sign(&PasetoAsymmetricPrivateKey::from(&zero));
    assert_eq!(refused, Err(PasetoError::KeyRejected));
    Ok(())
}

#[test]
fn keys_are_read_from_digits() {
    assert!(Key::<32>::try_from(DIGITS).is_ok());
    assert_eq!(
        Key::<32>::try_from("70").err(),
        Some(PasetoError::InvalidKey)
    );
    assert_eq!(
        Key::<1>::try_from("7g").err(),
        Some(PasetoError::InvalidKey)
    );
    assert_eq!(
        PasetoAsymmetricPublicKey::<V3, Public>::try_from(&Key::<49>::default()).err(),
        Some(PasetoError::InvalidKey)
    );
}

#[test]
fn keys_are_not_shown() -> Outcome {
    assert_eq!(
        format!("{:?}", Key::<32>::try_from(DIGITS)?),
        "!!! KEY IS PRIVATE !!!"
    );
    Ok(())
}

#[test]
fn every_version_encrypts_and_decrypts() -> Outcome {
    macro_rules! round {
        ($($version:ident: $($none:ident)?;)*) => {$({
            let key = PasetoSymmetricKey::<$version, Local>::from(Key::<32>::try_new_random()?);
            let nonce = Key::<32>::try_new_random()?;
            let token = Paseto::<$version, Local>::builder()
                .set_payload(Payload::from("a text"))
                .try_encrypt(&key, &PasetoNonce::from(&nonce))?;
            assert_eq!(Paseto::<$version, Local>::try_decrypt(&token, &key, None $(, $none)?)?, "a text");
        })*};
    }
    round! { V1: ; V2: ; V3: None; V4: None; }
    Ok(())
}

#[test]
fn a_wrong_key_of_version_2_says_so() -> Outcome {
    let (one, other) = (Key::<32>::try_new_random()?, Key::<32>::try_new_random()?);
    let token = Paseto::<V2, Local>::builder()
        .set_payload(Payload::from("a text"))
        .try_encrypt(
            &PasetoSymmetricKey::from(one.clone()),
            &PasetoNonce::from(&other),
        )?;
    let opened = Paseto::<V2, Local>::try_decrypt(&token, &PasetoSymmetricKey::from(other), None);
    assert_eq!(opened, Err(PasetoError::ChaChaCipherError));
    Ok(())
}

#[test]
fn untrusted_tokens_are_read() -> Outcome {
    let token = encrypted("a text", "{\"kid\":\"key-1\"}", "")?;
    let untrusted = UntrustedToken::try_parse(&token)?;
    assert_eq!((untrusted.version(), untrusted.purpose()), ("v4", "local"));
    assert_eq!(untrusted.footer_base64(), Some("eyJraWQiOiJrZXktMSJ9"));
    assert_eq!(
        format!("{untrusted:?}"),
        r#"UntrustedToken { version: "v4", purpose: "local", footer: Some("eyJraWQiOiJrZXktMSJ9") }"#
    );
    assert_eq!(
        Footer::try_from_token(&token)?.as_deref(),
        Some("{\"kid\":\"key-1\"}")
    );
    assert_eq!(Footer::try_from_token("v4.local.payload")?, None);
    assert_eq!(
        Footer::try_from_token("v4.local.payload.")?.as_deref(),
        Some("")
    );
    let no_text = UntrustedToken::try_parse("v4.local.payload._w")?;
    assert_eq!(no_text.footer_decoded()?, Some(vec![255]));
    Ok(())
}

#[test]
fn refusals_of_untrusted_tokens() {
    let cases = [
        ("v4.local", PasetoError::IncorrectSize),
        ("v4.local.a.b.c", PasetoError::IncorrectSize),
        ("v4.local.a.b", PasetoError::PayloadBase64Decode),
        ("v4.local.a.b!==", PasetoError::PayloadBase64Decode),
        ("v4.local.a.Zh", PasetoError::PayloadBase64Decode),
        ("v4.local.a._w", PasetoError::Utf8Error),
    ];
    for (token, error) in cases {
        assert_eq!(Footer::try_from_token(token), Err(error), "{token}");
    }
}

// Keys that are wrapped and sealed, which the PASERK specification publishes, and one under a password.
const WRAPPED: &str = "k4.local-wrap.pie.y-PC8Zh6P1DoOBUdhRr7W8GWSgHtRKvE8PWWYA-qXy3fxJDmaRsxcZVQzuvXHZuBg5MqCgh_y5K0WbukJCrDX73Wdf631VBnE1DNHafbjnGNzFNWP59ba9ifsOAgE7Bw";
const SEALED: &str = "k4.seal.OPFn-AEUsKUWtAUZrutVvd9YaZ4CmV4_lk6ii8N72l5gTnl8RlL_zRFqWTZZV9gSnPzARQ_QklrZ2Qs6cJGKOENNOnsDXL5haXcr-QbTXgoLVBvT4ruJ8MdjWXGRTVc9";
const OPENER: &str = "k4.secret.QHeW9LxLgYTp_gxUszaCLTSCMJKthz2HuhTD77nbjB23cVvWYUWNkoZU0-gy9T_1yUgFQuDj1MmwMsdox85gIw";
const LOCKED: &str = "k4.local-pw.mmKAB81ygMwXuk4p-914pgAAAAAAAQAAAAAAAgAAAANPwsCsIPKoF2n5RpLAqNM7AXDtS5Vs6HHzespPD0zsJ2lKRmx41IaxDmqz4fyhPTkxfOUp5_-b5fQ-LKWeH5OZsLmj5NgxhPdR7KjxdtX6I8h7yYZArlMg";
const INSIDE: &str = "k4.local.RUqrYrrUhVn4zTstGCJFLESLm0W7L0IdTCGiACjvYdU";

#[test]
fn locked_keys_are_read() -> Outcome {
    type Symmetric = PasetoSymmetricKey<V4, Local>;
    type Private = PasetoAsymmetricPrivateKey<'static, V4, Public>;
    let private: Private = OPENER.parse()?;
    assert_eq!(Symmetric::try_unwrap(WRAPPED, &key()?)?.as_ref(), [0; 32]);
    assert_eq!(Symmetric::try_unseal(SEALED, &private)?.as_ref(), [0; 32]);
    let opened = Symmetric::try_unlock(LOCKED, "paßwort".as_bytes())?;
    assert_eq!(opened.to_paserk()?, INSIDE);

    let other = Symmetric::try_new_random()?;
    // In place of 64 KiB it asks for 2 GiB.
    let costly = LOCKED.replacen("pgAAAAAAAQAAAAAAAgAAAAN", "pgAAAACAAAAAAAAAAgAAAAN", 1);
    assert_ne!(costly, LOCKED);
    let refusals = [
        (
            Symmetric::try_unlock(LOCKED, b"passwort").err(),
            KeyTextError::WrongKey,
        ),
        (
            Symmetric::try_unwrap(WRAPPED, &other).err(),
            KeyTextError::WrongKey,
        ),
        (WRAPPED.parse::<Symmetric>().err(), KeyTextError::NeedsKey),
        (SEALED.parse::<Symmetric>().err(), KeyTextError::NeedsKey),
        (
            LOCKED.parse::<Symmetric>().err(),
            KeyTextError::NeedsPassword,
        ),
        (
            Private::try_unlock(LOCKED, "paßwort".as_bytes()).err(),
            KeyTextError::OtherType,
        ),
        (
            Private::try_unwrap(WRAPPED, &key()?).err(),
            KeyTextError::OtherType,
        ),
        (
            Symmetric::try_unlock(&costly, b"a password").err(),
            KeyTextError::TooCostly,
        ),
        (
            PasetoSymmetricKey::<V2, Local>::try_unlock(LOCKED, "paßwort".as_bytes()).err(),
            KeyTextError::OtherVersion,
        ),
    ];
    for (found, wanted) in refusals {
        assert_eq!(found, Some(wanted));
    }
    Ok(())
}
