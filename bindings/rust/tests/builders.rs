//! What builders write, and where it differs from rusty_paseto 0.8.0.

use paseto_proved::prelude::*;
use serde_json::Value;
use std::error::Error;
use time::{format_description::well_known::Rfc3339, Duration, OffsetDateTime};

type Outcome = Result<(), Box<dyn Error>>;

fn key() -> PasetoSymmetricKey<V4, Local> {
    PasetoSymmetricKey::from(Key::from([7; 32]))
}

fn claims_of(token: &str) -> Result<Value, GenericParserError> {
    PasetoParser::<V4, Local>::new().parse(token, &key())
}

fn moment_of(date: &Value) -> Result<OffsetDateTime, Box<dyn Error>> {
    let text = date.as_str().ok_or("no text")?;
    Ok(OffsetDateTime::parse(text, &Rfc3339)?)
}

#[test]
fn a_token_is_usable_at_once_and_for_an_hour() -> Outcome {
    let before = OffsetDateTime::now_utc();
    let claims = claims_of(&PasetoBuilder::<V4, Local>::default().build(&key())?)?;
    let after = OffsetDateTime::now_utc();
    let issued = moment_of(&claims["iat"])?;
    assert!(
        before <= issued && issued <= after,
        "{before} {issued} {after}"
    );
    assert_eq!(moment_of(&claims["nbf"])?, issued - Duration::SECOND);
    assert_eq!(moment_of(&claims["exp"])?, issued + Duration::HOUR);
    Ok(())
}

#[test]
fn a_token_that_never_expires_has_the_other_times_as_the_library_writes_them() -> Outcome {
    // One moment of ten ends in a zero, which is not written.
    for _ in 0..100 {
        let mut builder = PasetoBuilder::<V4, Local>::default();
        let expires = claims_of(&builder.build(&key())?)?;
        builder.set_no_expiration_danger_acknowledged();
        let lasts = claims_of(&builder.build(&key())?)?;
        assert_eq!(lasts.as_object().map(|claims| claims.len()), Some(2));
        assert_eq!(
            (&lasts["iat"], &lasts["nbf"]),
            (&expires["iat"], &expires["nbf"])
        );
    }
    let early = "2019-01-01T00:00:00+00:00";
    let mut builder = PasetoBuilder::<V4, Local>::default();
    builder
        .set_claim(IssuedAtClaim::try_from(early)?)
        .set_claim(NotBeforeClaim::try_from(early)?)
        .set_no_expiration_danger_acknowledged();
    let lasts = claims_of(&builder.build(&key())?)?;
    assert_eq!(
        (&lasts["iat"], &lasts["nbf"]),
        (&early.into(), &early.into())
    );
    Ok(())
}

#[test]
fn a_second_token_has_the_same_claims() -> Outcome {
    let mut builder = PasetoBuilder::<V4, Local>::default();
    builder.set_claim(SubjectClaim::from("ada"));
    let (one, two) = (builder.build(&key())?, builder.build(&key())?);
    assert_ne!(one, two);
    assert_eq!(claims_of(&one)?, claims_of(&two)?);
    Ok(())
}

#[test]
fn an_empty_key_is_ignored() -> Outcome {
    let token = GenericBuilder::<V4, Local>::default()
        .set_claim(CustomClaim::try_from(("", 1))?)
        .set_claim(CustomClaim::try_from(("a", Value::Null))?)
        .try_encrypt(&key())?;
    assert_eq!(claims_of(&token)?.to_string(), r#"{"a":null}"#);
    Ok(())
}

#[test]
fn a_footer_that_is_set_and_empty_ends_in_a_dot() -> Outcome {
    let token = PasetoBuilder::<V4, Local>::default()
        .set_footer(Footer::from(""))
        .build(&key())?;
    assert!(token.ends_with('.'), "{token}");
    assert!(PasetoParser::<V4, Local>::default()
        .parse(&token, &key())
        .is_ok());
    Ok(())
}

#[test]
fn texts_of_every_kind_come_back() -> Outcome {
    let text = "\"\\\u{0}\u{1f}\u{7f}\n\u{e9}\u{1f600}/";
    let token = PasetoBuilder::<V4, Local>::default()
        .set_claim(CustomClaim::try_from((text, vec![text]))?)
        .set_claim(CustomClaim::try_from(("numbers", (u64::MAX, i64::MIN)))?)
        .build(&key())?;
    let claims = PasetoParser::<V4, Local>::default()
        .check_claim(CustomClaim::try_from((text, [text]))?)
        .parse(&token, &key())?;
    assert_eq!(claims[text][0], text);
    assert_eq!(
        claims["numbers"].to_string(),
        "[18446744073709551615,-9223372036854775808]"
    );
    Ok(())
}

#[test]
fn a_validator_may_capture() -> Outcome {
    let token = PasetoBuilder::<V4, Local>::default()
        .set_claim(SubjectClaim::from("ada"))
        .build(&key())?;
    let subjects = std::cell::RefCell::new(Vec::new());
    PasetoParser::<V4, Local>::default()
        .validate_claim(SubjectClaim::default(), &|_, value| {
            subjects.borrow_mut().push(value.clone());
            Ok(())
        })
        .parse(&token, &key())?;
    assert_eq!(subjects.into_inner(), ["ada"]);
    Ok(())
}

#[test]
fn no_validator_runs_on_a_token_of_another_key() -> Outcome {
    let token = PasetoBuilder::<V4, Local>::default().build(&key())?;
    let other = PasetoSymmetricKey::<V4, Local>::from(Key::default());
    let read = PasetoParser::<V4, Local>::default()
        .validate_claim(SubjectClaim::default(), &|_, _| panic!("it ran"))
        .parse(&token, &other);
    assert!(matches!(
        read,
        Err(GenericParserError::CipherError {
            source: PasetoError::Cryption
        })
    ));
    Ok(())
}
