//! The fifteen Rust examples of the README of rusty_paseto 0.8.0, written anew and shortened, with its calls in its order.

extern crate paseto_proved as rusty_paseto;

use rusty_paseto::prelude::*;
use std::error::Error;
use time::{format_description::well_known::Rfc3339, Duration, OffsetDateTime};

type Outcome = Result<(), Box<dyn Error>>;

const FOOTER: &str = "science and art";

fn key() -> PasetoSymmetricKey<V4, Local> {
    PasetoSymmetricKey::<V4, Local>::from(Key::from(b"thirty-two bytes for each of you"))
}

fn in_minutes(minutes: i64) -> Result<String, time::error::Format> {
    (OffsetDateTime::now_utc() + Duration::minutes(minutes)).format(&Rfc3339)
}

fn is_prime(number: u64) -> bool {
    number > 1 && (2..number).all(|divisor| number % divisor != 0)
}

fn prime_universe(key: &str, value: &serde_json::Value) -> Result<(), PasetoClaimError> {
    let universe = value
        .as_u64()
        .ok_or(PasetoClaimError::Unexpected(key.to_string()))?;
    if is_prime(universe) {
        Ok(())
    } else {
        Err(PasetoClaimError::CustomValidation(key.to_string()))
    }
}

#[test]
fn example_01_a_token_is_built() -> Outcome {
    let token = PasetoBuilder::<V4, Local>::default().build(&key())?;
    assert!(token.starts_with("v4.local."));
    assert_eq!(token.split('.').count(), 3);
    Ok(())
}

#[test]
fn example_02_a_default_token_is_parsed() -> Outcome {
    let key = key();
    let token = PasetoBuilder::<V4, Local>::default().build(&key)?;
    let json_value = PasetoParser::<V4, Local>::default().parse(&token, &key)?;
    assert!(json_value["exp"].is_string());
    assert!(json_value["iat"].is_string());
    Ok(())
}

#[test]
fn example_03_an_expired_token_is_refused() -> Outcome {
    let key = key();
    let token = PasetoBuilder::<V4, Local>::default()
        .set_claim(ExpirationClaim::try_from("2019-01-01T00:00:00+00:00")?)
        .build(&key)?;
    match PasetoParser::<V4, Local>::default().parse(&token, &key) {
        Ok(json_value) => Err(format!("it was taken: {json_value}").into()),
        Err(err) => {
            assert_eq!(err.to_string(), "This token is expired");
            Ok(())
        }
    }
}

#[test]
fn example_04_a_token_has_a_footer() -> Outcome {
    let token = PasetoBuilder::<V4, Local>::default()
        .set_footer(Footer::from(FOOTER))
        .build(&key())?;
    assert_eq!(Footer::try_from_token(&token)?.as_deref(), Some(FOOTER));
    Ok(())
}

#[test]
fn example_05_the_footer_is_expected() -> Outcome {
    let key = key();
    let token = PasetoBuilder::<V4, Local>::default()
        .set_footer(Footer::from(FOOTER))
        .build(&key)?;
    let json_value = PasetoParser::<V4, Local>::default()
        .set_footer(Footer::from(FOOTER))
        .parse(&token, &key)?;
    assert!(json_value["exp"].is_string());
    assert!(json_value["iat"].is_string());
    Ok(())
}

#[test]
fn example_06_a_token_has_an_implicit_assertion() -> Outcome {
    let token = PasetoBuilder::<V4, Local>::default()
        .set_footer(Footer::from(FOOTER))
        .set_implicit_assertion(ImplicitAssertion::from("There’s a lesson here"))
        .build(&key())?;
    assert_eq!(token.split('.').count(), 4);
    Ok(())
}

#[test]
fn example_07_the_implicit_assertion_is_expected() -> Outcome {
    let key = key();
    let token = PasetoBuilder::<V4, Local>::default()
        .set_footer(Footer::from(FOOTER))
        .set_implicit_assertion(ImplicitAssertion::from("There’s a lesson here"))
        .build(&key)?;
    let json_value = PasetoParser::<V4, Local>::default()
        .set_footer(Footer::from(FOOTER))
        .set_implicit_assertion(ImplicitAssertion::from("There’s a lesson here"))
        .parse(&token, &key)?;
    assert!(json_value["exp"].is_string());
    Ok(())
}

#[test]
fn example_08_a_token_expires_at_another_time() -> Outcome {
    let (key, in_5_minutes) = (key(), in_minutes(5)?);
    let token = PasetoBuilder::<V4, Local>::default()
        .set_claim(ExpirationClaim::try_from(in_5_minutes.clone())?)
        .set_footer(Footer::from(FOOTER))
        .build(&key)?;
    let json_value = PasetoParser::<V4, Local>::default()
        .set_footer(Footer::from(FOOTER))
        .parse(&token, &key)?;
    assert_eq!(json_value["exp"], in_5_minutes);
    Ok(())
}

#[test]
fn example_09_a_token_never_expires() -> Outcome {
    let (key, in_5_minutes) = (key(), in_minutes(5)?);
    let token = PasetoBuilder::<V4, Local>::default()
        .set_claim(ExpirationClaim::try_from(in_5_minutes)?)
        .set_no_expiration_danger_acknowledged()
        .build(&key)?;
    let json_value = PasetoParser::<V4, Local>::default().parse(&token, &key)?;
    assert_eq!(json_value.get("exp"), None);
    assert!(json_value["iat"].is_string() && json_value["nbf"].is_string());
    Ok(())
}

#[test]
fn example_10_the_reserved_claims_are_set() -> Outcome {
    let (key, in_5_minutes) = (key(), in_minutes(5)?);
    let in_2_minutes = (OffsetDateTime::now_utc() + Duration::minutes(2)).format(&Rfc3339)?;
    let token = PasetoBuilder::<V4, Local>::default()
        .set_claim(ExpirationClaim::try_from(in_5_minutes)?)
        .set_claim(NotBeforeClaim::try_from(in_2_minutes.clone())?)
        .set_claim(AudienceClaim::from("Cromulons"))
        .set_claim(SubjectClaim::from("Get schwifty"))
        .set_claim(IssuerClaim::from("Earth Cesium-137"))
        .set_claim(TokenIdentifierClaim::from("Planet Music - Season 988"))
        .build(&key)?;
    let json_value = PasetoParser::<V4, Local>::new().parse(&token, &key)?;
    assert_eq!(json_value["nbf"], in_2_minutes);
    assert_eq!(json_value["aud"], "Cromulons");
    assert_eq!(json_value["jti"], "Planet Music - Season 988");
    Ok(())
}

#[test]
fn example_11_custom_claims_are_set() -> Outcome {
    let key = key();
    let token = PasetoBuilder::<V4, Local>::default()
        .set_claim(CustomClaim::try_from(("Co-star", "Morty Smith"))?)
        .set_claim(CustomClaim::try_from(("Universe", 137))?)
        .build(&key)?;
    let json_value = PasetoParser::<V4, Local>::default().parse(&token, &key)?;
    assert_eq!(json_value["Co-star"], "Morty Smith");
    assert_eq!(json_value["Universe"], 137);
    Ok(())
}

#[test]
fn example_12_a_reserved_key_is_no_custom_claim() {
    let build = || -> Result<String, Box<dyn Error>> {
        let token = PasetoBuilder::<V4, Local>::default()
            .set_claim(CustomClaim::try_from(("exp", "Some expiration value"))?)
            .build(&key())?;
        Ok(token)
    };
    let refused = build().map_err(|fault| fault.to_string());
    assert!(
        matches!(&refused, Err(text) if text.starts_with("The key exp is a reserved")),
        "{refused:?}"
    );
}

#[test]
fn example_13_claims_are_checked() -> Outcome {
    let key = key();
    let token = PasetoBuilder::<V4, Local>::default()
        .set_claim(SubjectClaim::from("Get schwifty"))
        .set_claim(CustomClaim::try_from(("Contestant", "Earth"))?)
        .set_claim(CustomClaim::try_from(("Universe", 137))?)
        .build(&key)?;
    PasetoParser::<V4, Local>::default()
        .check_claim(SubjectClaim::from("Get schwifty"))
        .check_claim(CustomClaim::try_from(("Contestant", "Earth"))?)
        .check_claim(CustomClaim::try_from(("Universe", 137))?)
        .parse(&token, &key)?;
    Ok(())
}

#[test]
fn example_14_a_closure_validates_a_claim() -> Outcome {
    let key = key();
    let token = PasetoBuilder::<V4, Local>::default()
        .set_claim(SubjectClaim::from("Get schwifty"))
        .set_claim(CustomClaim::try_from(("Contestant", "Earth"))?)
        .set_claim(CustomClaim::try_from(("Universe", 137))?)
        .build(&key)?;
    PasetoParser::<V4, Local>::default()
        .check_claim(SubjectClaim::from("Get schwifty"))
        .check_claim(CustomClaim::try_from(("Contestant", "Earth"))?)
        .validate_claim(CustomClaim::try_from("Universe")?, &|key, value| {
            let universe = value
                .as_u64()
                .ok_or(PasetoClaimError::Unexpected(key.to_string()))?;
            if is_prime(universe) {
                Ok(())
            } else {
                Err(PasetoClaimError::CustomValidation(key.to_string()))
            }
        })
        .parse(&token, &key)?;
    Ok(())
}

#[test]
fn example_15_a_closure_refuses_a_claim() -> Outcome {
    let key = key();
    let token = PasetoBuilder::<V4, Local>::default()
        .set_claim(CustomClaim::try_from(("Universe", 136))?)
        .build(&key)?;
    let refused = PasetoParser::<V4, Local>::default()
        .validate_claim(CustomClaim::try_from("Universe")?, &prime_universe)
        .parse(&token, &key);
    assert!(
        matches!(
            &refused,
            Err(GenericParserError::ClaimError {
                source: PasetoClaimError::CustomValidation(key)
            }) if key == "Universe"
        ),
        "{refused:?}"
    );
    Ok(())
}
