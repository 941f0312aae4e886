//! The public items of rusty_paseto 0.8.0: its types, what each implements, each call with its arguments and its answer, the
//! variants of its errors with their texts, and its features. This program compiles only where all are there. The few that
//! are not, the errors of other crates and a nonce of 24 bytes, stand in `docs/DIFFERENCES.md` of the repository.
#![allow(clippy::type_complexity, clippy::extra_unused_lifetimes)]

use erased_serde::Serialize as Written;
use paseto_proved::prelude::*;
use serde_json::Value;
use std::collections::HashMap;
use std::convert::Infallible;
use std::error::Error;
use std::fmt::{Debug, Display};
use std::ops::Deref;

type Outcome = Result<(), Box<dyn Error>>;

// Each module has its own names and those of the modules before it.
mod modules {
    #![allow(unused_imports)]

    mod of_core {
        use paseto_proved::core::{
            Footer, ImplicitAssertion, ImplicitAssertionCapable, Key, Local, Paseto,
            PasetoAsymmetricPrivateKey, PasetoAsymmetricPublicKey, PasetoError, PasetoNonce,
            PasetoSymmetricKey, Payload, Public, PurposeTrait, UntrustedToken, VersionTrait, V1,
            V2, V3, V4,
        };
    }

    mod of_generic {
        use paseto_proved::generic::{
            AudienceClaim, CustomClaim, ExpirationClaim, GenericBuilder, GenericBuilderError,
            GenericParser, GenericParserError, IssuedAtClaim, IssuerClaim, NotBeforeClaim,
            PasetoClaim, PasetoClaimError, SubjectClaim, TokenIdentifierClaim, ValidatorFn,
            ValidatorMap,
        };
        use paseto_proved::generic::{
            Footer, ImplicitAssertion, ImplicitAssertionCapable, Key, Local, Paseto,
            PasetoAsymmetricPrivateKey, PasetoAsymmetricPublicKey, PasetoError, PasetoNonce,
            PasetoSymmetricKey, Payload, Public, PurposeTrait, UntrustedToken, VersionTrait, V1,
            V2, V3, V4,
        };
    }

    mod of_prelude {
        use paseto_proved::prelude::{
            AudienceClaim, CustomClaim, ExpirationClaim, GenericBuilder, GenericBuilderError,
            GenericParser, GenericParserError, IssuedAtClaim, IssuerClaim, NotBeforeClaim,
            PasetoClaim, PasetoClaimError, SubjectClaim, TokenIdentifierClaim, ValidatorFn,
            ValidatorMap,
        };
        use paseto_proved::prelude::{
            Footer, ImplicitAssertion, ImplicitAssertionCapable, Key, Local, Paseto,
            PasetoAsymmetricPrivateKey, PasetoAsymmetricPublicKey, PasetoError, PasetoNonce,
            PasetoSymmetricKey, Payload, Public, PurposeTrait, UntrustedToken, VersionTrait, V1,
            V2, V3, V4,
        };
        use paseto_proved::prelude::{GeneralPasetoError, PasetoBuilder, PasetoParser};
    }
}

// ---- what the types implement

macro_rules! implement {
    ($($type:ty: $($bound:path),+;)*) => {$($({
        fn asked<T: $bound>() {}
        asked::<$type>();
    })+)*};
}

#[test]
fn types_implement_what_they_do_there() {
    implement! {
        V1: VersionTrait, Clone, Copy, Debug, Default, Display, AsRef<str>;
        V2: VersionTrait, Clone, Copy, Debug, Default, Display, AsRef<str>;
        V3: VersionTrait, ImplicitAssertionCapable, Clone, Copy, Debug, Default, Display, AsRef<str>;
        V4: VersionTrait, ImplicitAssertionCapable, Clone, Copy, Debug, Default, Display, AsRef<str>;
        Local: PurposeTrait, Clone, Copy, Debug, Default, Display, AsRef<str>;
        Public: PurposeTrait, Clone, Copy, Debug, Default, Display, AsRef<str>;
        Footer<'static>: From<&'static str>, AsRef<str>, Deref<Target = [u8]>, Display, PartialEq, Eq, Default, Debug, Clone,
            Copy;
        ImplicitAssertion<'static>: From<&'static str>, AsRef<str>, Deref<Target = [u8]>, Display, PartialEq, Eq, Default,
            Debug, Clone, Copy;
        Payload<'static>: From<&'static str>, AsRef<str>, Deref<Target = [u8]>, Display, PartialEq<&'static str>,
            PartialEq<String>, Default, Debug, Clone, Copy;
        UntrustedToken<'static>: Debug, Clone, Copy;
        Paseto<'static, V4, Local>: Default, Clone, Copy;
    }
    implement! {
        Key<32>: Default, AsRef<[u8]>, Deref<Target = [u8; 32]>, From<&'static [u8]>, From<&'static [u8; 32]>, From<[u8; 32]>,
            TryFrom<&'static str, Error = PasetoError>, Clone, Debug;
        PasetoNonce<'static, V1, Local>: From<&'static Key<32>>, AsRef<[u8]>, Deref<Target = [u8]>;
        PasetoNonce<'static, V2, Local>: From<&'static Key<32>>, AsRef<[u8]>, Deref<Target = [u8]>;
        PasetoNonce<'static, V3, Local>: From<&'static Key<32>>, AsRef<[u8]>, Deref<Target = [u8]>;
        PasetoNonce<'static, V4, Local>: From<&'static Key<32>>, AsRef<[u8]>, Deref<Target = [u8]>;
        PasetoNonce<'static, V2, Public>: From<&'static Lent>;
        PasetoSymmetricKey<V1, Local>: From<Key<32>>, AsRef<[u8]>;
        PasetoSymmetricKey<V2, Local>: From<Key<32>>, AsRef<[u8]>;
        PasetoSymmetricKey<V3, Local>: From<Key<32>>, AsRef<[u8]>;
        PasetoSymmetricKey<V4, Local>: From<Key<32>>, AsRef<[u8]>;
        PasetoAsymmetricPrivateKey<'static, V1, Public>: From<&'static [u8]>, AsRef<[u8]>;
        PasetoAsymmetricPrivateKey<'static, V2, Public>: From<&'static [u8]>, From<&'static Key<64>>, AsRef<[u8]>;
        PasetoAsymmetricPrivateKey<'static, V3, Public>: From<&'static Key<48>>, AsRef<[u8]>;
        PasetoAsymmetricPrivateKey<'static, V4, Public>: From<&'static [u8]>, From<&'static Key<64>>, AsRef<[u8]>;
        PasetoAsymmetricPublicKey<'static, V1, Public>: From<&'static [u8]>, AsRef<[u8]>;
        PasetoAsymmetricPublicKey<'static, V2, Public>: From<&'static Key<32>>, AsRef<[u8]>;
        PasetoAsymmetricPublicKey<'static, V3, Public>: TryFrom<&'static Key<49>, Error = PasetoError>, AsRef<[u8]>;
        PasetoAsymmetricPublicKey<'static, V4, Public>: From<&'static Key<32>>, AsRef<[u8]>;
    }
}

// Bytes that a type of the caller's lends.
struct Lent(&'static [u8]);

impl From<&'static Lent> for &'static [u8] {
    fn from(lent: &'static Lent) -> Self {
        lent.0
    }
}

impl From<Lent> for &'static [u8] {
    fn from(lent: Lent) -> Self {
        lent.0
    }
}

#[test]
fn claims_builders_and_errors_implement_what_they_do_there() {
    type Texts = (&'static str, &'static str);
    type Strings = (String, String);
    implement! {
        AudienceClaim<'static>: PasetoClaim, serde::Serialize, Default, From<&'static str>, AsRef<Texts>, Clone;
        IssuerClaim<'static>: PasetoClaim, serde::Serialize, Default, From<&'static str>, AsRef<Texts>, Clone;
        SubjectClaim<'static>: PasetoClaim, serde::Serialize, Default, From<&'static str>, AsRef<Texts>, Clone;
        TokenIdentifierClaim<'static>: PasetoClaim, serde::Serialize, Default, From<&'static str>, AsRef<Texts>, Clone;
        ExpirationClaim: PasetoClaim, serde::Serialize, Default, TryFrom<&'static str, Error = PasetoClaimError>,
            TryFrom<String, Error = PasetoClaimError>, AsRef<Strings>, Clone;
        IssuedAtClaim: PasetoClaim, serde::Serialize, Default, TryFrom<&'static str, Error = PasetoClaimError>,
            TryFrom<String, Error = PasetoClaimError>, AsRef<Strings>, Clone;
        NotBeforeClaim: PasetoClaim, serde::Serialize, Default, TryFrom<&'static str, Error = PasetoClaimError>,
            TryFrom<String, Error = PasetoClaimError>, AsRef<Strings>, Clone;
        CustomClaim<&'static str>: TryFrom<&'static str, Error = PasetoClaimError>;
        CustomClaim<u8>: PasetoClaim, serde::Serialize, TryFrom<(String, u8), Error = PasetoClaimError>,
            TryFrom<(&'static str, u8), Error = PasetoClaimError>, AsRef<(String, u8)>, Clone, Debug;
        GenericBuilder<'static, 'static, V4, Local>: Default;
        GenericParser<'static, 'static, V4, Local>: Default;
        PasetoBuilder<'static, V4, Local>: Default;
        PasetoParser<'static, V4, Local>: Default;
        PasetoError: Error, Debug, From<std::array::TryFromSliceError>, From<std::str::Utf8Error>, From<Infallible>,
            From<std::string::FromUtf8Error>;
        PasetoClaimError: Error, Debug;
        GenericBuilderError: Error, Debug, From<PasetoClaimError>, From<PasetoError>, From<serde_json::Error>;
        GenericParserError: Error, Debug, From<PasetoClaimError>, From<PasetoError>, From<serde_json::Error>;
        GeneralPasetoError: Error, Debug, From<Infallible>, From<time::error::Format>;
    }
}

// ---- the calls, with their arguments and answers

#[test]
fn calls_of_core_are_those() {
    fn of<'t>() {
        type Made<T> = Result<T, PasetoError>;
        let _: fn() -> Made<Key<32>> = Key::try_new_random;
        let _: fn(&str) -> Made<Option<String>> = Footer::try_from_token;
        let _: fn(&'t str) -> Made<UntrustedToken<'t>> = UntrustedToken::try_parse;
        let _: for<'s> fn(&'s UntrustedToken<'t>) -> &'s str = |token| token.version();
        let _: for<'s> fn(&'s UntrustedToken<'t>) -> &'s str = |token| token.purpose();
        let _: for<'s> fn(&'s UntrustedToken<'t>) -> Option<&'s str> =
            |token| token.footer_base64();
        let _: fn(&UntrustedToken<'t>) -> Made<Option<Vec<u8>>> = UntrustedToken::footer_decoded;
        let _: fn(&UntrustedToken<'t>) -> Made<Option<String>> = UntrustedToken::footer_str;
        type Parts<'t> = Paseto<'t, V4, Local>;
        let _: fn() -> Parts<'t> = Paseto::builder;
        let _: for<'s> fn(&'s mut Parts<'t>, Payload<'t>) -> &'s mut Parts<'t> =
            Paseto::set_payload;
        let _: for<'s> fn(&'s mut Parts<'t>, Footer<'t>) -> &'s mut Parts<'t> = Paseto::set_footer;
        let _: for<'s> fn(&'s mut Parts<'t>, ImplicitAssertion<'t>) -> &'s mut Parts<'t> =
            Paseto::set_implicit_assertion;
    }
    of();
}

macro_rules! kinds {
    ($($version:ident $($assertion:ident)?;)*) => {$({
        type Symmetric = PasetoSymmetricKey<$version, Local>;
        type Private<'t> = PasetoAsymmetricPrivateKey<'t, $version, Public>;
        type Public_<'t> = PasetoAsymmetricPublicKey<'t, $version, Public>;
        fn of_core<'t>() {
            type Made = Result<String, PasetoError>;
            let _: fn(&mut Paseto<'t, $version, Local>, &Symmetric, &PasetoNonce<'_, $version, Local>) -> Made =
                |parts, key, nonce| parts.try_encrypt(key, nonce);
            let _: fn(&'t str, &Symmetric, Footer<'t>) -> Made = |token, key, footer| {
                $(let $assertion = ImplicitAssertion::default();)?
                Paseto::<$version, Local>::try_decrypt(token, key, footer $(, $assertion)?)
            };
            let _: fn(&'t str, &Symmetric, Option<Footer<'t>>) -> Made = |token, key, footer| {
                $(let $assertion = None;)?
                Paseto::<$version, Local>::try_decrypt(token, key, footer $(, $assertion)?)
            };
            let _: fn(&mut Paseto<'t, $version, Public>, &Private<'_>) -> Made = |parts, key| parts.try_sign(key);
            let _: fn(&'t str, &Public_<'_>, Footer<'t>) -> Made = |token, key, footer| {
                $(let $assertion = ImplicitAssertion::default();)?
                Paseto::<$version, Public>::try_verify(token, key, footer $(, $assertion)?)
            };
            let _: fn(&'t str, &Public_<'_>, Option<Footer<'t>>) -> Made = |token, key, footer| {
                $(let $assertion = None;)?
                Paseto::<$version, Public>::try_verify(token, key, footer $(, $assertion)?)
            };
        }
        fn of_builders<'t>() {
            type Made = Result<String, GenericBuilderError>;
            let _: fn(&mut GenericBuilder<'t, 't, $version, Local>, &Symmetric) -> Made = GenericBuilder::<$version, Local>::try_encrypt;
            let _: fn(&mut GenericBuilder<'t, 't, $version, Public>, &Private<'_>) -> Made = |builder, key| builder.try_sign(key);
            let _: fn(&mut PasetoBuilder<'t, $version, Local>, &Symmetric) -> Made = PasetoBuilder::<$version, Local>::build;
            let _: fn(&mut PasetoBuilder<'t, $version, Public>, &Private<'_>) -> Made = |builder, key| builder.build(key);
        }
        fn of_parsers<'t>() {
            type Read = Result<Value, GenericParserError>;
            let _: fn(&mut GenericParser<'t, 't, $version, Local>, &'t str, &'t Symmetric) -> Read =
                |parser, token, key| parser.parse(token, key);
            let _: fn(&mut GenericParser<'t, 't, $version, Public>, &'t str, &'t Public_<'_>) -> Read =
                |parser, token, key| parser.parse(token, key);
            let _: fn(&mut PasetoParser<'t, $version, Local>, &'t str, &'t Symmetric) -> Read =
                |parser, token, key| parser.parse(token, key);
            let _: fn(&mut PasetoParser<'t, $version, Public>, &'t str, &'t Public_<'_>) -> Read =
                |parser, token, key| parser.parse(token, key);
        }
        of_core();
        of_builders();
        of_parsers();
    })*};
}

#[test]
fn calls_of_each_kind_are_those() {
    kinds! {
        V1;
        V2;
        V3 assertion;
        V4 assertion;
    }
}

// The setters of the versions that have implicit assertions, and of those that have none.
macro_rules! setters {
    ($($version:ident $purpose:ident $($assertion:ident)?;)*) => {$({
        fn of<'t>() {
            type Claims<'t> = HashMap<String, Box<dyn Written + 't>>;
            type Builder<'t> = GenericBuilder<'t, 't, $version, $purpose>;
            let _: fn() -> Builder<'t> = GenericBuilder::new;
            let _: for<'s> fn(&'s mut Builder<'t>, &str) -> &'s mut Builder<'t> = GenericBuilder::remove_claim;
            let _: for<'s> fn(&'s mut Builder<'t>, Claims<'static>) -> &'s mut Builder<'t> =
                |builder, claims| builder.extend_claims(claims);
            let _: for<'s> fn(&'s mut Builder<'t>, SubjectClaim<'t>) -> &'s mut Builder<'t> = GenericBuilder::set_claim;
            let _: for<'s> fn(&'s mut Builder<'t>, Footer<'t>) -> &'s mut Builder<'t> = GenericBuilder::set_footer;
            let _: fn(&mut Builder<'t>) -> Result<String, serde_json::Error> = GenericBuilder::build_payload_from_claims;
            type Parser<'t> = GenericParser<'t, 't, $version, $purpose>;
            let _: fn() -> Parser<'t> = GenericParser::new;
            let _: for<'s> fn(&'s mut Parser<'t>, Claims<'t>) -> &'s mut Parser<'t> = GenericParser::extend_check_claims;
            let _: for<'s> fn(&'s mut Parser<'t>, ValidatorMap) -> &'s mut Parser<'t> = GenericParser::extend_validation_claims;
            let _: for<'s> fn(&'s mut Parser<'t>, SubjectClaim<'t>, &'static ValidatorFn) -> &'s mut Parser<'t> =
                |parser, claim, validator| parser.validate_claim(claim, validator);
            let _: for<'s> fn(&'s mut Parser<'t>, SubjectClaim<'t>) -> &'s mut Parser<'t> = GenericParser::check_claim;
            let _: for<'s> fn(&'s Parser<'t>) -> Footer<'s> = GenericParser::get_footer;
            let _: for<'s> fn(&'s mut Parser<'t>, Footer<'t>) -> &'s mut Parser<'t> = GenericParser::set_footer;
            type Making<'t> = PasetoBuilder<'t, $version, $purpose>;
            let _: for<'s> fn(&'s mut Making<'t>, SubjectClaim<'t>) -> &'s mut Making<'t> = PasetoBuilder::set_claim;
            let _: for<'s> fn(&'s mut Making<'t>) -> &'s mut Making<'t> = PasetoBuilder::set_no_expiration_danger_acknowledged;
            let _: for<'s> fn(&'s mut Making<'t>, Footer<'t>) -> &'s mut Making<'t> = PasetoBuilder::set_footer;
            type Reading<'t> = PasetoParser<'t, $version, $purpose>;
            let _: fn() -> Reading<'t> = PasetoParser::new;
            let _: for<'s> fn(&'s mut Reading<'t>, SubjectClaim<'t>, &'static ValidatorFn) -> &'s mut Reading<'t> =
                |parser, claim, validator| parser.validate_claim(claim, validator);
            let _: for<'s> fn(&'s mut Reading<'t>, SubjectClaim<'t>) -> &'s mut Reading<'t> = PasetoParser::check_claim;
            let _: for<'s> fn(&'s mut Reading<'t>, Footer<'t>) -> &'s mut Reading<'t> = PasetoParser::set_footer;
            $(
                type $assertion<'t> = ImplicitAssertion<'t>;
                let _: for<'s> fn(&'s mut Builder<'t>, $assertion<'t>) -> &'s mut Builder<'t> = GenericBuilder::set_implicit_assertion;
                let _: for<'s> fn(&'s mut Parser<'t>, $assertion<'t>) -> &'s mut Parser<'t> = GenericParser::set_implicit_assertion;
                let _: for<'s> fn(&'s Parser<'t>) -> $assertion<'s> = GenericParser::get_implicit_assertion;
                let _: for<'s> fn(&'s mut Making<'t>, $assertion<'t>) -> &'s mut Making<'t> = PasetoBuilder::set_implicit_assertion;
                let _: for<'s> fn(&'s mut Reading<'t>, $assertion<'t>) -> &'s mut Reading<'t> = PasetoParser::set_implicit_assertion;
            )?
        }
        of();
    })*};
}

#[test]
fn setters_of_each_kind_are_those() {
    setters! {
        V1 Local;
        V2 Local;
        V3 Local Assertion;
        V4 Local Assertion;
        V1 Public;
        V2 Public;
        V3 Public Assertion;
        V4 Public Assertion;
    }
}

#[test]
fn types_of_validators_are_those() -> Outcome {
    let of_two: Box<ValidatorFn> = Box::new(|key: &str, value: &Value| match value.as_u64() {
        Some(2) => Ok(()),
        _ => Err(PasetoClaimError::CustomValidation(key.to_owned())),
    });
    let validators: ValidatorMap = HashMap::from([("seats".to_owned(), of_two)]);
    validators["seats"]("seats", &Value::from(2))?;
    assert!(validators["seats"]("seats", &Value::from(3)).is_err());
    assert_eq!(SubjectClaim::from("ada").get_key(), "sub");
    Ok(())
}

// ---- names and values

#[test]
fn versions_purposes_and_claims_say_their_names() -> Outcome {
    fn named<T: Default + Display + AsRef<str>>(name: &str) {
        assert_eq!(T::default().as_ref(), name);
        assert_eq!(T::default().to_string(), name);
    }
    named::<V1>("v1");
    named::<V2>("v2");
    named::<V3>("v3");
    named::<V4>("v4");
    named::<Local>("local");
    named::<Public>("public");
    assert_eq!(AudienceClaim::default().as_ref(), &("aud", ""));
    assert_eq!(IssuerClaim::from("us").as_ref(), &("iss", "us"));
    assert_eq!(SubjectClaim::from("ada").as_ref(), &("sub", "ada"));
    assert_eq!(TokenIdentifierClaim::from("7").as_ref(), &("jti", "7"));
    let default = "2019-01-01T00:00:00+00:00".to_owned();
    let dated = |key: &str| (key.to_owned(), default.clone());
    assert_eq!(ExpirationClaim::default().as_ref(), &dated("exp"));
    assert_eq!(IssuedAtClaim::default().as_ref(), &dated("iat"));
    assert_eq!(NotBeforeClaim::default().as_ref(), &dated("nbf"));
    let seats = CustomClaim::try_from(("seats", 4))?;
    assert_eq!(seats.as_ref(), &("seats".to_owned(), 4));
    assert_eq!(serde_json::to_string(&seats)?, r#"{"seats":4}"#);
    let alone = CustomClaim::try_from("seats")?;
    assert_eq!(alone.as_ref(), &("seats".to_owned(), ""));
    Ok(())
}

// ---- errors: their variants and texts

fn texts_are<E: Display>(errors: impl IntoIterator<Item = (E, &'static str)>) {
    for (error, text) in errors {
        assert_eq!(error.to_string(), text);
    }
}

#[test]
fn texts_of_errors_of_tokens_are_those() {
    let other = Box::new(PasetoError::Cryption);
    texts_are([
        (
            PasetoError::PasetoCipherError(other),
            "A cipher error occurred",
        ),
        (
            PasetoError::Cryption,
            "An unspecified cryption error occured",
        ),
        (PasetoError::InvalidKey, "Key was not in the correct format"),
        (
            PasetoError::Signature,
            "Could not assemble final signature.",
        ),
        (
            PasetoError::KeyRejected,
            "A private RSA key was not in the correct format",
        ),
        (PasetoError::Cipher, "An unspecified cipher error occurred"),
        (
            PasetoError::RsaCipher,
            "An unspecified cipher error occurred",
        ),
        (
            PasetoError::ECSDAError,
            "An unspecified ECSDA error occurred",
        ),
        (
            PasetoError::InvalidLength,
            "An unspecified cipher error occurred",
        ),
        (
            PasetoError::InvalidSignature,
            "The token signature could not be verified",
        ),
        (
            PasetoError::TryFromSlice,
            "A slice conversion error occurred",
        ),
        (
            PasetoError::IncorrectSize,
            "This string has an incorrect number of parts and cannot be parsed into a token",
        ),
        (PasetoError::WrongHeader, "The token header is invalid"),
        (PasetoError::FooterInvalid, "The provided footer is invalid"),
        (
            PasetoError::PayloadBase64Decode,
            "A base64 decode error occurred",
        ),
        (PasetoError::Utf8Error, "A Utf8 parsing error occurred"),
        (
            PasetoError::ChaChaCipherError,
            "An unspecified cipher error occurred",
        ),
        (PasetoError::Infallibale, "A Utf8 parsing error occurred"),
        (PasetoError::FromUtf8Error, "A Utf8 parsing error occurred"),
    ]);
}

#[test]
#[allow(clippy::unneeded_struct_pattern)]
fn a_match_of_every_error_of_tokens_compiles() {
    let name = |error: &PasetoError| match error {
        PasetoError::PasetoCipherError(_) => "PasetoCipherError",
        PasetoError::Cryption => "Cryption",
        PasetoError::InvalidKey => "InvalidKey",
        PasetoError::Signature => "Signature",
        PasetoError::KeyRejected { .. } => "KeyRejected",
        PasetoError::Cipher { .. } => "Cipher",
        PasetoError::RsaCipher { .. } => "RsaCipher",
        PasetoError::ECSDAError { .. } => "ECSDAError",
        PasetoError::InvalidLength { .. } => "InvalidLength",
        PasetoError::InvalidSignature => "InvalidSignature",
        PasetoError::TryFromSlice { .. } => "TryFromSlice",
        PasetoError::IncorrectSize => "IncorrectSize",
        PasetoError::WrongHeader => "WrongHeader",
        PasetoError::FooterInvalid => "FooterInvalid",
        PasetoError::PayloadBase64Decode { .. } => "PayloadBase64Decode",
        PasetoError::Utf8Error { .. } => "Utf8Error",
        PasetoError::ChaChaCipherError => "ChaChaCipherError",
        PasetoError::Infallibale { .. } => "Infallibale",
        PasetoError::FromUtf8Error { .. } => "FromUtf8Error",
        _ => "another",
    };
    assert_eq!(name(&PasetoError::Cipher), "Cipher");
    assert_eq!(name(&PasetoError::TooLong), "another");
}

#[test]
fn texts_of_errors_of_claims_are_those() {
    let key = || "seats".to_owned();
    texts_are([
        (PasetoClaimError::Expired, "This token is expired"),
        (
            PasetoClaimError::UseBeforeAvailable("tomorrow".to_owned()),
            "The token cannot be used before tomorrow",
        ),
        (
            PasetoClaimError::RFC3339Date("tomorrow".to_owned()),
            "The value tomorrow is a malformed RFC3339 date",
        ),
        (
            PasetoClaimError::Missing(key()),
            "The expected claim 'seats' was not found in the payload",
        ),
        (
            PasetoClaimError::Unexpected(key()),
            "Could not convert claim 'seats' to the expected data type",
        ),
        (
            PasetoClaimError::CustomValidation(key()),
            "The claim 'seats' failed custom validation",
        ),
        (
            PasetoClaimError::Invalid(key(), "four".to_owned(), "five".to_owned()),
            "The claim 'seats' failed validation.  Expected 'four' but received 'five'",
        ),
        (
            PasetoClaimError::Reserved("exp".to_owned()),
            "The key exp is a reserved for use within PASETO.  To set a reserved claim, use the strong type: e.g - \
             ExpirationClaimClaim",
        ),
        (
            PasetoClaimError::DuplicateTopLevelPayloadClaim(key()),
            "The claim 'seats' appears more than once in the top level payload json",
        ),
    ]);
}

// An error of each variant, its text, and the text of its source.
type Row<E> = (E, &'static str, Option<&'static str>);

fn rows_are<E: Error>(rows: impl IntoIterator<Item = Row<E>>) {
    for (error, text, source) in rows {
        assert_eq!(error.to_string(), text);
        let found = error.source().map(ToString::to_string);
        assert_eq!(found.as_deref(), source, "{text}");
    }
}

fn no_json() -> Result<serde_json::Error, Box<dyn Error>> {
    match serde_json::from_str::<Value>("nul") {
        Err(fault) => Ok(fault),
        Ok(value) => Err(format!("it is JSON: {value}").into()),
    }
}

const CIPHER: &str = "A paseto cipher error occurred";
const NO_JSON: &str = "The payload was unable to be serialized into json";
const WRONG_HEADER: &str = "The token header is invalid";
const AT_THE_END: &str = "EOF while parsing a value at line 1 column 3";

#[test]
fn variants_of_errors_of_builders_are_those() -> Outcome {
    rows_are([
        (
            GenericBuilderError::from(PasetoClaimError::Expired),
            "This token is expired",
            None,
        ),
        (PasetoError::WrongHeader.into(), CIPHER, Some(WRONG_HEADER)),
        (no_json()?.into(), NO_JSON, Some(AT_THE_END)),
        (
            GenericBuilderError::BadEmailAddress("ada".to_owned()),
            "ada is an invalid iso8601 (email) string",
            None,
        ),
        (
            GenericBuilderError::DuplicateTopLevelPayloadClaim("sub".to_owned()),
            "The claim 'sub' appears more than once in the top level payload json",
            None,
        ),
    ]);
    let name = |error: GenericBuilderError| match error {
        GenericBuilderError::ClaimError { source } => source.to_string(),
        GenericBuilderError::CipherError { source } => source.to_string(),
        GenericBuilderError::PayloadJsonError { source } => source.to_string(),
        GenericBuilderError::BadEmailAddress(text) => text,
        GenericBuilderError::DuplicateTopLevelPayloadClaim(key) => key,
    };
    assert_eq!(name(PasetoError::WrongHeader.into()), WRONG_HEADER);
    Ok(())
}

#[test]
fn variants_of_errors_of_parsers_are_those() -> Outcome {
    rows_are([
        (
            GenericParserError::from(PasetoClaimError::Expired),
            "This token is expired",
            None,
        ),
        (PasetoError::WrongHeader.into(), CIPHER, Some(WRONG_HEADER)),
        (no_json()?.into(), NO_JSON, Some(AT_THE_END)),
    ]);
    let name = |error: GenericParserError| match error {
        GenericParserError::ClaimError { source } => source.to_string(),
        GenericParserError::CipherError { source } => source.to_string(),
        GenericParserError::PayloadJsonError { source } => source.to_string(),
    };
    assert_eq!(name(PasetoError::WrongHeader.into()), WRONG_HEADER);
    Ok(())
}

#[test]
fn variants_of_errors_of_moments_are_those() {
    let format = || time::error::Format::InvalidComponent("year");
    let name = |error: &GeneralPasetoError| match error {
        GeneralPasetoError::PasetoError(_) => "PasetoError",
        GeneralPasetoError::Infallible { source } => match *source {},
        GeneralPasetoError::RFC3339Date(_) => "RFC3339Date",
    };
    let date = GeneralPasetoError::from(format());
    assert_eq!(name(&date), "RFC3339Date");
    assert_eq!(date.to_string(), format().to_string());
    let general = GeneralPasetoError::PasetoError(Box::new(date));
    assert_eq!(name(&general), "PasetoError");
    assert_eq!(general.to_string(), "A general paseto error occurred");
}

// ---- features

#[test]
fn every_feature_is_on_by_default() {
    let features = [
        ("batteries_included", cfg!(feature = "batteries_included")),
        ("generic", cfg!(feature = "generic")),
        ("core", cfg!(feature = "core")),
        ("v1_local", cfg!(feature = "v1_local")),
        ("v2_local", cfg!(feature = "v2_local")),
        ("v3_local", cfg!(feature = "v3_local")),
        ("v4_local", cfg!(feature = "v4_local")),
        ("v1_public", cfg!(feature = "v1_public")),
        ("v2_public", cfg!(feature = "v2_public")),
        ("v3_public", cfg!(feature = "v3_public")),
        ("v4_public", cfg!(feature = "v4_public")),
    ];
    for (name, is_on) in features {
        assert!(is_on, "{name}");
    }
}
