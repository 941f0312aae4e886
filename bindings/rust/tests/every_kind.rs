//! Every public call of `generic` and `prelude`, for each of the eight kinds of tokens.

mod common;

use common::{bytes, Outcome};
use paseto_proved::keys::{key_footer, KeyPair, KeyRing};
use paseto_proved::prelude::*;
use serde_json::json;
use std::collections::HashMap;
use std::time::{Duration, SystemTime};

fn claims() -> HashMap<String, Box<dyn erased_serde::Serialize>> {
    let mut claims: HashMap<String, Box<dyn erased_serde::Serialize>> = HashMap::new();
    claims.insert("rows".to_owned(), Box::new(vec![1, 2]));
    claims.insert("gone".to_owned(), Box::new("soon"));
    claims
}

fn expected() -> HashMap<String, Box<dyn erased_serde::Serialize>> {
    let mut expected: HashMap<String, Box<dyn erased_serde::Serialize>> = HashMap::new();
    expected.insert("sub".to_owned(), Box::new(SubjectClaim::from("ada")));
    expected
}

fn validators() -> ValidatorMap {
    let mut validators = ValidatorMap::new();
    let two: Box<ValidatorFn> = Box::new(|key, value| match value.as_array().map(Vec::len) {
        Some(2) => Ok(()),
        _ => Err(PasetoClaimError::CustomValidation(key.to_owned())),
    });
    validators.insert("rows".to_owned(), two);
    validators
}

macro_rules! generic {
    ($version:ident $purpose:ident, $make:ident by $making:expr, read by $reading:expr $(, $assertion:ident)?) => {{
        let mut builder = GenericBuilder::<$version, $purpose>::new();
        builder
            .extend_claims(claims())
            .remove_claim("gone")
            .set_claim(SubjectClaim::from("ada"))
            .set_claim(CustomClaim::try_from(("seats", 4))?)
            .set_footer(Footer::from("a footer"));
        $(builder.set_implicit_assertion($assertion::from("an assertion"));)?
        assert_eq!(builder.build_payload_from_claims()?, r#"{"rows":[1,2],"seats":4,"sub":"ada"}"#);
        let token = builder.clone().$make($making)?;
        assert_ne!(builder.$make($making)?, "");
        let mut parser = GenericParser::<$version, $purpose>::new();
        parser
            .extend_check_claims(expected())
            .extend_validation_claims(validators())
            .check_claim(CustomClaim::try_from(("seats", 4))?)
            .validate_claim(SubjectClaim::default(), &|key, value| match value.as_str() {
                Some("ada") => Ok(()),
                _ => Err(PasetoClaimError::CustomValidation(key.to_owned())),
            })
            .require_claim("rows")
            .set_longest(2_000)
            .set_longest_footer(100)
            .set_footer(Footer::from("a footer"));
        $(parser.set_implicit_assertion($assertion::from("an assertion"));
        assert_eq!(parser.get_implicit_assertion(), $assertion::from("an assertion"));)?
        assert_eq!(parser.get_footer(), Footer::from("a footer"));
        assert_eq!(parser.parse(&token, $reading)?, json!({ "rows": [1, 2], "seats": 4, "sub": "ada" }));
        assert!(GenericParser::<$version, $purpose>::default().parse(&token, $reading).is_err());
        assert_ne!(GenericBuilder::<$version, $purpose>::default().$make($making)?, "");
    }};
}

macro_rules! prelude {
    ($version:ident $purpose:ident, by $making:expr, read by $reading:expr $(, $assertion:ident)?) => {{
        let mut builder = PasetoBuilder::<$version, $purpose>::default();
        builder
            .set_claim(AudienceClaim::from("customers"))
            .set_claim(IssuerClaim::from("us"))
            .set_claim(SubjectClaim::from("ada"))
            .set_claim(TokenIdentifierClaim::from("7"))
            .set_claim(ExpirationClaim::try_from("2199-01-01T00:00:00Z")?)
            .set_claim(IssuedAtClaim::try_from("2019-01-01T00:00:00+01:00")?)
            .set_claim(NotBeforeClaim::try_from("2019-01-01T00:00:00.5Z".to_owned())?)
            .set_claim(CustomClaim::try_from(("seats", 4))?)
            .set_footer(Footer::from("a footer"));
        $(builder.set_implicit_assertion($assertion::from("an assertion"));)?
        let token = builder.build($making)?;
        let mut parser = PasetoParser::<$version, $purpose>::default();
        parser
            .check_claim(AudienceClaim::from("customers"))
            .check_claim(IssuerClaim::from("us"))
            .check_claim(SubjectClaim::from("ada"))
            .check_claim(TokenIdentifierClaim::from("7"))
            .check_claim(IssuedAtClaim::try_from("2019-01-01T00:00:00+01:00")?)
            .validate_claim(CustomClaim::try_from("seats")?, &|key, value| match value.as_u64() {
                Some(4) => Ok(()),
                _ => Err(PasetoClaimError::CustomValidation(key.to_owned())),
            })
            .require_claim("exp")
            .set_longest(2_000)
            .set_longest_footer(100)
            .set_leeway(Duration::from_secs(1))
            .set_now(SystemTime::now())
            .set_footer(Footer::from("a footer"));
        $(parser.set_implicit_assertion($assertion::from("an assertion"));)?
        assert_eq!(parser.parse(&token, $reading)?, json!({
            "aud": "customers", "iss": "us", "sub": "ada", "jti": "7", "exp": "2199-01-01T00:00:00Z",
            "iat": "2019-01-01T00:00:00+01:00", "nbf": "2019-01-01T00:00:00.5Z", "seats": 4
        }));
        assert!(PasetoParser::<$version, $purpose>::new().parse(&token, $reading).is_err());
        let mut times = PasetoBuilder::<$version, $purpose>::default();
        let read = PasetoParser::<$version, $purpose>::default().parse(&times.build($making)?, $reading)?;
        assert!(["exp", "iat", "nbf"].iter().all(|key| read[key].is_string()), "{read}");
        let lasting = builder.set_no_expiration_danger_acknowledged().build($making)?;
        assert_eq!(parser.set_leeway(Duration::ZERO).parse(&lasting, $reading).map_err(|refusal| refusal.to_string()),
            Err("The expected claim 'exp' was not found in the payload".to_owned()));
    }};
}

macro_rules! ring {
    ($version:ident $purpose:ident, by $making:expr, read by $reading:expr) => {{
        let footer = key_footer("2026-11");
        let token = PasetoBuilder::<$version, $purpose>::default()
            .set_footer(Footer::from(footer.as_str()))
            .build($making)?;
        let mut ring = KeyRing::new();
        assert!(ring.add("2026-11", $reading.clone()).is_none());
        ring.set_longest(2_000).set_longest_footer(100);
        let (id, claims) = ring.parse(&PasetoParser::default(), &token)?;
        assert!(id == "2026-11" && claims["exp"].is_string());
        assert_eq!(ring.ids().collect::<Vec<_>>(), ["2026-11"]);
        assert!(ring.get("2026-11").is_some() && ring.remove("2026-11").is_some());
        assert!(ring.parse(&PasetoParser::default(), &token).is_err());
    }};
}

macro_rules! kinds {
    ($($local:ident $public:ident $version:ident $($assertion:ident)?;)*) => {$(
        #[test]
        fn $local() -> Outcome {
            let key = PasetoSymmetricKey::<$version, Local>::try_new_random()?;
            generic!($version Local, try_encrypt by &key, read by &key $(, $assertion)?);
            prelude!($version Local, by &key, read by &key $(, $assertion)?);
            ring!($version Local, by &key, read by &key);
            let text = key.to_paserk()?;
            let read: PasetoSymmetricKey<$version, Local> = (text + "\n").parse()?;
            assert_eq!(read.as_ref(), key.as_ref());
            assert_eq!(read.id()?, key.id()?);
            Ok(())
        }
    )*};
}

kinds! {
    v1_local v1_public V1;
    v2_local v2_public V2;
    v3_local v3_public V3 ImplicitAssertion;
    v4_local v4_public V4 ImplicitAssertion;
}

macro_rules! pairs {
    ($($public:ident $version:ident $($assertion:ident)?;)*) => {$(
        #[test]
        fn $public() -> Outcome {
            let pair = KeyPair::<$version>::try_new_random()?;
            let (private, public) = (pair.private_key(), pair.public_key());
            generic!($version Public, try_sign by private, read by public $(, $assertion)?);
            prelude!($version Public, by private, read by public $(, $assertion)?);
            ring!($version Public, by private, read by public);
            assert_eq!(private.public_key()?.as_ref(), public.as_ref());
            for text in [private.to_paserk()?, private.to_pem()?] {
                let read: PasetoAsymmetricPrivateKey<$version, Public> = text.parse()?;
                assert_eq!(read.as_ref(), private.as_ref());
                assert_eq!(read.id()?, private.id()?);
            }
            for text in [public.to_paserk()? + "\n", public.to_pem()?] {
                let read: PasetoAsymmetricPublicKey<$version, Public> = text.parse()?;
                assert_eq!(read.as_ref(), public.as_ref());
                assert_eq!(read.id()?, public.id()?);
            }
            Ok(())
        }
    )*};
}

pairs! {
    v2_public V2;
    v3_public V3 ImplicitAssertion;
    v4_public V4 ImplicitAssertion;
}

#[test]
fn v1_public() -> Outcome {
    let (private, public) = (bytes("RSA_PRIVATE")?, bytes("RSA_PUBLIC")?);
    let private = &PasetoAsymmetricPrivateKey::<V1, Public>::from(private.as_slice());
    let public = &PasetoAsymmetricPublicKey::<V1, Public>::from(public.as_slice());
    generic!(V1 Public, try_sign by private, read by public);
    prelude!(V1 Public, by private, read by public);
    ring!(V1 Public, by private, read by public);
    assert_eq!(private.public_key()?.as_ref(), public.as_ref());
    for text in [private.to_paserk()? + "\n", private.to_pem()?] {
        let read: PasetoAsymmetricPrivateKey<V1, Public> = text.parse()?;
        assert_eq!(read.as_ref(), private.as_ref());
        assert_eq!(read.id()?, private.id()?);
    }
    for text in [public.to_paserk()? + "\n", public.to_pem()?] {
        let read: PasetoAsymmetricPublicKey<V1, Public> = text.parse()?;
        assert_eq!(read.as_ref(), public.as_ref());
        assert_eq!(read.id()?, public.id()?);
    }
    Ok(())
}
