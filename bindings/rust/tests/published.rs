//! The tokens that the PASETO specification publishes, made and opened by this crate. Published local tokens of version 2 have
//! nonces of 24 bytes, and public ones of version 3 other signatures than RFC 6979's: these are opened, and not made again.

use paseto_proved::core::{
    Footer, ImplicitAssertion, Key, Local, Paseto, PasetoAsymmetricPrivateKey,
    PasetoAsymmetricPublicKey, PasetoNonce, PasetoSymmetricKey, Payload, Public, V1, V2, V3, V4,
};
use std::error::Error;

const ROWS: &str = include_str!("../../../crates/test_rows/data/published.txt");

type Outcome = Result<(), Box<dyn Error>>;

struct Row<'r> {
    kind: &'r str,
    keys: [&'r str; 2],
    text: String,
    footer: Option<String>,
    assertion: String,
    token: &'r str,
}

fn text_of(field: &str) -> Result<String, Box<dyn Error>> {
    let digits = if field == "-" { "" } else { field };
    let bytes = (0..digits.len())
        .step_by(2)
        .map(|at| u8::from_str_radix(&digits[at..at + 2], 16));
    Ok(String::from_utf8(bytes.collect::<Result<_, _>>()?)?)
}

impl<'r> Row<'r> {
    fn parse(line: &'r str) -> Result<Row<'r>, Box<dyn Error>> {
        let fields: [&str; 8] = line
            .split(' ')
            .collect::<Vec<_>>()
            .try_into()
            .map_err(|_| "eight fields")?;
        let [kind, _name, first, second, text, footer, assertion, token] = fields;
        let footer = if footer == "none" {
            None
        } else {
            Some(text_of(footer)?)
        };
        Ok(Row {
            kind,
            keys: [first, second],
            text: text_of(text)?,
            footer,
            assertion: text_of(assertion)?,
            token,
        })
    }

    fn footer(&self) -> Option<Footer<'_>> {
        self.footer.as_deref().map(Footer::from)
    }
}

macro_rules! local {
    ($row:ident, $version:ident $(, $assertion:expr)?) => {{
        let key = PasetoSymmetricKey::<$version, Local>::from(Key::<32>::try_from($row.keys[0])?);
        let text = Paseto::<$version, Local>::try_decrypt($row.token, &key, $row.footer() $(, $assertion)?)?;
        assert_eq!(text, $row.text);
        if let Ok(nonce) = Key::<32>::try_from($row.keys[1]) {
            let mut paseto = Paseto::<$version, Local>::builder();
            paseto.set_payload(Payload::from($row.text.as_str()));
            $row.footer().map(|footer| paseto.set_footer(footer));
            $(paseto.set_implicit_assertion($assertion);)?
            assert_eq!(paseto.try_encrypt(&key, &PasetoNonce::from(&nonce))?, $row.token);
        }
    }};
}

macro_rules! signed {
    ($row:ident, $version:ident $(, $assertion:expr)?) => {{
        let (private, public) = (Key::<64>::try_from($row.keys[0])?, Key::<32>::try_from($row.keys[1])?);
        let public = PasetoAsymmetricPublicKey::<$version, Public>::from(&public);
        let text = Paseto::<$version, Public>::try_verify($row.token, &public, $row.footer() $(, $assertion)?)?;
        assert_eq!(text, $row.text);
        let mut paseto = Paseto::<$version, Public>::builder();
        paseto.set_payload(Payload::from($row.text.as_str()));
        $row.footer().map(|footer| paseto.set_footer(footer));
        $(paseto.set_implicit_assertion($assertion);)?
        assert_eq!(paseto.try_sign(&PasetoAsymmetricPrivateKey::from(&private))?, $row.token);
    }};
}

fn check(row: &Row<'_>) -> Outcome {
    let assertion = ImplicitAssertion::from(row.assertion.as_str());
    match row.kind {
        "v1.local" => local!(row, V1),
        "v2.local" => local!(row, V2),
        "v3.local" => local!(row, V3, assertion),
        "v4.local" => local!(row, V4, assertion),
        "v2.public" => signed!(row, V2),
        "v4.public" => signed!(row, V4, assertion),
        "v3.public" => {
            let public = Key::<49>::try_from(row.keys[1])?;
            let public = PasetoAsymmetricPublicKey::<V3, Public>::try_from(&public)?;
            let text =
                Paseto::<V3, Public>::try_verify(row.token, &public, row.footer(), assertion)?;
            assert_eq!(text, row.text);
        }
        other => return Err(format!("no such kind: {other}").into()),
    }
    Ok(())
}

#[test]
fn published_tokens() -> Outcome {
    let lines = ROWS
        .lines()
        .filter(|line| !line.starts_with('#'))
        .collect::<Vec<_>>();
    assert_eq!(lines.len(), 27);
    for line in lines {
        check(&Row::parse(line)?).map_err(|error| format!("{line}: {error}"))?;
    }
    Ok(())
}
