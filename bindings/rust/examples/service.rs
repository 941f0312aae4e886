//! A service with a login, a page for who has logged in, and refusals by name, over `std::net` alone.
//!
//!     cargo run --example service 127.0.0.1:8080
//!     curl -d 'name=ada&password=lovelace' http://127.0.0.1:8080/login
//!     curl -H 'Authorization: Bearer v4.local..' http://127.0.0.1:8080/page
//!
//! Its key is new with each start, and its tokens are valid for ten minutes. It answers one request after another.

use paseto_proved::prelude::*;
use std::error::Error;
use std::io::{BufRead, BufReader, Read, Write};
use std::net::{TcpListener, TcpStream};
use std::time::Duration;
use time::{format_description::well_known::Rfc3339, OffsetDateTime};

const AUDIENCE: &str = "the service";
const LONGEST: usize = 4_096;

type SessionKey = PasetoSymmetricKey<V4, Local>;

struct Request {
    line: String,
    token: String,
    body: String,
}

fn main() -> Result<(), Box<dyn Error>> {
    let address = std::env::args()
        .nth(1)
        .unwrap_or_else(|| "127.0.0.1:8080".to_owned());
    let listener = TcpListener::bind(address)?;
    let key = SessionKey::try_new_random()?;
    println!("listening on http://{}", listener.local_addr()?);
    for stream in listener.incoming() {
        if let Err(fault) = serve(&mut stream?, &key) {
            eprintln!("a request was not served: {fault}");
        }
    }
    Ok(())
}

fn serve(stream: &mut TcpStream, key: &SessionKey) -> Result<(), Box<dyn Error>> {
    stream.set_read_timeout(Some(Duration::from_secs(5)))?;
    let request = read(stream)?;
    let (status, page) = match request.line.as_str() {
        "POST /login" => login(&request.body, key)?,
        "GET /page" => page(&request.token, key),
        _ => ("404 Not Found", "there is /login and /page".to_owned()),
    };
    write!(
        stream,
        "HTTP/1.1 {status}\r\nContent-Length: {}\r\nConnection: close\r\n\r\n{page}",
        page.len()
    )?;
    Ok(())
}

fn read(stream: &mut TcpStream) -> Result<Request, Box<dyn Error>> {
    let mut lines = BufReader::new(stream.take(16_384));
    let (mut line, mut header) = (String::new(), String::new());
    lines.read_line(&mut line)?;
    let line = line.rsplit_once(' ').ok_or("no request")?.0.to_owned();
    let (mut token, mut length) = (String::new(), 0);
    while lines.read_line(&mut header)? > 2 {
        match header.trim_end().split_once(": ") {
            Some((name, value)) if name.eq_ignore_ascii_case("authorization") => {
                token = value.trim_start_matches("Bearer ").to_owned();
            }
            Some((name, value)) if name.eq_ignore_ascii_case("content-length") => {
                length = value.parse()?
            }
            _ => {}
        }
        header.clear();
    }
    let mut body = String::new();
    lines.take(length).read_to_string(&mut body)?;
    Ok(Request { line, token, body })
}

fn login(form: &str, key: &SessionKey) -> Result<(&'static str, String), Box<dyn Error>> {
    if form != "name=ada&password=lovelace" {
        return Ok(("401 Unauthorized", "wrong name or password".to_owned()));
    }
    let in_ten_minutes =
        (OffsetDateTime::now_utc() + time::Duration::minutes(10)).format(&Rfc3339)?;
    let token = PasetoBuilder::<V4, Local>::default()
        .set_claim(SubjectClaim::from("ada"))
        .set_claim(AudienceClaim::from(AUDIENCE))
        .set_claim(ExpirationClaim::try_from(in_ten_minutes)?)
        .build(key)?;
    Ok(("200 OK", token))
}

fn page(token: &str, key: &SessionKey) -> (&'static str, String) {
    let claims = PasetoParser::<V4, Local>::default()
        .check_claim(AudienceClaim::from(AUDIENCE))
        .require_claim("exp")
        .set_longest(LONGEST)
        .parse(token, key);
    match claims {
        Ok(claims) => (
            "200 OK",
            format!("hello {}", claims["sub"].as_str().unwrap_or("nobody")),
        ),
        Err(refusal) => (
            "401 Unauthorized",
            format!("{}: {}", name_of(&refusal), refusal.reason()),
        ),
    }
}

fn name_of(refusal: &GenericParserError) -> &'static str {
    match refusal {
        GenericParserError::ClaimError {
            source: PasetoClaimError::Expired,
        } => "Expired",
        GenericParserError::ClaimError { .. } => "ClaimError",
        GenericParserError::CipherError {
            source: PasetoError::TooLong,
        } => "TooLong",
        GenericParserError::CipherError {
            source: PasetoError::IncorrectSize,
        } => "IncorrectSize",
        GenericParserError::CipherError {
            source: PasetoError::Cryption,
        } => "Cryption",
        GenericParserError::CipherError { .. } => "CipherError",
        GenericParserError::PayloadJsonError { .. } => "PayloadJsonError",
    }
}
