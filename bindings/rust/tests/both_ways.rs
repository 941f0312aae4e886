//! Tokens both ways between this crate and the program `paseto`, a program in C and the package for Python, each made and
//! checked within the same second, for each of the eight kinds.
//!
//! `tests/rust.sh` of the repository runs this program, and says by the environment where the three are: `PASETO_PROGRAM`,
//! `PASETO_CLIENT` (`tests/both_ways.c`), and `PASETO_PYTHON`, which has the package.

mod common;

use common::{bytes, Outcome};
use paseto_proved::keys::KeyPair;
use paseto_proved::prelude::*;
use std::env::var;
use std::error::Error;
use std::io::{BufRead, BufReader, Write};
use std::process::{Child, Command, Stdio};
use std::time::{SystemTime, UNIX_EPOCH};

// How often a token is made again, where its second was over before it was checked.
const TURNS: usize = 200;

// Answers lines of JSON, so that a token waits for no start of Python.
const PYTHON: &str = "
import json, sys, paseto
for line in sys.stdin:
    call, text, token = json.loads(line)
    key = paseto.Key.from_text(text)
    try:
        answer = paseto.issue(key, {'sub': 'ada'}) if call == 'make' else paseto.admit(token, key)['sub']
    except paseto.PasetoError as fault:
        answer = f'refused: {fault}'
    print(answer, flush=True)
";

// A kind of tokens: its name, and the texts and the bytes of the keys that make and read them.
struct Kind {
    name: &'static str,
    making: (String, Vec<u8>),
    reading: (String, Vec<u8>),
}

fn hex(bytes: &[u8]) -> String {
    bytes.iter().map(|byte| format!("{byte:02x}")).collect()
}

// What a command prints, in one line.
fn told(command: &mut Command) -> Result<String, Box<dyn Error>> {
    let output = command.output()?;
    if !output.status.success() {
        return Err(String::from_utf8_lossy(&output.stderr).into_owned().into());
    }
    Ok(String::from_utf8(output.stdout)?.trim_end().to_owned())
}

// One of the three others, which make a token of the subject ada, or say the subject of one.
enum Other {
    Program(String),
    C(String),
    Python(Child),
}

// Those that the environment names.
fn others() -> Result<Vec<Other>, Box<dyn Error>> {
    let mut others: Vec<Other> = Vec::new();
    others.extend(var("PASETO_PROGRAM").ok().map(Other::Program));
    others.extend(var("PASETO_CLIENT").ok().map(Other::C));
    if let Ok(python) = var("PASETO_PYTHON") {
        let mut command = Command::new(python);
        command
            .args(["-c", PYTHON])
            .stdin(Stdio::piped())
            .stdout(Stdio::piped());
        others.push(Other::Python(command.spawn()?));
    }
    Ok(others)
}

impl Other {
    fn name(&self) -> &'static str {
        match self {
            Other::Program(_) => "the program",
            Other::C(_) => "C",
            Other::Python(_) => "Python",
        }
    }

    fn make(&mut self, kind: &Kind) -> Result<String, Box<dyn Error>> {
        match self {
            Other::Program(program) => told(
                Command::new(program)
                    .env("PASETO_KEY", &kind.making.0)
                    .args(["issue", "--claim", "sub=ada"]),
            ),
            Other::C(client) => {
                told(Command::new(client).args(["make", kind.name, &hex(&kind.making.1)]))
            }
            Other::Python(python) => answered(python, ["make", &kind.making.0, ""]),
        }
    }

    fn read(&mut self, kind: &Kind, token: &str) -> Result<String, Box<dyn Error>> {
        match self {
            Other::Program(program) => {
                // A test has a thread of its own.
                let file = std::env::temp_dir().join(format!(
                    "both-ways-{}-{}",
                    std::process::id(),
                    std::thread::current().name().unwrap_or(kind.name)
                ));
                std::fs::write(&file, token)?;
                let mut command = Command::new(program);
                command
                    .env("PASETO_KEY", &kind.reading.0)
                    .args(["check", "--claim", "sub=ada"])
                    .arg(&file);
                let claims = told(&mut command);
                std::fs::remove_file(&file)?;
                claims
            }
            Other::C(client) => {
                told(Command::new(client).args(["read", kind.name, &hex(&kind.reading.1), token]))
            }
            Other::Python(python) => answered(python, ["read", &kind.reading.0, token]),
        }
    }
}

// The line that Python answers to a line.
fn answered(python: &mut Child, words: [&str; 3]) -> Result<String, Box<dyn Error>> {
    let question = serde_json::to_string(&words)? + "\n";
    python
        .stdin
        .as_mut()
        .ok_or("no input")?
        .write_all(question.as_bytes())?;
    let mut answer = String::new();
    // No byte is behind the line, so that a reader for one line loses none.
    BufReader::new(python.stdout.as_mut().ok_or("no output")?).read_line(&mut answer)?;
    match answer.trim_end() {
        "" => Err("it has ended".into()),
        refused if refused.starts_with("refused: ") => Err(refused.into()),
        answer => Ok(answer.to_owned()),
    }
}

fn second() -> Result<u64, Box<dyn Error>> {
    Ok(SystemTime::now().duration_since(UNIX_EPOCH)?.as_secs())
}

type Answer = Result<String, Box<dyn Error>>;

// Makes and reads tokens until one was made and read within one second, and each must be taken.
fn within_a_second(
    other: &mut Other,
    make: impl Fn(&mut Other) -> Answer,
    read: impl Fn(&mut Other, &str) -> Answer,
) -> Outcome {
    for _ in 0..TURNS {
        let begun = second()?;
        let token = make(other)?;
        let subject = read(other, &token)?;
        assert!(subject.contains("ada"), "{subject}");
        if second()? == begun {
            return Ok(());
        }
    }
    Err("no token was made and read within one second".into())
}

fn both_ways(kind: &Kind, make: impl Fn() -> Answer, read: impl Fn(&str) -> Answer) -> Outcome {
    for mut other in others()? {
        let name = other.name();
        let failed =
            |way: &str, fault: Box<dyn Error>| format!("{} {way} {name}: {fault}", kind.name);
        within_a_second(
            &mut other,
            |_| make(),
            |other, token| other.read(kind, token),
        )
        .map_err(|fault| failed("to", fault))?;
        within_a_second(&mut other, |other| other.make(kind), |_, token| read(token))
            .map_err(|fault| failed("from", fault))?;
        if let Other::Python(mut python) = other {
            drop(python.stdin.take());
            python.wait()?;
        }
    }
    Ok(())
}

fn subject(claims: serde_json::Value) -> Result<String, Box<dyn Error>> {
    Ok(claims["sub"].as_str().ok_or("no subject")?.to_owned())
}

macro_rules! asked {
    ($kind:expr, $version:ident $purpose:ident, by $making:expr, read by $reading:expr) => {
        both_ways(
            &$kind,
            || {
                let mut builder = PasetoBuilder::<$version, $purpose>::default();
                Ok(builder
                    .set_claim(SubjectClaim::from("ada"))
                    .build($making)?)
            },
            |token| subject(PasetoParser::<$version, $purpose>::default().parse(token, $reading)?),
        )
    };
}

macro_rules! local {
    ($($test:ident $name:literal $version:ident;)*) => {$(
        #[test]
        #[ignore = "the programs are named by the environment"]
        fn $test() -> Outcome {
            let key = PasetoSymmetricKey::<$version, Local>::try_new_random()?;
            let texts = (key.to_paserk()?, key.as_ref().to_vec());
            let kind = Kind { name: $name, making: texts.clone(), reading: texts };
            asked!(kind, $version Local, by &key, read by &key)
        }
    )*};
}

local! {
    v1_local "v1.local" V1;
    v2_local "v2.local" V2;
    v3_local "v3.local" V3;
    v4_local "v4.local" V4;
}

macro_rules! public {
    ($($test:ident $name:literal $version:ident;)*) => {$(
        #[test]
        #[ignore = "the programs are named by the environment"]
        fn $test() -> Outcome {
            let pair = KeyPair::<$version>::try_new_random()?;
            let (private, public) = (pair.private_key(), pair.public_key());
            let kind = Kind {
                name: $name,
                making: (private.to_paserk()?, private.as_ref().to_vec()),
                reading: (public.to_paserk()?, public.as_ref().to_vec()),
            };
            asked!(kind, $version Public, by private, read by public)
        }
    )*};
}

public! {
    v2_public "v2.public" V2;
    v3_public "v3.public" V3;
    v4_public "v4.public" V4;
}

macro_rules! rsa {
    ($($test:ident $form:ident;)*) => {$(
        #[test]
        #[ignore = "the programs are named by the environment"]
        fn $test() -> Outcome {
            let (private, public) = (bytes("RSA_PRIVATE")?, bytes("RSA_PUBLIC")?);
            let private_key = PasetoAsymmetricPrivateKey::<V1, Public>::from(private.as_slice());
            let public_key = PasetoAsymmetricPublicKey::<V1, Public>::from(public.as_slice());
            let kind = Kind {
                name: "v1.public",
                making: (private_key.$form()?, private.clone()),
                reading: (public_key.$form()?, public.clone()),
            };
            asked!(kind, V1 Public, by &private_key, read by &public_key)
        }
    )*};
}

rsa! {
    v1_public to_paserk;
    v1_public_in_pem to_pem;
}
