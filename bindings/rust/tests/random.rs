//! What calls answer where the system gives no random bytes: `Cipher`. `tests/rust.sh` of the repository runs this program
//! under strace, by which getrandom(2) fails.

use paseto_proved::keys::{KeyPair, KeyTextError};
use paseto_proved::prelude::*;

#[test]
#[ignore = "getrandom(2) has to fail"]
fn without_random_bytes() {
    assert!(matches!(
        Key::<32>::try_new_random(),
        Err(PasetoError::Cipher)
    ));
    assert!(matches!(
        KeyPair::<V4>::try_new_random(),
        Err(PasetoError::Cipher)
    ));
    let key = PasetoSymmetricKey::<V4, Local>::from(Key::from([7; 32]));
    let refused = Some(KeyTextError::NoRandom);
    assert_eq!(key.to_protected(b"a password").err(), refused);
    assert_eq!(key.to_wrapped(&key).err(), refused);
    let public = "k4.public.Hrnbu7wEfAP9cGBOAHHwmH4Wsot1ciXBHwBBXQ4gsaI";
    let sealed = public.parse().map(|public| key.to_sealed(&public));
    assert_eq!(sealed.and_then(|sealed| sealed).err(), refused);
    assert_eq!(
        KeyTextError::NoRandom.to_string(),
        "The system returned no random bytes"
    );
    let built = PasetoBuilder::<V4, Local>::default().build(&key);
    assert!(
        matches!(
            built,
            Err(GenericBuilderError::CipherError {
                source: PasetoError::Cipher
            })
        ),
        "{built:?}"
    );
    let built = GenericBuilder::<V4, Local>::default().try_encrypt(&key);
    assert!(
        matches!(
            built,
            Err(GenericBuilderError::CipherError {
                source: PasetoError::Cipher
            })
        ),
        "{built:?}"
    );
}
