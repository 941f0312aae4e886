//! What a call answers where the library is refused memory: `Memory`. The library allocates by malloc, which this program
//! has in place of the C library's, and which answers null where the thread says so. The rooms of this crate come from
//! calloc.

mod common;

use paseto_proved::core::{
    Footer, Key, Local, Paseto, PasetoAsymmetricPrivateKey, PasetoError, PasetoNonce,
    PasetoSymmetricKey, Payload, Public, V1, V4,
};
use paseto_proved::keys::KeyTextError;
use std::cell::Cell;
use std::ffi::c_void;

thread_local! {
    static REFUSES: Cell<bool> = const { Cell::new(false) };
}

extern "C" {
    fn __libc_malloc(size: usize) -> *mut c_void;
}

/// The malloc of the program.
///
/// # Safety
///
/// That of malloc.
#[no_mangle]
pub unsafe extern "C" fn malloc(size: usize) -> *mut c_void {
    match REFUSES.try_with(Cell::get) {
        Ok(true) => std::ptr::null_mut(),
        _ => __libc_malloc(size),
    }
}

fn refused<T>(call: impl FnOnce() -> T) -> T {
    REFUSES.with(|refuses| refuses.set(true));
    let answer = call();
    REFUSES.with(|refuses| refuses.set(false));
    answer
}

#[test]
fn a_call_without_memory_says_so() -> common::Outcome {
    let key = PasetoSymmetricKey::<V4, Local>::try_new_random()?;
    let nonce = Key::<32>::try_new_random()?;
    let nonce = PasetoNonce::<V4, Local>::from(&nonce);
    let mut builder = Paseto::<V4, Local>::builder();
    builder.set_payload(Payload::from("a text"));
    let token = builder.try_encrypt(&key, &nonce)?;
    assert_eq!(
        refused(|| builder.try_encrypt(&key, &nonce)),
        Err(PasetoError::Memory)
    );
    assert_eq!(
        refused(|| Paseto::<V4, Local>::try_decrypt(&token, &key, None, None)),
        Err(PasetoError::Memory)
    );
    assert_eq!(
        refused(|| Footer::try_from_token("v4.local.payload.AAAA")),
        Err(PasetoError::Memory)
    );
    assert_eq!(refused(|| key.to_paserk()), Err(KeyTextError::Memory));
    let bytes = common::bytes("RSA_PRIVATE")?;
    let private = PasetoAsymmetricPrivateKey::<V1, Public>::from(bytes.as_slice());
    assert_eq!(refused(|| private.to_paserk()), Err(KeyTextError::Memory));
    assert_eq!(refused(|| private.id().err()), Some(KeyTextError::Memory));
    assert_eq!(
        refused(|| private.public_key().err()),
        Some(PasetoError::Memory)
    );
    assert_eq!(
        Paseto::<V4, Local>::try_decrypt(&token, &key, None, None)?,
        "a text"
    );
    Ok(())
}
