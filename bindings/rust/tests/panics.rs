//! A closure or a value of the caller that panics: builder and parser can be used after it, and no memory is lost.

use paseto_proved::prelude::*;
use serde::{Serialize, Serializer};
use std::alloc::{GlobalAlloc, Layout, System};
use std::cell::Cell;
use std::error::Error;
use std::panic::{catch_unwind, set_hook, AssertUnwindSafe};

thread_local! {
    static LIVE: Cell<isize> = const { Cell::new(0) };
}

// Counts the bytes that this thread has allocated and not freed; the thread that runs the tests has others.
struct Counting;

fn count(change: isize) {
    // A thread that ends has no counter left.
    let _ = LIVE.try_with(|live| live.set(live.get() + change));
}

unsafe impl GlobalAlloc for Counting {
    unsafe fn alloc(&self, layout: Layout) -> *mut u8 {
        count(layout.size() as isize);
        System.alloc(layout)
    }

    unsafe fn dealloc(&self, bytes: *mut u8, layout: Layout) {
        count(-(layout.size() as isize));
        System.dealloc(bytes, layout)
    }
}

#[global_allocator]
static COUNTING: Counting = Counting;

struct Panics;

impl PasetoClaim for Panics {
    fn get_key(&self) -> &str {
        "seats"
    }
}

impl Serialize for Panics {
    fn serialize<S: Serializer>(&self, _serializer: S) -> Result<S::Ok, S::Error> {
        panic!("this value is not written")
    }
}

// A panic in a validator and one in a value, and after each a call that passes.
fn round() -> Result<(), Box<dyn Error>> {
    let key = PasetoSymmetricKey::<V4, Local>::try_new_random()?;
    let mut builder = PasetoBuilder::<V4, Local>::default();
    let written = catch_unwind(AssertUnwindSafe(|| {
        builder.set_claim(Panics);
    }));
    assert!(written.is_err());
    let token = builder.build(&key)?;

    let kept = "what the closure holds".repeat(100);
    let is_kind = Cell::new(false);
    let closure = |_: &str, _: &serde_json::Value| match is_kind.get() {
        true => Ok(()),
        false => panic!("{kept}"),
    };
    let mut parser = PasetoParser::<V4, Local>::default();
    parser.validate_claim(CustomClaim::try_from("seats")?, &closure);
    let read = catch_unwind(AssertUnwindSafe(|| parser.parse(&token, &key).is_ok()));
    assert!(read.is_err());
    is_kind.set(true);
    assert!(parser.parse(&token, &key).is_ok());
    Ok(())
}

#[test]
fn a_panic_leaves_no_lock_and_no_leak() -> Result<(), Box<dyn Error>> {
    set_hook(Box::new(|_| {}));
    round()?;
    let before = LIVE.with(Cell::get);
    for _ in 0..100 {
        round()?;
    }
    assert_eq!(LIVE.with(Cell::get), before);
    Ok(())
}
