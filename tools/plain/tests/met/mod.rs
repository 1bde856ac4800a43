//! What a call meets that is a mistake of the caller: its answer, or what its panic said.

use std::cell::{Cell, RefCell};
use std::panic::{AssertUnwindSafe, Location, PanicHookInfo, catch_unwind, set_hook, take_hook};
use std::sync::Once;

/// What a panic said, and the file that it named.
pub struct Said {
    pub text: String,
    pub file: String,
}

/// How the message of a build with guards begins where a handle is not live.
pub const NOT_LIVE: &str = "the handle is not live in this forest, which the call requires and `holds` tests: ";

thread_local! {
    static IS_CAUGHT: Cell<bool> = const { Cell::new(false) };
    static SAID: RefCell<Option<Said>> = const { RefCell::new(None) };
}

fn said(info: &PanicHookInfo<'_>) -> Said {
    let payload = info.payload();
    let text = payload.downcast_ref::<String>().cloned();
    let text = text.or_else(|| payload.downcast_ref::<&str>().map(|&it| it.into()));
    let file = info.location().map_or("", |it| it.file());
    Said { text: text.expect("a panic has a text"), file: file.into() }
}

/// From here on a panic in a call of `met` is kept, and nothing is printed for it.
fn keep_panics() {
    static ONCE: Once = Once::new();
    ONCE.call_once(|| {
        let printing = take_hook();
        set_hook(Box::new(move |info| {
            if IS_CAUGHT.get() {
                SAID.set(Some(said(info)));
            } else {
                printing(info);
            }
        }));
    });
}

/// What a call answered, or what its panic said.
pub fn met<T>(call: impl FnOnce() -> T) -> Result<T, Said> {
    keep_panics();
    IS_CAUGHT.set(true);
    let answer = catch_unwind(AssertUnwindSafe(call));
    IS_CAUGHT.set(false);
    answer.map_err(|_| SAID.take().expect("the hook kept it"))
}

/// A call that returns, or panics in plain words: what it answered.
pub fn survived<T>(what: &str, call: impl FnOnce() -> T) -> Option<T> {
    match met(call) {
        Ok(answer) => Some(answer),
        Err(said) => {
            assert!(!said.text.is_empty() && !said.text.contains("internal error"), "{what}: {}", said.text);
            None
        }
    }
}

/// A call that is a mistake: builds with guards panic at once. The message begins with what was asked and names the mistake, and its place is
/// that of the call.
#[track_caller]
pub fn refused(what: &str, asked: &str, mistake: &str, call: impl FnOnce()) {
    if !cfg!(any(debug_assertions, feature = "guards")) {
        survived(what, call);
        return;
    }
    let said = met(call).err().unwrap_or_else(|| panic!("{what} returned, where {mistake}"));
    assert!(said.text.starts_with(asked) && said.text.contains(mistake), "{what}: {}", said.text);
    assert!(!said.text.contains("internal error"), "{what}: {}", said.text);
    assert_eq!(said.file, Location::caller().file(), "{what}: {}", said.text);
}
