//! The functions of the header, and how much of the stack each has needed, where that is asked for.

use std::cell::RefCell;
use std::collections::BTreeMap;

use super::depth;
use super::layout::{
    self, Counts, Entry, Frame, Message, MessageId, OptionalU64, Producer, Receipt, SendError,
    Sent, Stats,
};

/// The bytes that each function has needed at most.
pub type Needs = BTreeMap<&'static str, usize>;

thread_local! {
    static NEEDS: RefCell<Option<Needs>> = const { RefCell::new(None) };
}

macro_rules! call {
    ($(fn $name:ident($($argument:ident: $type:ty),* $(,)?) $(-> $answer:ty)?;)*) => {
        $(
            #[allow(clippy::too_many_arguments)]
            pub unsafe fn $name($($argument: $type),*) $(-> $answer)? {
                // SAFETY: as the header says, which is the caller's part.
                noted(stringify!($name), || unsafe { layout::$name($($argument),*) })
            }
        )*

        /// Their names, as the header has them one after the other.
        pub const NAMES: &[&str] = &[$(stringify!($name)),*];
    };
}

functions!(call);

fn noted<T>(name: &'static str, call: impl FnOnce() -> T) -> T {
    if NEEDS.with_borrow(Option::is_none) {
        return call();
    }
    let (answer, bytes) = depth::measured(call);
    NEEDS.with_borrow_mut(|needs| {
        let most = needs.as_mut().map(|needs| needs.entry(name).or_default());
        most.map(|most| *most = bytes.max(*most))
    });
    answer
}

/// What the calls needed that the work made on this thread.
pub fn needs_of(work: impl FnOnce() -> Result<(), String>) -> Result<Needs, String> {
    let ((), nothing) = depth::measured(|| ());
    assert_eq!(nothing, depth::NEAREST, "the measure writes where it looks");
    NEEDS.set(Some(Needs::new()));
    let done = work();
    let needs = NEEDS.take().unwrap_or_default();
    done.map(|()| needs)
}
