//! Stand-in for the crate `uuid`: `new_v4` answers the 16 bytes that the host has set, so that
//! chunk frames can be compared (document 01, "sends": the random uuid becomes 16 bytes from the
//! caller).

use std::cell::Cell;
use std::fmt;

thread_local! {
    static NEXT: Cell<[u8; 16]> = const { Cell::new([0; 16]) };
}

/// Sets the bytes of every uuid made from now on in this thread.
pub fn set_next(bytes: [u8; 16]) {
    NEXT.with(|next| next.set(bytes));
}

/// A uuid, written as 36 lowercase characters.
#[derive(Clone, Copy)]
pub struct Uuid([u8; 16]);

impl Uuid {
    /// The bytes last set, in place of random ones.
    #[must_use]
    pub fn new_v4() -> Self {
        Self(NEXT.with(Cell::get))
    }
}

impl fmt::Display for Uuid {
    fn fmt(&self, f: &mut fmt::Formatter<'_>) -> fmt::Result {
        for (i, byte) in self.0.iter().enumerate() {
            if matches!(i, 4 | 6 | 8 | 10) {
                f.write_str("-")?;
            }
            write!(f, "{byte:02x}")?;
        }
        Ok(())
    }
}
