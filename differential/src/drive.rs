//! The ways in which the port makes the calls of a script.

use std::fmt;

/// Where a script says how it is driven.
const DRIVE_AT: usize = 5;

#[derive(Debug, Clone, Copy, PartialEq, Eq)]
pub enum Drive {
    /// By the host of scripts, with the state by value.
    ByValue,
    /// By the host of scripts, on the state where it stands.
    InPlace,
    /// By the exported operations, on a producer that this program keeps.
    Linked,
}

impl Drive {
    /// Makes the script one for this drive. A head that is malformed there stays so.
    pub fn set(self, script: &mut [u8]) {
        if let Some(byte) = script.get_mut(DRIVE_AT).filter(|byte| **byte <= 1) {
            *byte = u8::from(self != Self::ByValue);
        }
    }
}

impl fmt::Display for Drive {
    fn fmt(&self, f: &mut fmt::Formatter<'_>) -> fmt::Result {
        f.write_str(match self {
            Self::ByValue => "by value",
            Self::InPlace => "in place",
            Self::Linked => "linked",
        })
    }
}
