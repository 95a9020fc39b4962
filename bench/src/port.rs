//! The port: one call carries out a whole script (docs/SCRIPT.md).

use crate::operations::Operation;
use crate::writer::Script;

unsafe extern "C" {
    fn tevrulig_run(
        script: *const u8,
        script_len: usize,
        output: *mut u8,
        output_len: usize,
    ) -> usize;
}

/// The producer of every script.
pub const HANDLE: u64 = 7;

/// How a host makes its calls.
#[derive(Debug, Clone, Copy, PartialEq, Eq)]
pub enum Drive {
    ByValue,
    InPlace,
}

impl Drive {
    fn code(self) -> u8 {
        match self {
            Self::ByValue => 0,
            Self::InPlace => 1,
        }
    }
}

/// The script of these operations.
pub fn script(drive: Drive, store: &[u8], operations: &[Operation]) -> Vec<u8> {
    let mut script = Script::new(drive.code(), HANDLE, store);
    operations.iter().for_each(|one| script.push(one));
    script.bytes
}

/// Carries out a script and answers how many bytes of the output it wrote.
pub fn run(script: &[u8], output: &mut [u8]) -> usize {
    // SAFETY: both pointers are those of slices of the lengths given; the port reads the first,
    // writes the second and keeps neither.
    unsafe {
        tevrulig_run(
            script.as_ptr(),
            script.len(),
            output.as_mut_ptr(),
            output.len(),
        )
    }
}
