//! The smallest script on which the port and the Rust differ, and its text.

use std::fmt::Write as _;

use crate::beside::{Beside, Host, same};
use crate::drive::Drive;
use crate::generate::build::Case;
use crate::run::{Observer, UNTOUCHED, answers_of, keep};
use crate::script::{read_head, read_operation};
use crate::writer::Script;

/// Where the smallest script is kept.
const DIFFERING: &str = concat!(env!("CARGO_MANIFEST_DIR"), "/target/differing.script");
/// So many bytes of the answers are shown, from a little before the first that differs.
const SHOWN: usize = 96;

/// The text of the smallest script found that differs, if this one does by itself.
pub fn describe(case: &Case, host: Host, drive: Drive) -> String {
    let Some(small) = smallest(case, host, drive) else {
        return format!("{drive}: no difference by itself, but after the scripts before it");
    };
    let kept = keep(DIFFERING, &small.script);
    format!("{drive}: {}  {kept}", text(&small, host))
}

/// The smallest script found that differs, if this one does by itself.
pub fn smallest(case: &Case, host: Host, drive: Drive) -> Option<Case> {
    let mut smaller = Smaller {
        case: case.clone(),
        beside: Beside::thorough(host, drive),
    };
    if !smaller.still_differs(case.script.clone()) {
        return None;
    }
    loop {
        let before = smaller.case.script.clone();
        smaller.leave_out_operations();
        smaller.shorten_store();
        smaller.lower_bytes();
        if smaller.case.script == before {
            return Some(smaller.case);
        }
    }
}

/// A script that differs, on its way to a smaller one.
struct Smaller {
    case: Case,
    beside: Beside,
}

impl Smaller {
    /// Takes the script if it still differs.
    fn still_differs(&mut self, script: Vec<u8>) -> bool {
        let output = self.case.output;
        let mut trial = Case { script, output };
        let differs = self.beside.difference(&mut trial).is_some();
        if differs {
            self.case = trial;
        }
        differs
    }

    /// Many at once first, then fewer, at last one by one.
    fn leave_out_operations(&mut self) {
        let (_, end) = operations(&self.case.script);
        let cut = self.case.script[..end].to_vec();
        self.still_differs(cut);
        let mut many = self.places().len();
        while many > 0 {
            let mut from = 0;
            while let Some(places) = self.places().get(from..).filter(|rest| !rest.is_empty()) {
                let last = places.len().min(many) - 1;
                let mut script = self.case.script.clone();
                script.drain(places[0].0..places[last].1);
                if !self.still_differs(script) {
                    from += many;
                }
            }
            many /= 2;
        }
    }

    fn places(&self) -> Vec<(usize, usize)> {
        operations(&self.case.script).0
    }

    fn shorten_store(&mut self) {
        let whole = self.case.script.clone();
        let Some(head) = read_head(&whole) else {
            return;
        };
        let mut short = 0;
        while short < head.store.len() {
            let mut script = Script::new(whole[5], head.handle, &head.store[..short]).bytes;
            script.extend_from_slice(&whole[head.end..]);
            if self.still_differs(script) {
                return;
            }
            short = 2 * short + 1;
        }
    }

    /// Every byte of the operations, the high ones of a number first.
    fn lower_bytes(&mut self) {
        let begin = read_head(&self.case.script).map_or(0, |head| head.end);
        for at in (begin..self.case.script.len()).rev() {
            let byte = self.case.script[at];
            let lower = [0, 1, byte / 2, byte.saturating_sub(1)];
            for value in lower.into_iter().filter(|value| *value < byte) {
                let mut script = self.case.script.clone();
                script[at] = value;
                if self.still_differs(script) {
                    break;
                }
            }
        }
    }
}

fn text(case: &Case, host: Host) -> String {
    let Case { script, output } = case;
    let mut text = format!("an output of {output} bytes, and the script\n");
    if let Some(head) = read_head(script) {
        let length = head.store.len();
        let _ = writeln!(text, "  handle {}, a store of {length} bytes", head.handle);
    }
    let (places, end) = operations(script);
    for (at, _) in places {
        if let Some((operation, _)) = read_operation(script, at) {
            let _ = writeln!(text, "  at {at}: {}", present(&format!("{operation:?}")));
        }
    }
    if end < script.len() {
        let _ = writeln!(text, "  at {end}, no operation: {:02x?}", &script[end..]);
    }
    let rust = answers_of(script, *output, &mut Observer::default());
    let mut answers = vec![UNTOUCHED; *output];
    let length = host(script, &mut answers);
    answers.truncate(length);
    let from = same(&rust, &answers).saturating_sub(SHOWN / 4);
    for (name, answers) in [("Rust", &rust), ("port", &answers)] {
        let (length, end) = (answers.len(), answers.len().min(from + SHOWN));
        let shown = &answers[from.min(end)..end];
        let _ = writeln!(
            text,
            "  {name}: {length} bytes, from {from} on {shown:02x?}"
        );
    }
    text
}

/// Where each operation starts and ends, and where they end; a malformed head has none.
fn operations(script: &[u8]) -> (Vec<(usize, usize)>, usize) {
    let mut places = Vec::new();
    let mut at = read_head(script).map_or(0, |head| head.end);
    if at > 0 {
        while let Some((_, next)) = read_operation(script, at) {
            places.push((at, next));
            at = next;
        }
    }
    (places, at)
}

/// The text of an operation without its absent fields.
fn present(operation: &str) -> String {
    let mut text = String::new();
    for field in operation.split(", ") {
        match field.split_once(": None") {
            // What follows an absent field can only close its record.
            Some((_, rest)) => text += rest,
            None if text.is_empty() => text += field,
            None => text = text + ", " + field,
        }
    }
    text
}
