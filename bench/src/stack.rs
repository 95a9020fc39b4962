//! How much stack a run has used.

use std::fs;

/// Bytes of the calling thread's stack that were ever touched.
pub fn touched() -> u64 {
    let here = 0_u8;
    let at = (&raw const here).addr();
    let maps = fs::read_to_string("/proc/self/smaps").expect("the system says what is mapped");
    let mut inside = false;
    for line in maps.lines() {
        if let Some(range) = range(line) {
            inside = range.contains(&at);
        }
        if let Some(size) = line.strip_prefix("Rss:").filter(|_| inside) {
            let kilobytes = size.trim().trim_end_matches(" kB");
            return 1_024 * kilobytes.parse::<u64>().expect("a number of kilobytes");
        }
    }
    panic!("the stack is mapped");
}

/// The addresses of a mapping, if the line begins one.
fn range(line: &str) -> Option<std::ops::Range<usize>> {
    let (from, to) = line.split_whitespace().next()?.split_once('-')?;
    let number = |text| usize::from_str_radix(text, 16).ok();
    Some(number(from)?..number(to)?)
}
