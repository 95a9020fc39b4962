//! The tables of docs/BENCH.md.

use crate::encode::{self, Encoding};
use crate::measure::Sample;
use crate::workloads::Workload;

/// A value with its least and greatest over the repetitions.
struct Spread {
    least: f64,
    median: f64,
    greatest: f64,
}

impl Spread {
    fn of(values: impl Iterator<Item = f64>) -> Self {
        let mut values: Vec<f64> = values.collect();
        values.sort_by(f64::total_cmp);
        Self {
            least: values[0],
            median: values[values.len() / 2],
            greatest: values[values.len() - 1],
        }
    }

    fn ratio(&self) -> String {
        let (least, greatest) = (self.least, self.greatest);
        format!("{:.2} ({least:.2} to {greatest:.2})", self.median)
    }

    /// The median, of nanoseconds.
    fn time(&self) -> String {
        if self.median < 10_000.0 {
            format!("{:.0} ns", self.median)
        } else {
            format!("{:.0} µs", self.median / 1_000.0)
        }
    }
}

pub fn heading() {
    println!("Medians for a unit, and the median, least and greatest ratio of a repetition.\n");
    println!(
        "| work | unit | exported | in place | by value | Rust, handed out | Rust, written \
         | exported / handed out | exported / written | in place / handed out | by value / written |"
    );
    println!("|---|---|---|---|---|---|---|---|---|---|---|");
}

pub fn workload(workload: &Workload, samples: &[Sample]) {
    let time = |of: fn(&Sample) -> f64| Spread::of(samples.iter().map(of)).time();
    let ratio = |of: fn(&Sample) -> f64| Spread::of(samples.iter().map(of)).ratio();
    println!(
        "| {} | {} | {} | {} | {} | {} | {} | {} | {} | {} | {} |",
        workload.name,
        workload.unit,
        time(|one| one.linked),
        time(|one| one.in_place),
        time(|one| one.by_value),
        time(|one| one.handed_out),
        time(|one| one.written),
        ratio(|one| one.linked / one.handed_out),
        ratio(|one| one.linked / one.written),
        ratio(|one| one.in_place / one.handed_out),
        ratio(|one| one.by_value / one.written),
    );
}

pub fn encode_heading() {
    println!("\n| bytes of a batch of 128 | port | prost | port / prost |");
    println!("|---|---|---|---|");
}

pub fn encoding(encoding: &Encoding, samples: &[encode::Sample]) {
    let spread = |of: fn(&encode::Sample) -> f64| Spread::of(samples.iter().map(of));
    println!(
        "| {} | {} | {} | {} |",
        encoding.name,
        spread(|one| one.port).time(),
        spread(|one| one.prost).time(),
        spread(|one| one.port / one.prost).ratio(),
    );
}

/// What every script of a drive begins with, a new state, and the stack that the workloads used.
pub fn drive(name: &str, empty: f64, stack: u64) {
    println!(
        "\nAn empty script {name}: {:.0} µs. Stack: {stack} bytes.",
        empty / 1_000.0
    );
}
