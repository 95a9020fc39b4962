//! Drives the unchanged Rust send queue by scripts of docs/SCRIPT.md.

/// Prints a line; nobody has to read it to its end.
macro_rules! say {
    ($($text:tt)*) => {{
        let _ = std::io::Write::write_fmt(
            &mut std::io::stdout(),
            format_args!("{}\n", format_args!($($text)*)),
        );
    }};
}

mod answers;
#[cfg(any(feature = "port", test))]
mod beside;
mod bounds;
mod compare;
mod counts;
#[cfg(any(feature = "port", test))]
mod drive;
mod frames;
mod generate;
#[cfg(any(feature = "port", test))]
mod guard;
mod headroom;
mod operations;
mod oracle;
#[cfg(feature = "port")]
mod port;
mod reconnects;
mod recorded;
mod run;
mod script;
mod shadow;
#[cfg(any(feature = "port", test))]
mod shrink;
mod tables;
#[cfg(test)]
mod tests;
mod wire;
mod writer;

use std::process::ExitCode;
use std::time::Instant;
use std::{env, fs};

use counts::Counts;
use generate::{Amounts, CLASSES, twice_pairs};
use reconnects::Reconnects;
use run::{Observer, answers_of};

const USAGE: &str = "usage: differential COMMAND
  million [SEED]                   about a million calls, with counts
  longer [SEED]                    some millions
  execute SCRIPT ANSWERS [LENGTH]  one script file; LENGTH is the output's
  record SAMPLE                    makes the recorded sample
  check SAMPLE                     compares the recorded sample with the Rust, bit for bit
  frames SAMPLE FRAMES             every frame taken in the sample, encoded by prost";

fn main() -> ExitCode {
    let words: Vec<String> = env::args().skip(1).collect();
    let words: Vec<&str> = words.iter().map(String::as_str).collect();
    let result = match words[..] {
        ["million"] => campaign(&Amounts::MILLION, "1"),
        ["million", seed] => campaign(&Amounts::MILLION, seed),
        ["longer"] => campaign(&Amounts::LONGER, "1"),
        ["longer", seed] => campaign(&Amounts::LONGER, seed),
        ["execute", script, answers] => execute(script, answers, "1048576"),
        ["execute", script, answers, length] => execute(script, answers, length),
        ["record", sample] => record(sample),
        ["check", sample] => check(sample),
        ["frames", sample, frames] => write_frames(sample, frames),
        _ => with_port(&words),
    };
    match result {
        Ok(()) => ExitCode::SUCCESS,
        Err(text) => {
            eprintln!("{text}");
            ExitCode::FAILURE
        }
    }
}

#[cfg(feature = "port")]
fn with_port(words: &[&str]) -> Result<(), String> {
    let result = port::command(words);
    result.unwrap_or_else(|| Err(format!("{USAGE}{}", port::USAGE)))
}

#[cfg(not(feature = "port"))]
fn with_port(_: &[&str]) -> Result<(), String> {
    Err(USAGE.to_owned())
}

/// Runs all classes and prints the counts; fails if something was never met.
fn campaign(amounts: &Amounts, seed: &str) -> Result<(), String> {
    let seed = seed.parse().map_err(|_| "the seed is a number")?;
    let mut all = Counts::default();
    for class in CLASSES {
        let begun = Instant::now();
        let mut observer = Observer::default();
        (class.cases)(amounts, seed, &mut |case| {
            answers_of(&case.script, case.output, &mut observer);
        });
        let counts = observer.counts;
        let seconds = begun.elapsed().as_secs_f64();
        say!("class {}: {}", class.name, class.covers);
        say!(
            "{} scripts, {} calls, {seconds:.1} s\n",
            counts.scripts,
            counts.calls
        );
        all.add(&counts);
    }
    reconnects(amounts, seed)?;
    report(&all)
}

/// Two reconnects in a row beside one, in the Rust.
fn reconnects(amounts: &Amounts, seed: u64) -> Result<(), String> {
    let mut reconnects = Reconnects::default();
    let mut wrong = None;
    twice_pairs(amounts, seed, &mut |pair| {
        let mut observer = Observer::default();
        let mut rust = |script: &[u8], output| answers_of(script, output, &mut observer);
        let difference = reconnects.difference(&pair, &mut rust);
        wrong = wrong.take().or(difference);
    });
    say!("{reconnects}\n");
    wrong.or(reconnects.missing()).map_or(Ok(()), Err)
}

fn report(counts: &Counts) -> Result<(), String> {
    say!("{counts}");
    let mut wrong = counts.missing();
    wrong.extend(counts.unknown());
    if wrong.is_empty() {
        Ok(())
    } else {
        Err(wrong.join("\n"))
    }
}

fn read(file: &str) -> Result<Vec<u8>, String> {
    fs::read(file).map_err(|error| format!("{file}: {error}"))
}

fn write(file: &str, bytes: &[u8]) -> Result<(), String> {
    fs::write(file, bytes).map_err(|error| format!("{file}: {error}"))
}

fn execute(script: &str, answers: &str, length: &str) -> Result<(), String> {
    let length = length.parse().map_err(|_| "the length is a number")?;
    let mut observer = Observer::default();
    let bytes = answers_of(&read(script)?, length, &mut observer);
    write(answers, &bytes)?;
    say!("{}", observer.counts);
    Ok(())
}

fn record(sample: &str) -> Result<(), String> {
    let (records, counts) = recorded::make();
    let bytes = recorded::encode(&records);
    write(sample, &bytes)?;
    say!("{} records, {} bytes", records.len(), bytes.len());
    report(&counts)
}

fn check(sample: &str) -> Result<(), String> {
    let bytes = read(sample)?;
    let records = recorded::decode(&bytes).ok_or(format!("{sample} is no sample"))?;
    let (made, counts) = recorded::make();
    let same = |(old, new): (&recorded::Record, &recorded::Record)| {
        old.script == new.script && old.output == new.output && old.answers == new.answers
    };
    if let Some(place) = records.iter().zip(&made).position(|pair| !same(pair)) {
        return Err(format!("record {place} of {sample} differs"));
    }
    if recorded::encode(&made) != bytes {
        return Err(format!(
            "{sample} has {} records, not {}",
            records.len(),
            made.len()
        ));
    }
    say!(
        "{sample}: {} records, {} bytes, the same bit for bit",
        records.len(),
        bytes.len()
    );
    report(&counts)
}

/// For the second check of the bytes: after each record its frames, command and metadata.
fn write_frames(sample: &str, frames: &str) -> Result<(), String> {
    let records = recorded::decode(&read(sample)?).ok_or(format!("{sample} is no sample"))?;
    let mut bytes = Vec::new();
    for record in &records {
        let mut observer = Observer {
            frames: Some(Vec::new()),
            ..Observer::default()
        };
        answers_of(&record.script, record.output, &mut observer);
        let taken = observer.frames.unwrap_or_default();
        bytes.extend_from_slice(&(taken.len() as u32).to_le_bytes());
        for part in taken
            .iter()
            .flat_map(|(command, metadata)| [command, metadata])
        {
            bytes.extend_from_slice(&(part.len() as u32).to_le_bytes());
            bytes.extend_from_slice(part);
        }
    }
    write(frames, &bytes)
}
