//! The header: its structs against those of this program and of the library, and a C program that uses it.

use std::env;
use std::fmt::Write as _;
use std::fs;
use std::mem::size_of;
use std::path::Path;
use std::process::Command;

use super::layout::{Producer, layout, tevrulig_producer_size};

const FOLDER: &str = env!("CARGO_MANIFEST_DIR");

/// Compares the layouts, and runs the C program.
pub fn run() -> Result<(), String> {
    // SAFETY: it answers a number.
    let library = unsafe { tevrulig_producer_size() };
    if library != size_of::<Producer>() {
        let here = size_of::<Producer>();
        return Err(format!(
            "a producer has {library} bytes in the library and {here} here"
        ));
    }
    let (program, lines) = layout_program();
    fs::create_dir_all(format!("{FOLDER}/target")).map_err(|error| error.to_string())?;
    let source = format!("{FOLDER}/target/layout.c");
    fs::write(&source, program).map_err(|error| error.to_string())?;
    let header = compile(&source, "layout", &[])?;
    if header != lines {
        return Err(first_difference(&lines, &header));
    }
    say!(
        "{} sizes and offsets are those of the header; a producer has {library} bytes",
        lines.lines().count()
    );
    let folder = env::var("TEVRULIG_LIBRARY").map_err(|_| "TEVRULIG_LIBRARY is not set")?;
    let archive = format!("{folder}/libtevrulig.a");
    let printed = compile(
        &format!("{FOLDER}/c/rate_table.c"),
        "rate_table",
        &[&archive],
    )?;
    say!("\n{printed}");
    let wanted = fs::read_to_string(format!("{FOLDER}/c/rate_table.out"));
    if wanted.map_err(|error| error.to_string())? != printed {
        return Err("that is not c/rate_table.out".to_owned());
    }
    Ok(())
}

/// A C program that prints where the header's fields stand, and what it is to print.
fn layout_program() -> (String, String) {
    let (mut body, mut lines) = (String::new(), String::new());
    for (name, size, fields) in layout() {
        let _ = writeln!(
            body,
            "    printf(\"{name} %zu\\n\", sizeof(struct {name}));"
        );
        let _ = writeln!(lines, "{name} {size}");
        for (field, offset) in fields {
            let _ = writeln!(
                body,
                "    printf(\"{name}.{field} %zu\\n\", offsetof(struct {name}, {field}));"
            );
            let _ = writeln!(lines, "{name}.{field} {offset}");
        }
    }
    let program = format!(
        "#include \"{FOLDER}/../include/tevrulig.h\"\n#include <stdio.h>\n\nint main(void)\n{{\n{body}    return 0;\n}}\n"
    );
    (program, lines)
}

/// Compiles a C file, with every warning an error, and answers what it prints.
fn compile(source: &str, name: &str, libraries: &[&str]) -> Result<String, String> {
    let program = format!("{FOLDER}/target/{name}");
    let mut compiler = Command::new(env::var("CC").unwrap_or_else(|_| "cc".to_owned()));
    compiler
        .args([
            "-std=c11",
            "-Wall",
            "-Wextra",
            "-Wpedantic",
            "-Werror",
            "-O2",
        ])
        .args([source, "-o", &program])
        .args(libraries);
    let status = compiler.status().map_err(|error| error.to_string())?;
    if !status.success() {
        return Err(format!("{source} does not compile: {status}"));
    }
    let output = Command::new(Path::new(&program)).output();
    let output = output.map_err(|error| error.to_string())?;
    if !output.status.success() {
        return Err(format!("{name} ended with {}", output.status));
    }
    String::from_utf8(output.stdout).map_err(|error| error.to_string())
}

fn first_difference(here: &str, header: &str) -> String {
    let pairs = here.lines().zip(header.lines());
    let differing = pairs.into_iter().find(|(here, header)| here != header);
    differing.map_or_else(
        || "the header prints another number of lines".to_owned(),
        |(here, header)| format!("here {here}, in the header {header}"),
    )
}
