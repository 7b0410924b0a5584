//! The differential oracle: the Rust of `exact/`, unchanged, behind the line protocol of `replay`.
//! `oracle answer` answers commands, `oracle generate` makes them. See README.md.

extern crate alloc;

/// The carried-over Rust, byte for byte; only its `tests` submodules are ours (accessors).
#[allow(dead_code)]
mod exact {
    pub mod geometry;
    pub mod probe;
    pub mod reference;
}

mod answer;
mod check;
mod elastic;
mod funnel;
mod generate;
mod hostile;
mod image;
mod line;
mod panics;
mod report;
mod rules;
mod smallest;

use std::io::{BufRead, Write};

fn main() {
    panics::silence_caught();
    let words: Vec<String> = std::env::args().skip(1).collect();
    let words: Vec<&str> = words.iter().map(String::as_str).collect();
    match words.as_slice() {
        ["answer"] => answer_all(rules::Bounds::REPLAY).unwrap_or_else(|error| complain(error)),
        ["answer", "--any-size"] => answer_all(rules::Bounds::NONE).unwrap_or_else(|error| complain(error)),
        ["generate", size, seed, groups @ ..] => generate::generate(size, seed, groups),
        ["sample", groups @ ..] => generate::sample(groups),
        ["differences", name, commands, ours, theirs] => {
            if !report::differences(name, commands, ours, theirs) {
                std::process::exit(1);
            }
        }
        ["tally", commands, answers] => report::tally(commands, answers),
        ["groups"] => println!("{}", generate::GROUPS.join(" ")),
        _ => {
            eprintln!("usage: oracle answer [--any-size]");
            eprintln!("       oracle generate SIZE SEED [GROUP..]");
            eprintln!("       oracle sample [GROUP..]");
            eprintln!("       oracle groups");
            eprintln!("       oracle differences NAME COMMANDS ANSWERS OTHER-ANSWERS");
            eprintln!("       oracle tally COMMANDS ANSWERS");
            std::process::exit(2);
        }
    }
}

/// Ends the program where commands cannot be read or answers not written.
fn complain(error: std::io::Error) -> ! {
    eprintln!("oracle: commands cannot be read, or answers not written: {error}");
    std::process::exit(2);
}

/// One answer a line; a last line may lack its newline.
fn answer_all(bounds: rules::Bounds) -> std::io::Result<()> {
    let mut input = std::io::BufReader::with_capacity(1 << 16, std::io::stdin().lock());
    let mut output = std::io::BufWriter::with_capacity(1 << 16, std::io::stdout().lock());
    let mut line = Vec::new();
    loop {
        line.clear();
        if input.read_until(b'\n', &mut line)? == 0 {
            return output.flush();
        }
        if line.last() == Some(&b'\n') {
            line.pop();
        }
        output.write_all(answer::answer(&line, bounds).as_bytes())?;
        output.write_all(b"\n")?;
    }
}
