//! What a comparison reports: the first difference between two files of answers, and how often each
//! kind of answer came up.

use std::collections::BTreeMap;

/// The lines of a file; a last newline adds none.
fn lines(path: &str) -> Vec<Vec<u8>> {
    let bytes = std::fs::read(path).unwrap_or_else(|error| {
        eprintln!("{path}: {error}");
        std::process::exit(2);
    });
    let mut lines: Vec<Vec<u8>> = bytes.split(|&byte| byte == b'\n').map(<[u8]>::to_vec).collect();
    if lines.last().is_some_and(Vec::is_empty) {
        lines.pop();
    }
    lines
}

/// A line as it can be shown: cut where it is long.
fn shown(line: Option<&Vec<u8>>) -> String {
    const LONGEST: usize = 2_000;
    match line {
        None => String::from("(no line)"),
        Some(line) if line.len() > LONGEST => {
            format!("{} .. ({} bytes)", line[..LONGEST].escape_ascii(), line.len())
        }
        Some(line) => line.escape_ascii().to_string(),
    }
}

/// Prints how many lines were compared and the first that differs; whether none does.
pub fn differences(name: &str, commands: &str, ours: &str, theirs: &str) -> bool {
    let (commands, ours, theirs) = (lines(commands), lines(ours), lines(theirs));
    assert_eq!(commands.len(), ours.len(), "the oracle answers every line");
    let all = commands.len().max(theirs.len());
    let different: Vec<usize> = (0..all).filter(|&at| ours.get(at) != theirs.get(at)).collect();
    println!(
        "{name}: {} lines compared, {} differ",
        commands.len(),
        different.len()
    );
    if let Some(&at) = different.first() {
        println!("first difference, line {}:", at + 1);
        println!("  command {}", shown(commands.get(at)));
        println!("  oracle  {}", shown(ours.get(at)));
        println!("  replay  {}", shown(theirs.get(at)));
    }
    different.is_empty()
}

/// The kinds of answer in an answer, each with the command's word; those of a run one by one.
pub fn kinds(command: &[u8], answer: &str) -> Vec<(String, String)> {
    if answer == "?" {
        return vec![(String::from("?"), String::from("?"))];
    }
    let word = command.split(|&byte| byte == b' ').next().unwrap_or_default();
    let word = String::from_utf8_lossy(word);
    let kind = |part: &str| {
        let fields: Vec<&str> = part.split(' ').collect();
        match fields.as_slice() {
            ["R", number @ ("11" | "14"), reason, ..] => format!("R {number} {reason}"),
            ["R", number, ..] => format!("R {number}"),
            [letter @ ("I" | "H" | "V"), _, place @ ("O" | "P" | "B"), ..] => format!("{letter} {place}"),
            ["I", case, ..] => format!("I {case}"),
            [kind @ ("Q" | "END" | "OK" | "L"), ..] => (*kind).to_string(),
            _ => String::from("answer"),
        }
    };
    answer
        .split("; ")
        .map(|part| (word.to_string(), kind(part)))
        .collect()
}

/// Prints, for each command word, how often each kind of answer came up.
pub fn tally(commands: &str, answers: &str) {
    let mut all: BTreeMap<String, BTreeMap<String, u64>> = BTreeMap::new();
    for (command, answer) in lines(commands).iter().zip(lines(answers)) {
        for (word, kind) in kinds(command, &String::from_utf8_lossy(&answer)) {
            *all.entry(word).or_default().entry(kind).or_default() += 1;
        }
    }
    for (word, counts) in all {
        let shown: Vec<String> = counts
            .iter()
            .map(|(kind, times)| format!("{kind}: {times}"))
            .collect();
        println!("{word:6} {}", shown.join(", "));
    }
}
