//! Generated commands, by group: the boundaries that 01 names, exhaustively where that is possible,
//! and random values around them. The same size, seed and group always give the same lines.

mod check;
mod elastic;
mod funnel;
mod hostile;
mod image;
mod layouts;
mod numbers;
mod probes;
mod smallest;
mod spoilt;

use std::collections::{BTreeMap, BTreeSet};
use std::io::{BufWriter, StdoutLock, Write};

use crate::answer::answer;
use crate::report::kinds;
use crate::rules::Bounds;
use numbers::Numbers;

pub const GROUPS: [&str; 8] = ["layouts", "smallest", "probes", "elastic", "funnel", "image", "check", "hostile"];

/// Where the lines of a group go: all of them out, or a few of each section.
enum Sink {
    All(BufWriter<StdoutLock<'static>>),
    Few(Sample),
}

/// A sample takes no line that is longer than this, or no plain text.
const SAMPLE_LENGTH: usize = 2_500;

#[derive(Default)]
struct Sample {
    /// So many lines are taken of each section, and the first so many with each kind of answer.
    each_section: u64,
    each_kind: u64,
    lines: Vec<Vec<u8>>,
    /// How often each kind of answer is among the lines.
    kinds: BTreeMap<(String, String), u64>,
    /// Some of the section's other lines, and how many of these there were.
    kept: Vec<Vec<u8>>,
    seen: u64,
    choice: Numbers,
}

impl Sample {
    fn line(&mut self, line: &[u8]) {
        let is_plain = line.iter().all(|byte| (b' '..=b'~').contains(byte));
        if line.len() > SAMPLE_LENGTH || !is_plain {
            return;
        }
        let kinds = kinds(line, &answer(line, Bounds::REPLAY));
        if kinds
            .iter()
            .any(|kind| *self.kinds.get(kind).unwrap_or(&0) < self.each_kind)
        {
            for kind in kinds.into_iter().collect::<BTreeSet<_>>() {
                *self.kinds.entry(kind).or_default() += 1;
            }
            self.lines.push(line.to_vec());
            return;
        }
        self.seen += 1;
        if self.seen <= self.each_section {
            self.kept.push(line.to_vec());
        } else {
            let place = self.choice.below(self.seen);
            if place < self.each_section {
                self.kept[place as usize] = line.to_vec();
            }
        }
    }

    fn section(&mut self) {
        self.lines.append(&mut self.kept);
        self.seen = 0;
    }
}

pub struct Group {
    /// Where the random numbers come from.
    random: Numbers,
    /// How much of the full size, in percent.
    percent: u64,
    sink: Sink,
}

impl Group {
    fn new(name: &str, percent: u64, seed: u64, sink: Sink) -> Self {
        let salt = name
            .bytes()
            .fold(seed, |salt, byte| salt.wrapping_mul(257) + u64::from(byte));
        Self {
            random: Numbers::new(salt),
            percent,
            sink,
        }
    }

    fn run(&mut self, name: &str) {
        match name {
            "layouts" => layouts::lines(self),
            "smallest" => smallest::lines(self),
            "probes" => probes::lines(self),
            "elastic" => elastic::lines(self),
            "funnel" => funnel::lines(self),
            "image" => image::lines(self),
            "check" => check::lines(self),
            "hostile" => hostile::lines(self),
            _ => unreachable!("the groups were looked up"),
        }
        self.section();
        if let Sink::All(out) = &mut self.sink {
            out.flush().expect("writable output");
        }
    }

    /// A new kind of line begins: a sample has some of each kind.
    fn section(&mut self) {
        if let Sink::Few(sample) = &mut self.sink {
            sample.section();
        }
    }

    fn line(&mut self, line: impl AsRef<[u8]>) {
        let line = line.as_ref();
        match &mut self.sink {
            Sink::All(out) => {
                out.write_all(line).expect("writable output");
                out.write_all(b"\n").expect("writable output");
            }
            Sink::Few(sample) => sample.line(line),
        }
    }

    /// A line that every sample has.
    fn stored(&mut self, line: impl AsRef<[u8]>) {
        match &mut self.sink {
            Sink::All(_) => self.line(line),
            Sink::Few(sample) => sample.lines.push(line.as_ref().to_vec()),
        }
    }

    /// True for as many of a full-size list as the size asks for.
    fn thin(&mut self) -> bool {
        self.random.below(100) < self.percent
    }

    /// So many of a full-size number, at least 1.
    fn times(&self, full: u64) -> u64 {
        (full * self.percent / 100).max(1)
    }

    fn is_full(&self) -> bool {
        self.percent >= 100
    }
}

fn named<'a>(groups: &[&'a str]) -> Vec<&'a str> {
    if let Some(unknown) = groups.iter().find(|group| !GROUPS.contains(group)) {
        eprintln!("no group {unknown}; the groups are {}", GROUPS.join(" "));
        std::process::exit(2);
    }
    if groups.is_empty() {
        GROUPS.to_vec()
    } else {
        groups.to_vec()
    }
}

pub fn generate(size: &str, seed: &str, groups: &[&str]) {
    let percent = match size {
        "ci" => 20,
        "full" => 100,
        number => match number.parse() {
            Ok(percent @ 1..=100) => percent,
            _ => {
                eprintln!("a size is ci, full or a percentage from 1 to 100");
                std::process::exit(2);
            }
        },
    };
    let Ok(seed) = seed.parse() else {
        eprintln!("a seed is a number below 2^64");
        std::process::exit(2);
    };
    for name in named(groups) {
        let sink = Sink::All(BufWriter::with_capacity(1 << 16, std::io::stdout().lock()));
        Group::new(name, percent, seed, sink).run(name);
    }
}

pub fn sample(groups: &[&str]) {
    for name in named(groups) {
        // Layouts are short lines of two commands only, so there can be more of them.
        let (each_section, each_kind) = if name == "layouts" { (30, 40) } else { (12, 5) };
        let sample = Sample {
            each_section,
            each_kind,
            ..Sample::default()
        };
        let mut group = Group::new(name, 2, 1, Sink::Few(sample));
        group.run(name);
        if let Sink::Few(sample) = group.sink {
            let mut out = std::io::stdout().lock();
            for line in sample.lines {
                out.write_all(&line).expect("writable output");
                out.write_all(b"\n").expect("writable output");
            }
        }
    }
}
