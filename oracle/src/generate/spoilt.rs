//! Lines that are no command, or nearly so: one for each way in which a line can go wrong.

use super::Group;

const FIELDS: [&str; 24] = [
    "",
    "+1",
    "-1",
    "-",
    "1_0",
    "0x",
    "0X1",
    "0xg",
    "x1",
    "1x",
    "1.0",
    "1e3",
    "0b1",
    "\u{663}",
    "1\u{0}",
    "1\t",
    "00001",
    "0x00000000000000000000000001",
    "4294967296",
    "0x1FFFFFFFF",
    "18446744073709551616",
    "0x10000000000000000",
    "340282366920938463463374607431768211456",
    "99999999999999999999999999999999999999999999999999",
];

/// Entries of a table, most of them none: one for each way in which an entry can go wrong.
const ENTRIES: [&str; 19] = [
    "0",
    "=7",
    "0=",
    "0=7:",
    "0=7:1",
    "0=7:0",
    "0=0:0",
    "0=7:2",
    "0=7:255",
    "0=7:256",
    "0=7:0x1",
    "0:1=7",
    "0=7:1:1",
    "144=7",
    "143=7",
    "0=18446744073709551616",
    "0=18446744073709551615",
    "0=7=8",
    "0x0=0x7",
];

const ALONE: [&[u8]; 14] = [
    b"",
    b" ",
    b"  ",
    b"?",
    b"L",
    b"R 1",
    b"E 8 1",
    b"el 8 1",
    b"EL8 1",
    b"EL,8,1",
    b"\0",
    b"\xff\xfe",
    b"EL 8 1\0",
    b"HELP",
];

/// Each sample, spoilt in every way. A bulk run's number of insertions is left alone where the line
/// would still be a command, only a very long one.
pub fn lines(group: &mut Group, samples: &[&str]) {
    group.section();
    for line in ALONE {
        group.line(line);
    }
    for sample in samples {
        let fields: Vec<&str> = sample.split(' ').collect();
        group.line(sample);
        group.line(sample.to_lowercase());
        group.line(format!(" {sample}"));
        group.line(format!("{sample} "));
        group.line(format!("{sample}\r"));
        group.line(format!("{sample} 1"));
        group.line(format!("{sample} x"));
        group.line(sample.replacen(' ', "  ", 1));
        group.line(sample.replacen(' ', "\t", 1));
        group.line(fields[..fields.len() - 1].join(" "));
        group.line(fields[0]);
        group.line(format!("{}X", fields[0]));
        group.line(format!("{sample}{}", "7".repeat(60)));
        for place in 1..fields.len() {
            for spoilt in FIELDS {
                let is_long = fields[0].ends_with("BULK") && place + 1 == fields.len();
                if is_long && matches!(spoilt, "4294967296" | "0x1FFFFFFFF") {
                    continue;
                }
                let mut fields = fields.clone();
                fields[place] = spoilt;
                group.line(fields.join(" "));
            }
        }
    }
}

/// Commands that end with one entry, after each of these beginnings.
pub fn entries(group: &mut Group, heads: [&str; 2]) {
    for entry in ENTRIES {
        for head in heads {
            group.line(format!("{head} {entry}"));
        }
    }
}
