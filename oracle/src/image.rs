//! LOAD and WRITE. The Rust has no images: this is a plain model of "Image and check" in 01, and
//! sentences in quotes are 01's.

use crate::answer::digest;
use crate::funnel::{self, Table};
use crate::line::Entry;
use crate::rules::{Bounds, Refused, refusal};

/// "entries of slot and identity (16 bytes each, .., 4,095 a field, only the last field shorter, ..)".
const ENTRY: usize = 16;
const FULL: usize = 4_095 * ENTRY;

/// What an image says, where it is well formed.
pub struct Image {
    pub n: u64,
    pub e: u32,
    pub seed: u64,
    /// "the offset and length of the label's body, two zeros if there is none".
    pub label: (usize, usize),
    pub entries: Vec<(u64, u64)>,
}

fn little_endian(bytes: &[u8]) -> u64 {
    bytes
        .iter()
        .rev()
        .fold(0, |value, &byte| value << 8 | u64::from(byte))
}

/// "Fields: one-byte tag, two-byte length, body, all little-endian."
fn put(image: &mut Vec<u8>, tag: u8, body: &[u8]) {
    image.push(tag);
    image.extend_from_slice(&u16::try_from(body.len()).expect("a field's length").to_le_bytes());
    image.extend_from_slice(body);
}

/// The image of a table with these entries, slots rising.
pub fn build(n: u64, e: u32, seed: u64, label: &[u8], entries: &[(u64, u64)]) -> Vec<u8> {
    let mut image = Vec::new();
    put(&mut image, 1, &n.to_le_bytes());
    put(&mut image, 2, &e.to_le_bytes());
    put(&mut image, 3, &seed.to_le_bytes());
    // "an empty label writes none".
    if !label.is_empty() {
        put(&mut image, 4, label);
    }
    for part in entries.chunks(FULL / ENTRY) {
        let mut body = Vec::new();
        for (slot, identity) in part {
            body.extend_from_slice(&slot.to_le_bytes());
            body.extend_from_slice(&identity.to_le_bytes());
        }
        put(&mut image, 5, &body);
    }
    // "6 holds the number of entries".
    put(&mut image, 6, &(entries.len() as u64).to_le_bytes());
    image
}

/// The field at `at`, if its tag is one of `tags` and its length is one that `fits` takes: its tag,
/// its body, and where the next one starts. "Within a field the order is: tag, both length bytes
/// present, length, body present, content." An `Err` is the place that IMAGE gives: the field's own,
/// "or the image's length if it ends before or inside a field whose tag is right".
fn field<'a>(
    image: &'a [u8],
    at: usize,
    tags: &[u8],
    fits: impl Fn(u8, usize) -> bool,
) -> Result<(u8, &'a [u8], usize), usize> {
    let Some(&tag) = image.get(at) else {
        return Err(image.len());
    };
    if !tags.contains(&tag) {
        return Err(at);
    }
    let Some(length) = image.get(at + 1..at + 3) else {
        return Err(image.len());
    };
    let length = little_endian(length) as usize;
    if !fits(tag, length) {
        return Err(at);
    }
    let end = at + 3 + length;
    match image.get(at + 3..end) {
        Some(body) => Ok((tag, body, end)),
        None => Err(image.len()),
    }
}

/// Reads an image whole; an `Err` is the byte place of IMAGE.
pub fn read(image: &[u8]) -> Result<Image, usize> {
    let (_, body, at) = field(image, 0, &[1], |_, length| length == 8)?;
    let n = little_endian(body);
    let (_, body, at) = field(image, at, &[2], |_, length| length == 4)?;
    let e = little_endian(body) as u32;
    let (_, body, at) = field(image, at, &[3], |_, length| length == 8)?;
    let seed = little_endian(body);

    let mut read = Image {
        n,
        e,
        seed,
        label: (0, 0),
        entries: Vec::new(),
    };
    let mut at = at;
    // "Fields stand in tag order": at first label, entries and count are all right.
    let mut tags: &[u8] = &[4, 5, 6];
    loop {
        let start = at;
        let fits = |tag, length: usize| match tag {
            4 => (1..=64).contains(&length),
            5 => (ENTRY..=FULL).contains(&length) && length.is_multiple_of(ENTRY),
            _ => length == 8,
        };
        let (tag, body, end) = field(image, start, tags, fits)?;
        at = end;
        match tag {
            4 => {
                read.label = (start + 3, body.len());
                tags = &[5, 6];
            }
            5 => {
                for entry in body.chunks_exact(ENTRY) {
                    let slot = little_endian(&entry[..8]);
                    let identity = little_endian(&entry[8..]);
                    // "slots rising and below n", "slots are held against field 1".
                    let rises = read.entries.last().is_none_or(|&(last, _)| last < slot);
                    if !rises || slot >= n {
                        return Err(start);
                    }
                    read.entries.push((slot, identity));
                }
                // "After a short field 5 only tag 6 is right."
                tags = if body.len() == FULL { &[5, 6] } else { &[6] };
            }
            _ => {
                if little_endian(body) != read.entries.len() as u64 {
                    return Err(start);
                }
                // "of the first byte after field 6".
                return if end == image.len() { Ok(read) } else { Err(end) };
            }
        }
    }
}

/// "Loader: 24, 25", after 1 to 7; the count that comes in is 0, so STATE is not met.
pub fn load(table: &Table, image: &[u8], bounds: Bounds) -> Result<String, Refused> {
    funnel::gate(table, &[], bounds)?;
    let read = read(image).map_err(|place| format!("R 24 {place}"))?;
    // "25 FOREIGN: image's n, e or seed not the table's".
    if (read.n, read.e, read.seed) != (table.n, table.e, table.seed) {
        return Err(refusal(25));
    }
    let (offset, length) = read.label;
    Ok(format!(
        "OK {offset} {length} {} {}",
        read.entries.len(),
        digest(read.entries.iter().copied())
    ))
}

/// The lent buffers: words and flags of n slots, with the entries put in one after the other.
pub fn buffers(table: &Table, entries: &[Entry]) -> (Vec<u64>, Vec<u8>) {
    let mut words = vec![0; table.n as usize];
    let mut flags = vec![0; table.n as usize];
    for entry in entries {
        words[entry.slot as usize] = entry.word;
        flags[entry.slot as usize] = entry.flag;
    }
    (words, flags)
}

/// "22 DIRTY: flag above 1, or vacant slot with nonzero word; smallest such slot".
pub fn clean(words: &[u64], flags: &[u8]) -> Result<(), Refused> {
    let dirty = (0..flags.len()).find(|&slot| flags[slot] > 1 || flags[slot] == 0 && words[slot] != 0);
    match dirty {
        Some(slot) => Err(format!("R 22 {slot}")),
        None => Ok(()),
    }
}

/// "Image writer: 22, 26", after 1 to 7.
pub fn write(
    table: &Table,
    label: &[u8],
    room: u64,
    entries: &[Entry],
    bounds: Bounds,
) -> Result<String, Refused> {
    funnel::gate(table, label, bounds)?;
    if room > bounds.room {
        return Err(String::from("L"));
    }
    let (words, flags) = buffers(table, entries);
    clean(&words, &flags)?;
    let occupied: Vec<(u64, u64)> = (0..flags.len())
        .filter(|&slot| flags[slot] != 0)
        .map(|slot| (slot as u64, words[slot]))
        .collect();
    let image = build(table.n, table.e, table.seed, label, &occupied);
    // "26 ROOM: output shorter than the image needs".
    if room < image.len() as u64 {
        return Err(refusal(26));
    }
    Ok(format!("OK {} {}", image.len(), hex(&image)))
}

pub fn hex(bytes: &[u8]) -> String {
    const DIGITS: &[u8; 16] = b"0123456789abcdef";
    let mut text = String::with_capacity(2 * bytes.len());
    for byte in bytes {
        text.push(char::from(DIGITS[usize::from(byte >> 4)]));
        text.push(char::from(DIGITS[usize::from(byte & 15)]));
    }
    text
}
