//! Reading a command line: fields with single spaces between them, and numbers of a given type.
//! `None` always means that the line is no command.

/// The fields of a line, none of them empty.
pub fn fields(line: &[u8]) -> Option<Vec<&[u8]>> {
    let fields: Vec<&[u8]> = line.split(|&byte| byte == b' ').collect();
    fields.iter().all(|field| !field.is_empty()).then_some(fields)
}

/// One or more decimal digits, or `0x` and one or more hex digits of either case; leading zeros are allowed.
pub fn two_words(field: &[u8]) -> Option<u128> {
    let (digits, base) = match field {
        [b'0', b'x', digits @ ..] => (digits, 16),
        digits => (digits, 10),
    };
    if digits.is_empty() {
        return None;
    }
    let mut value = 0_u128;
    for &digit in digits {
        let digit = char::from(digit).to_digit(base)?;
        value = value
            .checked_mul(u128::from(base))?
            .checked_add(u128::from(digit))?;
    }
    Some(value)
}

pub fn word(field: &[u8]) -> Option<u64> {
    u64::try_from(two_words(field)?).ok()
}

pub fn half_word(field: &[u8]) -> Option<u32> {
    u32::try_from(two_words(field)?).ok()
}

pub fn byte(field: &[u8]) -> Option<u8> {
    u8::try_from(two_words(field)?).ok()
}

/// Pairs of hex digits of either case, or `-` for no bytes.
pub fn bytes(field: &[u8]) -> Option<Vec<u8>> {
    if field == b"-" {
        return Some(Vec::new());
    }
    if field.is_empty() || !field.len().is_multiple_of(2) {
        return None;
    }
    let digit = |byte: u8| char::from(byte).to_digit(16);
    field
        .chunks_exact(2)
        .map(|pair| u8::try_from(digit(pair[0])? * 16 + digit(pair[1])?).ok())
        .collect()
}

/// `LEFT=RIGHT`, both one word.
pub fn pair(field: &[u8]) -> Option<(u64, u64)> {
    let equals = field.iter().position(|&byte| byte == b'=')?;
    Some((word(&field[..equals])?, word(&field[equals + 1..])?))
}

/// A slot's word and flag, as an entry of WRITE and CHECK gives them.
#[derive(Clone, Copy)]
pub struct Entry {
    pub slot: u64,
    pub word: u64,
    pub flag: u8,
}

/// `slot=id` (flag 1) or `slot=id:flag`, the slot below n.
pub fn entry(field: &[u8], n: u64) -> Option<Entry> {
    let (pair_part, flag) = match field.iter().position(|&byte| byte == b':') {
        Some(colon) => (&field[..colon], byte(&field[colon + 1..])?),
        None => (field, 1),
    };
    let (slot, word) = pair(pair_part)?;
    (slot < n).then_some(Entry { slot, word, flag })
}
