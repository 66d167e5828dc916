//! A line's words as numbers: none where the word is no such number, or does not fit its type.

/// `parse` takes a plus sign, which no number here has.
pub fn number(word: &str) -> Option<u64> {
    word.parse().ok().filter(|_| !word.starts_with('+'))
}

pub fn decimal(word: &str) -> Option<u32> {
    number(word).and_then(|n| u32::try_from(n).ok())
}

pub fn half(word: &str) -> Option<u16> {
    number(word).and_then(|n| u16::try_from(n).ok())
}

pub fn byte(word: &str) -> Option<u8> {
    number(word).and_then(|n| u8::try_from(n).ok())
}

pub fn flag(word: &str) -> Option<bool> {
    number(word).filter(|&n| n < 2).map(|n| n == 1)
}

pub fn signed(word: &str) -> Option<i32> {
    let digits = word.strip_prefix('-').unwrap_or(word);
    (!digits.is_empty() && digits.bytes().all(|b| b.is_ascii_digit())).then(|| word.parse().ok())?
}

/// An address or a value.
pub fn hex(word: &str) -> Option<u32> {
    u32::from_str_radix(word, 16).ok().filter(|_| word.len() <= 8 && !word.starts_with('+'))
}

/// Pairs of hex digits, `-` for none.
pub fn bytes_of(word: &str) -> Option<Vec<u8>> {
    if word == "-" {
        return Some(Vec::new());
    }
    if word.len() % 2 != 0 || !word.bytes().all(|b| b.is_ascii_hexdigit()) {
        return None;
    }
    Some((0..word.len()).step_by(2).map(|i| u8::from_str_radix(&word[i..i + 2], 16).unwrap()).collect())
}
