//! Answers as bytes, put where they go out from: no String, no `format!`, digits by tables of pairs. What the original executes is counted (docs/SPEED.md), and the cost of Rust's formatting is not the
//! original's.
use std::io::{self, Write};

/// The two hex digits of every byte.
static HEX: [[u8; 2]; 256] = {
    let digits = *b"0123456789abcdef";
    let mut pairs = [[0; 2]; 256];
    let mut n = 0;
    while n < 256 {
        pairs[n] = [digits[n / 16], digits[n % 16]];
        n += 1;
    }
    pairs
};

/// The two decimal digits of every number below 100.
static DECIMAL: [[u8; 2]; 100] = {
    let mut pairs = [[0; 2]; 100];
    let mut n = 0;
    while n < 100 {
        pairs[n] = [b'0' + n as u8 / 10, b'0' + n as u8 % 10];
        n += 1;
    }
    pairs
};

/// No u64 has more digits.
const MOST: usize = 20;

/// The digits stand from the place that comes with them up to `MOST`. Behind them is room, so that `MOST` bytes can be copied from any place on.
#[inline]
fn digits(mut n: u64) -> ([u8; 2 * MOST], usize) {
    let mut text = [0; 2 * MOST];
    let mut from = MOST;
    while n >= 10_000 {
        let four = (n % 10_000) as usize;
        n /= 10_000;
        from -= 4;
        let places = &mut text[from..from + 4];
        places[..2].copy_from_slice(&DECIMAL[four / 100]);
        places[2..].copy_from_slice(&DECIMAL[four % 100]);
    }
    let mut rest = n as usize;
    if rest >= 100 {
        from -= 2;
        text[from..from + 2].copy_from_slice(&DECIMAL[rest % 100]);
        rest /= 100;
    }
    if rest >= 10 {
        from -= 2;
        text[from..from + 2].copy_from_slice(&DECIMAL[rest]);
    } else {
        from -= 1;
        text[from] = b'0' + rest as u8;
    }
    (text, from)
}

/// Text, put behind what is there.
pub trait Put: Sized {
    fn put<const N: usize>(&mut self, text: &[u8; N]) -> &mut Self;

    fn number(&mut self, n: u64) -> &mut Self;

    /// An address or a value: eight digits.
    #[inline]
    fn hex(&mut self, v: u32) -> &mut Self {
        let mut text = [0; 8];
        for (pair, b) in text.chunks_exact_mut(2).zip(v.to_be_bytes()) {
            pair.copy_from_slice(&HEX[b as usize]);
        }
        self.put(&text)
    }

    /// Two digits.
    #[inline]
    fn byte(&mut self, b: u8) -> &mut Self {
        self.put(&HEX[b as usize])
    }

    fn flag(&mut self, on: bool) -> &mut Self {
        self.put(&[b'0' + on as u8])
    }
}

/// Answers of any length.
impl Put for Vec<u8> {
    fn put<const N: usize>(&mut self, text: &[u8; N]) -> &mut Self {
        self.extend_from_slice(text);
        self
    }

    fn number(&mut self, n: u64) -> &mut Self {
        let (text, from) = digits(n);
        self.extend_from_slice(&text[from..MOST]);
        self
    }
}

/// No line of the driver's needs more, with the room that `number` copies into.
pub const LINE: usize = 128;

/// A line of the driver's.
pub struct Line<'a> {
    text: &'a mut [u8; LINE],
    pub long: usize,
}

impl<'a> Line<'a> {
    pub fn new(text: &'a mut [u8; LINE]) -> Self {
        Line { text, long: 0 }
    }
}

impl Put for Line<'_> {
    #[inline]
    fn put<const N: usize>(&mut self, text: &[u8; N]) -> &mut Self {
        self.text[self.long..self.long + N].copy_from_slice(text);
        self.long += N;
        self
    }

    #[inline]
    fn number(&mut self, n: u64) -> &mut Self {
        if n < 10 {
            return self.put(&[b'0' + n as u8]);
        }
        // a copy of fixed length; what is behind the digits is written over
        let (text, from) = digits(n);
        self.text[self.long..self.long + MOST].copy_from_slice(&text[from..from + MOST]);
        self.long += MOST - from;
        self
    }
}

const SIZE: usize = 65536;

/// The driver's lines that wait to be written out.
pub struct Out {
    bytes: [u8; SIZE],
    long: usize,
}

impl Out {
    pub fn new() -> Self {
        Out { bytes: [0; SIZE], long: 0 }
    }

    /// Room for a line, behind those that wait.
    #[inline]
    pub fn room(&mut self) -> &mut [u8; LINE] {
        if self.long > SIZE - LINE {
            self.flush();
        }
        (&mut self.bytes[self.long..self.long + LINE]).try_into().unwrap()
    }

    /// A line of this length was written into the room.
    #[inline]
    pub fn wrote(&mut self, long: usize) {
        self.long += long;
    }

    pub fn flush(&mut self) {
        io::stdout().lock().write_all(&self.bytes[..self.long]).unwrap();
        self.long = 0;
    }
}

/// Answers of any length go out together, when they are many or `last`.
pub fn sent(answers: &mut Vec<u8>, last: bool) {
    if last || answers.len() > SIZE {
        io::stdout().lock().write_all(answers).unwrap();
        answers.clear();
    }
}
