//! The original as judge. Reads the lines that the port's programs read and writes the lines that they must write.
//!
//!     oracle asks   < lines     names, times, forces and records, a line each: see crates/asks
//!     oracle calls  < lines     the board's calls and the port's, a line each: see crates/calls
//!     oracle driver < records   document 01's driver
//!     oracle ramps              ms_cycles at every permitted rate, against 01's whole numbers
//!
//! `oracle calls near` and `oracle driver near` write the numbers, from 1, of the answers that may differ by one: readings of a pressed
//! row. `oracle calls check` and `oracle driver check` hold the original's board against 01's word 'whole' after each line, and write what fails.
//!
//! tools/oracle/build compiles it beside the unmodified source.
mod board;
mod calls;
mod driver;
mod records;
mod text;
mod words;

use periph::inside;
use std::io::{self, Read};
use std::sync::atomic::Ordering::Relaxed;
use text::Put;
use words::{bytes_of, decimal, number};

#[derive(Clone, Copy, PartialEq, Eq, Debug)]
pub enum Board {
    Fm1,
    Smk37,
}

fn main() {
    let words: Vec<String> = std::env::args().skip(1).collect();
    match words.iter().map(|w| w.as_str()).collect::<Vec<_>>()[..] {
        ["asks"] => lines(ask),
        ["calls"] => {
            let mut on = calls::On::new();
            lines(|words, out| calls::answer(&mut on, words, out))
        }
        ["calls", mode @ ("near" | "check")] => {
            board::FOLLOWED.store(true, Relaxed);
            let (mut on, mut n, mut answered) = (calls::On::new(), 0, Vec::new());
            each_line(|line, words| {
                n += 1;
                let near = words.map_or(false, |words| on.near(words));
                words.map(|words| calls::answer(&mut on, words, &mut answered));
                answered.clear();
                marked(mode, n, line, near, &on.board);
            })
        }
        ["driver"] => {
            let bytes = input();
            let mut run = driver::Run::new(&bytes);
            let mut out = text::Out::new();
            while let Some(long) = run.next(out.room()) {
                out.wrote(long);
            }
            out.flush();
        }
        ["driver", mode @ ("near" | "check")] => {
            board::FOLLOWED.store(true, Relaxed);
            let bytes = input();
            let (mut run, mut line, mut n) = (driver::Run::new(&bytes), [0; text::LINE], 0);
            loop {
                let near = run.near();
                let Some(long) = run.next(&mut line) else { break };
                n += 1;
                marked(mode, n, &line[..long - 1], near, &run.board);
            }
        }
        ["ramps"] => ramps(),
        _ => {
            eprintln!("usage: oracle asks < lines | oracle calls [near|check] < lines | oracle driver [near|check] < records | oracle ramps");
            std::process::exit(2);
        }
    }
}

/// The whole input, into room that most inputs do not outgrow: a larger one would be copied on the way.
fn input() -> Vec<u8> {
    let mut bytes = Vec::with_capacity(1 << 24);
    io::stdin().lock().read_to_end(&mut bytes).unwrap();
    bytes
}

fn marked(mode: &str, n: usize, line: &[u8], near: bool, board: &board::Board) {
    if mode == "near" && near {
        println!("{n}");
    }
    if mode == "check" {
        inside::broken(&board.p).map(|fact| println!("{n} {}: {fact}", String::from_utf8_lossy(line)));
    }
}

/// No line that asks anything has as many words.
const WORDS: usize = 8;

/// Every line that is not passed over, with its words, `WORDS` of them at the most; a line of more than 4,096 bytes has none.
fn each_line(mut told: impl FnMut(&[u8], Option<&[&str]>)) {
    let bytes = input();
    for line in bytes.split(|&b| b == b'\n') {
        if line.len() > 4096 {
            told(line, None);
            continue;
        }
        let mut words = [""; WORDS];
        let n = cut(line, &mut words);
        if n > 0 && line[0] != b'#' {
            told(line, Some(&words[..n]));
        }
    }
}

/// Cuts a line at its spaces: how many words there are. One that is no text is `?`, which asks nothing.
fn cut<'a>(line: &'a [u8], words: &mut [&'a str; WORDS]) -> usize {
    let text = std::str::from_utf8(line).unwrap_or("?");
    let (bytes, mut n, mut at) = (text.as_bytes(), 0, 0);
    while n < WORDS && at < bytes.len() {
        let from = at;
        while at < bytes.len() && bytes[at] != b' ' {
            at += 1;
        }
        if from < at {
            words[n] = &text[from..at];
            n += 1;
        }
        at += 1;
    }
    n
}

/// Every line with ` = ` and its answer, `?` where it asks nothing; a line that is too long is `? = ?`.
fn lines(mut answer: impl FnMut(&[&str], &mut Vec<u8>) -> Option<()>) {
    let mut out = Vec::<u8>::with_capacity(1 << 17);
    each_line(|line, words| {
        out.extend_from_slice(if words.is_some() { line } else { b"?" });
        out.put(b" = ");
        let from = out.len();
        if words.and_then(|words| answer(words, &mut out)).is_none() {
            out.truncate(from);
            out.put(b"?");
        }
        out.put(b"\n");
        text::sent(&mut out, false);
    });
    text::sent(&mut out, true);
}

fn ask(words: &[&str], out: &mut Vec<u8>) -> Option<()> {
    let n = |k: usize| words.get(k).and_then(|w| number(w));
    let n32 = |k: usize| words.get(k).and_then(|w| decimal(w));
    let answer = match (words[0], words.len()) {
        ("keyid", 2) => return name(words[1]).map(|s| id(s.and_then(|s| periph::key_id(&s)), out)),
        ("encid", 2) => return name(words[1]).map(|s| id(s.and_then(|s| periph::enc_id(&s)), out)),
        ("muldiv", 4) => inside::mul_div(n(1)?, n(2)?, n(3).filter(|&c| c != 0)?) as u64,
        ("t4", 3) => inside::t4_count(hz(n32(2)?)?, n(1)?) as u64,
        ("t5count", 3) => inside::t5_count(hz(n32(2)?)?, n(1).filter(|&c| c <= inside::t5_period(n(2).unwrap(), u32::MAX))?) as u64,
        ("t5", 3) => inside::t5_period(hz(n32(2)?)?, n32(1)?),
        ("count", 3) => inside::tmr_cycles_per_count(hz(n32(2)?)?, n32(1).filter(|&c| c < 16)?),
        ("half", 3) => inside::half_period(hz(n32(2)?)?, n32(1).filter(|&l| l <= 0xffff)?),
        ("timeout", 3) => inside::uart_timeout(hz(n32(2)?)?, n32(1)?),
        ("byte", 2) => inside::midi_byte_time(hz(n32(1)?)?),
        ("ms", 3) => inside::look(hz(n32(2)?)?, n(1).filter(|&c| c <= 1 << 53)?, |p| p.ms()),
        ("cycles", 3) => {
            let ms = n(1).filter(|&ms| ms <= 1 << 34)?;
            inside::look(hz(n32(2)?)?, 0, |p| p.cycle_of_ms(ms))
        }
        ("press", 2) => inside::ms_cycles(hz(n32(1)?)?, 1.5),
        ("release", 2) => inside::ms_cycles(hz(n32(1)?)?, 8.0),
        ("pressure", 2) => inside::ms_cycles(hz(n32(1)?)?, 20.0),
        ("spi1of", 4) => inside::spi1(hz(n32(3)?)?, bytes(n32(1)?)?, baud(n32(2)?)?),
        ("spi2of", 4) => inside::spi2(hz(n32(3)?)?, bytes(n32(1)?)?, baud(n32(2)?)?),
        ("record", 3) => return Some(records::line(&bytes_of(words[1])?, n(2)?, out)),
        ("wdt", 2) => p33::P33::wdt_ms(n(1).and_then(|v| u8::try_from(v).ok())?),
        ("velocity", 2) => inside::vel_force(n(1).and_then(|v| u8::try_from(v).ok())?) as u64,
        ("force", 6) => inside::force(bits(n32(1)?)?, bits(n32(2)?)?, n(3).filter(|&t0| t0 <= 1 << 53)?, n(4).filter(|&dur| dur <= 16_000_000)?, n(5)?) as u64,
        _ => return None,
    };
    out.number(answer);
    Some(())
}

fn id(found: Option<u8>, out: &mut Vec<u8>) {
    match found {
        Some(id) => out.number(id.into()),
        None => out.put(b"none"),
    };
}

/// 01's domain: what lies outside it is `?` in the port too.
fn hz(hz: u32) -> Option<u64> {
    (1_000_000..=800_000_000).contains(&hz).then_some(hz as u64)
}

fn bytes(n: u32) -> Option<u32> {
    (n <= 65_536).then_some(n)
}

fn baud(n: u32) -> Option<u32> {
    (n <= 16_383).then_some(n)
}

/// The bits of a force from 0 to 1.
fn bits(n: u32) -> Option<u32> {
    (n <= 0x3f80_0000).then_some(n)
}

/// The outer `None`: no such thing. The inner: bytes that are no text, which name nothing.
fn name(word: &str) -> Option<Option<String>> {
    bytes_of(word).map(|bytes| String::from_utf8(bytes).ok())
}

fn ramps() {
    let mut apart = 0u64;
    for hz in 1_000_000..=800_000_000u64 {
        for (ms, whole) in [(1.5, 3 * hz / 2000), (8.0, hz / 125), (20.0, hz / 50)] {
            if inside::ms_cycles(hz, ms) != whole {
                apart += 1;
                println!("{ms} ms at {hz} Hz: {} against {whole}", inside::ms_cycles(hz, ms));
            }
        }
    }
    println!("ms_cycles at 799,000,001 rates: {apart} differences");
}
