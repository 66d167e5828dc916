//! The lines of crates/calls, answered by the original: the board's (board.rs), the port's and the names'.
use crate::ask;
use crate::board::{self, Board};
use crate::p33::{Event, P33};
use crate::text::Put;
use crate::words::{byte, flag, half, hex};

/// What the calls are carried out on.
pub struct On {
    pub board: Board,
    port: P33,
    kept: P33,
}

impl On {
    pub fn new() -> Self {
        On { board: Board::new(240_000_000).unwrap(), port: P33::default(), kept: P33::default() }
    }

    /// Whether the line's answer, if it is asked now, may differ by one from the port's.
    pub fn near(&self, words: &[&str]) -> bool {
        matches!(words, ["read", addr] if hex(addr).map_or(false, |addr| self.board.near(addr)))
    }
}

/// con, dat, step, cmd, addr, changed: the snap's own numbers, as it prints itself.
fn snap(p: &P33) -> Vec<String> {
    let text = format!("{:?}", p.snap());
    text["Snap(".len()..text.len() - 1].split(", ").map(String::from).collect()
}

/// The main domain's registers, then the RTC's.
fn regs(p: &P33) -> impl Iterator<Item = u8> + '_ {
    (0..0x800).map(move |i| p.reg(i & 0x3ff, i >= 0x400))
}

fn same(a: &P33, b: &P33) -> bool {
    snap(a)[..5] == snap(b)[..5] && regs(a).eq(regs(b))
}

/// FNV-1a on 64 bits.
fn sum(bytes: impl Iterator<Item = u8>) -> u64 {
    bytes.fold(0xcbf29ce484222325, |h, b| (h ^ b as u64).wrapping_mul(0x100000001b3))
}

pub fn answer(on: &mut On, words: &[&str], out: &mut Vec<u8>) -> Option<()> {
    match words {
        ["keyid" | "encid", _] => ask(words, out),
        ["p33", call @ ..] => port(on, call, out),
        _ => board::answer(&mut on.board, words, out),
    }
}

/// Its COUNT is out of reach: no list of lines changes a register 2^62 times.
fn port(p: &mut On, call: &[&str], out: &mut Vec<u8>) -> Option<()> {
    match call {
        ["new"] => p.port = P33::default(),
        ["write", addr, value] => p.port.write(hex(addr)?, hex(value)?),
        ["reset", cause] => p.port.chip_reset(byte(cause)?),
        ["keep"] => p.kept = p.port.clone(),
        _ => return looked(p, call, out),
    }
    out.put(b"0");
    Some(())
}

fn looked(p: &mut On, call: &[&str], out: &mut Vec<u8>) -> Option<()> {
    match call {
        ["read", addr] => out.hex(p.port.read(hex(addr)?)),
        ["same"] => out.flag(same(&p.port, &p.kept)),
        ["event"] => match p.port.take_event() {
            None => out.put(b"none"),
            Some(Event::Wdt { fed }) => out.put(b"wdt ").flag(fed),
            Some(Event::Reset) => out.put(b"reset"),
        },
        ["reg", addr, rtc] => out.byte(p.port.reg(half(addr)?, flag(rtc)?)),
        ["ms", con] => out.number(P33::wdt_ms(byte(con)?)),
        ["snap"] => {
            out.extend_from_slice(snap(&p.port).join(" ").as_bytes());
            out
        }
        ["sum"] => {
            let sum = sum(regs(&p.port));
            out.hex((sum >> 32) as u32).hex(sum as u32)
        }
        _ => return None,
    };
    Some(())
}
