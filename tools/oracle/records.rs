//! The original has no records: this is document 01's layout, worked out a second time.
use crate::periph::Action;
use crate::text::Put;

pub enum Record {
    Push(u64, Action),
    Read(u32),
    Write(u32, u32),
    Step(u64),
}

/// The record at `at` and its length; the outer `None` is the input's end, the inner a broken record.
#[inline]
pub fn at(bytes: &[u8], at: usize) -> Option<Option<(Record, usize)>> {
    let s = bytes.get(at..).filter(|s| !s.is_empty())?;
    Some(record(s))
}

#[inline]
fn record(s: &[u8]) -> Option<(Record, usize)> {
    let head = first::<4>(s)?;
    let (long, kind) = (half(head, 0), half(head, 2));
    let record = match (kind, long) {
        (1, 14) => {
            let r = first::<14>(s).filter(|r| r[13] <= 1)?;
            push(r, Action::Key { id: r[12], down: r[13] == 1 })
        }
        (2, 17) => {
            let r = first::<17>(s)?;
            push(r, Action::Enc { enc: r[12], clicks: word(r, 13) as i32 })
        }
        (3, 15) => {
            let r = first::<15>(s)?;
            push(r, Action::Adc { ch: r[12], value: half(r, 13) })
        }
        (4, 13) => {
            let r = first::<13>(s)?;
            push(r, Action::Midi { b: r[12] })
        }
        (5, 13) => {
            let r = first::<13>(s)?;
            push(r, Action::KeyVel { vel: r[12] })
        }
        (6, 14) => {
            let r = first::<14>(s)?;
            push(r, Action::Pressure { id: r[12], vel: r[13] })
        }
        (0x101, 8) => Record::Read(word(first::<8>(s)?, 4)),
        (0x102, 12) => {
            let r = first::<12>(s)?;
            Record::Write(word(r, 4), word(r, 8))
        }
        (0x103, 12) => Record::Step(long_word(first::<12>(s)?, 4)),
        _ => return None,
    };
    Some((record, long as usize))
}

#[inline]
fn push(r: &[u8], action: Action) -> Record {
    Record::Push(long_word(r, 4), action)
}

/// As many bytes, if they are there.
#[inline]
fn first<const N: usize>(s: &[u8]) -> Option<&[u8; N]> {
    s.get(..N)?.try_into().ok()
}

#[inline]
fn half(r: &[u8], at: usize) -> u16 {
    u16::from_le_bytes(r[at..at + 2].try_into().unwrap())
}

#[inline]
fn word(r: &[u8], at: usize) -> u32 {
    u32::from_le_bytes(r[at..at + 4].try_into().unwrap())
}

#[inline]
fn long_word(r: &[u8], at: usize) -> u64 {
    u64::from_le_bytes(r[at..at + 8].try_into().unwrap())
}

fn told<'a>(action: &Action, out: &'a mut Vec<u8>) -> &'a mut Vec<u8> {
    match *action {
        Action::Key { id, down } => out.put(b"key ").number(id.into()).put(b" ").flag(down),
        Action::Enc { enc, clicks } => {
            out.put(b"enc ").number(enc.into()).put(b" ");
            if clicks < 0 {
                out.put(b"-");
            }
            out.number(clicks.unsigned_abs().into())
        }
        Action::Adc { ch, value } => out.put(b"adc ").number(ch.into()).put(b" ").number(value.into()),
        Action::Midi { b } => out.put(b"midi ").number(b.into()),
        Action::KeyVel { vel } => out.put(b"vel ").number(vel.into()),
        Action::Pressure { id, vel } => out.put(b"pressure ").number(id.into()).put(b" ").number(vel.into()),
        Action::Vel { .. } => unreachable!("01 leaves it out"),
    }
}

/// What crates/asks answers for the record at an offset.
pub fn line(bytes: &[u8], offset: u64, out: &mut Vec<u8>) {
    match at(bytes, usize::try_from(offset).unwrap()) {
        None => out.put(b"end"),
        Some(None) => out.put(b"broken ").number(offset),
        Some(Some((record, long))) => {
            match record {
                Record::Push(time, action) => told(&action, out.number(time).put(b" ")),
                Record::Read(addr) => out.put(b"read ").number(addr.into()),
                Record::Write(addr, v) => out.put(b"write ").number(addr.into()).put(b" ").number(v.into()),
                Record::Step(n) => out.put(b"step ").number(n),
            };
            out.put(b" next ").number(offset + long as u64)
        }
    };
}
