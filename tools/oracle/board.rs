//! The original's board as document 01 has it: its refusals first, in their order, then the source's own function. What is refused
//! changes nothing. And the board's lines of `calls`.
use crate::periph::{inside, Action, Due, Periph};
use crate::text::Put;
use crate::words::{byte, decimal, flag, half, hex, number, signed};
use std::sync::atomic::{AtomicBool, Ordering::Relaxed};

/// Whether conversions of pressed rows are followed, for whoever asks which readings may differ by one, and LEDs' fractions worked out a second time. The original does no such thing, so that its
/// count of instructions is its own without it.
pub static FOLLOWED: AtomicBool = AtomicBool::new(false);

const CLOCK: u8 = 1;
const PARAM: u8 = 4;
const FULL: u8 = 5;
const COUNT: u8 = 6;
const TIME: u8 = 7;
const CLOCK_MAX: u64 = 1 << 53;
const COUNT_END: u64 = 1 << 62;
const SCRIPT_ENTRIES: usize = 256;

pub struct Board {
    pub p: Periph,
    /// The last conversion was of a pressed row: its value may differ by one from the port's.
    pressed: bool,
}

impl Board {
    pub fn new(hz: u64) -> Result<Self, u8> {
        refused(CLOCK, !(1_000_000..=800_000_000).contains(&hz))?;
        Ok(Board { p: inside::at(hz, 0), pressed: false })
    }

    pub fn push(&mut self, time: u64, action: Action) -> Result<(), u8> {
        refused(FULL, self.p.script.len() >= SCRIPT_ENTRIES)?;
        self.p.script.push_back((time, action));
        self.p.next_due = 0;
        Ok(())
    }

    pub fn apply(&mut self, action: Action) -> Result<(), u8> {
        refused(COUNT, self.p.midi_dropped() >= COUNT_END)?;
        self.p.apply(&action);
        Ok(())
    }

    pub fn step(&mut self, n: u64) -> Result<Due, u8> {
        refused(COUNT, self.p.midi_dropped() >= COUNT_END)?;
        refused(TIME, n > CLOCK_MAX - self.p.cycles)?;
        Ok(self.p.advance(n))
    }

    /// A call that may move the clock by itself: taken back where it ended too late.
    fn moving<T>(&mut self, call: impl FnOnce(&mut Periph) -> T) -> Result<T, u8> {
        inside::unless(&mut self.p, call, |p| p.cycles > CLOCK_MAX).ok_or(TIME)
    }

    pub fn read(&mut self, addr: u32) -> Result<Option<u32>, u8> {
        // only a count that skips moves the clock
        if !self.p.skip_idle {
            return Ok(self.p.read(addr));
        }
        self.moving(|p| p.read(addr))
    }

    /// A read of this address now answers a value that may differ by one from the port's.
    pub fn near(&self, addr: u32) -> bool {
        addr == 0x13104 && self.pressed
    }

    pub fn write(&mut self, addr: u32, v: u32) -> bool {
        if addr == 0x13100 && v & 0x50 == 0x50 && FOLLOWED.load(Relaxed) {
            self.pressed = inside::pressed(&self.p, v >> 8 & 15);
        }
        self.p.write(addr, v)
    }

    fn reset(&mut self) {
        self.pressed = false;
        inside::reset(&mut self.p);
    }

    fn usb(&mut self, at: u64, period: u64) -> Result<(), u8> {
        refused(PARAM, !settable(at) || !(1..=CLOCK_MAX).contains(&period))?;
        (self.p.usb_next, self.p.usb_period, self.p.next_due) = (at, period, 0);
        Ok(())
    }

    fn wdt(&mut self, at: u64) -> Result<(), u8> {
        refused(PARAM, !settable(at))?;
        (self.p.wdt_at, self.p.next_due) = (at, 0);
        Ok(())
    }

    fn spi1(&mut self, bytes: u32, baud: u32, irq: bool) -> Result<(), u8> {
        refused(PARAM, bytes > 65_536 || baud > 16_383)?;
        refused(COUNT, self.p.spi1_wire >= COUNT_END)?;
        self.p.spi1_start(bytes, baud, irq);
        Ok(())
    }

    fn spi2(&mut self, bytes: u32, baud: u32, irq: bool) -> Result<(), u8> {
        refused(PARAM, bytes > 65_536 || baud > 16_383)?;
        self.p.spi2_start(bytes, baud, irq);
        Ok(())
    }

    fn cycles_of(&self, ms: u64) -> Result<u64, u8> {
        refused(PARAM, ms > 1 << 34)?;
        Ok(self.p.cycle_of_ms(ms))
    }
}

fn refused(number: u8, when: bool) -> Result<(), u8> {
    if when { Err(number) } else { Ok(()) }
}

fn settable(at: u64) -> bool {
    at <= 1 << 63 || at == u64::MAX
}

/// The audio half and the byte of a step, or `-`.
#[inline]
pub fn moved(out: &mut impl Put, due: &Due) {
    match due.audio_half {
        Some((addr, words)) => out.hex(addr).put(b"/").number(words.into()),
        None => out.put(b"-"),
    };
    match due.uart_rx {
        Some((addr, b)) => out.put(b" ").hex(addr).put(b"/").byte(b),
        None => out.put(b" -"),
    };
}

#[inline]
pub fn value(out: &mut impl Put, v: Option<u32>) {
    match v {
        Some(v) => out.hex(v),
        None => out.put(b"none"),
    };
}

/// The result, or `E` and the refusal's number.
fn result<T>(out: &mut Vec<u8>, done: Result<T, u8>, told: impl FnOnce(&mut Vec<u8>, T)) {
    match done {
        Ok(v) => told(out, v),
        Err(n) => numbered(out.put(b"E "), [n.into()]),
    }
}

/// Where the result is itself a refusal's number.
fn number_of(out: &mut Vec<u8>, done: Result<(), u8>) {
    numbered(out, [done.err().unwrap_or(0).into()]);
}

/// Numbers with a space between.
fn numbered<const N: usize>(out: &mut Vec<u8>, numbers: [u64; N]) {
    for (k, n) in numbers.into_iter().enumerate() {
        if k > 0 {
            out.put(b" ");
        }
        out.number(n);
    }
}

fn choice(out: &mut Vec<u8>, found: Option<(u8, u8)>) {
    match found {
        Some((irq, prio)) => numbered(out, [irq.into(), prio.into()]),
        None => value(out, None),
    }
}

fn action(words: &[&str]) -> Option<Action> {
    Some(match words {
        ["key", id, down] => Action::Key { id: byte(id)?, down: flag(down)? },
        ["enc", enc, clicks] => Action::Enc { enc: byte(enc)?, clicks: signed(clicks)? },
        ["adc", ch, value] => Action::Adc { ch: byte(ch)?, value: half(value)? },
        ["midi", b] => Action::Midi { b: byte(b)? },
        ["vel", vel] => Action::KeyVel { vel: byte(vel)? },
        ["pressure", id, vel] => Action::Pressure { id: byte(id)?, vel: byte(vel)? },
        _ => return None,
    })
}

fn set(p: &mut Periph, name: &str, word: &str) -> Option<()> {
    match name {
        "cycle_ticks" => p.cycle_ticks = number(word)?,
        "skip_idle" => p.skip_idle = flag(word)?,
        "in_isr" => p.in_isr = flag(word)?,
        "room_cap" => p.room_cap = number(word)?,
        "exc" => p.exc_pending = flag(word)?,
        "spi2" => p.spi2_pending = flag(word)?,
        _ => return None,
    }
    Some(())
}

fn led(out: &mut Vec<u8>, p: &mut Periph) {
    let (lit, span, taken) = inside::led(p);
    if FOLLOWED.load(Relaxed) {
        assert!(lit.iter().zip(taken).all(|(&t, f)| (t as f32 / span as f32).to_bits() == f.to_bits()), "led_take answers other quotients");
    }
    out.number(span);
    for (id, &t) in lit.iter().enumerate().filter(|(_, &t)| t != 0) {
        out.put(b" ").number(id as u64).put(b":").number(t);
    }
}

fn state(out: &mut Vec<u8>, p: &Periph) {
    out.put(b"clock ").number(p.cycles).put(b" due ").number(p.next_due);
    out.put(b" skipped ").number(p.skipped).put(b" halves ").number(p.audio_halves);
    out.put(b" queued ").number(p.midi_queued() as u64).put(b" dropped ").number(p.midi_dropped());
    out.put(b" script ").number(p.script.len() as u64);
    out.put(b" wire ").number(p.spi1_wire).put(b" done ").number(p.spi1_done_at);
    out.put(b" vel ").number(p.key_vel.into());
}

/// The board's lines; none where the line is no call.
pub fn answer(b: &mut Board, words: &[&str], out: &mut Vec<u8>) -> Option<()> {
    match words {
        ["new", hz] => number_of(out, Board::new(number(hz)?).map(|made| *b = made)),
        ["set", name, n] => number_of(out, Ok(set(&mut b.p, name, n)?)),
        ["usb", at, period] => number_of(out, b.usb(number(at)?, number(period)?)),
        ["wdt", at] => number_of(out, b.wdt(number(at)?)),
        ["push", time, what @ ..] => number_of(out, b.push(number(time)?, action(what)?)),
        ["apply", what @ ..] => number_of(out, b.apply(action(what)?)),
        ["read", addr] => {
            let read = b.read(hex(addr)?);
            result(out, read, |out, v| {
                value(out, v);
                if b.p.skip_idle {
                    numbered(out.put(b" "), [b.p.cycles, b.p.skipped]);
                }
            })
        }
        ["write", addr, v] => numbered(out, [b.write(hex(addr)?, hex(v)?).into()]),
        ["step", n] => {
            let due = b.step(number(n)?);
            result(out, due, |out, due| {
                moved(out.number(b.p.cycles).put(b" "), &due);
                numbered(out.put(b" "), [due.usb_frame.into(), due.wdt.into(), due.actions.len() as u64]);
            })
        }
        ["tick"] => result(out, b.moving(|p| p.tick()), |out, due| numbered(out, [due.into()])),
        ["nexttick"] => numbered(out, [b.p.next_tick_due().into()]),
        ["room"] => numbered(out, [b.p.tick_room()]),
        ["ms"] => numbered(out, [b.p.ms()]),
        ["cycles_of", ms] => result(out, b.cycles_of(number(ms)?), |out, n| numbered(out, [n])),
        ["idle"] => {
            let idled = b.moving(|p| p.idle());
            result(out, idled, |out, _| numbered(out, [b.p.cycles, b.p.skipped]))
        }
        ["spi1", bytes, baud, irq] => {
            let sent = b.spi1(decimal(bytes)?, decimal(baud)?, flag(irq)?);
            result(out, sent, |out, _| numbered(out, [b.p.spi1_done_at, b.p.spi1_wire]))
        }
        ["spi2", bytes, baud, irq] => result(out, b.spi2(decimal(bytes)?, decimal(baud)?, flag(irq)?), |out, _| numbered(out, [0])),
        ["spi1off"] => number_of(out, Ok(b.p.spi1_irq_off())),
        ["srbyte", bits] => number_of(out, Ok(b.p.sr_shift_byte(byte(bits)?))),
        ["reset"] => number_of(out, Ok(b.reset())),
        ["pending"] => numbered(out, [b.p.any_pending().into()]),
        ["irq", core] => choice(out, b.p.pending_irq_for(decimal(core)?)),
        ["enabled", core, n] => numbered(out, [b.p.irq_enabled(decimal(core)?, byte(n)?).into()]),
        ["led"] => led(out, &mut b.p),
        ["state"] => state(out, &b.p),
        _ => return None,
    }
    Some(())
}
