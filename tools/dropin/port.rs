//! The lines of `calls`, answered by the wrapper: the same calls under the same names as board.rs and calls.rs make of the original.
use crate::words::{byte, bytes_of, decimal, flag, half, hex, number, signed};
use fm1::{Action, Answer, Board, Due, Event, Port, Snap};

pub struct On {
    pub board: Board,
    port: Port,
    kept: Port,
}

impl On {
    pub fn new() -> Self {
        On { board: Board::new(240_000_000).unwrap(), port: Port::new(), kept: Port::new() }
    }
}

/// The result, or `E` and the refusal's number.
fn result<T>(done: Answer<T>, told: impl FnOnce(T) -> String) -> Option<String> {
    Some(done.map_or_else(|why| format!("E {}", why.number()), told))
}

/// Where the result is itself a refusal's number.
fn number_of(done: Answer<()>) -> Option<String> {
    Some(done.err().map_or(0, |why| why.number()).to_string())
}

fn on(done: Answer<bool>) -> Option<String> {
    result(done, |flag| (flag as u8).to_string())
}

fn count(done: Answer<u64>) -> Option<String> {
    result(done, |n| n.to_string())
}

fn id(found: Option<u8>) -> Option<String> {
    Some(found.map_or("none".into(), |id| id.to_string()))
}

fn moved(due: &Due) -> String {
    let half = due.audio_half.map_or("-".into(), |(addr, words)| format!("{addr:08x}/{words}"));
    let byte = due.uart_rx.map_or("-".into(), |(addr, b)| format!("{addr:08x}/{b:02x}"));
    format!("{half} {byte}")
}

fn action(words: &[&str]) -> Option<Action> {
    Some(match words {
        ["key", id, down] => Action::Key { id: byte(id)?, down: flag(down)? },
        ["enc", enc, clicks] => Action::Enc { enc: byte(enc)?, clicks: signed(clicks)? },
        ["adc", ch, value] => Action::Adc { ch: byte(ch)?, value: half(value)? },
        ["midi", b] => Action::Midi { b: byte(b)? },
        ["vel", vel] => Action::KeyVel { vel: byte(vel)? },
        ["pressure", id, vel] => Action::Pressure { id: byte(id)?, vel: byte(vel)? },
        _ => return None,
    })
}

fn set(b: &mut Board, name: &str, word: &str) -> Option<String> {
    number_of(match name {
        "cycle_ticks" => b.set_cycle_ticks(number(word)?),
        "skip_idle" => b.set_skip_idle(flag(word)?),
        "in_isr" => b.set_in_isr(flag(word)?),
        "room_cap" => b.set_room_cap(number(word)?),
        "exc" => b.set_exc_pending(flag(word)?),
        "spi2" => b.set_spi2_pending(flag(word)?),
        _ => return None,
    })
}

fn state(b: &Board) -> Option<String> {
    let counts = format!("queued {} dropped {} script {}", b.midi_queued().ok()?, b.midi_dropped().ok()?, b.script_len());
    let spi1 = format!("wire {} done {}", b.spi1_wire(), b.spi1_done_at());
    Some(format!("clock {} due {} skipped {} halves {} {counts} {spi1} vel {}", b.cycles(), b.next_due(), b.skipped(), b.audio_halves(), b.key_vel()))
}

fn board(b: &mut Board, words: &[&str]) -> Option<String> {
    match words {
        ["new", hz] => number_of(Board::new(number(hz)?).map(|made| *b = made)),
        ["set", name, n] => set(b, name, n),
        ["usb", at, period] => number_of(b.set_usb(number(at)?, number(period)?)),
        ["wdt", at] => number_of(b.set_wdt(number(at)?)),
        ["push", time, what @ ..] => number_of(b.push(number(time)?, &action(what)?)),
        ["apply", what @ ..] => number_of(b.apply(&action(what)?)),
        ["read", addr] => {
            let read = b.read(hex(addr)?);
            let clock = if b.skip_idle() { format!(" {} {}", b.cycles(), b.skipped()) } else { String::new() };
            result(read, |v| v.map_or("none".into(), |v| format!("{v:08x}")) + &clock)
        }
        ["write", addr, v] => on(b.write(hex(addr)?, hex(v)?)),
        ["step", n] => {
            let due = b.advance(number(n)?);
            result(due, |due| format!("{} {} {} {} {}", b.cycles(), moved(&due), due.usb_frame as u8, due.wdt as u8, due.actions.len()))
        }
        ["tick"] => on(b.tick()),
        ["nexttick"] => on(b.next_tick_due()),
        ["room"] => count(b.tick_room()),
        ["ms"] => count(b.ms()),
        ["cycles_of", ms] => count(b.cycle_of_ms(number(ms)?)),
        ["idle"] => {
            let idled = b.idle();
            result(idled, |_| format!("{} {}", b.cycles(), b.skipped()))
        }
        ["spi1", bytes, baud, irq] => {
            let sent = b.spi1_start(decimal(bytes)?, decimal(baud)?, flag(irq)?);
            result(sent, |_| format!("{} {}", b.spi1_done_at(), b.spi1_wire()))
        }
        ["spi2", bytes, baud, irq] => result(b.spi2_start(decimal(bytes)?, decimal(baud)?, flag(irq)?), |_| "0".into()),
        ["spi1off"] => number_of(b.spi1_irq_off()),
        ["srbyte", bits] => number_of(b.sr_shift_byte(byte(bits)?)),
        ["reset"] => number_of(b.chip_reset()),
        ["pending"] => on(b.any_pending()),
        ["irq", core] => result(b.pending_irq_for(decimal(core)?), |found| found.map_or("none".into(), |(irq, prio)| format!("{irq} {prio}"))),
        ["enabled", core, n] => on(b.irq_enabled(decimal(core)?, byte(n)?)),
        ["led"] => result(b.led_times(), |light| {
            let lights = light.lit.iter().enumerate().filter(|(_, &t)| t != 0).map(|(id, t)| format!(" {id}:{t}"));
            format!("{}{}", light.span, lights.collect::<String>())
        }),
        ["state"] => state(b),
        _ => None,
    }
}

/// FNV-1a on 64 bits over the main domain's registers, then the RTC's.
fn sum(p: &Port) -> u64 {
    (0..0x800).map(|i| p.reg(i & 0x3ff, i >= 0x400)).fold(0xcbf29ce484222325, |h, b| (h ^ b as u64).wrapping_mul(0x100000001b3))
}

fn port(p: &mut On, call: &[&str]) -> Option<String> {
    match call {
        ["new"] => p.port = Port::new(),
        ["write", addr, value] => return number_of(p.port.write(hex(addr)?, hex(value)?)),
        ["reset", cause] => return number_of(p.port.chip_reset(byte(cause)?)),
        ["keep"] => p.kept = p.port.clone(),
        ["read", addr] => return Some(format!("{:08x}", p.port.read(hex(addr)?))),
        ["same"] => return Some((p.port.same(&p.kept) as u8).to_string()),
        ["event"] => {
            return Some(match p.port.take_event() {
                None => "none".into(),
                Some(Event::Wdt { fed }) => format!("wdt {}", fed as u8),
                Some(Event::Reset) => "reset".into(),
            })
        }
        ["reg", addr, rtc] => return Some(format!("{:02x}", p.port.reg(half(addr)?, flag(rtc)?))),
        ["ms", con] => return Some(Port::wdt_ms(byte(con)?).to_string()),
        ["snap"] => {
            let Snap(con, dat, step, cmd, addr, changed) = p.port.snap();
            return Some(format!("{con} {dat} {step} {cmd} {addr} {changed}"));
        }
        ["sum"] => return Some(format!("{:016x}", sum(&p.port))),
        _ => return None,
    }
    Some("0".into())
}

pub fn answer(o: &mut On, words: &[&str]) -> Option<String> {
    match words {
        ["keyid", name] => id(fm1::key_id(&bytes_of(name)?)),
        ["encid", name] => id(fm1::enc_id(&bytes_of(name)?)),
        ["p33", call @ ..] => port(o, call),
        _ => board(&mut o.board, words),
    }
}
