
// ---- appended by tools/measure/bench below the oracle's main file: one kind of call, many times, on the library's board (through the Rust wrapper: each call is given the record by value and tests
// it) or on the original's. `bench port KIND N`, `bench original KIND N`; the instructions of N calls less those of none are the calls' own.
use std::hint::black_box;

trait Machine {
    fn advance(&mut self, n: u64);
    fn read(&mut self, addr: u32) -> Option<u32>;
    fn write(&mut self, addr: u32, v: u32);
    fn choice(&mut self) -> Option<(u8, u8)>;
    fn midi(&mut self, b: u8);
    fn press(&mut self, id: u8);
    fn shift(&mut self, b: u8);
    fn dropped(&mut self) -> u64;
}

impl Machine for fm1::Board {
    fn advance(&mut self, n: u64) {
        black_box(fm1::Board::advance(self, n).unwrap());
    }
    fn read(&mut self, addr: u32) -> Option<u32> {
        fm1::Board::read(self, addr).unwrap()
    }
    fn write(&mut self, addr: u32, v: u32) {
        black_box(fm1::Board::write(self, addr, v).unwrap());
    }
    fn choice(&mut self) -> Option<(u8, u8)> {
        self.pending_irq_for(0).unwrap()
    }
    fn midi(&mut self, b: u8) {
        self.apply(&fm1::Action::Midi { b }).unwrap()
    }
    fn press(&mut self, id: u8) {
        self.apply(&fm1::Action::Key { id, down: true }).unwrap()
    }
    fn shift(&mut self, b: u8) {
        self.sr_shift_byte(b).unwrap()
    }
    fn dropped(&mut self) -> u64 {
        self.midi_dropped().unwrap()
    }
}

impl Machine for periph::Periph {
    fn advance(&mut self, n: u64) {
        black_box(periph::Periph::advance(self, n));
    }
    fn read(&mut self, addr: u32) -> Option<u32> {
        periph::Periph::read(self, addr)
    }
    fn write(&mut self, addr: u32, v: u32) {
        black_box(periph::Periph::write(self, addr, v));
    }
    fn choice(&mut self) -> Option<(u8, u8)> {
        self.pending_irq_for(0)
    }
    fn midi(&mut self, b: u8) {
        self.apply(&periph::Action::Midi { b })
    }
    fn press(&mut self, id: u8) {
        self.apply(&periph::Action::Key { id, down: true })
    }
    fn shift(&mut self, b: u8) {
        self.sr_shift_byte(b)
    }
    fn dropped(&mut self) -> u64 {
        self.midi_dropped()
    }
}

/// TIMER5 at 60,000 counts of 6 MHz, enabled for core 0 at priority 1.
fn timer5(m: &mut impl Machine) {
    m.write(0x1eef100 + 4 * (63 / 8), 3 << (63 % 8 * 4));
    m.write(0x10908, 60_000);
    m.write(0x10900, 1);
}

/// All columns selected, the rows driven high through 35 ohms, eleven keys of the row PA7 half-way through their press.
fn eleven(m: &mut impl Machine) {
    m.shift(0);
    m.shift(0);
    m.write(0x50000, 2);
    for (addr, v) in [(0x50008, 0), (0x50018, 0x180), (0x5001c, 0x180), (0x50000, 0x180)] {
        m.write(addr, v);
    }
    for id in 23..34 {
        m.press(id);
    }
    m.advance(180_000);
}

/// Runs `n` calls of a kind on a board that is set up for it. What only looks at the board is given one that may have changed, so that no look is taken out of the loop.
fn calls(m: &mut impl Machine, kind: &str, n: u64) {
    match kind {
        "quiet" => (0..n).for_each(|_| m.advance(black_box(1))),
        "due" => {
            timer5(m);
            (0..n).for_each(|_| m.advance(black_box(2_400_000)))
        }
        "count" => {
            m.write(0x10800, 1);
            (0..n).for_each(|_| drop(black_box(m.read(black_box(0x10804)))))
        }
        "plain" => (0..n).for_each(|_| drop(black_box(m.read(black_box(0x50000))))),
        "write" => (0..n).for_each(|k| m.write(black_box(0x10800), k as u32 & 1)),
        "pins" => (0..n).for_each(|k| m.write(black_box(0x50000), k as u32 & 1)),
        "choice" => {
            timer5(m);
            m.advance(2_400_000);
            (0..n).for_each(|_| drop(black_box(black_box(&mut *m).choice())))
        }
        "eleven" => {
            eleven(m);
            (0..n).for_each(|_| m.write(black_box(0x13100), 0x50))
        }
        "burst" => {
            for (addr, v) in [(0x1211c, 0x1000), (0x12120, 0x2000), (0x12100, 0x41)] {
                m.write(addr, v);
            }
            for k in 0..n {
                m.midi(k as u8);
                m.advance(76_800);
            }
        }
        "dropped" => (0..n).for_each(|_| drop(black_box(black_box(&mut *m).dropped()))),
        _ => panic!("no such kind of call: {kind}"),
    }
}

/// The driver's records from standard input, decoded and carried out on the original, nothing printed.
fn carried_out() {
    let bytes = input();
    let (mut b, mut at) = (board::Board::new(240_000_000).unwrap(), 0);
    while let Some(Some((record, long))) = records::at(&bytes, at) {
        match record {
            records::Record::Push(time, action) => drop(black_box(b.push(time, action))),
            records::Record::Read(addr) => drop(black_box(b.read(addr))),
            records::Record::Write(addr, v) => drop(black_box(b.write(addr, v))),
            records::Record::Step(n) => drop(black_box(b.step(n))),
        }
        at += long;
    }
}

/// What a call costs that takes the record by value and looks at one field: the copy alone.
#[inline(never)]
extern "C" fn handed(b: fm1::sys::Board) -> u64 {
    black_box(&b).chip.uart.dropped
}

fn main() {
    let words: Vec<String> = std::env::args().skip(1).collect();
    if words == ["records"] {
        return carried_out();
    }
    let n = words[2].parse().unwrap();
    match (&words[0][..], &words[1][..]) {
        ("port", "handed") => {
            let b = fm1::Board::new(240_000_000).unwrap();
            (0..n).for_each(|_| drop(black_box(handed(*black_box(b.record())))))
        }
        ("port", kind) => calls(&mut fm1::Board::new(240_000_000).unwrap(), kind, n),
        (_, kind) => calls(&mut inside::at(240_000_000, 0), kind, n),
    }
}
