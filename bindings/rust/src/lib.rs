//! The FM-1's peripheral block, proved: `Board` and `Port` own a record and the memory that it is lent, and their methods have the names of the original's `Periph` and `P33`. Where a call is
//! refused it answers why (`Refused`), and nothing has changed. `sys` is the library as it is, `layout` holds the record's layout against the library's.
//!
//! ```
//! # fn main() -> Result<(), fm1::Refused> {
//! let mut board = fm1::Board::new(240_000_000)?;
//! board.write(0x10800, 1)?;
//! board.advance(100)?;
//! assert_eq!(board.read(0x10804)?, Some(10));
//! # Ok(())
//! # }
//! ```
pub mod sys;

pub mod layout;

/// Why a call was refused, by document 01's number.
#[derive(Clone, Copy, PartialEq, Eq, Debug)]
pub enum Refused {
    Clock = 1,
    Size = 2,
    State = 3,
    Param = 4,
    Full = 5,
    Count = 6,
    Time = 7,
}

impl Refused {
    pub fn number(self) -> u32 {
        self as u32
    }
}

impl std::fmt::Display for Refused {
    fn fmt(&self, f: &mut std::fmt::Formatter) -> std::fmt::Result {
        let why = match self {
            Refused::Clock => "the rate is outside 1,000,000 to 800,000,000 Hz",
            Refused::Size => "a lent length is wrong",
            Refused::State => "the record is not whole",
            Refused::Param => "a number is outside its range",
            Refused::Full => "256 entries wait in the script",
            Refused::Count => "a count is 2^62 or more",
            Refused::Time => "the clock would pass 2^53",
        };
        write!(f, "refused ({}): {why}", self.number())
    }
}

impl std::error::Error for Refused {}

pub type Answer<T> = Result<T, Refused>;

fn done(refused: u32) -> Answer<()> {
    Err(match refused {
        0 => return Ok(()),
        sys::CLOCK => Refused::Clock,
        sys::SIZE => Refused::Size,
        sys::PARAM => Refused::Param,
        sys::FULL => Refused::Full,
        sys::COUNT => Refused::Count,
        sys::TIME => Refused::Time,
        _ => Refused::State,
    })
}

/// What the script does to the front panel.
#[derive(Clone, Copy, PartialEq, Eq, Debug)]
pub enum Action {
    Key { id: u8, down: bool },
    Enc { enc: u8, clicks: i32 },
    Adc { ch: u8, value: u16 },
    Midi { b: u8 },
    KeyVel { vel: u8 },
    Pressure { id: u8, vel: u8 },
}

impl Action {
    /// The word that crosses: the kind in the lowest three bits, the first field in the next eight, the second above.
    pub fn word(self) -> u64 {
        let pack = |kind: u64, first: u8, second: u32| kind + 8 * first as u64 + 0x800 * second as u64;
        match self {
            Action::Key { id, down } => pack(0, id, down as u32),
            Action::Enc { enc, clicks } => pack(1, enc, clicks as u32),
            Action::Adc { ch, value } => pack(2, ch, value as u32),
            Action::Midi { b } => pack(3, b, 0),
            Action::KeyVel { vel } => pack(4, vel, 0),
            Action::Pressure { id, vel } => pack(5, id, vel as u32),
        }
    }

    /// The first record of a step's output: its length, the script's time and the action.
    fn decoded(bytes: &[u8]) -> Option<(usize, u64, Action)> {
        let len = u16::from_le_bytes(bytes.get(..2)?.try_into().ok()?) as usize;
        let kind = u16::from_le_bytes(bytes.get(2..4)?.try_into().ok()?);
        let time = u64::from_le_bytes(bytes.get(4..12)?.try_into().ok()?);
        let action = match (kind, bytes.get(12..len)?) {
            (1, &[id, down]) => Action::Key { id, down: down == 1 },
            (2, &[enc, a, b, c, d]) => Action::Enc { enc, clicks: i32::from_le_bytes([a, b, c, d]) },
            (3, &[ch, a, b]) => Action::Adc { ch, value: u16::from_le_bytes([a, b]) },
            (4, &[b]) => Action::Midi { b },
            (5, &[vel]) => Action::KeyVel { vel },
            (6, &[id, vel]) => Action::Pressure { id, vel },
            _ => return None,
        };
        Some((len, time, action))
    }
}

/// What came due in a step.
#[derive(Clone, PartialEq, Eq, Debug, Default)]
pub struct Due {
    /// A half buffer finished playing: its address and its words.
    pub audio_half: Option<(u32, u32)>,
    /// A byte that the DMA wrote: its address and the byte.
    pub uart_rx: Option<(u32, u8)>,
    pub usb_frame: bool,
    pub wdt: bool,
    pub actions: Vec<Action>,
    /// The times that the script gave them.
    pub times: Vec<u64>,
}

/// How long each LED was lit, and over how long, in cycles.
#[derive(Clone, Copy, PartialEq, Eq, Debug)]
pub struct Light {
    pub lit: [u64; 41],
    pub span: u64,
}

/// A board: its record, and its queue, script, interrupt banks and output.
#[derive(Clone)]
pub struct Board {
    record: Box<sys::Board>,
    queue: Box<[u8; sys::QUEUE_BYTES]>,
    script: Box<[u64; sys::SCRIPT_WORDS]>,
    out: Box<[u8; sys::OUT_BYTES]>,
    icfg: [u32; sys::BANK_WORDS],
    icfg1: [u32; sys::BANK_WORDS],
}

impl Board {
    /// A board at `hz`.
    pub fn new(hz: u64) -> Answer<Board> {
        let (queue, script) = (Box::new([0; sys::QUEUE_BYTES]), Box::new([0; sys::SCRIPT_WORDS]));
        let (mut icfg, mut icfg1) = ([0; sys::BANK_WORDS], [0; sys::BANK_WORDS]);
        let made = unsafe { sys::fm1_new(hz, queue.as_ptr(), queue.len(), script.as_ptr(), script.len(), icfg.as_mut_ptr(), icfg.len(), icfg1.as_mut_ptr(), icfg1.len()) };
        done(made.refused)?;
        Ok(Board { record: Box::new(made.board), queue, script, out: Box::new([0; sys::OUT_BYTES]), icfg, icfg1 })
    }

    /// The record, to look at or to keep.
    pub fn record(&self) -> &sys::Board {
        &self.record
    }

    /// Another record may be put here; one that is not whole is refused by every call.
    pub fn record_mut(&mut self) -> &mut sys::Board {
        &mut self.record
    }

    fn kept(&mut self, a: sys::Done) -> Answer<()> {
        *self.record = a.board;
        done(a.refused)
    }

    // ---- steps

    pub fn advance(&mut self, n: u64) -> Answer<Due> {
        let a = unsafe {
            sys::fm1_advance(*self.record, n, self.queue.as_mut_ptr(), self.queue.len(), self.script.as_ptr(), self.script.len(), self.out.as_mut_ptr(), self.out.len())
        };
        *self.record = a.board;
        done(a.due.refused)?;
        let mut due = Due {
            audio_half: (a.due.audio.some != 0).then_some((a.due.audio.addr, a.due.audio.value)),
            uart_rx: (a.due.uart.some != 0).then_some((a.due.uart.addr, a.due.uart.value as u8)),
            usb_frame: a.due.usb_frame != 0,
            wdt: a.due.wdt != 0,
            ..Default::default()
        };
        let mut at = 0;
        while let Some((len, time, action)) = self.out[..a.due.written as usize].get(at..).and_then(Action::decoded) {
            due.actions.push(action);
            due.times.push(time);
            at += len;
        }
        Ok(due)
    }

    pub fn apply(&mut self, a: &Action) -> Answer<()> {
        let a = unsafe { sys::fm1_apply(*self.record, a.word(), self.queue.as_mut_ptr(), self.queue.len()) };
        self.kept(a)
    }

    /// An action for the step that reaches `time`.
    pub fn push(&mut self, time: u64, a: &Action) -> Answer<()> {
        let a = unsafe { sys::fm1_push(*self.record, self.script.as_mut_ptr(), self.script.len(), time, a.word()) };
        self.kept(a)
    }

    pub fn chip_reset(&mut self) -> Answer<()> {
        let a = unsafe { sys::fm1_chip_reset(*self.record, self.icfg.as_mut_ptr(), self.icfg.len(), self.icfg1.as_mut_ptr(), self.icfg1.len()) };
        self.kept(a)
    }

    // ---- registers

    pub fn read(&mut self, addr: u32) -> Answer<Option<u32>> {
        let a = unsafe { sys::fm1_read(*self.record, addr, self.icfg.as_ptr(), self.icfg.len(), self.icfg1.as_ptr(), self.icfg1.len()) };
        *self.record = a.board;
        done(a.refused).map(|_| (a.some != 0).then_some(a.value))
    }

    pub fn write(&mut self, addr: u32, v: u32) -> Answer<bool> {
        let a = unsafe { sys::fm1_write(*self.record, addr, v, self.icfg.as_mut_ptr(), self.icfg.len(), self.icfg1.as_mut_ptr(), self.icfg1.len()) };
        *self.record = a.board;
        done(a.refused).map(|_| a.handled)
    }

    // ---- ticks and idle time

    pub fn tick(&mut self) -> Answer<bool> {
        let a = unsafe { sys::fm1_tick(*self.record) };
        *self.record = a.board;
        done(a.refused).map(|_| a.due)
    }

    pub fn tick_room(&self) -> Answer<u64> {
        number(unsafe { sys::fm1_tick_room(*self.record) })
    }

    pub fn next_tick_due(&self) -> Answer<bool> {
        flag(unsafe { sys::fm1_next_tick_due(*self.record) })
    }

    pub fn idle(&mut self) -> Answer<()> {
        let a = unsafe { sys::fm1_idle(*self.record) };
        self.kept(a)
    }

    // ---- interrupts

    pub fn any_pending(&self) -> Answer<bool> {
        flag(unsafe { sys::fm1_any_pending(*self.record) })
    }

    pub fn irq_enabled(&self, core: u32, n: u8) -> Answer<bool> {
        flag(unsafe { sys::fm1_irq_enabled(*self.record, core, n, self.icfg.as_ptr(), self.icfg.len(), self.icfg1.as_ptr(), self.icfg1.len()) })
    }

    /// The interrupt that core 0 takes, and its priority.
    pub fn pending_irq(&self) -> Answer<Option<(u8, u8)>> {
        chosen(unsafe { sys::fm1_pending_irq(*self.record, self.icfg.as_ptr(), self.icfg.len(), self.icfg1.as_ptr(), self.icfg1.len()) })
    }

    pub fn pending_irq_for(&self, core: u32) -> Answer<Option<(u8, u8)>> {
        chosen(unsafe { sys::fm1_pending_irq_for(*self.record, core, self.icfg.as_ptr(), self.icfg.len(), self.icfg1.as_ptr(), self.icfg1.len()) })
    }

    /// A core's interrupt bank.
    pub fn bank(&self, core: u32) -> &[u32; sys::BANK_WORDS] {
        if core == 0 { &self.icfg } else { &self.icfg1 }
    }

    // ---- LEDs

    /// How long each LED was lit since the last call, and over how long.
    pub fn led_times(&mut self) -> Answer<Light> {
        let a = unsafe { sys::fm1_led_take(*self.record) };
        *self.record = a.board;
        done(a.refused)?;
        Ok(Light { lit: a.lit, span: a.span })
    }

    /// The same as fractions, as the original gives them.
    pub fn led_take(&mut self) -> Answer<[f32; 41]> {
        self.led_times().map(|light| light.lit.map(|lit| lit as f32 / light.span as f32))
    }

    // ---- SPI and the shift register

    pub fn spi1_start(&mut self, bytes: u32, baud: u32, irq: bool) -> Answer<()> {
        let a = unsafe { sys::fm1_spi1_start(*self.record, bytes, baud, irq as u8) };
        self.kept(a)
    }

    pub fn spi2_start(&mut self, bytes: u32, baud: u32, irq: bool) -> Answer<()> {
        let a = unsafe { sys::fm1_spi2_start(*self.record, bytes, baud, irq as u8) };
        self.kept(a)
    }

    pub fn spi1_irq_off(&mut self) -> Answer<()> {
        let a = unsafe { sys::fm1_spi1_irq_off(*self.record) };
        self.kept(a)
    }

    pub fn sr_shift_byte(&mut self, b: u8) -> Answer<()> {
        let a = unsafe { sys::fm1_sr_shift_byte(*self.record, b) };
        self.kept(a)
    }

    // ---- times and counts

    pub fn ms(&self) -> Answer<u64> {
        number(unsafe { sys::fm1_ms(*self.record) })
    }

    pub fn cycle_of_ms(&self, ms: u64) -> Answer<u64> {
        number(unsafe { sys::fm1_cycle_of_ms(*self.record, ms) })
    }

    pub fn midi_queued(&self) -> Answer<usize> {
        number(unsafe { sys::fm1_midi_queued(*self.record) }).map(|n| n as usize)
    }

    pub fn midi_dropped(&self) -> Answer<u64> {
        number(unsafe { sys::fm1_midi_dropped(*self.record) })
    }

    pub fn cycles(&self) -> u64 {
        self.record.chip.clock.cycles
    }

    pub fn hz(&self) -> u64 {
        self.record.chip.clock.hz as u64
    }

    pub fn next_due(&self) -> u64 {
        self.record.chip.clock.next_due
    }

    pub fn skipped(&self) -> u64 {
        self.record.chip.clock.skipped
    }

    pub fn skip_idle(&self) -> bool {
        self.record.chip.clock.skip_idle != 0
    }

    pub fn audio_halves(&self) -> u64 {
        self.record.chip.audio.halves
    }

    pub fn spi1_done_at(&self) -> u64 {
        self.record.chip.spi.spi1_done_at
    }

    pub fn spi1_wire(&self) -> u64 {
        self.record.chip.spi.spi1_wire
    }

    pub fn key_vel(&self) -> u8 {
        self.record.chip.keys.vel as u8
    }

    /// How many entries wait in the script.
    pub fn script_len(&self) -> usize {
        self.record.chip.script.count as usize
    }

    // ---- settings

    pub fn set_cycle_ticks(&mut self, ticks: u64) -> Answer<()> {
        let a = unsafe { sys::fm1_set_cycle_ticks(*self.record, ticks) };
        self.kept(a)
    }

    pub fn set_skip_idle(&mut self, on: bool) -> Answer<()> {
        let a = unsafe { sys::fm1_set_skip_idle(*self.record, on as u8) };
        self.kept(a)
    }

    pub fn set_in_isr(&mut self, on: bool) -> Answer<()> {
        let a = unsafe { sys::fm1_set_in_isr(*self.record, on as u8) };
        self.kept(a)
    }

    pub fn set_room_cap(&mut self, cap: u64) -> Answer<()> {
        let a = unsafe { sys::fm1_set_room_cap(*self.record, cap) };
        self.kept(a)
    }

    pub fn set_exc_pending(&mut self, on: bool) -> Answer<()> {
        let a = unsafe { sys::fm1_set_exc_pending(*self.record, on as u8) };
        self.kept(a)
    }

    pub fn set_spi2_pending(&mut self, on: bool) -> Answer<()> {
        let a = unsafe { sys::fm1_set_spi2_pending(*self.record, on as u8) };
        self.kept(a)
    }

    /// `u64::MAX` for never.
    pub fn set_usb(&mut self, at: u64, period: u64) -> Answer<()> {
        let a = unsafe { sys::fm1_set_usb(*self.record, at, period) };
        self.kept(a)
    }

    /// `u64::MAX` for never.
    pub fn set_wdt(&mut self, at: u64) -> Answer<()> {
        let a = unsafe { sys::fm1_set_wdt(*self.record, at) };
        self.kept(a)
    }
}

fn number(n: sys::Number) -> Answer<u64> {
    done(n.refused).map(|_| n.value)
}

fn flag(f: sys::Flag) -> Answer<bool> {
    done(f.refused).map(|_| f.is)
}

fn chosen(c: sys::Chosen) -> Answer<Option<(u8, u8)>> {
    done(c.refused).map(|_| (c.some != 0).then_some((c.source as u8, c.priority as u8)))
}

fn id(said: sys::Said) -> Option<u8> {
    (said.is != 0).then_some(said.value as u8)
}

/// A key's id by its name.
pub fn key_id(name: &[u8]) -> Option<u8> {
    id(unsafe { sys::fm1_key_id(name.as_ptr(), name.len()) })
}

/// An encoder's id by its name.
pub fn enc_id(name: &[u8]) -> Option<u8> {
    id(unsafe { sys::fm1_enc_id(name.as_ptr(), name.len()) })
}

/// What the last transfer asks of the chip.
#[derive(Clone, Copy, PartialEq, Eq, Debug)]
pub enum Event {
    /// The watchdog's control written: with `fed`, its count cleared.
    Wdt { fed: bool },
    Reset,
}

/// The P33 port in brief: con, dat, step, cmd, addr, changed.
#[derive(Clone, Copy, PartialEq, Eq, Debug)]
pub struct Snap(pub u32, pub u32, pub u8, pub u8, pub u16, pub u64);

/// A P33 port: its record and its registers.
#[derive(Clone)]
pub struct Port {
    record: sys::Port,
    regs: Box<[u8; sys::PORT_BYTES]>,
}

impl Port {
    pub fn new() -> Port {
        let mut regs = Box::new([0; sys::PORT_BYTES]);
        let a = unsafe { sys::fm1_port_new(regs.as_mut_ptr(), regs.len()) };
        Port { record: a.port, regs }
    }

    pub fn record(&self) -> &sys::Port {
        &self.record
    }

    pub fn record_mut(&mut self) -> &mut sys::Port {
        &mut self.record
    }

    pub fn read(&self, addr: u32) -> u32 {
        unsafe { sys::fm1_port_read(self.record, addr) }
    }

    pub fn write(&mut self, addr: u32, value: u32) -> Answer<()> {
        let a = unsafe { sys::fm1_port_write(self.record, self.regs.as_mut_ptr(), self.regs.len(), addr, value) };
        self.record = a.port;
        done(a.said.refused)
    }

    pub fn chip_reset(&mut self, cause: u8) -> Answer<()> {
        let a = unsafe { sys::fm1_port_chip_reset(self.record, self.regs.as_mut_ptr(), self.regs.len(), cause) };
        self.record = a.port;
        done(a.said.refused)
    }

    pub fn take_event(&mut self) -> Option<Event> {
        let a = unsafe { sys::fm1_port_take_event(self.record) };
        self.record = a.port;
        match a.said.value as u32 {
            sys::EVENT_WDT => Some(Event::Wdt { fed: false }),
            sys::EVENT_WDT_FED => Some(Event::Wdt { fed: true }),
            sys::EVENT_RESET => Some(Event::Reset),
            _ => None,
        }
    }

    pub fn reg(&self, addr: u16, rtc: bool) -> u8 {
        let said = unsafe { sys::fm1_port_reg(self.regs.as_ptr(), self.regs.len(), addr, rtc as u8) };
        said.value as u8
    }

    pub fn snap(&self) -> Snap {
        let p = &self.record;
        Snap(p.con, p.dat, p.step, p.cmd, p.addr, p.changed)
    }

    /// Whether con, dat, step, cmd, addr and all registers agree.
    pub fn same(&self, other: &Port) -> bool {
        let said = unsafe { sys::fm1_port_same(self.record, self.regs.as_ptr(), self.regs.len(), other.record, other.regs.as_ptr(), other.regs.len()) };
        said.is != 0
    }

    pub fn wdt_ms(con: u8) -> u64 {
        unsafe { sys::fm1_wdt_ms(con) }
    }
}

impl Default for Port {
    fn default() -> Self {
        Port::new()
    }
}
