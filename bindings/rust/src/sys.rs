//! The library as it is: its records and calls. Written by tools/bindings from the code; change that.

// the refusals; 0 is done
/// a new board's rate is outside 1,000,000 to 800,000,000 Hz
pub const CLOCK: u32 = 1;
/// a lent length is not the one named below
pub const SIZE: u32 = 2;
/// the board's record is not whole
pub const STATE: u32 = 3;
/// an SPI, USB, deadline or millisecond number is outside its range
pub const PARAM: u32 = 4;
/// 256 entries wait in the script
pub const FULL: u32 = 5;
/// a count that the call can raise is 2^62 or more
pub const COUNT: u32 = 6;
/// the clock would pass 2^53
pub const TIME: u32 = 7;

// what is lent
/// the MIDI queue, in bytes
pub const QUEUE_BYTES: usize = 3125;
/// the script, in words of 64 bits
pub const SCRIPT_WORDS: usize = 512;
/// an interrupt bank, in words of 32 bits
pub const BANK_WORDS: usize = 32;
/// a step's output, in bytes: at least these
pub const OUT_BYTES: usize = 4352;
/// the P33 port's registers, in bytes
pub const PORT_BYTES: usize = 2048;

// the port's events
pub const EVENT_NONE: u32 = 0;
pub const EVENT_WDT: u32 = 1;
pub const EVENT_WDT_FED: u32 = 2;
pub const EVENT_RESET: u32 = 3;

#[repr(C)]
#[derive(Clone, Copy, Debug, PartialEq)]
pub struct Tick {
    pub start: u64,
    pub next: u64,
    pub pending: u64,
    pub ctl: u32,
    pub prd: u32,
}

#[repr(C)]
#[derive(Clone, Copy, Debug, PartialEq)]
pub struct Tmr {
    pub start: u64,
    pub next: u64,
    pub con: u32,
    pub prd: u32,
    pub cnt0: u32,
    pub pending: u32,
}

#[repr(C)]
#[derive(Clone, Copy, Debug, PartialEq)]
pub struct T4 {
    pub base: u64,
    pub last_cnt_read: u64,
    pub con: u32,
    pub cnt_streak: u32,
}

#[repr(C)]
#[derive(Clone, Copy, Debug, PartialEq)]
pub struct T5 {
    pub next: u64,
    pub pending: u64,
    pub con: u32,
    pub prd: u32,
}

#[repr(C)]
#[derive(Clone, Copy, Debug, PartialEq)]
pub struct Audio {
    pub next: u64,
    /// halves played, a count that wraps
    pub halves: u64,
    /// the half playing, 0 or 1
    pub half: u64,
    pub con0: u32,
    pub con1: u32,
    pub con3: u32,
    pub pend: u32,
    pub adr: u32,
    pub len: u32,
}

#[repr(C)]
#[derive(Clone, Copy, Debug, PartialEq)]
pub struct Spi {
    /// when SPI1's transfer ends, and its interrupt comes
    pub spi1_done_at: u64,
    pub spi1_irq_at: u64,
    /// SPI1's time on the wire, all told
    pub spi1_wire: u64,
    /// when SPI2's interrupt comes
    pub spi2_next: u64,
    pub spi1_pending: u32,
    pub spi2_pending: u32,
}

#[repr(C)]
#[derive(Clone, Copy, Debug, PartialEq)]
pub struct Uart {
    /// when the queue's first byte has arrived
    pub next: u64,
    /// when the timeout comes
    pub ot_next: u64,
    /// bytes lost: to a full queue, or for want of a receiver
    pub dropped: u64,
    pub con0: u32,
    pub rxsadr: u32,
    pub rxeadr: u32,
    pub rxcnt: u32,
    pub otcnt: u32,
    pub hrxcnt: u32,
    /// bytes received since the last latch
    pub since: u32,
    /// how far into its ring the DMA writes next
    pub wr: u32,
    pub rpnd: u32,
    pub otpnd: u32,
    pub tpnd: u32,
    /// the interrupt line, as it was last updated
    pub irq: u32,
    pub place: u32,
    pub count: u32,
}

/// What software raises (bit b is interrupt 120 + b), and the processor's exception. A flag is 0 or not 0.
#[repr(C)]
#[derive(Clone, Copy, Debug, PartialEq)]
pub struct Latch {
    pub ilat: u32,
    pub exc_pending: u32,
}

#[repr(C)]
#[derive(Clone, Copy, Debug, PartialEq)]
pub struct Enc {
    pub next: u64,
    pub pending: u32,
    pub state: u32,
}

#[repr(C)]
#[derive(Clone, Copy, Debug, PartialEq)]
pub struct Keys {
    /// bit i is key i
    pub down: u64,
    /// the velocity of the next presses, 1 to 127
    pub vel: u64,
}

#[repr(C)]
#[derive(Clone, Copy, Debug, PartialEq)]
pub struct Ramps {
    pub t0: [u64; 41],
    pub dur: [u32; 41],
    pub from: [f32; 41],
    pub to: [f32; 41],
}

#[repr(C)]
#[derive(Clone, Copy, Debug, PartialEq)]
pub struct Pins {
    /// the last change of the LED lines or the latch; when the light was last taken; the time in the present state that is not yet charged
    pub led_last: u64,
    pub led_since: u64,
    pub led_pend: u64,
    pub pa_out: u32,
    pub ph_out: u32,
    /// port A's direction (1 is an input), pull-ups and drive strength
    pub pa_dir: u32,
    pub pa_pu: u32,
    pub pa_hd0: u32,
    pub pa_hd: u32,
    pub sr_shift: u16,
    pub sr_latched: u16,
    /// the LED state last credited: the source's `led_key`
    pub led_lines: u16,
    pub led_latched: u16,
}

#[repr(C)]
#[derive(Clone, Copy, Debug, PartialEq)]
pub struct Adc {
    pub con: u32,
    pub noise: u32,
    pub done: u32,
    /// the interrupt line
    pub irq: u16,
    pub sample: u16,
}

#[repr(C)]
#[derive(Clone, Copy, Debug, PartialEq)]
pub struct Script {
    /// the front's time, while any wait
    pub at: u64,
    pub place: u32,
    pub count: u32,
}

/// The clock and the runner's settings.
#[repr(C)]
#[derive(Clone, Copy, Debug, PartialEq)]
pub struct Clock {
    pub cycles: u64,
    /// nothing timed happens before this cycle
    pub next_due: u64,
    pub cycle_ticks: u64,
    pub room_cap: u64,
    /// cycles jumped over
    pub skipped: u64,
    pub in_isr: u64,
    pub hz: u32,
    pub skip_idle: u32,
}

/// Deadlines that the host sets: USB frames with their period, and the watchdog.
#[repr(C)]
#[derive(Clone, Copy, Debug, PartialEq)]
pub struct Host {
    pub usb_next: u64,
    pub usb_period: u64,
    pub wdt_at: u64,
}

#[repr(C)]
#[derive(Clone, Copy, Debug, PartialEq)]
pub struct Chip {
    pub clock: Clock,
    pub t4: T4,
    pub t5: T5,
    pub tmr: [Tmr; 4],
    pub tick: Tick,
    pub audio: Audio,
    pub spi: Spi,
    pub uart: Uart,
    pub host: Host,
    pub script: Script,
    pub pins: Pins,
    pub enc: [Enc; 8],
    pub keys: Keys,
    pub adc: Adc,
    pub latch: Latch,
}

#[repr(C)]
#[derive(Clone, Copy, Debug, PartialEq)]
pub struct Panel {
    pub acc: [u64; 41],
    pub ramps: Ramps,
    pub values: [u16; 16],
}

#[repr(C)]
#[derive(Clone, Copy, Debug, PartialEq)]
pub struct Board {
    pub chip: Chip,
    pub panel: Panel,
}

#[repr(C)]
#[derive(Clone, Copy, Debug, PartialEq)]
pub struct Done {
    pub board: Board,
    pub refused: u32,
}

#[repr(C)]
#[derive(Clone, Copy, Debug, PartialEq)]
pub struct Ticked {
    pub board: Board,
    pub refused: u32,
    pub due: bool,
}

#[repr(C)]
#[derive(Clone, Copy, Debug, PartialEq)]
pub struct Lit {
    pub board: Board,
    pub lit: [u64; 41],
    pub span: u64,
    pub refused: u32,
}

#[repr(C)]
#[derive(Clone, Copy, Debug, PartialEq)]
pub struct Flag {
    pub refused: u32,
    pub is: bool,
}

#[repr(C)]
#[derive(Clone, Copy, Debug, PartialEq)]
pub struct Number {
    pub value: u64,
    pub refused: u32,
}

#[repr(C)]
#[derive(Clone, Copy, Debug, PartialEq)]
pub struct Written {
    pub board: Board,
    pub refused: u32,
    pub handled: bool,
}

/// A number, or a flag, and the refusal's number (0: done).
#[repr(C)]
#[derive(Clone, Copy, Debug, PartialEq)]
pub struct Said {
    pub value: u64,
    pub refused: u32,
    pub is: u32,
}

/// A register's value, where `some`.
#[repr(C)]
#[derive(Clone, Copy, Debug, PartialEq)]
pub struct Reading {
    pub board: Board,
    pub refused: u32,
    pub some: u32,
    pub value: u32,
}

/// Where `some`, what DMA moved: an audio half's address and words, or a byte's address and the byte.
#[repr(C)]
#[derive(Clone, Copy, Debug, PartialEq)]
pub struct Moved {
    pub some: u32,
    pub addr: u32,
    pub value: u32,
}

/// What a step hands out; `written` bytes of the lent output are its records, `applied` of them.
#[repr(C)]
#[derive(Clone, Copy, Debug, PartialEq)]
pub struct Due {
    pub written: u64,
    pub applied: u32,
    pub refused: u32,
    pub audio: Moved,
    pub uart: Moved,
    pub usb_frame: u32,
    pub wdt: u32,
}

#[repr(C)]
#[derive(Clone, Copy, Debug, PartialEq)]
pub struct Advanced {
    pub board: Board,
    pub due: Due,
}

/// Where `some`, the interrupt to take.
#[repr(C)]
#[derive(Clone, Copy, Debug, PartialEq)]
pub struct Chosen {
    pub refused: u32,
    pub some: u32,
    pub source: u32,
    pub priority: u32,
}

/// The port's record, its event as a number.
#[repr(C)]
#[derive(Clone, Copy, Debug, PartialEq)]
pub struct Port {
    pub changed: u64,
    pub con: u32,
    pub dat: u32,
    pub event: u32,
    pub addr: u16,
    pub step: u8,
    pub cmd: u8,
}

#[repr(C)]
#[derive(Clone, Copy, Debug, PartialEq)]
pub struct PortAnswered {
    pub port: Port,
    pub said: Said,
}

extern "C" {
    /// A new board at `hz`; queue and script are left alone, the banks are zeroed. CLOCK, SIZE.
    pub fn fm1_new(hz: u64, queue: *const u8, queue_len: usize, script: *const u64, script_len: usize, icfg: *mut u32, icfg_len: usize, icfg1: *mut u32, icfg1_len: usize) -> Done;
    /// The step: the clock goes on by `cycles`, and what is due by then is served. SIZE, STATE, COUNT, TIME.
    pub fn fm1_advance(b: Board, cycles: u64, queue: *mut u8, queue_len: usize, script: *const u64, script_len: usize, out: *mut u8, out_len: usize) -> Advanced;
    /// An action for the step that reaches `time`. SIZE, STATE, FULL.
    pub fn fm1_push(b: Board, script: *mut u64, script_len: usize, time: u64, action: u64) -> Done;
    /// An action now. SIZE, STATE, COUNT.
    pub fn fm1_apply(b: Board, action: u64, queue: *mut u8, queue_len: usize) -> Done;
    /// A chip reset. SIZE, STATE.
    pub fn fm1_chip_reset(b: Board, icfg: *mut u32, icfg_len: usize, icfg1: *mut u32, icfg1_len: usize) -> Done;
    /// A register's value; none where the word is plain storage. SIZE, STATE, TIME.
    pub fn fm1_read(b: Board, addr: u32, icfg: *const u32, icfg_len: usize, icfg1: *const u32, icfg1_len: usize) -> Reading;
    /// Whether the word is a register (`handled`). SIZE, STATE.
    pub fn fm1_write(b: Board, addr: u32, v: u32, icfg: *mut u32, icfg_len: usize, icfg1: *mut u32, icfg1_len: usize) -> Written;
    /// A tick of the runner; whether a step is due. STATE, TIME.
    pub fn fm1_tick(b: Board) -> Ticked;
    /// How many cycles until a step is due. STATE.
    pub fn fm1_tick_room(b: Board) -> Number;
    /// Whether the next tick makes a step due. STATE.
    pub fn fm1_next_tick_due(b: Board) -> Flag;
    /// Jumps over idle time. STATE, TIME.
    pub fn fm1_idle(b: Board) -> Done;
    /// Whether any source pends. STATE.
    pub fn fm1_any_pending(b: Board) -> Flag;
    /// Whether a core has a source enabled. SIZE, STATE.
    pub fn fm1_irq_enabled(b: Board, core: u32, n: u8, icfg: *const u32, icfg_len: usize, icfg1: *const u32, icfg1_len: usize) -> Flag;
    /// The interrupt that a core takes. SIZE, STATE.
    pub fn fm1_pending_irq_for(b: Board, core: u32, icfg: *const u32, icfg_len: usize, icfg1: *const u32, icfg1_len: usize) -> Chosen;
    /// Core 0's. SIZE, STATE.
    pub fn fm1_pending_irq(b: Board, icfg: *const u32, icfg_len: usize, icfg1: *const u32, icfg1_len: usize) -> Chosen;
    /// How long each LED was lit since the last call, and over how long. STATE.
    pub fn fm1_led_take(b: Board) -> Lit;
    /// A transfer on SPI1. STATE, PARAM, COUNT.
    pub fn fm1_spi1_start(b: Board, bytes: u32, baud: u32, irq: u8) -> Done;
    /// A transfer on SPI2. STATE, PARAM.
    pub fn fm1_spi2_start(b: Board, bytes: u32, baud: u32, irq: u8) -> Done;
    /// SPI1's interrupt off. STATE.
    pub fn fm1_spi1_irq_off(b: Board) -> Done;
    /// A byte into the matrix's shift registers. STATE.
    pub fn fm1_sr_shift_byte(b: Board, byte: u8) -> Done;
    /// The clock in milliseconds. STATE.
    pub fn fm1_ms(b: Board) -> Number;
    /// Milliseconds in cycles. STATE, PARAM.
    pub fn fm1_cycle_of_ms(b: Board, ms: u64) -> Number;
    /// MIDI bytes that wait to arrive. STATE.
    pub fn fm1_midi_queued(b: Board) -> Number;
    /// MIDI bytes dropped. STATE.
    pub fn fm1_midi_dropped(b: Board) -> Number;
    /// Cycles a tick. STATE.
    pub fn fm1_set_cycle_ticks(b: Board, ticks: u64) -> Done;
    /// Whether count reads skip idle time. STATE.
    pub fn fm1_set_skip_idle(b: Board, on: u8) -> Done;
    /// Whether an interrupt is being served. STATE.
    pub fn fm1_set_in_isr(b: Board, on: u8) -> Done;
    /// The most cycles that `fm1_tick_room` answers. STATE.
    pub fn fm1_set_room_cap(b: Board, cap: u64) -> Done;
    /// Whether an exception pends. STATE.
    pub fn fm1_set_exc_pending(b: Board, on: u8) -> Done;
    /// Whether SPI2 pends. STATE.
    pub fn fm1_set_spi2_pending(b: Board, on: u8) -> Done;
    /// A USB frame's deadline (all ones: never) and its period. STATE, PARAM.
    pub fn fm1_set_usb(b: Board, at: u64, period: u64) -> Done;
    /// The watchdog's deadline (all ones: never). STATE, PARAM.
    pub fn fm1_set_wdt(b: Board, at: u64) -> Done;
    /// A key's id, or `is` 0.
    pub fn fm1_key_id(name: *const u8, name_len: usize) -> Said;
    /// An encoder's id, or `is` 0.
    pub fn fm1_enc_id(name: *const u8, name_len: usize) -> Said;
    /// A record that marks its fields. It is not whole.
    pub fn fm1_marks() -> Board;
    /// A port at power-on; its memory is zeroed. SIZE.
    pub fn fm1_port_new(regs: *mut u8, regs_len: usize) -> PortAnswered;
    /// CON or DAT.
    pub fn fm1_port_read(p: Port, addr: u32) -> u32;
    /// A write to CON or DAT. SIZE, COUNT.
    pub fn fm1_port_write(p: Port, regs: *mut u8, regs_len: usize, addr: u32, value: u32) -> PortAnswered;
    /// A chip reset and its cause. SIZE, COUNT.
    pub fn fm1_port_chip_reset(p: Port, regs: *mut u8, regs_len: usize, cause: u8) -> PortAnswered;
    /// The event, as `value`; it is taken.
    pub fn fm1_port_take_event(p: Port) -> PortAnswered;
    /// A register of the main domain, or of the RTC's where `rtc` is not 0. SIZE.
    pub fn fm1_port_reg(regs: *const u8, regs_len: usize, addr: u16, rtc: u8) -> Said;
    /// Whether two ports are the same. SIZE.
    pub fn fm1_port_same(a: Port, regs_a: *const u8, regs_a_len: usize, b: Port, regs_b: *const u8, regs_b_len: usize) -> Said;
    /// Whether one port at two times has equal snaps.
    pub fn fm1_port_same_snap(a: Port, b: Port) -> u32;
    /// The watchdog's period in ms for a control byte.
    pub fn fm1_wdt_ms(con: u8) -> u64;
}
