
// Appended by tools/oracle/build below the text of periph.rs, whose own lines are untouched: what the oracle has to reach inside it.
pub mod inside {
    use super::*;

    pub fn at(hz: u64, cycles: u64) -> Periph {
        Periph { hz, cycles, ..Default::default() }
    }

    pub fn mul_div(a: u64, b: u64, c: u64) -> u32 {
        super::mul_div(a, b, c)
    }

    pub fn ms_cycles(hz: u64, ms: f64) -> u64 {
        at(hz, 0).ms_cycles(ms)
    }

    pub fn midi_byte_time(hz: u64) -> u64 {
        at(hz, 0).midi_byte_time()
    }

    pub fn t5_period(hz: u64, prd: u32) -> u64 {
        Periph { t5_prd: prd, ..at(hz, 0) }.t5_period()
    }

    thread_local!(static KEPT: std::cell::RefCell<Periph> = Default::default());

    /// A look at a board of this rate and clock, after what it looks at besides was set. The board is kept from one question to the next: to make one would be dearer than the answer.
    pub fn look<T>(hz: u64, cycles: u64, ask: impl FnOnce(&mut Periph) -> T) -> T {
        KEPT.with(|kept| {
            let p = &mut *kept.borrow_mut();
            (p.hz, p.cycles) = (hz, cycles);
            ask(p)
        })
    }

    /// TIMER5's count `into` cycles after its period began, for the longest period.
    pub fn t5_count(hz: u64, into: u64) -> u32 {
        look(hz, 0, |p| {
            (p.t5_prd, p.t5_con) = (u32::MAX, 1);
            p.t5_next = p.t5_period() - into;
            p.read(0x10904).unwrap()
        })
    }

    /// TIMER4's count `cycles` after its base.
    pub fn t4_count(hz: u64, cycles: u64) -> u32 {
        look(hz, cycles, |p| {
            p.t4_con = 1;
            p.read(0x10804).unwrap()
        })
    }

    pub fn tmr_cycles_per_count(hz: u64, code: u32) -> u64 {
        let mut p = at(hz, 0);
        p.tmr[0].con = code << 4;
        p.tmr_cycles_per_count(0)
    }

    pub fn half_period(hz: u64, len: u32) -> u64 {
        Periph { alnk_len: len, ..at(hz, 0) }.half_period()
    }

    /// How long after a byte the timeout comes for OTCNT = `clocks`.
    pub fn uart_timeout(hz: u64, clocks: u32) -> u64 {
        let mut p = at(hz, 0);
        (p.uart.con0, p.uart.rxeadr, p.uart.otcnt) = (0x41, 16, clocks);
        p.uart.q.push_back(0);
        p.uart_receive();
        p.uart.ot_next
    }

    pub fn spi1(hz: u64, bytes: u32, baud: u32) -> u64 {
        let mut p = at(hz, 0);
        p.spi1_start(bytes, baud, false);
        p.spi1_done_at
    }

    pub fn spi2(hz: u64, bytes: u32, baud: u32) -> u64 {
        let mut p = at(hz, 0);
        p.spi2_start(bytes, baud, true);
        p.spi2_next
    }

    /// A ramp's force at a moment; forces by their bits.
    pub fn force(from: u32, to: u32, t0: u64, dur: u64, now: u64) -> u32 {
        Ramp { from: f32::from_bits(from), to: f32::from_bits(to), t0, dur }.at(now).to_bits()
    }

    pub fn vel_force(vel: u8) -> u32 {
        super::vel_force(vel).to_bits()
    }

    pub fn next_event(p: &Periph) -> u64 {
        p.next_event()
    }

    // ---- the front panel and the converter

    pub fn reset(p: &mut Periph) {
        p.chip_reset();
    }

    /// Lit cycles and span, and what `led_take` answers, which are their quotients as f32. To credit twice at one moment changes nothing.
    pub fn led(p: &mut Periph) -> ([u64; 41], u64, [f32; 41]) {
        p.led_credit();
        p.led_flush();
        let (lit, span) = (p.led_acc, (p.cycles - p.led_since).max(1));
        (lit, span, p.led_take())
    }

    // ---- the board

    /// The call's answer, unless `late` holds of the board after it: then the call is taken back. For calls that do no more than move the clock.
    pub fn unless<T>(p: &mut Periph, call: impl FnOnce(&mut Periph) -> T, late: impl FnOnce(&Periph) -> bool) -> Option<T> {
        let was = (p.cycles, p.skipped, p.next_due, p.cnt_streak, p.last_cnt_read);
        let answer = call(p);
        if late(p) {
            (p.cycles, p.skipped, p.next_due, p.cnt_streak, p.last_cnt_read) = was;
            return None;
        }
        Some(answer)
    }

    /// A conversion of the channel now would work out a value below 1023: a row that is pulled up or driven high, with a key on it selected.
    pub fn pressed(p: &Periph, ch: u32) -> bool {
        let (row, pin) = match ch {
            0 => (3, 0x80),
            1 => (4, 0x100),
            _ => return false,
        };
        let driven = if p.pa_dir & pin == 0 { p.pa_out & pin != 0 } else { p.pa_pu & pin != 0 };
        driven && (0..11).any(|col| p.sr_latched & 1 << col == 0 && p.key_force[KEYMAP[row][col] as usize].at(p.cycles) > 0.001)
    }

    /// What document 01's word 'whole' says that does not hold of the board.
    pub fn broken(p: &Periph) -> Option<&'static str> {
        let deadlines = [p.t5_next, p.alnk_next, p.tick_next, p.spi1_irq_at, p.spi2_next, p.uart.next, p.uart.ot_next, p.usb_next, p.wdt_at];
        let deadline = |&at: &u64| at <= 1 << 63 || at == u64::MAX;
        let past = [p.t4_base, p.last_cnt_read, p.tick_start, p.led_last, p.led_since];
        let force = |f: f32| (0.0..=1.0).contains(&f);
        let facts = [
            ("rate", (1_000_000..=800_000_000).contains(&p.hz)),
            ("clock", p.cycles <= 1 << 53),
            ("past", past.iter().chain(p.tmr.iter().map(|t| &t.start)).chain(p.key_force.iter().map(|r| &r.t0)).all(|&at| at <= p.cycles)),
            ("ramp", p.key_force.iter().all(|r| r.dur <= p.hz / 50 && force(r.from) && force(r.to))),
            ("led", p.led_acc.iter().all(|&lit| lit + p.led_pend <= p.led_last)),
            ("deadline", deadlines.iter().chain(p.tmr.iter().map(|t| &t.next)).chain(p.enc_next.iter()).all(deadline)),
            ("queue's deadline", p.uart.q.is_empty() == (p.uart.next == u64::MAX)),
            ("rings", p.uart.q.len() <= MIDI_QUEUE_MAX && p.script.len() <= 256),
            ("write place", p.uart.wr < 65_536),
            ("encoder", p.enc_state.iter().all(|&s| s < 4)),
            ("velocity", (1..=127).contains(&p.key_vel)),
            ("half", p.alnk_half < 2),
            ("masks", p.alnk_len <= 0xffff && p.uart.rxcnt <= 0xffff),
            ("period", p.usb_next == u64::MAX || (1..=1 << 53).contains(&p.usb_period)),
            ("next_due", p.next_due <= p.next_event()),
            ("converter", p.adc_next == u64::MAX),
        ];
        facts.iter().find(|(_, holds)| !holds).map(|(name, _)| *name)
    }
}
