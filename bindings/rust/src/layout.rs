//! The record's layout: sizes as this crate is compiled, places against the record that the library marks. Written by tools/bindings from the code; change that.
use crate::sys::*;

const _: () = assert!(std::mem::size_of::<Tick>() == 32);
const _: () = assert!(std::mem::size_of::<Tmr>() == 32);
const _: () = assert!(std::mem::size_of::<T4>() == 24);
const _: () = assert!(std::mem::size_of::<T5>() == 24);
const _: () = assert!(std::mem::size_of::<Audio>() == 48);
const _: () = assert!(std::mem::size_of::<Spi>() == 40);
const _: () = assert!(std::mem::size_of::<Uart>() == 80);
const _: () = assert!(std::mem::size_of::<Latch>() == 8);
const _: () = assert!(std::mem::size_of::<Enc>() == 16);
const _: () = assert!(std::mem::size_of::<Keys>() == 16);
const _: () = assert!(std::mem::size_of::<Ramps>() == 824);
const _: () = assert!(std::mem::size_of::<Pins>() == 56);
const _: () = assert!(std::mem::size_of::<Adc>() == 16);
const _: () = assert!(std::mem::size_of::<Script>() == 16);
const _: () = assert!(std::mem::size_of::<Clock>() == 56);
const _: () = assert!(std::mem::size_of::<Host>() == 24);
const _: () = assert!(std::mem::size_of::<Chip>() == 696);
const _: () = assert!(std::mem::size_of::<Panel>() == 1184);
const _: () = assert!(std::mem::size_of::<Board>() == 1880);
const _: () = assert!(std::mem::size_of::<Done>() == 1888);
const _: () = assert!(std::mem::size_of::<Ticked>() == 1888);
const _: () = assert!(std::mem::size_of::<Lit>() == 2224);
const _: () = assert!(std::mem::size_of::<Flag>() == 8);
const _: () = assert!(std::mem::size_of::<Number>() == 16);
const _: () = assert!(std::mem::size_of::<Written>() == 1888);
const _: () = assert!(std::mem::size_of::<Said>() == 16);
const _: () = assert!(std::mem::size_of::<Reading>() == 1896);
const _: () = assert!(std::mem::size_of::<Moved>() == 12);
const _: () = assert!(std::mem::size_of::<Due>() == 48);
const _: () = assert!(std::mem::size_of::<Advanced>() == 1928);
const _: () = assert!(std::mem::size_of::<Chosen>() == 16);
const _: () = assert!(std::mem::size_of::<Port>() == 24);
const _: () = assert!(std::mem::size_of::<PortAnswered>() == 40);

/// The fields that do not lie where the library has them; none where all is well.
pub fn faults() -> Vec<&'static str> {
    let mut room = [u64::MAX; 1024];
    // a record is answered through a pointer to it
    let marks: unsafe extern "C" fn(*mut u64) -> *mut u64 = unsafe { std::mem::transmute(fm1_marks as unsafe extern "C" fn() -> Board) };
    unsafe { marks(room.as_mut_ptr()) };
    let mut faults = Vec::new();
    let mut is = |holds: bool, field| {
        if !holds {
            faults.push(field);
        }
    };
    let written = room.iter().rposition(|&word| word != u64::MAX).map_or(0, |last| 8 * (last + 1));
    is(written == std::mem::size_of::<Board>(), "the record's size");
    let b = unsafe { &*(room.as_ptr() as *const Board) };
    is(b.chip.clock.cycles == 1, "b.chip.clock.cycles");
    is(b.chip.clock.next_due == 2, "b.chip.clock.next_due");
    is(b.chip.clock.cycle_ticks == 3, "b.chip.clock.cycle_ticks");
    is(b.chip.clock.room_cap == 4, "b.chip.clock.room_cap");
    is(b.chip.clock.skipped == 5, "b.chip.clock.skipped");
    is(b.chip.clock.in_isr == 6, "b.chip.clock.in_isr");
    is(b.chip.clock.hz == 7, "b.chip.clock.hz");
    is(b.chip.clock.skip_idle == 8, "b.chip.clock.skip_idle");
    is(b.chip.t4.base == 9, "b.chip.t4.base");
    is(b.chip.t4.last_cnt_read == 10, "b.chip.t4.last_cnt_read");
    is(b.chip.t4.con == 11, "b.chip.t4.con");
    is(b.chip.t4.cnt_streak == 12, "b.chip.t4.cnt_streak");
    is(b.chip.t5.next == 13, "b.chip.t5.next");
    is(b.chip.t5.pending == 14, "b.chip.t5.pending");
    is(b.chip.t5.con == 15, "b.chip.t5.con");
    is(b.chip.t5.prd == 16, "b.chip.t5.prd");
    for tmr in &b.chip.tmr {
        is(tmr.start == 17, "tmr.start");
        is(tmr.next == 18, "tmr.next");
        is(tmr.con == 19, "tmr.con");
        is(tmr.prd == 20, "tmr.prd");
        is(tmr.cnt0 == 21, "tmr.cnt0");
        is(tmr.pending == 22, "tmr.pending");
    }
    is(b.chip.tick.start == 23, "b.chip.tick.start");
    is(b.chip.tick.next == 24, "b.chip.tick.next");
    is(b.chip.tick.pending == 25, "b.chip.tick.pending");
    is(b.chip.tick.ctl == 26, "b.chip.tick.ctl");
    is(b.chip.tick.prd == 27, "b.chip.tick.prd");
    is(b.chip.audio.next == 28, "b.chip.audio.next");
    is(b.chip.audio.halves == 29, "b.chip.audio.halves");
    is(b.chip.audio.half == 30, "b.chip.audio.half");
    is(b.chip.audio.con0 == 31, "b.chip.audio.con0");
    is(b.chip.audio.con1 == 32, "b.chip.audio.con1");
    is(b.chip.audio.con3 == 33, "b.chip.audio.con3");
    is(b.chip.audio.pend == 34, "b.chip.audio.pend");
    is(b.chip.audio.adr == 35, "b.chip.audio.adr");
    is(b.chip.audio.len == 36, "b.chip.audio.len");
    is(b.chip.spi.spi1_done_at == 37, "b.chip.spi.spi1_done_at");
    is(b.chip.spi.spi1_irq_at == 38, "b.chip.spi.spi1_irq_at");
    is(b.chip.spi.spi1_wire == 39, "b.chip.spi.spi1_wire");
    is(b.chip.spi.spi2_next == 40, "b.chip.spi.spi2_next");
    is(b.chip.spi.spi1_pending == 41, "b.chip.spi.spi1_pending");
    is(b.chip.spi.spi2_pending == 42, "b.chip.spi.spi2_pending");
    is(b.chip.uart.next == 43, "b.chip.uart.next");
    is(b.chip.uart.ot_next == 44, "b.chip.uart.ot_next");
    is(b.chip.uart.dropped == 45, "b.chip.uart.dropped");
    is(b.chip.uart.con0 == 46, "b.chip.uart.con0");
    is(b.chip.uart.rxsadr == 47, "b.chip.uart.rxsadr");
    is(b.chip.uart.rxeadr == 48, "b.chip.uart.rxeadr");
    is(b.chip.uart.rxcnt == 49, "b.chip.uart.rxcnt");
    is(b.chip.uart.otcnt == 50, "b.chip.uart.otcnt");
    is(b.chip.uart.hrxcnt == 51, "b.chip.uart.hrxcnt");
    is(b.chip.uart.since == 52, "b.chip.uart.since");
    is(b.chip.uart.wr == 53, "b.chip.uart.wr");
    is(b.chip.uart.rpnd == 54, "b.chip.uart.rpnd");
    is(b.chip.uart.otpnd == 55, "b.chip.uart.otpnd");
    is(b.chip.uart.tpnd == 56, "b.chip.uart.tpnd");
    is(b.chip.uart.irq == 57, "b.chip.uart.irq");
    is(b.chip.uart.place == 58, "b.chip.uart.place");
    is(b.chip.uart.count == 59, "b.chip.uart.count");
    is(b.chip.host.usb_next == 60, "b.chip.host.usb_next");
    is(b.chip.host.usb_period == 61, "b.chip.host.usb_period");
    is(b.chip.host.wdt_at == 62, "b.chip.host.wdt_at");
    is(b.chip.script.at == 63, "b.chip.script.at");
    is(b.chip.script.place == 64, "b.chip.script.place");
    is(b.chip.script.count == 65, "b.chip.script.count");
    is(b.chip.pins.led_last == 66, "b.chip.pins.led_last");
    is(b.chip.pins.led_since == 67, "b.chip.pins.led_since");
    is(b.chip.pins.led_pend == 68, "b.chip.pins.led_pend");
    is(b.chip.pins.pa_out == 69, "b.chip.pins.pa_out");
    is(b.chip.pins.ph_out == 70, "b.chip.pins.ph_out");
    is(b.chip.pins.pa_dir == 71, "b.chip.pins.pa_dir");
    is(b.chip.pins.pa_pu == 72, "b.chip.pins.pa_pu");
    is(b.chip.pins.pa_hd0 == 73, "b.chip.pins.pa_hd0");
    is(b.chip.pins.pa_hd == 74, "b.chip.pins.pa_hd");
    is(b.chip.pins.sr_shift == 75, "b.chip.pins.sr_shift");
    is(b.chip.pins.sr_latched == 76, "b.chip.pins.sr_latched");
    is(b.chip.pins.led_lines == 77, "b.chip.pins.led_lines");
    is(b.chip.pins.led_latched == 78, "b.chip.pins.led_latched");
    for enc in &b.chip.enc {
        is(enc.next == 79, "enc.next");
        is(enc.pending == 80, "enc.pending");
        is(enc.state == 81, "enc.state");
    }
    is(b.chip.keys.down == 82, "b.chip.keys.down");
    is(b.chip.keys.vel == 83, "b.chip.keys.vel");
    is(b.chip.adc.con == 84, "b.chip.adc.con");
    is(b.chip.adc.noise == 85, "b.chip.adc.noise");
    is(b.chip.adc.done == 86, "b.chip.adc.done");
    is(b.chip.adc.irq == 87, "b.chip.adc.irq");
    is(b.chip.adc.sample == 88, "b.chip.adc.sample");
    is(b.chip.latch.ilat == 89, "b.chip.latch.ilat");
    is(b.chip.latch.exc_pending == 90, "b.chip.latch.exc_pending");
    is(b.panel.acc == [91; 41], "b.panel.acc");
    is(b.panel.ramps.t0 == [92; 41], "b.panel.ramps.t0");
    is(b.panel.ramps.dur == [93; 41], "b.panel.ramps.dur");
    is(b.panel.ramps.from == [0.25; 41], "b.panel.ramps.from");
    is(b.panel.ramps.to == [0.5; 41], "b.panel.ramps.to");
    is(b.panel.values == [96; 16], "b.panel.values");
    faults
}

#[cfg(test)]
mod tests {
    #[test]
    fn every_field_lies_where_the_library_has_it() {
        assert_eq!(super::faults(), Vec::<&str>::new());
    }
}
