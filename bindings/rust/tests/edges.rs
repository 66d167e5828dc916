//! What a caller can hand over wrongly: every call ends with its number, and record and lent memory are as they were.
use fm1::sys::*;
use fm1::{Action, Board, Port, Refused};

/// A record of pseudo-random bytes.
fn noise(seed: &mut u64) -> fm1::sys::Board {
    let mut words = [0u64; std::mem::size_of::<fm1::sys::Board>() / 8];
    for word in &mut words {
        *seed = seed.wrapping_mul(6364136223846793005).wrapping_add(1442695040888963407);
        *word = *seed >> 7 ^ *seed << 31;
    }
    unsafe { std::mem::transmute(words) }
}

fn bytes(record: &fm1::sys::Board) -> Vec<u8> {
    unsafe { std::slice::from_raw_parts(record as *const _ as *const u8, std::mem::size_of_val(record)).to_vec() }
}

/// The panel's four bytes of padding behind the ramps may change in a copy.
fn without_padding(mut record: Vec<u8>) -> Vec<u8> {
    let ramps = std::mem::offset_of!(fm1::sys::Board, panel) + std::mem::offset_of!(Panel, ramps);
    record[ramps + 820..ramps + 824].fill(0);
    record
}

#[test]
fn any_bytes_are_answered() {
    let mut seed = 1;
    let mut board = Board::new(240_000_000).unwrap();
    for _ in 0..1000 {
        *board.record_mut() = noise(&mut seed);
        let before = without_padding(bytes(board.record()));
        let midi = Action::Midi { b: 0x90 };
        let refused = [
            board.advance(1).err(),
            board.apply(&midi).err(),
            board.push(1, &midi).err(),
            board.chip_reset().err(),
            board.read(0x10804).err(),
            board.write(0x10800, 1).err(),
            board.tick().err(),
            board.tick_room().err(),
            board.next_tick_due().err(),
            board.idle().err(),
            board.any_pending().err(),
            board.irq_enabled(0, 1).err(),
            board.pending_irq().err(),
            board.pending_irq_for(1).err(),
            board.led_take().err(),
            board.spi1_start(1, 1, true).err(),
            board.spi2_start(1, 1, true).err(),
            board.spi1_irq_off().err(),
            board.sr_shift_byte(1).err(),
            board.ms().err(),
            board.cycle_of_ms(1).err(),
            board.midi_queued().err(),
            board.midi_dropped().err(),
            board.set_cycle_ticks(1).err(),
            board.set_skip_idle(true).err(),
            board.set_in_isr(true).err(),
            board.set_room_cap(1).err(),
            board.set_exc_pending(true).err(),
            board.set_spi2_pending(true).err(),
            board.set_usb(1, 1).err(),
            board.set_wdt(1).err(),
        ];
        assert_eq!(refused, [Some(Refused::State); 31]);
        assert_eq!(without_padding(bytes(board.record())), before);
    }
}

#[test]
fn refusals_come_in_their_order() {
    assert_eq!(Board::new(999_999).err(), Some(Refused::Clock));
    let mut board = Board::new(1_000_000).unwrap();
    assert_eq!(board.advance((1 << 53) + 1).err(), Some(Refused::Time));
    assert_eq!(board.set_usb(1, 0).err(), Some(Refused::Param));
    for time in 0..256 {
        board.push(time, &Action::KeyVel { vel: 1 }).unwrap();
    }
    assert_eq!(board.push(1, &Action::KeyVel { vel: 1 }).err(), Some(Refused::Full));
    let record = *board.record();
    let (mut bank, mut other) = ([7u32; 31], [7u32; 32]);
    let a = unsafe { fm1_write(record, 0x10800, 1, bank.as_mut_ptr(), bank.len(), other.as_mut_ptr(), other.len()) };
    assert_eq!(a.refused, SIZE);
    assert_eq!((bank, other), ([7; 31], [7; 32]));
}

#[test]
fn an_unknown_event_is_none() {
    let mut port = Port::new();
    port.record_mut().event = 77;
    assert_eq!(port.take_event(), None);
    port.record_mut().changed = 1 << 62;
    assert_eq!(port.write(0x13e08, 1).err(), Some(Refused::Count));
    assert_eq!(port.record().changed, 1 << 62);
}

/// SIZE before anything else, for every call of the port that is lent its memory; COUNT from 2^62 on, for every call that can raise the count. What is just permitted is done.
#[test]
fn a_port_refuses_lengths_and_counts() {
    let fresh = *Port::new().record();
    for len in [0, PORT_BYTES - 1, PORT_BYTES, PORT_BYTES + 1] {
        let (mut regs, right) = (vec![7u8; len], [7u8; PORT_BYTES]);
        let number = if len == PORT_BYTES { 0 } else { SIZE };
        let mut full = fresh;
        full.changed = 1 << 62;
        unsafe {
            assert_eq!(fm1_port_reg(regs.as_ptr(), len, 0, 0).refused, number);
            assert_eq!(fm1_port_same(fresh, regs.as_ptr(), len, fresh, right.as_ptr(), right.len()).refused, number);
            assert_eq!(fm1_port_same(fresh, right.as_ptr(), right.len(), fresh, regs.as_ptr(), len).refused, number);
            for (changed, count) in [((1 << 62) - 1, 0), (1 << 62, COUNT), (u64::MAX, COUNT)] {
                full.changed = changed;
                let before = regs.clone();
                let number = if number == SIZE { SIZE } else { count };
                let wrote = fm1_port_write(full, regs.as_mut_ptr(), len, 0x13e08, 5);
                assert_eq!((wrote.said.refused, &regs), (number, &before));
                let reset = fm1_port_chip_reset(full, regs.as_mut_ptr(), len, 4);
                assert_eq!(reset.said.refused, number);
                if number != 0 {
                    assert_eq!((wrote.port.changed, wrote.port.dat, reset.port.changed), (changed, full.dat, changed));
                    assert_eq!(regs, before);
                }
                regs = before;
            }
            let made = fm1_port_new(regs.as_mut_ptr(), len);
            assert_eq!(made.said.refused, number);
            assert_eq!(regs, vec![if number == 0 { 0 } else { 7 }; len]);
        }
    }
}

/// An event's number above 3 is read as none, and a call that is turned away hands it back all the same.
#[test]
fn a_refused_port_comes_back_as_it_came() {
    let bytes = |p: &fm1::sys::Port| unsafe { std::slice::from_raw_parts(p as *const _ as *const u8, std::mem::size_of_val(p)).to_vec() };
    for event in [0, 1, 3, 4, 77, u32::MAX] {
        let mut port = *Port::new().record();
        (port.event, port.con, port.dat, port.step, port.cmd, port.addr) = (event, 0x113, 9, 2, 0x80, 0x3ff);
        for (changed, len, number) in [(1 << 62, PORT_BYTES, COUNT), (5, PORT_BYTES - 1, SIZE)] {
            port.changed = changed;
            let mut regs = vec![7u8; len];
            unsafe {
                let wrote = fm1_port_write(port, regs.as_mut_ptr(), len, 0x13e08, 0x11);
                let reset = fm1_port_chip_reset(port, regs.as_mut_ptr(), len, 4);
                assert_eq!((wrote.said.refused, reset.said.refused), (number, number));
                assert_eq!((bytes(&wrote.port), bytes(&reset.port)), (bytes(&port), bytes(&port)));
            }
            assert_eq!(regs, vec![7u8; len]);
        }
    }
}

/// A flag that comes in is a byte, and any but 0 is yes: nothing is turned away for it.
#[test]
fn any_byte_but_0_is_yes() {
    let board = Board::new(240_000_000).unwrap();
    let record = *board.record();
    let mut regs = vec![0u8; PORT_BYTES];
    regs[0x400 + 5] = 9;
    for on in 0..=255u8 {
        let yes = (on != 0) as u8;
        unsafe {
            for (given, plain) in [
                (fm1_set_skip_idle(record, on), fm1_set_skip_idle(record, yes)),
                (fm1_set_in_isr(record, on), fm1_set_in_isr(record, yes)),
                (fm1_set_exc_pending(record, on), fm1_set_exc_pending(record, yes)),
                (fm1_set_spi2_pending(record, on), fm1_set_spi2_pending(record, yes)),
                (fm1_spi1_start(record, 1, 1, on), fm1_spi1_start(record, 1, 1, yes)),
                (fm1_spi2_start(record, 1, 1, on), fm1_spi2_start(record, 1, 1, yes)),
            ] {
                assert_eq!((given.refused, without_padding(bytes(&given.board))), (0, without_padding(bytes(&plain.board))));
            }
            let said = fm1_port_reg(regs.as_ptr(), regs.len(), 5, on);
            assert_eq!((said.refused, said.value), (0, if on == 0 { 0 } else { 9 }));
        }
    }
}
