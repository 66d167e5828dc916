//! `driver`: document 01's records on a new 240 MHz board, a line each. Written for speed, since it is counted: records are decoded where they stand in the input, lines are put where they go out from.
use crate::board::{moved, value, Board};
use crate::records::{self, Record};
use crate::text::{Line, Put, LINE};

pub struct Run<'a> {
    pub board: Board,
    bytes: &'a [u8],
    at: usize,
}

impl<'a> Run<'a> {
    pub fn new(bytes: &'a [u8]) -> Self {
        Run { board: Board::new(240_000_000).unwrap(), bytes, at: 0 }
    }

    /// The next record is carried out and its line put into `text`: how long it is. None behind the last; nothing comes after a broken one.
    pub fn next(&mut self, text: &mut [u8; LINE]) -> Option<usize> {
        let mut line = Line::new(text);
        match records::at(self.bytes, self.at)? {
            Some((record, long)) => {
                self.at += long;
                told(&mut self.board, record, &mut line);
            }
            None => {
                line.put(b"X ").number(self.at as u64);
                self.at = self.bytes.len();
            }
        }
        line.put(b"\n");
        Some(line.long)
    }

    /// Whether the next record's answer may differ by one from the port's.
    pub fn near(&self) -> bool {
        matches!(records::at(self.bytes, self.at), Some(Some((Record::Read(addr), _))) if self.board.near(addr))
    }
}

fn told(b: &mut Board, record: Record, line: &mut Line) {
    match record {
        Record::Push(time, action) => {
            let pushed = b.push(time, action);
            line.put(b"S ").number(pushed.err().unwrap_or(0).into());
        }
        Record::Read(addr) => match b.read(addr) {
            Ok(v) => value(line.put(b"R ").hex(addr).put(b" "), v),
            Err(number) => refused(line, number),
        },
        Record::Write(addr, v) => {
            let taken = b.write(addr, v);
            line.put(b"W ").hex(addr).put(b" ").hex(v).put(b" ").flag(taken);
        }
        Record::Step(n) => match b.step(n) {
            Ok(due) => {
                moved(line.put(b"A ").number(b.p.cycles).put(b" "), &due);
                line.put(b" ").number(due.actions.len() as u64);
            }
            Err(number) => refused(line, number),
        },
    }
}

fn refused(line: &mut Line, number: u8) {
    line.put(b"E ").number(number.into());
}
