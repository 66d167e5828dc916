
// ---- appended by tools/dropin/build below the oracle's main file: the wrapper beside the original
mod port;

/// Answers each line by both. What differs is written. Counted apart: a reading of a pressed row, which may differ by one, and a name whose octave overflows the original's 32 bits
/// (docs/DIFFERENCES.md). Exit status 1 where any other answer differs, or a field of the record does not lie where the library has it.
fn main() {
    board::FOLLOWED.store(true, Relaxed);
    for fault in fm1::layout::faults() {
        println!("layout: {fault}");
    }
    let (mut on, mut ours) = (calls::On::new(), port::On::new());
    let (mut lines, mut near, mut listed, mut apart) = (0u64, 0u64, 0u64, 0u64);
    each_line(|line, words| {
        let Some(words) = words else { return };
        lines += 1;
        let pressed = on.near(words);
        let (theirs, mine) = match words {
            ["step", n] if number(n).is_some() => stepped(&mut on, &mut ours, number(n).unwrap()),
            _ => (original(&mut on, words).unwrap_or("?".into()), port::answer(&mut ours, words).unwrap_or("?".into())),
        };
        if mine == theirs {
            return;
        }
        if pressed && within_one(&mine, &theirs) {
            near += 1;
            return;
        }
        if mine == "none" && overflows(words) {
            listed += 1;
            return;
        }
        apart += 1;
        if apart <= 20 {
            println!("{} = {theirs}, here {mine}", String::from_utf8_lossy(line));
        }
    });
    println!("{lines} lines, {near} readings of a pressed row one apart, {listed} names with an octave past 32 bits, {apart} differences");
    if apart != 0 || !fm1::layout::faults().is_empty() {
        std::process::exit(1);
    }
}

/// The original's answer.
fn original(on: &mut calls::On, words: &[&str]) -> Option<String> {
    let mut out = Vec::new();
    calls::answer(on, words, &mut out)?;
    Some(String::from_utf8(out).unwrap())
}

/// A step by both, each action that it applied among the answer.
fn stepped(on: &mut calls::On, ours: &mut port::On, n: u64) -> (String, String) {
    let theirs = match on.board.step(n) {
        Err(why) => format!("E {why}"),
        Ok(due) => format!("{} {:?} {:?} {} {} {:?}", on.board.p.cycles, due.audio_half, due.uart_rx, due.usb_frame, due.wdt, due.actions),
    };
    let mine = match ours.board.advance(n) {
        Err(why) => format!("E {}", why.number()),
        Ok(due) => format!("{} {:?} {:?} {} {} {:?}", ours.board.cycles(), due.audio_half, due.uart_rx, due.usb_frame, due.wdt, due.actions),
    };
    (theirs, mine)
}

fn within_one(a: &str, b: &str) -> bool {
    let value = |s: &str| s.split(' ').next().and_then(|w| i64::from_str_radix(w, 16).ok());
    let rest = |s: &str| s.split(' ').skip(1).map(String::from).collect::<Vec<_>>();
    matches!((value(a), value(b)), (Some(x), Some(y)) if (x - y).abs() <= 1) && rest(a) == rest(b)
}

fn overflows(words: &[&str]) -> bool {
    let name = words.get(1).and_then(|w| bytes_of(w)).unwrap_or_default();
    let digits = name.rsplit(|b| !b.is_ascii_digit()).next().unwrap_or_default();
    let octave = digits.iter().skip_while(|&&b| b == b'0').count();
    words[0] == "keyid" && octave >= 9
}
