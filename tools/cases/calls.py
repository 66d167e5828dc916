"""Lines for crates/calls (the board's are in board.py): the port over good, damaged and random transfers, resets, events and looks at all registers; a few names."""

CON, DAT = 0x13E08, 0x13E0C
REGISTERS = [0x80, 0x80, 0x80, 0xA0, 0xA0, 0x12, 0x17, 0x00, 0x3FF, 0x180, 0x280]
LOOKS = ["p33 snap", "p33 sum", "p33 same", "p33 event", "p33 event"]


def write(addr, value):
    return f"p33 write {addr:x} {value:x}"


def sent(byte, con):
    return [write(DAT, byte), write(CON, con)]


def access(cmd, addr, data, rtc=False, con=0x11):
    """Deselected, then three transfers: the command, the address's low byte, the data."""
    con |= rtc << 8
    return [write(CON, 0), *sent(cmd | addr >> 8, con), *sent(addr & 0xFF, con), *sent(data, con)]


def random_access(rng):
    cmd = rng.choice([0, 0, 0x20, 0x40, 0x60, 0x80, rng.randrange(256) & 0xFC])
    addr = rng.choice([rng.choice(REGISTERS), rng.randrange(0x400)])
    data = rng.choice([0x5F, 0x11, 0x50, 0x10, 0, 0xFF, rng.randrange(256)])
    return access(cmd, addr, data, rng.random() < 0.3)


def any_write(rng):
    addr = rng.choice([CON, CON, CON, DAT, DAT, CON + 1, DAT + 3, 0, 0xFFFFFFFF, rng.getrandbits(32)])
    return write(addr, rng.choice([0, 1, 0x10, 0x11, 0x111, 0x113, rng.getrandbits(9), rng.getrandbits(32)]))


def damaged(rng, lines):
    """One line lost, doubled, changed or moved."""
    s, at = list(lines), rng.randrange(len(lines))
    kind = rng.randrange(4)
    if kind == 0:
        del s[at]
    elif kind == 1:
        s.insert(at, s[at])
    elif kind == 2:
        s[at] = any_write(rng)
    else:
        s.append(s.pop(at))
    return s


def looks(rng):
    addr = rng.choice([rng.choice(REGISTERS), rng.randrange(0x400), rng.randrange(0x10000)])
    yield rng.choice([f"p33 reg {addr} {rng.randrange(2)}", f"p33 read {rng.choice([CON, DAT, DAT + 1, rng.getrandbits(32)]):x}", *LOOKS])


def change(rng):
    kind = rng.random()
    if kind < 0.5:
        yield from random_access(rng)
    elif kind < 0.75:
        yield from damaged(rng, random_access(rng))
    elif kind < 0.9:
        for _ in range(rng.randrange(1, 6)):
            yield any_write(rng)
    elif kind < 0.94:
        yield f"p33 reset {rng.choice([4, 0x40, rng.randrange(256)])}"
    elif kind < 0.97:
        yield "p33 keep"
    elif kind < 0.98:
        yield "p33 new"
    else:
        # more transfers than an access has
        for _ in range(rng.choice([1, 5, 300])):
            yield write(CON, 0x11)
    yield from looks(rng)
    yield from looks(rng)


NOT_CALLS = [
    "p33", "p33 new 1", "p33 write 13e08", "p33 write 13e08 1 1", "p33 write 123456789 0", "p33 write g 0", "p33 reset 256", "p33 reset -1", "p33 read",
    "p33 reg 65536 0", "p33 reg 0 2", "p33 reg 128", "p33 ms 256", "p33 ms", "p33 event 0", "P33 new", "p34 new", "keyid", "keyid 4", "keyid 46 33", "step",
]


def lines(rng, count):
    made = 0
    while made < count:
        part = list(change(rng))
        if rng.random() < 0.02:
            part.append(rng.choice(NOT_CALLS))
        if rng.random() < 0.02:
            part.append(f"p33 ms {rng.randrange(256)}")
        yield from part
        made += len(part)
    yield from ("p33 snap", "p33 sum")


def vectors():
    yield "# Document 01's vectors: the bits that act read 0, and the watchdog's periods."
    yield from [*access(0, 0x80, 0x5F), "p33 reg 128 0", *access(0x80, 0x80, 0), "p33 read 13e0c", "p33 event"]
    yield from [*access(0, 0xA0, 0x11), "p33 reg 160 0", *access(0x80, 0xA0, 0), "p33 read 13e0c", "p33 event"]
    yield from ("p33 ms 9", "p33 ms 10", "p33 ms 15")
    yield "# The RTC domain's register 0x80 is no watchdog."
    yield from [*access(0, 0x80, 0x5F, rtc=True), "p33 reg 128 1", "p33 reg 128 0", "p33 event"]
    yield "# A second event replaces one that was not taken."
    yield from [*access(0, 0x80, 0x10), *access(0, 0xA0, 0x10), "p33 event", "p33 event"]
    yield "# A reset: the cause, the watchdog stopped, the port idle."
    yield from ("p33 reset 4", "p33 reg 18 0", "p33 reg 128 0", "p33 snap")


def traps():
    """docs/ports.md shows these two as runs."""
    yield "# A feed of a running watchdog leaves an event and an equal snap; sameness sees no event either, yet."
    yield from ["p33 new", *access(0, 0x80, 0x13), "p33 event", "p33 snap", "p33 keep", *access(0, 0x80, 0x53), "p33 snap", "p33 same", "p33 event"]
    yield "# Two ports with equal snaps that are not the same: one register was written, with another value."
    for value in (1, 2):
        yield from ["p33 new", *access(0, 0x20, value), "p33 reset 64", "p33 snap", "p33 same", "p33 keep"]


def stored(rng, count):
    yield from vectors()
    yield from traps()
    yield "# What is no call."
    yield from NOT_CALLS
    yield "  p33   reg  128   0  "
    yield "p33 sum" + " " * 4090
    yield "# Names."
    for name in ("F3", "G5", "G#5", "BB4", "B4", "K+5", "K41", "select", "k4", "ENC6", "ENC7"):
        yield from (f"keyid {name.encode().hex()}", f"encid {name.encode().hex()}")
    yield from ("keyid -", "keyid 4631303733373431383237")
    yield "# Transfers at random, good and damaged."
    yield from lines(rng, min(count, 2500))
