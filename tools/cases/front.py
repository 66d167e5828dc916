"""The front panel and the converter: scans, presses, conversions, whole ramps of force. Words of its own (`force`, `light`, `encs`, `sweep`) are for board.py to leave out or spell out."""

RATES = [1_000_000, 1_000_001, 23_999_999, 48_000_000, 239_999_999, 240_000_000, 799_999_999, 800_000_000]
# rows PA7 and PA8: (direction, pull-up, HD0, HD, level) for 312, 132, 51 and 35 ohms, pulled up, low, floating
ROW = 0x180
DRIVES = {
    312: (0, 0, 0, 0, ROW), 132: (0, 0, ROW, 0, ROW), 51: (0, 0, 0, ROW, ROW), 35: (0, 0, ROW, ROW, ROW), 10000: (ROW, ROW, 0, 0, 0),
    "low": (0, ROW, 0, 0, 0), "floating": (ROW, 0, ROW, 0, ROW),
}
# the keys of the two rows that can be converted, column by column
ROW3 = [23, 24, 25, 26, 27, 28, 29, 30, 31, 32, 33]
ROW4 = [0, 1, 15, 14, 17, 16, 19, 18, 20, 21, 22]
PRESS, RELEASE, PRESSURE = (lambda hz: 3 * hz // 2000), (lambda hz: hz // 125), (lambda hz: hz // 50)


def drive(kind):
    direction, pulled, hd0, hd, level = DRIVES[kind]
    return [f"write 50008 {direction:x}", f"write 50010 {pulled:x}", f"write 50018 {hd0:x}", f"write 5001c {hd:x}", f"write 50000 {level:x}"]


def latched(word, level=0):
    """A word of the 74HC595s by SPI2's bytes and RCLK."""
    return [f"srbyte {word >> 8:x}", f"srbyte {word & 0xff:x}", f"write 50000 {level:x}", f"write 50000 {level | 2:x}"]


def banged(word, level=0):
    """The same bit by bit, SER and SRCLK on PA4 and PA3."""
    for bit in range(15, -1, -1):
        ser = 16 if word >> bit & 1 else 0
        yield f"write 50000 {level | ser:x}"
        yield f"write 50000 {level | ser | 8:x}"
    yield f"write 50000 {level:x}"
    yield f"write 50000 {level | 2:x}"


def columns(rng):
    """Mostly one column selected, at times none, several or all."""
    one = 0xFFFF ^ 1 << rng.randrange(11)
    return rng.choice([one, one, one, one & rng.getrandbits(16), 0, 0xF800, 0xFFFF, rng.getrandbits(16)])


def scan(rng, word=None):
    word = columns(rng) if word is None else word
    level = rng.choice([0, 0, ROW, 0x200, 0x400, 0x600, rng.getrandbits(32) & ~0x1A])
    yield from rng.choice([latched, banged])(word, level)
    if rng.random() < 0.7:
        yield from ("read 50004", "read 50044")


def time(rng, rate):
    return rng.choice([0, 1, 2, rng.getrandbits(10), rng.getrandbits(16), rate // 500, rate // 500 - 1, rng.randrange(PRESS(rate) + 2), rng.randrange(RELEASE(rate) + 2), rng.randrange(PRESSURE(rate) + 2)])


def port(rng):
    return rng.choice([0, 8, 2, 10, 18, 26, 0x200, 0x400, 0x600, 0x40, 0x240, ROW, 0xFFFFFFFF, rng.getrandbits(32)])


def con(rng):
    channel = rng.choice([0, 0, 0, 1, 1, 1, 2, 3, 4, 15, rng.randrange(16)])
    return channel << 8 | rng.choice([0x50, 0x50, 0x50, 0x70, 0x70, 0x40, 0x60, 0x10, 0x20, 0xD0, 0xFFFFF0FF, rng.getrandbits(8)])


def pressed(rng, rate):
    """A key pressed, leaned on or let go, its column selected, and conversions along the way."""
    row, channel = rng.choice([(ROW3, 0), (ROW4, 1)])
    column = rng.randrange(11)
    key = row[column]
    begun = [f"vel {rng.randrange(1, 128)}", f"key {key} 1"], [f"key {key} 0"], [f"pressure {key} {rng.randrange(1, 128)}"]
    level = rng.choice([0, ROW])
    yield from latched(rng.choice([0xFFFF ^ 1 << column, 0xFFFF ^ 1 << column, 0, columns(rng)]), level)
    yield from drive(rng.choice([*DRIVES]))
    for lines in rng.choices(begun, k=rng.choice([1, 2, 3])):
        yield from lines
        for _ in range(rng.choice([1, 2, 5])):
            yield f"step {rng.choice([0, 1, rng.randrange(PRESS(rate)), rng.randrange(RELEASE(rate)), rng.randrange(PRESSURE(rate))])}"
            yield from (f"write 13100 {channel << 8 | rng.choice([0x50, 0x70]):x}", "read 13104", f"force {key}")


def change(rng, rate):
    kind = rng.random()
    key = rng.choice([*ROW3, *ROW4, *range(41), rng.randrange(256)])
    if kind < 0.2:
        return [f"vel {rng.choice([0, 1, 127, 128, 255, rng.randrange(1, 128)])}", f"key {key} 1"] if rng.random() < 0.7 else [f"key {key} {rng.randrange(2)}"]
    if kind < 0.3:
        return [f"key {key} 0"]
    if kind < 0.36:
        return [f"pressure {key} {rng.choice([0, 1, 127, 128, 255, rng.randrange(128)])}"]
    if kind < 0.44:
        clicks = rng.choice([0, 1, -1, 2, -3, 1 << 29, -(1 << 29), 1 << 30, 0x7FFFFFFF, -0x80000000, rng.randint(-0x80000000, 0x7FFFFFFF)])
        return [f"enc {rng.choice([*range(7), 7, 8, 255])} {clicks}"]
    if kind < 0.5:
        return [f"adc {rng.choice([*range(16), 16, 255])} {rng.choice([0, 1023, 1024, 65535, rng.randrange(1024)])}"]
    if kind < 0.6:
        return [f"write {rng.choice([0x501C0, 0x501C0, 0x50000]):x} {port(rng):x}"]
    if kind < 0.66:
        return [f"write {rng.choice([0x50008, 0x50010, 0x50018, 0x5001C]):x} {rng.choice([0, ROW, 0x80, 0x100, 0xFFFFFFFF, rng.getrandbits(32)]):x}"]
    if kind < 0.74:
        return drive(rng.choice([*DRIVES]))
    return [f"step {time(rng, rate)}"]


def ask(rng):
    kind = rng.random()
    if kind < 0.5:
        return [f"write 13100 {con(rng):x}", "read 13104", "read 13100"]
    if kind < 0.6:
        return [f"force {rng.randrange(41)}"]
    if kind < 0.7:
        return ["read 50004", "read 50044"]
    if kind < 0.76:
        return ["led"]
    if kind < 0.8:
        return ["light"]
    if kind < 0.88:
        return ["state"]
    if kind < 0.95:
        return ["encs"]
    return ["read 13104"] if rng.random() < 0.7 else ["reset", "state", "light"]


def swept(kind, channel, hz, step, before, after):
    """Conversions through a whole ramp that `before` begins, of so many cycles."""
    yield before
    count = after // step + 2
    while count > 0:
        yield f"sweep {min(count, 2000)} {step} {channel << 8 | 0x50:x}"
        count -= 2000


def ramps(rng, hz, kind, vel, steps):
    """A press at a velocity, a pressure to another, a release; each ramp whole."""
    channel = rng.randrange(2)
    key = rng.choice([ROW3[1:], ROW4[2:]][channel])
    column = [ROW3, ROW4][channel].index(key)
    yield f"new {hz}"
    yield f"step {rng.getrandbits(rng.choice([8, 30, 52]))}"
    yield from latched(0xFFFF ^ 1 << column)
    yield from drive(kind)
    yield f"vel {vel}"
    yield from swept(kind, channel, hz, steps[0], f"key {key} 1", PRESS(hz))
    yield from swept(kind, channel, hz, steps[1], f"pressure {key} {rng.randrange(1, 128)}", PRESSURE(hz))
    yield from swept(kind, channel, hz, steps[2], f"key {key} 0", RELEASE(hz))


def buttons(rng, hz, kind, step):
    """The buttons of row 4, which land at force 1."""
    yield f"new {hz}"
    yield from latched(0xFFFE)
    yield from drive(kind)
    yield from swept(kind, 1, hz, step, "key 0 1", PRESS(hz))
    yield from swept(kind, 1, hz, step, "key 0 0", RELEASE(hz))


def dense(rng):
    """Every resistance, every velocity, whole ramps: at 240 MHz in steps of some hundred cycles; at other rates in about as many steps."""
    for kind in (35, 51, 132, 312, 10000):
        for vel in range(1, 128):
            yield from ramps(rng, 240_000_000, kind, vel, (rng.randint(150, 400), rng.randint(250, 500), rng.randint(250, 500)))
        yield from buttons(rng, 240_000_000, kind, 97)
        for hz in RATES:
            for vel in (1, 127, *rng.choices(range(2, 127), k=4)):
                yield from ramps(rng, hz, kind, vel, tuple(max(1, ramp(hz) // rng.randint(900, 1500)) for ramp in (PRESS, PRESSURE, RELEASE)))
