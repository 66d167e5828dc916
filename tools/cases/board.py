#!/usr/bin/env python3
"""board.py SEED [KIND ..]: lines of `calls` for the board, a run of scenes on one board.

A scene sets something up and follows it through its deadlines; its kinds are the names of SCENES. Without a kind the seed draws them: most runs
mix many scenes, so that every block is under way while another is driven, with resets, other rates and the far end of the clock in between."""
import os
import random
import sys

sys.path.insert(0, os.path.dirname(os.path.abspath(__file__)))
sys.dont_write_bytecode = True
import front
from registers import BANKS, FLAGS, LATCH, NUMBERS, RATES, any_address, bank_word, value_for, wide

END, NEVER = 1 << 53, (1 << 64) - 1
DIV = [1, 4, 16, 64, 2, 8, 32, 128, 256, 1024, 4096, 16384, 512, 2048, 8192, 32768]
CORES = [0, 1, 7, 2, 0xFFFFFFFF]


class Run:
    """The board as the generator knows it: its rate and about where its clock is (idle and count reads move it, too)."""

    def __init__(self, rng, rate=None, blocking=True):
        self.rng, self.blocking = rng, blocking
        self.rate = rate or rng.choice([240_000_000, 240_000_000, rng.choice(RATES), rng.randint(1_000_000, 800_000_000)])
        self.clock = 0

    def step(self, n):
        n = max(0, n)
        if self.clock + n <= END:
            self.clock += n
        return f"step {n}"

    def around(self, n):
        """Steps to about n cycles on: at once, or short of it, at it and behind it; at times by ticks, which serve nothing."""
        kind = self.rng.random()
        if kind < 0.3:
            return [self.step(n + self.rng.choice([-1, 0, 0, 1, n, 5 * n]))]
        if kind < 0.4:
            counts = [f"read {addr:x}" for addr in (0x10904, 0x10404, 0x1EEF0F0, 0x12E00)]
            self.clock += 2
            return [self.step(n - 1), "tick", *counts, "tick", *counts, self.step(0)]
        return [self.step(n - 1), self.step(1), self.step(self.rng.choice([0, 1]))]

    def some(self):
        """A step of any length that fits the blocks' times."""
        rng = self.rng
        return self.step(rng.choice([0, 1, 2, 63, 64, wide(rng, 12), wide(rng, 18), wide(rng, 24), self.rate // 3125, self.rate // 500, self.rate // 100, rng.randrange(self.rate // 50)]))

    def look(self):
        rng = self.rng
        kind = rng.random()
        if kind < 0.3:
            return [f"read {any_address(rng):x}"]
        if kind < 0.55:
            return ["irq 0", "irq 1"]
        if kind < 0.6:
            return [f"enabled {rng.choice(CORES)} {rng.choice([*NUMBERS, 0, 255])}", "irq 7"]
        if kind < 0.7:
            return ["pending"]
        if kind < 0.8:
            return ["room", "nexttick"]
        return [rng.choice(["state", "state", "ms", "led", "tick"])]


def write(addr, v):
    return f"write {addr & 0xFFFFFFFF:x} {v & 0xFFFFFFFF:x}"


def some_action(rng):
    """Any action, ids and values past their ends too."""
    key = rng.choice([*front.ROW3, *front.ROW4, rng.randrange(41), 40, 41, 255])
    kind = rng.randrange(10)
    if kind < 3:
        return f"key {key} {rng.randrange(2)}"
    if kind < 5:
        return f"midi {rng.randrange(256)}"
    if kind < 6:
        return f"vel {rng.choice([0, 1, 127, 128, 255, rng.randrange(256)])}"
    if kind < 7:
        return f"pressure {key} {rng.choice([0, 1, 127, 255, rng.randrange(128)])}"
    if kind < 9:
        return f"enc {rng.choice([*range(8), 255])} {rng.choice([0, 1, -1, 2, -3, 1 << 29, 1 << 30, -(1 << 31), (1 << 31) - 1])}"
    return f"adc {rng.choice([*range(16), 16, 255])} {rng.choice([0, 1023, 1024, 65535, rng.randrange(1024)])}"


# ---- scenes: each is a list or a generator of lines


def registers(run, count=60):
    """Registers at random, read back, with time between."""
    rng = run.rng
    for _ in range(count):
        addr = any_address(rng)
        yield write(addr, value_for(rng, addr))
        yield f"read {rng.choice([addr, addr, any_address(rng)]):x}"
        if rng.random() < 0.4:
            yield run.some()
        if rng.random() < 0.2:
            yield from run.look()


def timers(run, count=25):
    """All four timers and TIMER5 at odd periods beside the tick, stopped, acknowledged and rearmed on the way."""
    rng, rate = run.rng, run.rate
    period = {}
    for i in rng.sample(range(4), 4):
        code, prd, cnt = rng.randrange(16), rng.choice([1, 3, 10, 7 * rng.randrange(1, 99), wide(rng, 20)]), rng.choice([0, 0, 2, wide(rng, 8)])
        regs = [write(0x10404 + 0x100 * i, cnt), write(0x10408 + 0x100 * i, prd), write(0x10400 + 0x100 * i, 1 | rng.choice([0, 2, 8]) | code << 4)]
        rng.shuffle(regs)
        yield from regs
        period[i] = prd * max(DIV[code] * rate // 24_000_000, 1)
    prd = rng.choice([0, 1, 600, wide(rng, 14)])
    yield from (write(0x10908, prd), write(0x10900, 1))
    period[5] = max(max(prd, 1) * rate // 6_000_000, 1)
    yield from (write(0x1EEF0F4, rng.choice([0, 1, rate // 100, 0xFFFFFFFF])), write(0x1EEF0EC, 1), write(0x10800, 1))
    period[3] = rate // 100
    for _ in range(count):
        which = rng.choice(list(period))
        yield from run.around(period[which] % (1 << 40))
        for i in rng.sample(range(4), 2):
            yield f"read {0x10400 + 0x100 * i + rng.choice([0, 4, 8]):x}"
        yield f"read {rng.choice([0x10900, 0x10904, 0x10804, 0x1EEF0EC, 0x1EEF0F0]):x}"
        if rng.random() < 0.5:
            i = rng.randrange(4)
            yield rng.choice([write(0x10900, 0x4001), write(0x1EEF0EC, 0x41), write(0x1EEF0F0, 5), write(0x10400 + 0x100 * i, 0x4001 | rng.randrange(16) << 4), write(0x10404 + 0x100 * i, wide(rng, 10)), write(0x10900, rng.choice([0, 1])), write(0x10804, 0)])
        if rng.random() < 0.3:
            yield from run.look()


def audio(run, count=25):
    """A block with a backlog: steps of many halves, then steps of nothing, one half each."""
    rng, rate = run.rng, run.rate
    length = rng.choice([0, 1, 2, 3, 5, 64, 128, 0xFFFF, 0x10002])
    half = max(max(length & 0xFFFF, 2) // 2 * 544 * rate // 24_000_000, 1)
    con1 = rng.choice([0, 0x1, 0x10, 0xF00, 0xF000, 0x1234, rng.getrandbits(16), 0xFFFFFFFF])
    yield from (write(0x12E1C, rng.choice([0x1000, 0xFFFFFFF8, wide(rng, 32)])), write(0x12E20, length), write(0x12E04, con1), write(0x12E00, 0x800 | rng.choice([0, 0x8010])))
    for _ in range(count):
        kind = rng.random()
        if kind < 0.35:
            yield from run.around(half)
        elif kind < 0.6:
            yield run.step(half * rng.randint(2, 6) + rng.choice([-1, 0, 1]))
            for _ in range(rng.randint(1, 7)):
                yield run.step(0)
        elif kind < 0.75:
            yield write(0x12E08, rng.choice([0, 1, 2, 4, 8, 15, 0xF0]))
        else:
            yield rng.choice([write(0x12E00, rng.choice([0, 0x800, 0x8800, 0xFFFF])), write(0x12E20, rng.choice([2, 8, 300])), write(0x12E04, rng.getrandbits(16)), write(0x12E1C, wide(rng, 32))])
        yield rng.choice(["read 12e00", "read 12e08", "read 12e1c", "read 12e20", "read 12e04", "irq 0", "pending", "state"])


def receiver(rng):
    """UART1 with a ring of some length, at times none."""
    start = rng.choice([0x1000, 0x1000, 0, 0xFFFFFFF8, wide(rng, 32)])
    long = rng.choice([1, 2, 3, 16, 100, 0x10000, 0x10000, 0x10001, 0, 0xFFFFFFFF])
    regs = [write(0x1211C, start), write(0x12120, start + long), write(0x12124, rng.choice([0, 1, 2, 5, 0x10003])), write(0x12110, rng.choice([0, 1, 20_000, 48_000, wide(rng, 24)]))]
    return [*regs, write(0x12100, rng.choice([0x41, 0x6D, 0x6D, 0x69, 0x49, 0x61, 1, 0x40]))]


def midi(run, count=30):
    """Bytes in bursts and one by one, the latch of the count, timeouts, acknowledges; the ring and the receiver changed under way."""
    rng, rate = run.rng, run.rate
    byte = rate * 10 // 31_250
    yield from receiver(rng)
    for _ in range(count):
        kind = rng.random()
        if kind < 0.3:
            for _ in range(rng.choice([1, 1, 2, 3, 9])):
                yield f"apply midi {rng.randrange(256)}"
        elif kind < 0.7:
            yield from run.around(byte)
        elif kind < 0.8:
            yield run.step(byte * rng.randint(2, 4) + rng.choice([-1, 0, 1]))
        elif kind < 0.9:
            yield write(0x12100, 0x41 | rng.choice([0x80, 0x400, 0x1000, 0x2000, 0x3480, 0x2C, 0x4, 0x28]))
        elif kind < 0.93:
            yield from receiver(rng)
        elif kind < 0.96:
            # the end alone: the write place stays
            yield write(0x12120, 0x1000 + rng.choice([1, 2, 3, 7, 16]))
        else:
            yield write(0x12118, rng.randrange(256))
        yield rng.choice(["read 12100", "read 12128", "read 12124", "irq 0", "state", "pending"])


def full_queue(run):
    """More bytes than a second's worth at once: the next is dropped until one has left."""
    rng = run.rng
    yield from receiver(rng)
    for k in range(3125 + rng.choice([0, 1, 7])):
        yield f"apply midi {k & 0xFF}"
    yield "state"
    byte = run.rate * 10 // 31_250
    for _ in range(12):
        yield from (run.step(rng.choice([byte, byte, byte - 1, 1, 0])), f"apply midi {rng.randrange(256)}", "state")
    if rng.random() < 0.5:
        yield from ("reset", "state", *receiver(rng), run.step(byte), run.step(byte), "state")


def as_calls(run, lines):
    """Front panel lines as calls: its own words for what it looks at inside are left out."""
    for line in lines:
        words = line.split(" ")
        if words[0] in ("key", "vel", "pressure", "enc", "adc"):
            yield f"apply {line}"
        elif words[0] == "srbyte":
            yield f"srbyte {int(words[1], 16)}"
        elif words[0] == "step":
            yield run.step(int(words[1]))
        elif words[0] == "sweep":
            count, far, con = int(words[1]), int(words[2]), words[3]
            for _ in range(count):
                yield from (f"write 13100 {con}", "read 13104", run.step(far))
        elif words[0] in ("new", "read", "write", "led", "state"):
            yield line


def pressure(run, count=6):
    """Presses, pressure and releases, converted on the way through their ramps, by rows driven in every way."""
    for _ in range(count):
        yield from as_calls(run, front.pressed(run.rng, run.rate))


def dense(seed):
    """Whole ramps of force, at every resistance and velocity, converted every few hundred cycles: an input for each ramp's board."""
    rng = random.Random(f"dense {seed}")
    made = []
    for line in as_calls(Run(rng), front.dense(rng)):
        if line.startswith("new ") and made:
            yield made
            made = []
        made.append(line)
    yield made


def panel(run, count=30):
    """The matrix scanned, keys and encoders under way, the lines of the LEDs, conversions of every channel."""
    rng = run.rng
    for _ in range(count):
        kind = rng.random()
        if kind < 0.4:
            yield from as_calls(run, front.scan(rng))
        elif kind < 0.75:
            yield from as_calls(run, front.change(rng, run.rate))
        else:
            yield from as_calls(run, front.ask(rng))


def lights(run, count=12):
    """A display's scan, its light taken now and then."""
    rng = run.rng
    for _ in range(count):
        yield from as_calls(run, front.latched(0xFFFF ^ 1 << rng.randrange(11) if rng.random() < 0.9 else front.columns(rng)))
        yield from (write(0x50000, rng.choice([0, 0x200, 0x400, 0x600])), write(0x501C0, rng.choice([0, 0x40, 0x200, 0x240])))
        for _ in range(rng.choice([0, 1, 3])):
            yield from (run.step(rng.choice([0, 1, 1000, wide(rng, 20)])), write(0x50000, rng.choice([0x200, 0x600, 0x608])))
        if rng.random() < 0.25:
            yield rng.choice(["led", "led", "reset", "state"])
    yield "led"


def encoders(run, count=15):
    """Turns of several encoders at once, read through the matrix at each quarter."""
    rng = run.rng
    quarter = run.rate // 500
    for _ in range(count):
        for _ in range(rng.choice([0, 1, 1, 3])):
            turn = f"enc {rng.randrange(7)} {rng.choice([1, -1, 2, -2, 5, 0, rng.choice([1 << 29, 1 << 30, -(1 << 31)])])}"
            yield rng.choice([f"apply {turn}", f"push {run.clock + rng.choice([0, 1, quarter])} {turn}"])
        yield from as_calls(run, front.latched(rng.choice([0xFFFF ^ 1 << rng.randrange(11), 0, 0xFC00])))
        yield from run.around(quarter)
        yield from ("read 50004", "read 50044")


def script(run, count=40):
    """Pushed actions at times in no order; the front alone is looked at."""
    rng = run.rng
    for _ in range(count):
        for _ in range(rng.choice([1, 1, 2, 6])):
            time = run.clock + rng.choice([0, 0, 1, 100, rng.randrange(run.rate // 50), run.rate // 500])
            if rng.random() < 0.15:
                time = rng.choice([0, run.clock // 2, max(0, run.clock - 1)])
            if run.blocking and rng.random() < 0.001:
                time = rng.choice([NEVER, END, END + 1, 1 << 63, run.clock + run.rate])
            yield f"push {time} {some_action(rng)}"
        if rng.random() < 0.6:
            yield run.step(rng.choice([0, 1, 99, 100, 101, rng.randrange(run.rate // 50)]))
        if rng.random() < 0.3:
            yield rng.choice(["room", "nexttick", "tick", "state", "read 50004"])


def full_script(run):
    """256 entries wait; the next push is refused, until a step takes some."""
    rng = run.rng
    late = rng.choice([1, 100, run.rate // 100])
    due = rng.randrange(1, 256)
    for k in range(rng.choice([255, 256, 258, 300])):
        yield f"push {run.clock + late if k < due else run.clock + 2 * late} {some_action(rng)}"
    for _ in range(3):
        yield from ("state", f"push {rng.choice([0, run.clock, NEVER if run.blocking else 0])} {some_action(rng)}", "state")
        yield run.step(late)
        for _ in range(rng.choice([0, 1, 40])):
            yield f"push {run.clock} {some_action(rng)}"
    # no far entry is to stay at the front
    yield from (run.step(late), "state")


def raised(run, source):
    """Lines that raise the source, as firmware and time would."""
    rng = run.rng
    if source == "exc":
        return ["set exc 1"]
    if source == "t5":
        return [write(0x10908, 6), write(0x10900, 0), write(0x10900, 1), run.step(run.rate // 1_000_000 + 1)]
    if source == "tick":
        return [write(0x1EEF0EC, 0), write(0x1EEF0EC, 1), run.step(run.rate // 100)]
    if source == "spi1":
        return [f"spi1 {rng.choice([0, 1, 20])} {rng.randrange(9)} 1", run.step(run.rate // 1000)]
    if source == "adc":
        return [write(0x13100, 0x70 | rng.randrange(16) << 8)]
    if source == "spi2":
        return rng.choice([["set spi2 1"], [f"spi2 {rng.choice([0, 1])} {rng.randrange(9)} 1", run.step(run.rate // 1000)]])
    if source == "uart":
        return [write(0x12100, 0x45), write(0x12118, 1)]
    if source.startswith("tmr"):
        at = 0x10400 + 0x100 * int(source[3])
        return [write(at + 8, 1), write(at, 1 | rng.choice([0, 2])), run.step(run.rate // 24_000_000 + 1)]
    if source == "audio":
        return [write(0x12E20, 2), write(0x12E00, 0), write(0x12E00, 0x800), run.step(544 * run.rate // 24_000_000 + 1)]
    if source == "high":
        # bits that no core is asked for, but that count as pending
        return [write(LATCH[0], 1 << rng.randrange(8, 32))]
    return [write(LATCH[0], rng.choice([1 << rng.randrange(8), 1 << rng.randrange(8), 1 << rng.randrange(32), rng.getrandbits(8)]))]


def lowered(run, source):
    """What acknowledges it."""
    rng = run.rng
    return {
        "exc": ["set exc 0"], "t5": [write(0x10900, 0x4000)], "tick": [write(0x1EEF0EC, 0x40)], "spi1": ["spi1off"], "adc": [write(0x13100, rng.choice([0x40, 0x50]))],
        "spi2": ["set spi2 0"], "uart": [write(0x12100, 0x2045)], "audio": [write(0x12E08, 15), write(0x12E00, 0)],
    }.get(source) or ([write(0x10400 + 0x100 * int(source[3]), 0x4000)] if source.startswith("tmr") else [write(LATCH[1], 0xFFFFFFFF if rng.random() < 0.6 else rng.getrandbits(32))])


def banks(rng):
    """Both banks, few priorities, so that many are equal."""
    for base in BANKS:
        prios = rng.choice([[rng.randrange(8)], [0, 7], range(8), rng.choices(range(8), k=2)])
        for index in sorted({n // 8 for n in NUMBERS}):
            yield write(base + 4 * index + rng.choice([0, 0, 1, 3]), bank_word(rng, prios))


def interrupts(run, count=25):
    """Sources raised and acknowledged, few at a time, over banks of many equal priorities."""
    rng = run.rng
    yield from banks(rng)
    for _ in range(count):
        source = rng.choice([*FLAGS, "audio", "latch", "latch"])
        yield from raised(run, source) if rng.random() < 0.55 else lowered(run, source)
        yield from ("irq 0", f"irq {rng.choice([1, 1, 7, 0xFFFFFFFF])}")
        if rng.random() < 0.2:
            yield from ("pending", f"enabled {rng.choice(CORES)} {rng.choice([*NUMBERS, 0, 2, 255])}")
        if rng.random() < 0.1:
            yield from banks(rng)


def polls(run, count=20):
    """TIMER4 polled close together, idle, an ISR around some reads; the next event near, far or none."""
    rng = run.rng
    if run.clock < 64:
        # only here has a reset's own last read, 0, been close
        for _ in range(2):
            yield from ("set skip_idle 1", write(0x10800, 1), *["read 10804"] * rng.choice([1, 2]), "reset")
    if rng.random() < 0.4:
        yield "reset"
    yield from ("set skip_idle 1", write(0x10800, 1))
    for _ in range(count):
        kind = rng.random()
        if kind < 0.45:
            for _ in range(rng.choice([2, 3, 3, 5, 9])):
                yield "read 10804"
                if rng.random() < 0.6:
                    yield run.step(rng.choice([0, 1, 20, 62, 63, 64, 65]))
        elif kind < 0.65:
            yield from ("idle", run.step(rng.choice([0, 1, 2])))
        elif kind < 0.72:
            yield f"set in_isr {rng.randrange(2)}"
        elif kind < 0.75:
            yield f"set skip_idle {rng.choice([0, 1, 1])}"
        elif kind < 0.8:
            yield rng.choice([write(0x10800, rng.randrange(2)), write(0x10804, 0)])
        elif kind < 0.9:
            # an event at a short distance
            yield rng.choice([f"wdt {run.clock + rng.choice([1, 2, 500, 100_000])}", f"apply midi {rng.randrange(256)}", f"push {run.clock + rng.choice([0, 3, 9999])} adc 0 5", f"usb {run.clock + rng.randrange(9999)} {rng.choice([1, 1000, 240_000])}"])
        else:
            source = rng.choice([*FLAGS, "latch", "high"])
            yield from rng.choice([raised, lowered])(run, source)
            yield from ("pending", "idle")
        if rng.random() < 0.3:
            yield rng.choice(["state", "pending", "room", "nexttick", "tick"])
    yield from ("set in_isr 0", f"set skip_idle {rng.randrange(2)}")


def host(run, count=25):
    """USB frames, the watchdog, the tick's room and the runner's settings."""
    rng = run.rng
    for _ in range(count):
        near = run.clock + rng.choice([0, 1, 2, 100, 240_000, run.rate])
        kind = rng.random()
        if kind < 0.2:
            at = rng.choice([near, near, 0, NEVER, 1 << 63, (1 << 63) + 1, NEVER - 1])
            yield f"usb {at} {rng.choice([1, 100, 240_000, 240_000, run.rate // 1000, END, END + 1, 0, NEVER])}"
        elif kind < 0.35:
            yield f"wdt {rng.choice([near, near, near, 0, NEVER, 1 << 63, (1 << 63) + 1])}"
        elif kind < 0.45:
            yield f"set {rng.choice(['room_cap', 'room_cap', 'cycle_ticks'])} {rng.choice([0, 1, 8, 1000, 1 << 30, NEVER])}"
        elif kind < 0.7:
            yield run.step(rng.choice([0, 1, 1, 100, 240_000, 240_001, 500_000, run.rate // 1000, run.rate]))
        else:
            yield rng.choice(["room", "tick", "nexttick", "tick", "ms", "state"])


def spi(run, count=25):
    """Transfers at the ends of their numbers, one over another, switched off under way."""
    rng = run.rng
    for _ in range(count):
        size, baud = rng.choice([0, 1, 2, 65_535, 65_536, 65_537, wide(rng, 17), 0xFFFFFFFF]), rng.choice([0, 1, 4, 8, 16_382, 16_383, 16_384, wide(rng, 14)])
        yield rng.choice([f"spi1 {size} {baud} {rng.randrange(2)}", f"spi2 {size} {baud} {rng.randrange(2)}", f"spi1 {rng.randrange(20)} {rng.randrange(9)} 1", f"spi2 {rng.randrange(4)} {rng.randrange(9)} 1", "spi1off"])
        if rng.random() < 0.6:
            yield run.step(rng.choice([0, 1, wide(rng, 14), wide(rng, 30), run.rate // 1000]))
        yield rng.choice(["pending", "irq 0", "state", "set spi2 0", "room", f"cycles_of {rng.choice([0, 1, 1 << 34, (1 << 34) + 1, (1 << 34) - 1, wide(rng, 34), NEVER])}"])


def dues(run, count=40):
    """`next_due` as a step leaves it, then one call, which may set it to 0 or leave it."""
    rng = run.rng
    for _ in range(count):
        addr = rng.choice([any_address(rng), any_address(rng), 0x10808, 0x10904, 0x13100, 0x13104, 0x500C0, 0x50000 + rng.choice([0, 0x1FC, 0x1FF, 0x200]), rng.choice(LATCH)])
        written = [write(addr, value_for(rng, addr))] * 6
        host = [f"set {rng.choice(['cycle_ticks', 'skip_idle', 'in_isr', 'room_cap', 'exc', 'spi2'])} {rng.randrange(2)}", f"wdt {rng.choice([NEVER, run.clock + 5000])}", f"usb {NEVER} {rng.randrange(2)}"]
        sent = [f"spi1 1 1 {rng.randrange(2)}", f"spi2 1 1 {rng.randrange(2)}", "spi1 65537 1 1", "spi1off", "srbyte 85"]
        taken = [f"read {addr:x}", "led", "reset", "idle", "tick", f"apply {some_action(rng)}", f"push {run.clock + 10} {some_action(rng)}"]
        yield from (run.step(rng.choice([0, 1, 50])), rng.choice([*written, *host, *sent, *taken]), rng.choice(["state", "state", "room"]))


def far(run):
    """To the last cycles of the clock, where steps, ticks, idle and count reads are refused one by one."""
    rng = run.rng
    left = rng.choice([0, 1, 2, 40, 5000, 20_000, run.rate // 50, 3 * run.rate])
    if run.clock > END - left:
        return
    yield run.step(END - left - run.clock)
    yield from (f"step {left + 1}", f"step {NEVER}", "state")
    if rng.random() < 0.7:
        yield from ("set skip_idle 1", write(0x10800, 1))
        if rng.random() < 0.6:
            yield rng.choice([f"wdt {END + rng.choice([0, 1, 2, 1000])}", f"push {rng.choice([END, END + 1, END + 2, 1 << 63])} midi 1", "apply midi 7", f"usb {END + 1} 1"])
        for _ in range(rng.choice([4, 12])):
            yield rng.choice(["read 10804", "read 10804", "read 10804", "idle", "tick", "step 1", "step 0", "state", "room", "nexttick"])
    yield from registers(run, 10)
    for _ in range(8):
        yield rng.choice([f"step {left}", "tick", "step 0", "step 1", "idle", "read 10804", "ms", "led", "room", "nexttick", f"apply {some_action(rng)}"])
    yield "state"


NOT_CALLS = [
    "new", "new -1", "new 240000000 1", "set skip_idle 2", "set skip_idle", "set spi1 1", "set exc 01x", "set room_cap 18446744073709551616", "usb 0", "usb 1 2 3", "wdt", "wdt -1", "push", "push 1", "push 1 key 0",
    "push 1 key 0 2", "push 1 key 256 1", "push x key 0 1", "push 1 midi", "push 1 midi 256", "push 1 midi 1 1", "push 1 enc 0 2147483648", "push 1 enc 0 -2147483649", "push 1 enc 0 --1", "push 1 enc 0 +1", "push 1 enc 0 -",
    "push 1 adc 0 65536", "push 18446744073709551616 midi 1", "apply", "apply key 1", "apply vel 256", "apply pressure 1 256", "apply adc 256 1", "apply us 3000", "read", "read g", "read 123456789", "read 10804 1", "read -1", "read 0x10804",
    "write 10800", "write 10800 123456789", "write 10800 1 1", "step", "step -1", "step 18446744073709551616", "step 1 1", "step 0x10", "tick 1", "nexttick 0", "room 0", "ms 1", "cycles_of", "cycles_of 18446744073709551616", "idle 1",
    "spi1 1 1", "spi1 1 1 2", "spi1 4294967296 0 0", "spi2 1 1", "spi2 1 1 1 1", "spi1off 1", "srbyte", "srbyte 256", "reset 1", "pending 1", "irq", "irq 4294967296", "irq -1", "irq 0 0", "enabled 0", "enabled 0 256", "enabled 4294967296 1",
    "led 1", "state 1", "STATE", "Step 1", "steps 1", "p33", "\tstep 1", "step\t1", "step 1\r", "step 1\x00", "st\xe4te", "\xff", "read \xc3\xa4", "x" * 4097, "#" * 4097,
]
STRANGE_CALLS = [
    "  step   1  ", " state", "step 00000000000000000000000000001", "read 00010804", "READ 10804", "read 1eeF100", "write 1EEF1A0 a", "enabled 0 007", "apply enc 0 -0", "push 00 key 00 01", "set skip_idle 00", "new 0240000000", "new 999999", "new 800000001",
    "new 18446744073709551615", "", "   ", "# a remark", " # no remark", "step 1" + " " * 4090, "step 1" + " " * 4091, "irq 0007", "srbyte 255", "new 0",
]


def damaged(run, count=20):
    """Lines that are no calls, calls written strangely, and calls with a word or a byte changed: each in the middle of a run."""
    rng = run.rng
    sample = ["step 100", "read 10804", "write 10900 1", "push 5 key 20 1", "apply enc 0 -2", "spi1 1 2 1", "usb 5 5", "irq 0", "set exc 1", "cycles_of 5"]
    for _ in range(count):
        kind = rng.random()
        if kind < 0.4:
            yield rng.choice(NOT_CALLS)
        elif kind < 0.6:
            yield rng.choice(STRANGE_CALLS)
        else:
            words = rng.choice(sample).split(" ")
            at = rng.randrange(len(words))
            words[at : at + 1] = rng.choice([[], [words[at]] * 2, [words[at] + rng.choice("0x-+ g#")], [words[at][:-1]], [str(wide(rng, 66))], [rng.choice(["-1", "+1", "1e3", "0x1", "?", "="])]])
            yield " ".join(words)
    yield "state"


def under_way(run):
    """Something that a reset ends, and what shows it afterwards."""
    rng = run.rng
    choice = rng.randrange(6)
    if choice == 0:
        # the runner's flags
        return [f"set {rng.choice(['in_isr', 'exc', 'spi2', 'skip_idle'])} 1"], ["pending", "set skip_idle 1", write(0x10800, 1), *["read 10804"] * 4]
    if choice == 1:
        # a pressed row, whose pin's bits come back one by one
        column = rng.randrange(11)
        pins = [write(0x50008, 0x180), write(0x50010, 0x180), write(0x50018, 0x180), write(0x5001C, 0x180), write(0x50000, 0x180)]
        converted = [write(0x13100, 0x50), "read 13104", write(0x13100, 0x150), "read 13104"]
        press = [f"apply key {front.ROW3[column]} 1", f"apply key {front.ROW4[column]} 1", *as_calls(run, front.latched(0xFFFF ^ 1 << column)), run.step(run.rate // 100)]
        after = [line for pin in rng.sample(pins, 3) for line in (pin, *converted)]
        return [*press, *rng.sample(pins, 4), *converted], after
    if choice == 2:
        # light that is not credited yet
        lit = [write(0x50000, 0x600), run.step(1000), write(0x50000, 0x600), run.step(500)]
        return [*as_calls(run, front.latched(0xFFFF ^ 1 << rng.randrange(11))), *lit, write(0x50000, rng.choice([0, 0x600]))], ["led", run.step(9), "led"]
    if choice == 3:
        return [*receiver(rng), *[f"apply midi {k}" for k in range(3)], run.step(run.rate // 3125)], [run.step(run.rate // 3125), "read 12100", "state"]
    if choice == 4:
        return [*raised(run, rng.choice(FLAGS)), f"wdt {run.clock + 50}", f"usb {run.clock + 50} 1000", "spi1 9 4 1", "spi2 9 4 1"], [run.step(50), run.step(run.rate // 1000), "pending"]
    return [f"apply enc {rng.randrange(7)} 3", f"push {run.clock + 40} key 20 1", run.step(1)], [run.step(run.rate // 500), "read 50004", "read 50044"]


def resets(run):
    """A chip reset with much under way: what stays and what is gone."""
    rng = run.rng
    before, after = under_way(run)
    yield from before
    yield from ("state", "reset", "state", "irq 0", "irq 1", "pending", "room")
    for addr in rng.sample([0x10400, 0x10404, 0x10800, 0x10804, 0x10900, 0x10904, 0x12100, 0x1211C, 0x12E00, 0x12E08, 0x13100, 0x13104, 0x1EEF0EC, 0x1EEF0F0, 0x1EEF100, 0x1EEF1A0, 0x50004, 0x50044], 8):
        yield f"read {addr:x}"
    yield from after
    yield from (run.step(rng.choice([0, 1, run.rate // 3125, run.rate // 500])), "state", "led")


SCENES = {
    "registers": registers, "timers": timers, "audio": audio, "midi": midi, "full_queue": full_queue, "pressure": pressure, "panel": panel, "lights": lights, "encoders": encoders, "script": script,
    "full_script": full_script, "interrupts": interrupts, "polls": polls, "host": host, "spi": spi, "dues": dues, "far": far, "damaged": damaged, "resets": resets,
}
WEIGHTS = {"full_queue": 0.05, "full_script": 0.4, "far": 0.25, "damaged": 0.7, "resets": 2, "timers": 1.5, "pressure": 1.5}


def drawn(rng, without=()):
    """A run's scenes: one kind over and over, or many mixed."""
    kinds = [k for k in SCENES if k not in without]
    if rng.random() < 0.25:
        return [rng.choice([k for k in kinds if k != "full_queue"])] * 6
    return rng.choices(kinds, [WEIGHTS.get(k, 1) for k in kinds], k=rng.randint(6, 16))


def woven(rng, scenes):
    """The scenes in turn, or two at a time, line by line: blocks under way beside each other."""
    scenes = [iter(s) for s in scenes]
    while scenes:
        at = rng.randrange(min(2, len(scenes)))
        for _ in range(rng.choice([1, 3, 10, 40])):
            line = next(scenes[at], None)
            if line is None:
                del scenes[at]
                break
            yield line


def lines(seed, kinds=()):
    """A seed's input: one board from new, now and then another."""
    rng = random.Random(f"board {seed}")
    made = []
    for part in range(1 if kinds else rng.choice([1, 1, 2])):
        run = Run(rng)
        made.append(f"new {run.rate}" if rng.random() < 0.95 or part else "state")
        if made[-1] == "state":
            run.rate = 240_000_000
        if rng.random() < 0.3:
            made += [*banks(rng)]
        scenes = [SCENES[kind](run) for kind in (kinds or drawn(rng))]
        made += woven(rng, scenes) if rng.random() < 0.6 else [line for scene in scenes for line in scene]
        made += ["state", "led", "irq 0", "irq 1"]
    return made


def vectors():
    """01's worked example, then its table at 240 MHz as calls."""
    new = "new 240000000"
    yield from (new, "write 00010800 00000001", "step 100", "read 00010804")
    for long in (0x10000, 0x10001):
        yield "# Byte time 76,800; a ring of 0x10000 takes, of 0x10001 drops."
        yield from (new, write(0x1211C, 0x1000), write(0x12120, 0x1000 + long), write(0x12100, 0x41), "apply midi 144", "step 76799", "step 1", "state")
    yield "# Divider code 15 is 32,768: at 240 MHz 327,680 cycles a count."
    yield from (new, write(0x10408, 1), write(0x10400, 0xF1), "step 327679", "read 10400", "step 1", "read 10400")
    yield "# TIMER5's period for 0: 40."
    yield from (new, write(0x10900, 1), "step 39", "read 10900", "step 1", "read 10900")
    for length, half in ((0, 5_440), (65_535, 178_252_480)):
        yield f"# The audio half for length {length:,}: {half:,}."
        yield from (new, write(0x12E20, length), write(0x12E00, 0x800), f"step {half - 1}", "step 1")
    yield "# TIMER4 at 2^53 cycles: 858,993,459."
    yield from (new, write(0x10800, 1), f"step {END}", "read 10804", "step 0", "step 1", "tick")
    yield "# TIMER5 and the tick at equal priority: 63; the tick higher: 3."
    yield from (new, write(0x10900, 1), write(0x1EEF0EC, 1), "step 2400000", write(0x1EEF11C, 0x30000000), write(0x1EEF100, 0x3000), "irq 0", write(0x1EEF100, 0x5000), "irq 0", "irq 1")
    yield "# A button half-way through its press (force 0.5) and pressed (force 1: 806 before noise), against 35 ohms, at some noises."
    for far in (180_000, 360_000):
        yield from (new, "apply key 0 1", f"step {far}", *as_calls(Run(random.Random(0)), (*front.latched(0xFFFE), *front.drive(35))))
        yield from ["write 13100 150", "read 13104"] * 12
    yield "# A clear word reads 0."
    yield from (write(LATCH[0], 0xFF), "read 1eef1a4", "read 1eef1a0")


def stored():
    """01's vectors, every line that is no call, each kind of scene by itself, then mixed runs."""
    yield "# The board: document 01's vectors."
    yield from vectors()
    yield "# What is no call of the board's, and calls written strangely."
    yield from NOT_CALLS
    yield from STRANGE_CALLS
    for kind, scene in SCENES.items():
        yield "# " + scene.__doc__.split("\n")[0]
        yield from lines("stored", [kind])
    yield "# Scenes mixed."
    for seed in range(3):
        yield from lines(f"stored {seed}")


if __name__ == "__main__":
    sys.stdout.buffer.write(("\n".join(lines(int(sys.argv[1]), sys.argv[2:])) + "\n").encode("latin-1"))
