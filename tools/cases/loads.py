"""What tools/measure/bench counts: records for the driver, a kind of work each, and a mix of all; questions for `asks`."""
import random

import board
import driver
import front

RATE = 240_000_000


def of(lines):
    return b"".join(r for line in lines for r in driver.of_call(line))


def quiet(n):
    return of(["step 1"] * n)


def due(n):
    """TIMER5 comes due in every step."""
    return of(["write 10908 ea60", "write 10900 1", *["step 2400000"] * n])


def plain(n):
    return of(["read 50000"] * n)


def count(n):
    return of(["write 10800 1", *["read 10804"] * n])


def write(n):
    return of([f"write 10800 {k & 1:x}" for k in range(n)])


def pins(n):
    return of([f"write 50000 {k & 1:x}" for k in range(n)])


def banks(n):
    return of([f"write {0x1EEF100 + 4 * (k % 32):x} {k:x}" for k in range(n)])


def eleven(n):
    """Eleven keys half-way through their press, a conversion and its reading."""
    setup = [*front.drive(35), *front.banged(0, front.ROW), *(f"push 0 key {key} 1" for key in front.ROW3), "step 1", "step 180000"]
    return of([*setup, *["write 13100 50", "read 13104"] * (n // 2)])


def receiver():
    return ["write 1211c 1000", "write 12120 2000", "write 12100 41"]


def midi(n):
    """A byte pushed, and taken by the step of a byte time in which the one before it leaves."""
    return of([*receiver(), *(line for k in range(n // 2) for line in (f"push 0 midi {k & 255}", "step 76800"))])


def keys(n):
    """A key pressed or released, each in a step of its own."""
    return of([line for k in range(n // 2) for line in (f"push {k * 1000} key {k // 2 % 41} {1 - k % 2}", "step 1000")])


def actions(n):
    """An encoder, a stored value, a velocity, a held key's pressure in turn, each in a step of its own."""
    words = ("enc 1 1", "adc 3 500", "vel 90", "pressure 20 80")
    return of(["push 0 key 20 1", "step 1000", *(line for k in range(n // 2) for line in (f"push {k * 1000} {words[k % 4]}", "step 1000"))])


def chords(n):
    """A chord of nine bytes pushed and taken by one step, and nine steps of a byte time."""
    chord = [144, 60, 100, 144, 64, 100, 144, 67, 100]
    return of([*receiver(), *(line for _ in range(n // 19) for line in (*(f"push 0 midi {b}" for b in chord), "step 1", *["step 76800"] * 9))])


def good(record):
    words = driver.told(record).split(" ")
    return len(words) > 1 and not (words[2:3] == ["key"] and int(words[4]) > 1)


def mix(n):
    """The comparison's inputs one after another, without what is damaged and what takes the clock to its end, until there are enough records."""
    made, seed, clock = [], 0, 0
    while len(made) < n:
        seed += 1
        for record in filter(good, driver.records(seed)):
            words = driver.told(record).split(" ")
            far = int(words[1]) if words[0] in ("step", "push") else 0
            if words[0] == "step" and far > 1 << 32 or words[0] == "push" and far > clock + (1 << 32):
                continue
            clock += far if words[0] == "step" else 0
            made.append(record)
    return b"".join(made[:n])


# the row's words, how many records, and their maker
LOADS = [
    ("steps of one cycle, nothing due", 20_000, quiet),
    ("steps in which TIMER5 comes due", 20_000, due),
    ("reads of a port's word", 20_000, plain),
    ("reads of TIMER4's count", 20_000, count),
    ("writes of a timer's CON", 20_000, write),
    ("writes of port A", 20_000, pins),
    ("writes of an interrupt bank", 20_000, banks),
    ("conversions with eleven keys pressed, and their readings", 20_000, eleven),
    ("10,000 MIDI bytes, each pushed and taken by a step of a byte time", 20_000, midi),
    ("chords of nine bytes, pushed, taken by one step, and handed out", 19_000, chords),
    ("keys pressed and released, each pushed and taken by a step", 20_000, keys),
    ("the other four actions, each pushed and taken by a step", 20_000, actions),
    ("all scenes of the comparison mixed", 100_000, mix),
]


def asked(line):
    """Questions of one kind, from numbers that are drawn."""
    return lambda n: "".join(line(random.Random(k)) + "\n" for k in range(n)).encode()


# 24 MHz times a clock of 2^39 cycles is below 2^64; one of 2^40 is not
ASKS = [
    ("`t4`, the product within one word", 20_000, asked(lambda rng: f"t4 {rng.randrange(1 << 39)} {RATE}")),
    ("`t4`, past it (from 53 minutes on at 240 MHz; the original: u128)", 20_000, asked(lambda rng: f"t4 {rng.randrange(1 << 40, 1 << 53)} {RATE}")),
    ("`muldiv` by a divisor above 2^40 (a bit a turn; the original: u128)", 20_000, asked(lambda rng: f"muldiv {rng.getrandbits(63)} {rng.getrandbits(63)} {rng.randrange(1 << 40, 1 << 63)}")),
]
