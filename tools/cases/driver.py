#!/usr/bin/env python3
"""driver.py SEED: records for the driver, as bytes: the board's scenes (board.py) as records; most end well, some are damaged, cut off or empty."""
import os
import random
import sys

sys.path.insert(0, os.path.dirname(os.path.abspath(__file__)))
sys.dont_write_bytecode = True
import board

RATE = 240_000_000
# an action's kind and the sizes of its fields
ACTIONS = {"key": (1, 1, 1), "enc": (2, 1, 4), "adc": (3, 1, 2), "midi": (4, 1), "vel": (5, 1), "pressure": (6, 1, 1)}
# what a driver has no record for
WITHOUT = ("polls", "host", "spi", "dues", "damaged", "resets", "full_queue", "far", "full_script", "interrupts")


def record(kind, *fields):
    """The fields are pairs of a number and its size."""
    body = b"".join((n % (1 << 8 * size)).to_bytes(size, "little") for n, size in fields)
    return (len(body) + 4).to_bytes(2, "little") + kind.to_bytes(2, "little") + body


def push(time, action, *numbers):
    kind, *sizes = ACTIONS[action]
    return record(kind, (time, 8), *zip(map(int, numbers), sizes))


def of_call(line):
    """A call's record; an action that is applied is pushed for the next step."""
    words = line.split(" ")
    if words[0] == "push":
        return [push(int(words[1]), *words[2:])]
    if words[0] == "apply":
        return [push(0, *words[1:])]
    if words[0] == "read":
        return [record(0x101, (int(words[1], 16), 4))]
    if words[0] == "write":
        return [record(0x102, (int(words[1], 16), 4), (int(words[2], 16), 4))]
    if words[0] == "step":
        return [record(0x103, (int(words[1]), 8))]
    return []


def told(s):
    """A good record as the call that it stands for; hex for any other."""
    n = lambda at, size: int.from_bytes(s[at : at + size], "little")
    kind = n(2, 2)
    for name, (number, *sizes) in ACTIONS.items():
        if kind == number and len(s) == n(0, 2) == 12 + sum(sizes):
            fields = [n(12 + sum(sizes[:k]), size) for k, size in enumerate(sizes)]
            if name == "enc":
                fields[1] -= (fields[1] >> 31) << 32
            return " ".join(map(str, ["push", n(4, 8), name, *fields]))
    if len(s) == n(0, 2) == {0x101: 8, 0x102: 12, 0x103: 12}.get(kind):
        return {0x101: f"read {n(4, 4):x}", 0x102: f"write {n(4, 4):x} {n(8, 4):x}", 0x103: f"step {n(4, 8)}"}[kind]
    return s.hex()


def scene(rng, run):
    """One of the board's, its actions carried out soon. Where keys and bytes go through the script, no far entry may wait at its front."""
    kind = rng.choice([*(k for k in board.SCENES if k not in WITHOUT), "pressure", "midi"])
    for line in board.SCENES[kind](run):
        yield from of_call(line)
        if line.startswith("apply") and rng.random() < 0.7:
            yield record(0x103, (0, 8))


def flood(rng, run):
    """More bytes than the queue takes, through the script."""
    for line in board.receiver(rng):
        yield from of_call(line)
    for k in range(3125 + rng.choice([0, 1, 9])):
        yield push(0, "midi", k & 0xFF)
        if k % 256 == 255:
            yield record(0x103, (0, 8))
    for _ in range(20):
        yield record(0x103, (rng.choice([0, 76_799, 76_800, 1]), 8))
        yield push(0, "midi", rng.randrange(256))


def last(rng, run):
    """What leaves the board of little use: a full script, a far entry at its front, the end of the clock."""
    kind = rng.randrange(3)
    if kind == 0:
        lines = board.full_script(run)
    elif kind == 1:
        lines = [f"push {rng.choice([board.NEVER, board.END, run.clock + RATE])} midi 1", *board.script(run, 10), f"step {RATE}", *board.script(run, 10)]
    else:
        lines = board.far(run)
    for line in lines:
        yield from of_call(line)


def damage(rng, s):
    """A record that breaks the layout, or, at times, does not."""
    kind = rng.randrange(8)
    if kind == 0:
        return s[: rng.randrange(len(s))]
    if kind == 1:
        return (len(s) + rng.choice([-1, 1, 256, -len(s)])).to_bytes(2, "little") + s[2:]
    if kind == 2:
        return s[:2] + rng.choice([0, 7, 8, 0x100, 0x104, 0x201, 0xFFFF]).to_bytes(2, "little") + s[4:]
    if kind == 3:
        return push(rng.getrandbits(20), "key", rng.randrange(41), rng.choice([2, 3, 255]))
    if kind == 4:
        return rng.randbytes(rng.randint(1, 3))
    if kind == 5:
        return s + rng.randbytes(rng.randint(1, 20))
    if kind == 6:
        # the action that 01 leaves out, at the length that the source's would have
        return record(7, (rng.getrandbits(20), 8), (3000, 4))
    at = rng.randrange(len(s))
    return s[:at] + bytes([s[at] ^ 1 << rng.randrange(8)]) + s[at + 1 :]


def vectors():
    """01's worked example."""
    for line in ("write 10800 1", "step 100", "read 10804"):
        yield from of_call(line)


def records(seed):
    """A seed's input, record by record."""
    rng = random.Random(f"driver {seed}")
    if rng.random() < 0.03:
        return []
    run = board.Run(rng, RATE, blocking=False)
    made = [*vectors()] if rng.random() < 0.1 else []
    for line in board.banks(rng) if rng.random() < 0.2 else board.receiver(rng):
        made += of_call(line)
    made += board.woven(rng, [scene(rng, run) for _ in range(rng.randint(1, 12))])
    if rng.random() < 0.05:
        made += flood(rng, run)
    if rng.random() < 0.4:
        made += last(rng, run)
    if rng.random() < 0.5:
        at = rng.choice([len(made) - 1, len(made) - 1, rng.randrange(len(made))])
        made[at] = damage(rng, made[at])
    return made


def stored(seed):
    """01's worked example, every kind of scene, a full queue, a full script; then a record that is cut off."""
    rng = random.Random(f"driver stored {seed}")
    run = board.Run(rng, RATE, blocking=False)
    made = [*vectors()]
    for kind in [k for k in board.SCENES if k not in WITHOUT] * 2:
        for line in board.SCENES[kind](run):
            made += of_call(line)
    made += flood(rng, run)
    for line in board.full_script(run):
        made += of_call(line)
    return [*made, *vectors(), push(0, "key", 3, 1)[:13]]


def waiting(seed):
    """A short input for the script: 01's worked example, actions of every kind in and out of order, a full script and the push that it refuses, then scenes, and a broken record."""
    rng = random.Random(f"driver waiting {seed}")
    run = board.Run(rng, RATE, blocking=False)
    made = [*vectors()]
    for line in board.receiver(rng):
        made += of_call(line)
    for turn in range(3):
        for k in range(120 if turn < 2 else 258):
            kind = rng.choice(list(ACTIONS))
            fields = {"key": (rng.randrange(42), k & 1), "enc": (rng.randrange(8), rng.getrandbits(32)), "adc": (rng.randrange(17), rng.getrandbits(16)), "midi": (rng.randrange(256),), "vel": (rng.randrange(256),), "pressure": (rng.randrange(42), rng.randrange(256))}[kind]
            made.append(push(rng.choice([0, 100 + k, rng.randrange(300_000), turn * 100_000]), kind, *fields))
            if k % 9 == 8 and turn < 2:
                made.append(record(0x103, (rng.choice([0, 1, 76_800, rng.randrange(20_000)]), 8)))
        for cycles in (0, 1, 76_800, 100_000, 300_000, 76_800, 76_800):
            made.append(record(0x103, (cycles, 8)))
    for kind in [k for k in board.SCENES if k not in WITHOUT]:
        for line in board.SCENES[kind](run):
            made += of_call(line)
    made.append(push(board.NEVER, "midi", 1))
    for line in board.full_script(run):
        made += of_call(line)
    return [*made, *vectors(), record(7, (5, 8), (3000, 4)), *vectors()]


if __name__ == "__main__":
    sys.stdout.buffer.write(b"".join(records(int(sys.argv[1]))))
