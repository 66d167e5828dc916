"""The port and the original on the same input, where an input is a list of parts (lines of `calls`, records of `driver`): their differences,
and the smallest part of a failing input that still fails."""
import platform
import random
import re
import subprocess

import board
import calls
import driver

ORACLE = "target/oracle/oracle"
# both are programs for x86-64; elsewhere Debian's emulator runs them, over the libraries that the shared rustc-x86 has brought
EMULATOR = [] if platform.machine() == "x86_64" else ["qemu-x86_64", "-L", "/usr/x86_64-linux-gnu"]
# the value of a read of the converter's sample, in either program's words
SAMPLE = re.compile(rb"( *read +0*13104 *= |R 00013104 )([0-9a-f]{8})(.*)")


class Calls:
    name = crate = "calls"

    def parts(self, seed):
        """The board's scenes, then some of the port's."""
        return [*board.lines(seed), *calls.lines(random.Random(f"port {seed}"), 60)]

    def stored(self, seed):
        return [*calls.stored(random.Random(seed), 2500), *board.stored()]

    def input(self, parts):
        return "".join(line + "\n" for line in parts).encode("latin-1")

    def told(self, parts):
        return [line if len(line) < 200 else f"{line[:20]}.. ({len(line)} bytes)" for line in parts]

    def answered(self, parts):
        """The parts that have an answer, one each."""
        return [k for k, line in enumerate(parts) if len(line) > 4096 or line.strip(" ") and not line.startswith("#")]


class Driver:
    name = crate = "driver"

    def parts(self, seed):
        return driver.records(seed)

    def stored(self, seed):
        return driver.stored(seed)

    def input(self, parts):
        return b"".join(parts)

    def told(self, parts):
        return [driver.told(part) for part in parts]

    def answered(self, parts):
        return range(len(parts))


class Entries(Driver):
    """The driver's records, on the program whose script is lent as entries."""

    crate = "driver_entries"

    def stored(self, seed):
        return driver.waiting(seed)


def run(command, text):
    done = subprocess.run([*EMULATOR, *command], input=text, capture_output=True)
    lines = done.stdout.split(b"\n")
    if lines[-1] == b"":
        lines.pop()
    return lines + ([b"(exit status %d)" % done.returncode] if done.returncode else [])


def within_one(port, rust):
    a, b = SAMPLE.fullmatch(port), SAMPLE.fullmatch(rust)
    return bool(a and b) and (a[1], a[3]) == (b[1], b[3]) and abs(int(a[2], 16) - int(b[2], 16)) <= 1


class Judge:
    """Runs a program of the port's and the original, and counts what it sees. `listed` says which lines docs/DIFFERENCES.md has."""

    def __init__(self, program, port, listed=lambda line: False):
        self.program, self.port, self.listed = program, port, listed
        self.inputs = self.lines = self.known = self.pressed = self.ones = 0

    def both(self, parts):
        """Pairs of answers, with None where one wrote fewer; and the numbers, from 0, of the readings of a pressed row."""
        text = self.program.input(parts)
        port, rust = run(self.port, text), run([ORACLE, self.program.name], text)
        near = {int(n) - 1 for n in run([ORACLE, self.program.name, "near"], text)}
        longest = max(len(port), len(rust))
        return list(zip(port + [None] * (longest - len(port)), rust + [None] * (longest - len(rust)))), near

    def differences(self, parts, counted=False):
        pairs, near = self.both(parts)
        apart, known, ones = [], 0, 0
        for k, (port, rust) in enumerate(pairs):
            if port == rust:
                continue
            if port is not None and self.listed(port) and port.endswith(b" = none"):
                known += 1
            elif k in near and None not in (port, rust) and within_one(port, rust):
                ones += 1
            else:
                apart.append((port, rust))
        if counted:
            self.inputs, self.lines, self.known = self.inputs + 1, self.lines + len(pairs), self.known + known
            self.pressed, self.ones = self.pressed + len(near), self.ones + ones
        return apart

    def shrunk(self, parts, most=1500):
        """Parts dropped, the longest runs first, while the rest still fails; at most so many tries."""
        size = (len(parts) + 1) // 2
        while size and most > 0:
            at = len(parts)
            while at > 0 and most > 0:
                at = max(0, at - size)
                less = parts[:at] + parts[at + size :]
                most -= 1
                if self.differences(less):
                    parts = less
            size //= 2
        return parts

    def agreed(self, parts):
        """The parts without the readings of a pressed row that the two answer differently: to leave one out changes no other answer."""
        pairs, near = self.both(parts)
        answered = self.program.answered(parts)
        differ = {answered[k] for k in near if k < len(pairs) and pairs[k][0] != pairs[k][1]}
        return [part for k, part in enumerate(parts) if k not in differ]

    def told(self):
        readings = f"{self.pressed} readings of a pressed row, {self.ones} of them off by one"
        return f"{self.inputs} inputs, {self.lines} lines, {self.known} listed in docs/DIFFERENCES.md; {readings}"
