"""The board's registers by block, and values that do something to them."""

RATES = [1_000_000, 1_003_124, 1_000_001, 23_999_999, 24_000_000, 48_000_000, 239_999_999, 240_000_000, 799_999_999, 800_000_000]
TMR_REGS = [0x10400 + 0x100 * i + k for i in range(4) for k in (0, 4, 8)]
BLOCK_REGS = {
    "timer4": [0x10800, 0x10804, 0x10808],
    "timer5": [0x10900, 0x10904, 0x10908],
    "timers": TMR_REGS,
    "tick": [0x1EEF0EC, 0x1EEF0F0, 0x1EEF0F4],
    "audio": [0x12E00, 0x12E04, 0x12E08, 0x12E0C, 0x12E1C, 0x12E20],
    "uart": [0x12100, 0x12110, 0x12118, 0x1211C, 0x12120, 0x12124, 0x12128],
}
BANKS = [0x1EEF100, 0x1EEF300]
LATCH = [0x1EEF1A0, 0x1EEF1A4]
PORTS = [0x50000, 0x50004, 0x50008, 0x50010, 0x50018, 0x5001C, 0x50044, 0x501C0]
CONVERTER = [0x13100, 0x13104]
# the SMK-37's, the flash chip select, P33's and the blocks' neighbours, none of them the board's
STRANGE = [0x501C4, 0x500C0, 0x50200, 0x4FFFC, 0x13E08, 0x13E0C, 0x10300, 0x1040C, 0x10410, 0x1080C, 0x1211E, 0x12108, 0x12E10, 0x12E24, 0x13108, 0, 0xFFFFFFFF, 0x1EEF0E8, 0x1EEF0F8, 0x1EEF1A8]

# what can pend, and the numbers that the source knows
FLAGS = ["exc", "t5", "tick", "spi1", "adc", "spi2", "uart", "tmr0", "tmr1", "tmr2", "tmr3"]
NUMBERS = [1, 3, 4, 5, 6, 7, 11, 16, 20, 24, 37, 63, *range(120, 128)]

def wide(rng, bits):
    """A number of up to so many bits, small and large ones as often."""
    return rng.getrandbits(rng.randint(1, bits))


def bank_word(rng, prios):
    """Eight nibbles, most of them enabled, of few priorities."""
    if rng.random() < 0.1:
        return rng.choice([0, 0xFFFFFFFF, rng.getrandbits(32)])
    return sum((rng.choice(prios) << 1 | (rng.random() < 0.8)) << 4 * k for k in range(8))


def bank_address(rng):
    """A bank's word by any of its bytes, or one just outside."""
    return rng.choice(BANKS) + rng.choice([rng.randrange(0x80), rng.randrange(0x80), 4 * rng.randrange(32), -1, 0x80])


def any_address(rng):
    kind = rng.random()
    if kind < 0.6:
        return rng.choice([*sum(BLOCK_REGS.values(), []), *PORTS, *CONVERTER, *LATCH])
    if kind < 0.75:
        return bank_address(rng)
    if kind < 0.85:
        return rng.choice(STRANGE)
    if kind < 0.95:
        return (rng.choice([*sum(BLOCK_REGS.values(), []), *PORTS, *CONVERTER, *LATCH]) + rng.choice([-4, -1, 1, 2, 3, 4, 0x100])) & 0xFFFFFFFF
    return rng.choice([rng.getrandbits(32), 0x10000 + rng.getrandbits(14)])


def value_for(rng, addr):
    """A value that does something to the register, or any."""
    bits = lambda *ones: sum(b for b in ones if rng.random() < 0.5)
    if rng.random() < 0.1:
        return rng.choice([0, 0xFFFFFFFF, rng.getrandbits(32)])
    if addr in (0x10800, 0x10900):
        return bits(1, 1, 0x4000, 0x8000, 0x10)
    if addr in TMR_REGS:
        return {0: bits(1, 2, 0x4000) | rng.randrange(16) << 4, 4: rng.choice([0, 5, wide(rng, 16)]), 8: rng.choice([0, 1, 10, wide(rng, 20)])}[addr & 0xFF]
    if addr == 0x10908:
        return rng.choice([0, 1, 600, wide(rng, 16)])
    if addr == 0x1EEF0EC:
        return bits(1, 1, 0x40, 0x80, 0x20)
    if addr == 0x12E00:
        return bits(0x800, 0x800, 0x8000, 0x10)
    if addr == 0x12E20:
        return rng.choice([0, 1, 2, 3, 64, wide(rng, 18)])
    if addr == 0x12100:
        return 0x41 * (rng.random() < 0.8) | bits(0x8, 0x20, 0x4, 0x80, 0x400, 0x1000, 0x2000)
    if addr == 0x1211C:
        return rng.choice([0x1000, 0xFFFFFFF0])
    if addr == 0x12120:
        return rng.choice([0x1001, 0x1010, 0x11000, 0x11001, 0x1000, 0x10])
    if addr == 0x12110:
        return rng.choice([0, 1000, 20_000, wide(rng, 24)])
    if addr == 0x13100:
        return rng.choice([0x70, 0x70, 0x50, 0x40, 0x40, 0x60, 0x10, 0x20]) | rng.randrange(16) << 8
    return wide(rng, 32)
