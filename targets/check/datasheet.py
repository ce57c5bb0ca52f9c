"""Compares what dizbaral_access says of each kind of step with the register headers of the Pico SDK, the vendor's own: addresses,
bits and codes of both chips, by the names of docs/FORMAT.md, Kinds of steps.

PICO_SDK_PATH is the folder of the SDK, PYTHONPATH has bindings/python.
"""

import os
import pathlib
import random
import re
import sys

import dizbaral
from dizbaral import Access, Chip, Op

WHOLE = 0xFFFFFFFF
BOTH, RP2040, RP235X = (0, 1), (0,), (1,)


def macros(chip):
    """All numbers that the headers of a chip define."""
    folder = pathlib.Path(os.environ["PICO_SDK_PATH"]) / "src" / chip / "hardware_regs" / "include" / "hardware"
    headers = [*folder.glob("regs/*.h"), folder / "platform_defs.h"]
    found = (re.findall(r"#define\s+(\w+)\s+_u\((\w+)\)", header.read_text()) for header in headers)
    return {name: int(number, 0) for pairs in found for name, number in pairs}


class Map:
    """The registers of a chip by name."""

    def __init__(self, numbers):
        self.numbers = numbers
        self.blocks = sorted((name[:-5] for name in numbers if name.endswith("_BASE")), key=len, reverse=True)

    def at(self, register, block=None):
        """An address. The registers of both PLLs go by the name PLL, each with a base of its own."""
        block = block or next(name for name in self.blocks if register.startswith(name + "_"))
        return self.numbers[block + "_BASE"] + self.numbers[register + "_OFFSET"]

    def bits(self, field):
        return self.numbers[field + "_BITS"]

    def put(self, field, value):
        """A value in a field, cut to its bits; a name is one of the field's named values."""
        if isinstance(value, str):
            value = self.numbers[f"{field}_VALUE_{value}"]
        return value << self.numbers[field + "_LSB"] & self.numbers[field + "_BITS"]


def write(m, register, *fields, block=None, extra=0):
    """The whole register is written: these fields of it, by name and value."""
    value = sum(m.put(f"{register}_{name}" if name else register, value) for name, value in fields)
    return Access(Op.WRITE, m.at(register, block), WHOLE, value + extra)


def change(m, register, name, value, block=None, extra=(0, 0)):
    field = f"{register}_{name}"
    return Access(Op.CHANGE, m.at(register, block), m.bits(field) + extra[0], m.put(field, value) + extra[1])


def wait(m, register, mask, value, block=None):
    return Access(Op.WAIT, m.at(register, block), mask, value)


def lock(m, register, name, block=None):
    bit = m.bits(f"{register}_{name}")
    return wait(m, register, bit, bit, block)


def clock(name, phase=True):
    """The control of a clock with an enable bit: phase and aux source, or the aux source alone."""
    if phase:
        return lambda m, p, a: write(m, name, ("PHASE", p), ("AUXSRC", a), ("ENABLE", 1))
    return lambda m, a: write(m, name, ("AUXSRC", a), ("ENABLE", 1))


def strengths(register, first):
    return lambda m, *s: write(m, register, *((f"DS{first + i}", s[i]) for i in range(4)), ("PASSWD", "PASS"))


def pll(w):
    return "PLL_USB" if w else "PLL_SYS"


RANGES = "LOW", "MEDIUM", "HIGH", "TOOHIGH"
NOTHING = Access(Op.NOTHING, 0, 0, 0)
PASSWORD = "POWMAN_PASSWORD_BITS"

# Of each kind the chips that have it, the widths of its fields, and what it does; a divider of 0 is 4, cut to the field.
KINDS = {
    1: (BOTH, (25,), lambda m, mask: Access(Op.WRITE, m.at("RESETS_RESET"), WHOLE, mask & m.bits("RESETS_RESET"))),
    2: (BOTH, (25,), lambda m, mask: Access(Op.CHANGE, m.at("RESETS_RESET"), mask, 0)),
    3: (BOTH, (25,), lambda m, mask: wait(m, "RESETS_RESET_DONE", mask, mask)),
    4: (BOTH, (), lambda m: write(m, "CLOCKS_CLK_SYS_RESUS_CTRL")),
    5: (BOTH, (1,), lambda m, s: change(m, "CLOCKS_CLK_SYS_CTRL", "SRC", s)),
    6: (BOTH, (1,), lambda m, s: wait(m, "CLOCKS_CLK_SYS_SELECTED", WHOLE, 1 << s)),
    7: (BOTH, (2,), lambda m, s: change(m, "CLOCKS_CLK_REF_CTRL", "SRC", s)),
    8: (BOTH, (2,), lambda m, s: wait(m, "CLOCKS_CLK_REF_SELECTED", WHOLE, 1 << s)),
    9: (BOTH, (3, 3, 3, 3), strengths("ROSC_FREQA", 0)),
    10: (BOTH, (3, 3, 3, 3), strengths("ROSC_FREQB", 4)),
    11: (BOTH, (16,), lambda m, v: write(m, "ROSC_DIV", ("", v))),
    12: (BOTH, (2,), lambda m, r: write(m, "ROSC_CTRL", ("FREQ_RANGE", RANGES[r]), ("ENABLE", "ENABLE"))),
    13: (RP2040, (4,), lambda m, v: change(m, "VREG_AND_CHIP_RESET_VREG", "VSEL", v)),
    14: (BOTH, (32,), lambda m, cycles: Access(Op.DELAY, 0, 0, cycles)),
    15: (RP2040, (4,), lambda m, v: write(m, "VREG_AND_CHIP_RESET_BOD", ("VSEL", v), ("EN", 1))),
    16: (BOTH, (14,), lambda m, v: write(m, "XOSC_STARTUP", ("DELAY", v))),
    17: (BOTH, (), lambda m: write(m, "XOSC_CTRL", ("FREQ_RANGE", "1_15MHZ"), ("ENABLE", "ENABLE"))),
    18: (BOTH, (), lambda m: lock(m, "XOSC_STATUS", "STABLE")),
    19: (BOTH, (1, 1, 1, 1, 1), lambda m, w, pd, vco, post, dsm: write(
        m, "PLL_PWR", ("PD", pd), ("VCOPD", vco), ("POSTDIVPD", post), ("DSMPD", dsm), block=pll(w))),
    20: (BOTH, (1, 6), lambda m, w, d: write(m, "PLL_CS", ("REFDIV", d), block=pll(w))),
    21: (BOTH, (1, 12), lambda m, w, d: write(m, "PLL_FBDIV_INT", ("", d), block=pll(w))),
    22: (BOTH, (1,), lambda m, w: lock(m, "PLL_CS", "LOCK", pll(w))),
    23: (BOTH, (1, 3, 3), lambda m, w, a, b: write(m, "PLL_PRIM", ("POSTDIV1", a), ("POSTDIV2", b), block=pll(w))),
    24: (BOTH, (1,), lambda m, w: change(m, "PLL_PWR", "POSTDIVPD", 0, pll(w))),
    25: (BOTH, (2,), lambda m, s: write(m, "CLOCKS_CLK_REF_CTRL", ("SRC", s), ("AUXSRC", "CLKSRC_PLL_USB"))),
    26: (BOTH, (2,), lambda m, d: write(m, "CLOCKS_CLK_REF_DIV", ("INT", d or 4))),
    27: (RP2040, (9,), lambda m, v: write(m, "WATCHDOG_TICK", ("CYCLES", v), ("ENABLE", 1))),
    28: (BOTH, (2, 1), lambda m, a, s: write(m, "CLOCKS_CLK_SYS_CTRL", ("AUXSRC", a), ("SRC", s))),
    29: (RP2040, (24, 8), lambda m, a, b: write(m, "CLOCKS_CLK_SYS_DIV", ("INT", a), ("FRAC", b))),
    30: (BOTH, (3,), clock("CLOCKS_CLK_PERI_CTRL", phase=False)),
    31: (BOTH, (2,), lambda m, d: write(m, "CLOCKS_CLK_USB_DIV", ("INT", d or 4))),
    32: (BOTH, (2, 2), clock("CLOCKS_CLK_USB_CTRL")),
    33: (BOTH, (2,), lambda m, d: write(m, "CLOCKS_CLK_ADC_DIV", ("INT", d or 4))),
    34: (BOTH, (2, 2), clock("CLOCKS_CLK_ADC_CTRL")),
    35: (RP2040, (24, 8), lambda m, a, b: write(m, "CLOCKS_CLK_RTC_DIV", ("INT", a), ("FRAC", b))),
    36: (RP2040, (2, 2), clock("CLOCKS_CLK_RTC_CTRL")),
    37: (BOTH, (4, 32), lambda m, c, hz: NOTHING if c < 9 or c == 9 and hz < 65536 else 20),  # the clocks, and the RTC's 16 bits
    38: (RP235X, (), lambda m: NOTHING),
    39: (RP235X, (9,), lambda m, v: write(m, "TICKS_TIMER0_CYCLES", ("", v))),
    40: (RP235X, (), lambda m: write(m, "TICKS_TIMER0_CTRL", ("ENABLE", 1))),
    41: (RP235X, (9,), lambda m, v: write(m, "TICKS_WATCHDOG_CYCLES", ("", v))),
    42: (RP235X, (), lambda m: write(m, "TICKS_WATCHDOG_CTRL", ("ENABLE", 1))),
    43: (RP235X, (5,), lambda m, v: change(m, "POWMAN_VREG", "VSEL", v, extra=(0xFFFF << 16, m.numbers[PASSWORD]))),
    44: (RP235X, (5,), lambda m, v: write(m, "POWMAN_BOD", ("VSEL", v), ("EN", 1), extra=m.numbers[PASSWORD])),
    45: (RP235X, (16, 16), lambda m, a, b: write(m, "CLOCKS_CLK_SYS_DIV", ("INT", a), ("FRAC", b))),
}

# The codes of sources (docs/FORMAT.md, Codes), from 0 on; the RTC is the RP2040's alone.
USB = "CLKSRC_PLL_USB", "CLKSRC_PLL_SYS", "ROSC_CLKSRC_PH", "XOSC_CLKSRC"
CODES = {
    "CLOCKS_CLK_REF_CTRL_SRC": ("ROSC_CLKSRC_PH", "CLKSRC_CLK_REF_AUX", "XOSC_CLKSRC"),
    "CLOCKS_CLK_SYS_CTRL_SRC": ("CLK_REF", "CLKSRC_CLK_SYS_AUX"),
    "CLOCKS_CLK_SYS_CTRL_AUXSRC": ("CLKSRC_PLL_SYS", "CLKSRC_PLL_USB", "ROSC_CLKSRC", "XOSC_CLKSRC"),
    "CLOCKS_CLK_PERI_CTRL_AUXSRC": ("CLK_SYS", "CLKSRC_PLL_SYS", "CLKSRC_PLL_USB", "ROSC_CLKSRC_PH", "XOSC_CLKSRC"),
    "CLOCKS_CLK_USB_CTRL_AUXSRC": USB,
    "CLOCKS_CLK_ADC_CTRL_AUXSRC": USB,
    "CLOCKS_CLK_RTC_CTRL_AUXSRC": USB,
}
# Bits of the resets that the masks name (docs/FORMAT.md, Masks; docs/RP235X.md): RP2040, RP235x.
BLOCKS = {
    "ADC": (0, 0), "IO_QSPI": (6, 7), "PADS_QSPI": (9, 10), "PLL_SYS": (12, 14), "PLL_USB": (13, 15), "RTC": (15, None),
    "SPI0": (16, 18), "SPI1": (17, 19), "SYSCFG": (18, 20), "UART0": (22, 26), "UART1": (23, 27), "USBCTRL": (24, 28),
    "HSTX": (None, 3),
}


def packed(kind, widths, fields):
    word, used = kind, 6
    for width, field in zip(widths, fields):
        word, used = word << width | field, used + width
    return (word << 64 - used).to_bytes(8, "big")


def main():
    draw, compared, findings = random.Random(1), 0, []
    for chip, folder in (Chip.RP2040, "rp2040"), (Chip.RP235X, "rp2350"):
        m = Map(macros(folder))
        for kind, (chips, widths, does) in KINDS.items():
            for case in range(200):
                fields = [(0, (1 << width) - 1, draw.getrandbits(width))[min(case, 2)] for width in widths]
                expected = does(m, *fields) if chip in chips else 20
                try:
                    said = dizbaral.access(chip, packed(kind, widths, fields), 0)
                except dizbaral.Refused as refused:
                    said = refused.number
                compared += 1
                if said != expected:
                    findings.append(f"{folder} {kind}{tuple(fields)}: {said}, and by the headers {expected}")
        for field, names in CODES.items():
            for code, name in enumerate(names):
                known = m.numbers.get(f"{field}_VALUE_{name}", code if "RTC" in field and chip == Chip.RP235X else None)
                findings += [] if known == code else [f"{folder} {field} {name}: {code}, and by the headers {known}"]
        for block, bits in BLOCKS.items():
            bit, known = bits[chip], m.numbers.get(f"RESETS_RESET_{block}_LSB")
            findings += [] if known == bit else [f"{folder} RESETS {block}: {bit}, and by the headers {known}"]
    print("\n".join(findings[:20] + [f"{compared} steps of 45 kinds on both chips, {len(findings)} findings"]))
    return len(findings) > 0


sys.exit(main())
