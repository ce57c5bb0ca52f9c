"""expected.py FOLDER: writes FOLDER/sheets.h, the sheets that check/board.c runs, and FOLDER/board.expected, what it has to print.

Nothing of it comes from the code that is tested. The sheets and the accesses are those of the published Rust: presets.accesses,
which the tests of oracle/ hold against it. The registers at the end are those of the theorem crystal-leaves
(proofs/Presets.antt), which says them at reading 11; at reading 12, which is taken here, the voltage is set too.
"""

import pathlib
import re
import sys

HERE = pathlib.Path(__file__).resolve().parent
UNREADY = 3  # polls before a simulated status register says what it should
# What the registers hold before, as in board.c: the regulator, CLK_SYS_CTRL, CLK_REF_CTRL.
BEFORE = {
    "rp2040": {0x40064000: 0x10C1, 0x4000803C: 0xE1, 0x40008030: 0x63},
    "rp235x": {0x4010000C: 0x80C0, 0x4001003C: 0xE1, 0x40010030: 0x63},
}
NEVER_LOCKS = 0x40028000  # PLL_SYS CS of the RP2040


def presets():
    """Of each chip the sheet in hex and the accesses as words."""
    for chip, part in zip(BEFORE, (HERE / "presets.accesses").read_text().split("end\n")):
        _, sheet, *accesses = part.splitlines()
        yield chip, sheet.split()[1], [line.split() for line in accesses]


def proved(chip):
    """Addresses and values of the chip's rows of `crystal_leaves`; None where the register is as it was."""
    (path,) = HERE.parents[1].glob("crates/*/proofs/Presets.antt")
    text = re.sub("--.*", "", path.read_text())
    rows = re.search(rf"crystal_leaves {chip.capitalize()} before =(.*?)∷ \[\]", text, re.S)[1]
    pairs = re.findall(r"\((0x[0-9A-F]+), (before 0x[0-9A-F]+|0x[0-9A-F]+|\d+)\)", rows)
    assert len(pairs) == rows.count("(") >= 30, "the theorem is not read right"
    return {int(at, 16): None if value.startswith("before") else int(value, 0) for at, value in pairs}


def carried_out(chip, accesses):
    """What board.c prints for the accesses, and what the registers hold then."""
    lines, registers = [], dict(BEFORE[chip])
    for op, *words in accesses:
        numbers = [int(word, 16) for word in words]
        if op == "wait":
            lines.append(f"wait {words[0]}")
        elif op == "delay":
            lines.append(f"delay {words[0]}")
        else:
            address, value = numbers[0], numbers[-1]
            if op == "change":  # in the bits that the Rust turned over
                bits = numbers[1] ^ numbers[2]
                value = registers.get(address, 0) & ~bits | value & bits
            lines.append(f"write {words[0]} {value:08x}")
            power = chip == "rp235x" and address >> 12 == 0x40100  # the password does not stay
            registers[address] = value & 0xFFFF if power else value
    return lines, registers


def holds(registers):
    return [f"holds {address:08x} {value:08x}" for address, value in sorted(registers.items())]


def stored(sheet):
    """The frequencies of the sheet's stores, kind 37."""
    words = [int(sheet[at : at + 16], 16) for at in range(0, len(sheet), 16)]
    by_clock = {word >> 54 & 15: word >> 22 & 0xFFFFFFFF for word in words if word >> 58 == 37}
    return " ".join(str(by_clock.get(clock, 0)) for clock in range(10))


def main(folder):
    text, header = [], []
    for chip, sheet, accesses in presets():
        lines, registers = carried_out(chip, accesses)
        theorem = proved(chip)
        assert set(registers) <= set(theorem), f"{chip}: a register that the theorem does not name"
        for address, value in theorem.items():
            assert value is None or registers[address] == value, f"{chip}: {address:08x} is not as proved"
        waits = sum(access[0] == "wait" for access in accesses)
        text += [f"{chip}, its own sheet", *lines, "answer " + 16 * "0", *holds(registers), stored(sheet)]
        text += [f"unready {UNREADY * waits}"]
        other = "rp235x" if chip == "rp2040" else "rp2040"
        text += [f"{chip}, the sheet of the {other}", "answer 0001000000000014", *holds(BEFORE[chip]), "unready 0"]
        header += [f"static const uint8_t {chip}[] = {{{', '.join(f'0x{byte}' for byte in re.findall('..', sheet))}}};"]
        if chip == "rp2040":
            first = accesses[: next(i for i, a in enumerate(accesses) if a[0] == "wait" and int(a[1], 16) == NEVER_LOCKS)]
            lines, registers = carried_out(chip, first)
            waits = sum(access[0] == "wait" for access in first)
            # The first poll of the lock, then from 999990 on up to the millionth.
            unready = UNREADY * waits + 1 + (1_000_000 - 999_990)
            no_lock = ["rp2040, no lock", *lines, "answer 0001000000000016", *holds(registers), f"unready {unready}"]
    (folder / "board.expected").write_text("\n".join([*text, *no_lock]) + "\n")
    (folder / "sheets.h").write_text("\n".join(header) + "\n")


main(pathlib.Path(sys.argv[1]))
