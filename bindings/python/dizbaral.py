"""Clock sheets for the RP2040 and the RP235x, from the proved library by ctypes.

The library is a shared one, made from the archive of `bindings/archive export` (bindings/README.md). It is looked for at the path
that the variable DIZBARAL_LIBRARY names, else at target/libdizbaral.so of this repository.

A refusal is the exception Refused with its number in docs/FORMAT.md. A number that does not fit its parameter is an
OverflowError, a list of numbers with a wrong length a ValueError; neither is handed to the library.
"""

import ctypes
import enum
import os
import pathlib
from typing import NamedTuple, Optional, Union

_U8, _U16, _U32, _U64, _BOOL = ctypes.c_uint8, ctypes.c_uint16, ctypes.c_uint32, ctypes.c_uint64, ctypes.c_bool

_DEFAULT = pathlib.Path(__file__).resolve().parents[2] / "target" / "libdizbaral.so"
try:
    _library = ctypes.CDLL(os.environ.get("DIZBARAL_LIBRARY", str(_DEFAULT)))
except OSError as why:
    raise ImportError(f"{why}; bindings/README.md says how the library is made") from why

_REFUSAL, _MALFORMED, _ABSENT, _STEP = 1 << 48, 1 << 49, 1 << 32, 1 << 58

SHEET_BYTES = 528  # a sheet has at most this many
BOOK_LINES = 1988  # the book has so many
_LIST_BYTES = 17080  # two of each feedback divider from 16 to 320 with each of 28 pairs of post dividers


class Refused(Exception):
    """A refusal, by its number in docs/FORMAT.md. Nothing was changed, but for the lock timeout of a poll."""

    def __init__(self, number: int):
        super().__init__(f"refused {number}")
        self.number = number


class Malformed(ValueError):
    """The numbers given are of no plan, no runner, no board or no slots; or a fraction does not fit the chip."""


def _call(name, *words, result=_U64):
    """Calls a function of the library. A word is a ctypes array, or a pair of a type and a number that has to fit it."""
    function = getattr(_library, "dizbaral_" + name)
    function.restype = result
    return function(*(word if isinstance(word, ctypes.Array) else _fitting(*word) for word in words))


def _fitting(kind, number):
    value = kind(number)
    if value.value != number:
        raise OverflowError(f"{number} does not fit {kind.__name__}")
    return value


def _answer(number: int) -> int:
    """A value; or the exception of a refusal."""
    if number == _MALFORMED:
        raise Malformed("malformed")
    if _REFUSAL <= number < _MALFORMED:
        raise Refused(number - _REFUSAL)
    return number


def _numbers(kind, numbers, count=None):
    """An array of these numbers, with at least one element: no pointer may be NULL."""
    numbers = tuple(numbers)
    if count is not None and len(numbers) != count:
        raise ValueError(f"{len(numbers)} numbers instead of {count}")
    return (kind * max(len(numbers), 1))(*(_fitting(kind, number).value for number in numbers))


def _bytes(given):
    return (_U8 * max(len(given), 1)).from_buffer_copy(bytes(given) or b"\0")


def _sheet(sheet):
    """A sheet's bytes and their count."""
    return _bytes(sheet), (_U64, len(sheet))


class Chip(enum.IntEnum):
    RP2040 = 0
    RP235X = 1


class PllConfig(NamedTuple):
    """The four dividers of a PLL."""

    refdiv: int
    fbdiv: int
    post_div1: int
    post_div2: int

    def _words(self, input_hz):
        return (_U32, input_hz), (_U8, self.refdiv), (_U16, self.fbdiv), (_U8, self.post_div1), (_U8, self.post_div2)

    def is_valid(self, input_hz: int) -> bool:
        """Whether the setting is valid for an input frequency."""
        return _call("is_valid", *self._words(input_hz), result=_BOOL)

    def output_frequency(self, input_hz: int) -> int:
        """The output frequency in Hz, with no test of validity. Refusal 16."""
        return _answer(_call("output_frequency", *self._words(input_hz)))


def _found(number: int) -> PllConfig:
    number = _answer(number)
    return PllConfig(number >> 32, number >> 16 & 0xFFFF, number >> 8 & 0xFF, number & 0xFF)


def find_pll_params(input_hz: int, target_hz: int) -> PllConfig:
    """The setting for a target: one with no remainder if there is one, else the nearest. Refusal 15."""
    return _found(_call("search", (_U32, input_hz), (_U32, target_hz)))


def find_usb_pll(crystal_hz: int) -> PllConfig:
    """The setting that makes 48 MHz of a crystal with no remainder. Refusal 25."""
    return _found(_call("usb_pll", (_U32, crystal_hz)))


def lookup(target_hz: int) -> PllConfig:
    """What find_pll_params answers at 12 MHz, by a book that is opened for this one lookup."""
    return _found(_call("lookup", (_U32, target_hz)))


class Book:
    """The book of a 12 MHz crystal: its settings by output."""

    def __init__(self):
        self._book = (_U64 * BOOK_LINES)()
        _call("open_book", self._book, result=None)

    def lookup(self, target_hz: int) -> PllConfig:
        """What find_pll_params answers at 12 MHz."""
        return _found(_call("lookup_in", self._book, (_U32, target_hz)))

    def line(self, at: int) -> tuple[int, PllConfig]:
        """The output of a line, counted from 0, and its setting."""
        output, digits = divmod(self._book[at], 100_000)
        return output, PllConfig(1, digits // 100, digits // 10 % 10, digits % 10)


class Margin(NamedTuple):
    """The greatest lower and the smallest higher target with another setting; None where there is none."""

    lower: Optional[int]
    higher: Optional[int]


def target_margin(input_hz: int, target_hz: int) -> Margin:
    """How far a target may be moved until the search gives another setting. Refusal 15."""
    limits = (_U64 * 2)()
    _answer(_call("target_margin", (_U32, input_hz), (_U32, target_hz), limits))
    return Margin(*(None if limit == _ABSENT else limit for limit in limits))


class CoreVoltage(NamedTuple):
    code: int
    brownout: int


def core_voltage(chip: Chip, reading: int) -> CoreVoltage:
    """The voltage code and the brownout level of a reading of the regulator. Refusal 18."""
    return CoreVoltage(*divmod(_answer(_call("core_voltage", (_U8, chip), (_U8, reading))), 256))


def pio_divider(sys_hz: int, target_hz: int) -> int:
    """The divider, in 256ths, that makes a PIO state machine run at the target. Refusal 17."""
    return _answer(_call("pio_divider", (_U32, sys_hz), (_U32, target_hz)))


def gpout_frequency(chip: Chip, source: int, whole: int, fraction: int, freqs) -> int:
    """The frequency of a Gpout with this source code and divider, over the ten stored frequencies. Refusal 23."""
    words = (_U8, chip), (_U8, source), (_U32, whole), (_U16, fraction), _numbers(_U32, freqs, 10)
    return _answer(_call("gpout_frequency", *words))


def _written(name, *words, room) -> bytes:
    """What a writer leaves in a buffer with this much room."""
    buffer = (_U8 * max(room, 1))()
    return bytes(buffer[: _answer(_call(name, *words, buffer, (_U64, room)))])


def system_sheet(chip: Chip, hz: int, reading: int, room: int = SHEET_BYTES) -> bytes:
    """The sheet of a 12 MHz crystal and a system frequency. Refusals 18, 1 to 14, 19."""
    return _written("system_sheet", (_U8, chip), (_U32, hz), (_U8, reading), room=room)


def system_sheet_from(chip: Chip, crystal_hz: int, hz: int, reading: int, room: int = SHEET_BYTES) -> bytes:
    """The sheet of a crystal, a system frequency and the PLLs found for them. Before the other refusals 15, then 25."""
    words = (_U8, chip), (_U32, crystal_hz), (_U32, hz), (_U8, reading)
    return _written("system_sheet_from", *words, room=room)


def plan_sheet(chip: Chip, plan, reading: int, room: int = SHEET_BYTES) -> bytes:
    """The sheet of a plan given as numbers, 48 for the RP2040 and 43 for the RP235x: docs/CASES.md, A plan in numbers."""
    return _written("plan_sheet", (_U8, chip), _numbers(_U32, plan), (_U64, len(plan)), (_U8, reading), room=room)


class Plan(NamedTuple):
    chip: Chip
    numbers: tuple[int, ...]


def _plan(name, *words) -> Plan:
    """The plan of a function that writes its numbers and answers its chip."""
    numbers = (_U32 * 48)()
    chip = Chip(_answer(_call(name, *words, numbers)))
    return Plan(chip, tuple(numbers[: 48 if chip == Chip.RP2040 else 43]))


def crystal(chip: Chip, crystal_hz: int) -> Plan:
    """The preset of a crystal: 125 MHz of 12 MHz on the RP2040, 150 MHz on the RP235x."""
    return _plan("crystal", (_U8, chip), (_U32, crystal_hz))


def rosc(chip: Chip) -> Plan:
    """The preset of the ring alone, at 140 MHz."""
    return _plan("rosc", (_U8, chip))


def default(chip: Chip) -> Plan:
    """The plan without ring and crystal, of which there is no sheet (refusal 8)."""
    return _plan("default", (_U8, chip))


def system_freq(chip: Chip, hz: int) -> Plan:
    """The plan of a 12 MHz crystal and a system frequency."""
    return _plan("system_freq", (_U8, chip), (_U32, hz))


def system_freq_from(chip: Chip, crystal_hz: int, hz: int) -> Plan:
    """The plan of a crystal, a system frequency and the PLLs found for them. Refusals 15, 25."""
    return _plan("system_freq_from", (_U8, chip), (_U32, crystal_hz), (_U32, hz))


def manual_pll(crystal_hz: int, pll: PllConfig, voltage: int) -> Plan:
    """The plan of the RP2040 with this system PLL and the voltage of a code, without a ring. Refusal 5."""
    return _plan("manual_pll", *pll._words(crystal_hz), (_U8, voltage))


def read_sheet(sheet: bytes, reading: int) -> Plan:
    """The plan whose sheet at a reading is exactly these bytes. Refusals 18, 26."""
    return _plan("read_sheet", *_sheet(sheet), (_U8, reading))


def list(input_hz: int, target_hz: int, room: int = _LIST_BYTES) -> tuple[PllConfig, ...]:
    """Every setting that gives the target with no remainder: the lowest feedback divider first, then the greatest post 1."""
    listed = _written("list", (_U32, input_hz), (_U32, target_hz), room=room)
    words = (high << 8 | low for high, low in zip(listed[::2], listed[1::2]))
    return tuple(PllConfig(1, word >> 7, word >> 4 & 7, word >> 1 & 7) for word in words)


class Op(enum.IntEnum):
    NOTHING = 0
    WRITE = 1
    CHANGE = 2
    WAIT = 3
    DELAY = 4


class Access(NamedTuple):
    """What a step does. A register's bits in the mask become the value, or are waited for until they are; a delay's value is
    processor cycles."""

    op: Op
    address: int
    mask: int
    value: int


def access(chip: Chip, sheet: bytes, position: int) -> Access:
    """What the step at a position of a sheet, from 0 on, does to the chip. Refusal 20: no step of this chip is there."""
    left = (_U32 * 3)()
    op = _answer(_call("access", (_U8, chip), *_sheet(sheet), (_U32, position), left))
    return Access(Op(op), *left)


class Progress(enum.Enum):
    DONE = 0
    PASSED = 1
    WAITING = 2


class Handed(NamedTuple):
    """A step to carry out, as its 64-bit word; the kind is in the six highest bits."""

    word: int


def _progress(number: int) -> Union[Progress, Handed]:
    return Handed(number) if number >= _STEP else Progress(_answer(number))


class _Lent:
    """Numbers and a kept sheet that the library works on."""

    def __init__(self, numbers, count, kept):
        if len(kept) != SHEET_BYTES:
            raise ValueError(f"{len(kept)} bytes instead of {SHEET_BYTES}")
        self._numbers, self._kept = _numbers(_U32, numbers, count), _bytes(kept)

    @property
    def numbers(self) -> tuple[int, ...]:
        return tuple(self._numbers)

    @property
    def kept(self) -> bytes:
        return bytes(self._kept)


class Runner(_Lent):
    """Takes one step after another of the sheet that it was started with."""

    def __init__(self, numbers=(0,) * 15, kept=bytes(SHEET_BYTES)):
        """Position, lock polls, total of unready polls, stopped mark, kept length, ten frequencies; the kept sheet."""
        super().__init__(numbers, 15, kept)

    @property
    def frequencies(self) -> tuple[int, ...]:
        """The ten stored frequencies: rosc, xosc, pll_sys, pll_usb, ref, sys, peri, usb, adc, rtc."""
        return self.numbers[5:]

    def start(self, sheet: bytes) -> None:
        """Keeps the sheet and makes the runner fresh, stopped or not. Refusal 20 for the sheet's length alone."""
        _answer(_call("start", self._numbers, self._kept, *_sheet(sheet)))

    def poll(self, sheet: bytes, ready: bool) -> Union[Progress, Handed]:
        """One call over the sheet that the runner was started with; ready says whether what a wait waits for is there.
        Refusals 21, 22, 27, 20."""
        return _progress(_call("run", self._numbers, self._kept, *_sheet(sheet), (_BOOL, ready)))


class Bench(_Lent):
    """Eight boards, each a runner of its own, and the sheet that all were started with."""

    def __init__(self, numbers=(0,) * 113, kept=bytes(SHEET_BYTES)):
        """Of each board 14 numbers, a runner's without the kept length; then the kept length; the kept sheet."""
        super().__init__(numbers, 113, kept)

    def board(self, board: int) -> tuple[int, ...]:
        """The fourteen numbers of a board, the frequencies from the fifth on. Refusal 28 where its number is over 7."""
        if not 0 <= board <= 7:
            raise Refused(28)
        return self.numbers[14 * board : 14 * board + 14]

    def start(self, sheet: bytes) -> None:
        """Keeps the sheet and makes all eight boards fresh. Refusal 20 for the sheet's length alone."""
        _answer(_call("bench_start", self._numbers, self._kept, *_sheet(sheet)))

    def poll(self, board: int, sheet: bytes, ready: bool) -> Union[Progress, Handed]:
        """One call for a board, as Runner.poll. Refusal 28 where its number is over 7, before all others."""
        words = self._numbers, self._kept, (_U8, board), *_sheet(sheet), (_BOOL, ready)
        return _progress(_call("bench_run", *words))


def longest_wait(k: int) -> Optional[int]:
    """How many polls may come before the first that is done, where no wait hears more than k unready ones; from 1000000 on a
    lock may time out: None."""
    calls = _call("longest_wait", (_U32, k), result=_U32)
    return None if calls == 0xFFFFFFFF else calls


class Slept(NamedTuple):
    """The eleven register words after a sleep or a wake, and its steps: a register 0 to 10 and the value to be written to it,
    or a wait and 0: 11 ring stable, 12 crystal stable, 13 system PLL locked, 14 USB PLL locked."""

    words: tuple[int, ...]
    steps: tuple[tuple[int, int], ...]


class Slots:
    """Four slots, each with the words handed to the last sleep in it: docs/SLEEP.md."""

    def __init__(self, numbers=(0,) * 48):
        """Of each slot a flag and eleven words."""
        self._numbers = _numbers(_U32, numbers, 48)

    @property
    def numbers(self) -> tuple[int, ...]:
        return tuple(self._numbers)

    def sleep(self, slot: int, words) -> Slept:
        """Saves the words in a slot, and gives those of the sleeping chip. Refusal 29."""
        return self._call("sleep", slot, words)

    def wake(self, slot: int, words) -> Slept:
        """Gives the words of the last sleep in the slot, which keeps them. Refusals 29, 30."""
        return self._call("wake", slot, words)

    def _call(self, name, slot, words):
        words, steps = _numbers(_U32, words, 11), (_U32 * 28)()
        count = _answer(_call(name, self._numbers, (_U8, slot), words, steps))
        return Slept(tuple(words), tuple(zip(steps[0:count:2], steps[1:count:2])))
