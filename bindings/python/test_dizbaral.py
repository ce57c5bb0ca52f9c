"""The worked rows of docs/FORMAT.md and docs/PLL.md, sheets, runs, boards, accesses, sleep and wake, over the shared library."""

import pathlib
import random
import unittest

import dizbaral
from dizbaral import Access, Bench, Chip, Handed, Malformed, Op, PllConfig, Progress, Refused, Runner, Slots

MHZ = 1_000_000
BOTH = (Chip.RP2040, 125 * MHZ), (Chip.RP235X, 150 * MHZ)
FREQUENCIES = (6_500_000, 12 * MHZ, 125 * MHZ, 48 * MHZ, 12 * MHZ, 125 * MHZ, 125 * MHZ, 48 * MHZ, 48 * MHZ, 46_875)

# The crystal preset as numbers; its first 43 with a post divider 1 of 5 are the RP235x's.
CRYSTAL = (
    *(1, 6_500_000, 1, 0, 0, 0, 0, 0, 0, 0, 0, 16),
    *(1, 12 * MHZ, 128, 1, 1, 125, 6, 2, 1, 1, 120, 6, 5, 11, 0, 0),
    *(2, 1, 1, 1, 0, 1, 0, 1, 0, 1, 0, 1, 0, 1, 0, 1, 0, 1024, 0, 0),
)


def sheet_of(hz=125 * MHZ):
    return dizbaral.system_sheet(Chip.RP2040, hz, 11)


class Test(unittest.TestCase):
    def refused(self, number, call, *words, **named):
        with self.assertRaises(Refused) as raised:
            call(*words, **named)
        self.assertEqual((raised.exception.number, str(raised.exception)), (number, f"refused {number}"))


class Rows(Test):
    def test_search(self):
        for target, *dividers in (125 * MHZ, 125, 6, 2), (133 * MHZ + 1, 133, 6, 2), (200 * MHZ, 100, 6, 1), (0, 63, 7, 7):
            self.assertEqual(dizbaral.find_pll_params(12 * MHZ, target), PllConfig(1, *dividers))
        for hz in 3_000_000, 4_999_999, 100_000_001:
            self.refused(15, dizbaral.find_pll_params, hz, 48 * MHZ)

    def test_book(self):
        book = dizbaral.Book()
        self.assertEqual(book.line(0), (15_428_571, PllConfig(1, 63, 7, 7)))
        self.assertEqual(book.line(1987), (1_596_000_000, PllConfig(1, 133, 1, 1)))
        for at in range(0, dizbaral.BOOK_LINES, 71):
            target = book.line(at)[0] + 1
            found = dizbaral.find_pll_params(12 * MHZ, target)
            self.assertEqual((book.lookup(target), dizbaral.lookup(target)), (found, found))

    def test_usb_pll(self):
        self.assertEqual(dizbaral.find_usb_pll(12 * MHZ), PllConfig(1, 120, 6, 5))
        self.assertEqual(dizbaral.find_usb_pll(20_250_000), PllConfig(3, 128, 6, 3))
        self.refused(25, dizbaral.find_usb_pll, 11 * MHZ)

    def test_margin(self):
        self.assertEqual(dizbaral.target_margin(12 * MHZ, 125 * MHZ), (124_899_999, 125_071_429))
        self.assertEqual(dizbaral.target_margin(12 * MHZ, 0), (None, 15_551_020))
        self.assertEqual(dizbaral.target_margin(12 * MHZ, 2**32 - 1), (1_589_999_999, None))
        self.refused(15, dizbaral.target_margin, 4_999_999, 125 * MHZ)

    def test_settings(self):
        self.assertTrue(PllConfig(1, 150, 1, 1).is_valid(5 * MHZ))
        self.assertFalse(PllConfig(1, 149, 1, 1).is_valid(5 * MHZ))
        self.assertEqual(PllConfig(1, 125, 6, 2).output_frequency(12 * MHZ), 125 * MHZ)
        self.refused(16, PllConfig(1, 125, 0, 2).output_frequency, 12 * MHZ)

    def test_gpout(self):
        frequencies = [0, 0, 0, 0, 0, 131_070_000, 0, 0, 0, 0]
        self.assertEqual(dizbaral.gpout_frequency(Chip.RP2040, 6, 0, 0, frequencies), 1999)
        self.refused(23, dizbaral.gpout_frequency, Chip.RP2040, 9, 1, 0, frequencies)
        self.assertRaises(Malformed, dizbaral.gpout_frequency, Chip.RP2040, 0, 1, 256, frequencies)
        self.assertRaises(ValueError, dizbaral.gpout_frequency, Chip.RP2040, 6, 0, 0, frequencies[1:])

    def test_pio_and_voltage(self):
        self.assertEqual(dizbaral.pio_divider(125 * MHZ, 100 * MHZ), 320)
        self.refused(17, dizbaral.pio_divider, 124_999_999, 125 * MHZ)
        self.assertEqual(dizbaral.core_voltage(Chip.RP2040, 11), (11, 9))
        self.refused(18, dizbaral.core_voltage, Chip.RP2040, 5)
        self.assertRaises(Malformed, dizbaral.core_voltage, 2, 11)

    def test_a_number_that_does_not_fit_is_not_cut(self):
        for number in -1, 2**32:
            self.assertRaises(OverflowError, dizbaral.find_pll_params, 12 * MHZ, number)
        self.assertRaises(OverflowError, dizbaral.core_voltage, Chip.RP2040, 256 + 11)

    def test_list(self):
        settings = dizbaral.list(12 * MHZ, 125 * MHZ)
        self.assertEqual(settings, (PllConfig(1, 125, 6, 2), PllConfig(1, 125, 4, 3)))
        self.refused(19, dizbaral.list, 12 * MHZ, 125 * MHZ, room=3)
        self.assertEqual(dizbaral.list(12 * MHZ, 1, room=0), ())


class Sheets(Test):
    def test_presets(self):
        sheet = sheet_of()
        self.assertEqual((len(sheet), sheet[:8]), (62 * 8, (1 << 58 | 0x0FBCDBF << 33).to_bytes(8, "big")))
        self.assertEqual(dizbaral.plan_sheet(Chip.RP2040, CRYSTAL, 11), sheet)
        plan = CRYSTAL[:18] + (5,) + CRYSTAL[19:43]
        sheet = dizbaral.system_sheet(Chip.RP235X, 150 * MHZ, 11)
        self.assertEqual((len(sheet), sheet[:8]), (63 * 8, (38 << 58).to_bytes(8, "big")))
        self.assertEqual(dizbaral.plan_sheet(Chip.RP235X, plan, 11), sheet)
        self.assertRaises(Malformed, dizbaral.plan_sheet, Chip.RP235X, CRYSTAL, 11)
        self.assertRaises(Malformed, dizbaral.plan_sheet, Chip.RP2040, plan, 11)

    def test_another_crystal(self):
        self.assertEqual(dizbaral.system_sheet_from(Chip.RP2040, 12 * MHZ, 125 * MHZ, 11), sheet_of())
        self.assertNotEqual(dizbaral.system_sheet_from(Chip.RP2040, 8 * MHZ, 125 * MHZ, 11), sheet_of())
        self.refused(25, dizbaral.system_sheet_from, Chip.RP2040, 13 * MHZ, 125 * MHZ, 16)
        self.refused(15, dizbaral.system_sheet_from, Chip.RP2040, 5 * MHZ - 1, 125 * MHZ, 16)

    def test_refusals(self):
        self.refused(19, dizbaral.system_sheet, Chip.RP2040, 125 * MHZ, 11, room=495)
        self.refused(18, dizbaral.system_sheet, Chip.RP2040, 125 * MHZ, 16, room=0)
        self.refused(18, dizbaral.system_sheet, Chip.RP235X, 150 * MHZ, 32)
        self.refused(5, dizbaral.plan_sheet, Chip.RP2040, CRYSTAL[:17] + (321,) + CRYSTAL[18:], 11)
        self.assertRaises(Malformed, dizbaral.plan_sheet, Chip.RP2040, (2,) + CRYSTAL[1:], 11)

    def test_presets(self):
        self.assertEqual(dizbaral.crystal(Chip.RP2040, 12 * MHZ), (Chip.RP2040, CRYSTAL))
        for chip, hz in BOTH:
            plan = dizbaral.system_freq(chip, hz)
            self.assertEqual(plan, dizbaral.crystal(chip, 12 * MHZ))
            self.assertEqual(dizbaral.plan_sheet(chip, plan.numbers, 11), dizbaral.system_sheet(chip, hz, 11))
            self.assertTrue(dizbaral.plan_sheet(chip, dizbaral.rosc(chip).numbers, 11))
            self.refused(8, dizbaral.plan_sheet, chip, dizbaral.default(chip).numbers, 11)
            self.refused(15, dizbaral.system_freq_from, chip, 5 * MHZ - 1, 125 * MHZ)
            self.refused(25, dizbaral.system_freq_from, chip, 13 * MHZ, 125 * MHZ)
        pll = PllConfig(1, 133, 6, 2)
        plan = dizbaral.manual_pll(12 * MHZ, pll, 12)
        self.assertEqual((plan.chip, plan.numbers[0], plan.numbers[16:20], plan.numbers[25]), (Chip.RP2040, 0, pll, 12))
        self.refused(5, dizbaral.manual_pll, 12 * MHZ, PllConfig(1, 15, 6, 2), 12)
        self.assertRaises(Malformed, dizbaral.manual_pll, 12 * MHZ, pll, 3)

    def test_read_back(self):
        for chip, hz in BOTH:
            sheet = dizbaral.system_sheet(chip, hz, 11)
            plan = dizbaral.read_sheet(sheet, 11)
            self.assertEqual((plan.chip, plan.numbers[12:15]), (chip, (1, 12 * MHZ, 128)))
            self.assertEqual(dizbaral.plan_sheet(chip, plan.numbers, 11), sheet)
            for bit in range(0, len(sheet) * 8, 7):
                other = bytearray(sheet)
                other[bit // 8] ^= 1 << bit % 8
                try:
                    self.assertNotEqual(dizbaral.read_sheet(other, 11), plan)
                except Refused as refused:
                    self.assertEqual(refused.number, 26)
        self.refused(26, dizbaral.read_sheet, b"", 15)
        self.refused(18, dizbaral.read_sheet, b"", 16)


class Runs(Test):
    def test_a_run_stores_the_ten_frequencies(self):
        sheet, runner, kinds = sheet_of(), Runner(), []
        runner.start(sheet)
        while (progress := runner.poll(sheet, True)) != Progress.DONE:
            if isinstance(progress, Handed):
                kinds.append(progress.word >> 58)
        self.assertEqual(runner.frequencies, FREQUENCIES)
        self.assertEqual((kinds[0], kinds[-1], len(kinds)), (1, 2, 62 - 10))

    def test_bad_sheets(self):
        runner = Runner()
        for sheet in bytes(9), bytes(536):
            self.refused(20, runner.start, sheet)
            self.assertEqual((runner.numbers, runner.kept), (Runner().numbers, Runner().kept))
        runner.start(bytes(8))
        self.refused(20, runner.poll, bytes(8), True)
        self.refused(27, runner.poll, sheet_of(), True)
        self.assertEqual(Runner().poll(b"", True), Progress.DONE)

    def test_a_lock_times_out_at_the_millionth_poll(self):
        sheet, runner = (22 << 58).to_bytes(8, "big"), Runner()
        runner.start(sheet)
        runner = Runner((0, 999_998, *runner.numbers[2:]), runner.kept)
        self.assertEqual(runner.poll(sheet, False), Progress.WAITING)
        for ready in False, True:
            self.refused(22, runner.poll, sheet, ready)
            self.assertEqual(runner.numbers[:4], (0, 999_999, 2, 1))
        self.assertRaises(Malformed, Runner((0, 0, 0, 2, *[0] * 11)).poll, sheet, True)

    def test_accepted_plans_come_up_in_time(self):
        answers, draw, came = pathlib.Path(__file__).resolve().parents[2] / "crates" / "answers", random.Random(4), 0
        cases = zip((answers / "stdin").read_text().splitlines(), (answers / "stdout").read_text().splitlines())
        for case, answer in cases:
            if not case.startswith("sheet ") or answer.startswith("refused") or came == 200:
                continue
            reading, _, chip, *plan = map(int, case.split(" ")[1:])
            sheet, runner, k = dizbaral.plan_sheet(Chip(chip), plan, reading), Runner(), draw.randrange(5)
            self.assertEqual(sheet.hex(), answer.split(" ")[1])
            runner.start(sheet)
            calls, left = 0, k
            while (progress := runner.poll(sheet, left == 0)) != Progress.DONE:
                calls += 1
                left = left - 1 if progress == Progress.WAITING else draw.randrange(k + 1) if progress == Progress.PASSED else left
            self.assertTrue(len(sheet) // 8 <= calls <= dizbaral.longest_wait(k))
            came += 1
        self.assertEqual(came, 200)

    def test_longest_waits(self):
        self.assertEqual([*map(dizbaral.longest_wait, (0, 1, 999_999, 10**6))], [66, 76, 10_000_056, None])

    def test_boards_are_runners_in_any_order(self):
        sheet, bench, runners, draw = sheet_of(), Bench(), [Runner() for _ in range(8)], random.Random(9)
        bench.start(sheet)
        for runner in runners:
            runner.start(sheet)
        for _ in range(2000):
            board, ready = draw.randrange(8), draw.random() < 0.5
            self.assertEqual(bench.poll(board, sheet, ready), runners[board].poll(sheet, ready))
        for board, runner in enumerate(runners):
            self.assertEqual(bench.board(board), runner.numbers[:4] + runner.frequencies)
        self.refused(28, bench.poll, 8, sheet, True)
        self.refused(28, bench.board, 8)
        self.refused(20, bench.start, bytes(9))
        self.refused(27, Bench().poll, 7, sheet, True)


class Accesses(Test):
    def test_a_sheet_is_its_own_chips_alone(self):
        for chip, hz in BOTH:
            sheet, refused = dizbaral.system_sheet(chip, hz, 11), 0
            for position in range(len(sheet) // 8):
                dizbaral.access(chip, sheet, position)
                try:
                    dizbaral.access(Chip(1 - chip), sheet, position)
                except Refused as other:
                    self.assertEqual(other.number, 20)
                    refused += 1
            self.assertGreater(refused, 0)
            self.refused(20, dizbaral.access, chip, sheet, len(sheet) // 8)

    def test_worked_steps(self):
        def at(chip, word):
            return dizbaral.access(chip, word.to_bytes(8, "big"), 0)

        posts = 0x5D90_0000_0000_0000  # 23(0, 6, 2): PLL PRIM
        self.assertEqual(at(Chip.RP2040, posts), Access(Op.WRITE, 0x4002_800C, 0xFFFF_FFFF, 0x62000))
        self.assertEqual(at(Chip.RP235X, posts), Access(Op.WRITE, 0x4005_000C, 0xFFFF_FFFF, 0x62000))
        voltage = 43 << 58 | 11 << 53  # 43(11): the regulator of the RP235x, with the password
        self.assertEqual(at(Chip.RP235X, voltage), Access(Op.CHANGE, 0x4010_000C, 0xFFFF_01F0, 0x5AFE_00B0))
        self.refused(20, at, Chip.RP2040, voltage)
        four = 26 << 58  # 26(0): a reference divider of 4
        self.assertEqual(at(Chip.RP2040, four).value, 0)
        self.assertEqual(at(Chip.RP235X, four).value, 0x40000)
        self.assertEqual(at(Chip.RP2040, 14 << 58 | 100 << 26), Access(Op.DELAY, 0, 0, 100))


class Sleeps(Test):
    AWAKE = (2048, 2048, 2048, 0xFABFA4, 0xAA0, 2, 1, 0, 0, 0xFABAA0, 3)
    ASLEEP = (0, 0, 0, 0xFABFA4, 0xAA0, 0, 0, 33, 33, 0xD1EAA0, 11)

    def test_a_wake_gives_back_what_slept_again_and_again(self):
        slots = Slots()
        slept = slots.sleep(2, self.AWAKE)
        self.assertEqual((slept.words, len(slept.steps), slept.steps[5]), (self.ASLEEP, 12, (11, 0)))
        self.assertEqual(slots.numbers[24:36], (1, *self.AWAKE))
        for _ in range(2):
            woken = slots.wake(2, [7] * 11)
            self.assertEqual(woken.words, self.AWAKE)
            self.assertEqual(woken.steps[1:7:1], ((9, 0xFABAA0), (12, 0), (8, 0), (14, 0), (7, 0), (13, 0)))

    def test_refusals(self):
        slots = Slots()
        slots.sleep(3, self.AWAKE)
        before = slots.numbers
        self.refused(29, slots.sleep, 4, self.AWAKE)
        self.refused(29, slots.wake, 4, self.AWAKE)
        self.refused(30, slots.wake, 0, self.AWAKE)
        self.assertRaises(Malformed, Slots((2, *[0] * 47)).sleep, 1, self.AWAKE)
        self.assertEqual(slots.numbers, before)


if __name__ == "__main__":
    unittest.main()
