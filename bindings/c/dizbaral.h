/* Clock sheets for the RP2040 and the RP235x, from the proved library libexport.a. libfirmware.a, for a board
 * (docs/BOARD.md), has dizbaral_start, dizbaral_run and dizbaral_access alone.
 *
 * Every function is total: it answers every input, and its answer is one number.
 *   below DIZBARAL_REFUSAL   the value, as each function says
 *   DIZBARAL_REFUSAL + n     refusal n of docs/FORMAT.md
 *   DIZBARAL_MALFORMED       the numbers given are of no plan, no runner, no board or no slots
 *   from DIZBARAL_STEP on    (dizbaral_run and dizbaral_bench_run only) the word of a step
 * After a refusal or DIZBARAL_MALFORMED all that was lent is as it was before, but for the lock timeout of
 * these two. Every function looks first whether there is such a board or slot (28, 29), then whether the numbers are
 * malformed, then for the other refusals.
 *
 * A pointer with a length behind it is a buffer of that many elements; no function keeps it. Lengths are 64 bits wide on
 * every machine, as in the proofs. No pointer may be NULL, also where the length is 0. Two buffers of one call may not
 * overlap, and nobody else may change a buffer during the call, nor read one that is written (those without const). */
#ifndef DIZBARAL_H
#define DIZBARAL_H

#include <stdbool.h>
#include <stdint.h>

#define DIZBARAL_REFUSAL ((uint64_t)1 << 48)
#define DIZBARAL_MALFORMED ((uint64_t)1 << 49)
#define DIZBARAL_ABSENT ((uint64_t)1 << 32)
#define DIZBARAL_STEP ((uint64_t)1 << 58)

/* What dizbaral_run and dizbaral_bench_run answer beside these. */
#define DIZBARAL_DONE ((uint64_t)0)
#define DIZBARAL_PASSED ((uint64_t)1)
#define DIZBARAL_WAITING ((uint64_t)2)

/* The chips; any other number is malformed. */
#define DIZBARAL_RP2040 ((uint8_t)0)
#define DIZBARAL_RP235X ((uint8_t)1)

/* What dizbaral_access answers. */
#define DIZBARAL_NOTHING ((uint64_t)0)
#define DIZBARAL_WRITE ((uint64_t)1)
#define DIZBARAL_CHANGE ((uint64_t)2)
#define DIZBARAL_WAIT ((uint64_t)3)
#define DIZBARAL_DELAY ((uint64_t)4)

/* A sheet has at most this many bytes. */
#define DIZBARAL_SHEET_BYTES 528

/* The settings of a 12 MHz crystal, which the book has by output. */
#define DIZBARAL_BOOK_LINES 1988

/* A bench has eight boards, of 14 numbers each, and the kept length. */
#define DIZBARAL_BENCH_NUMBERS 113

/* What a step of a sleep or a wake waits for. */
#define DIZBARAL_RING_STABLE 11
#define DIZBARAL_CRYSTAL_STABLE 12
#define DIZBARAL_SYS_LOCK 13
#define DIZBARAL_USB_LOCK 14

#ifdef __cplusplus
extern "C" {
#endif

/* find_pll_params: the setting for a target, as
 * reference divider << 32 | feedback divider << 16 | post divider 1 << 8 | post divider 2. Refusal 15. */
uint64_t dizbaral_search(uint32_t input_hz, uint32_t target_hz);

/* The same at 12 MHz from the book of its DIZBARAL_BOOK_LINES settings: dizbaral_lookup(hz) is dizbaral_search(12000000, hz). */
uint64_t dizbaral_lookup(uint32_t target_hz);

/* Whoever looks up more than once keeps the book: dizbaral_open_book writes it, and dizbaral_lookup_in is
 * dizbaral_lookup in it. An entry is output in Hz * 100000 + feedback divider * 100 + post divider 1 * 10 + post
 * divider 2, by output, those of equal outputs in the order of the search. */
void dizbaral_open_book(uint64_t book[DIZBARAL_BOOK_LINES]);
uint64_t dizbaral_lookup_in(const uint64_t book[DIZBARAL_BOOK_LINES], uint32_t target_hz);

/* find_usb_pll: the setting that makes 48 MHz of a crystal with no remainder, as dizbaral_search answers one.
 * Refusal 25. */
uint64_t dizbaral_usb_pll(uint32_t crystal_hz);

/* Writes the greatest lower target and the smallest higher target whose settings differ from the target's, each
 * DIZBARAL_ABSENT where no target of 32 bits is such. All targets between the two share the setting. 0, or refusal 15. */
uint64_t dizbaral_target_margin(uint32_t input_hz, uint32_t target_hz, uint64_t limits[2]);

/* is_valid: whether the four dividers are valid for an input frequency. */
bool dizbaral_is_valid(uint32_t input_hz, uint8_t refdiv, uint16_t fbdiv, uint8_t post_div1, uint8_t post_div2);

/* output_frequency: the frequency in Hz, with no test of validity. Refusal 16. */
uint64_t dizbaral_output_frequency(uint32_t input_hz, uint8_t refdiv, uint16_t fbdiv, uint8_t post_div1,
                                   uint8_t post_div2);

/* core_voltage: of a reading of the chip's regulator, voltage code << 8 | brownout level. Refusal 18. */
uint64_t dizbaral_core_voltage(uint8_t chip, uint8_t reading);

/* calculate_pio_clock_divider_value: the divider in 256ths. Refusal 17. */
uint64_t dizbaral_pio_divider(uint32_t sys_hz, uint32_t target_hz);

/* Gpout get_freq: the frequency in Hz of a clock output with this source code and divider, over the ten stored
 * frequencies (rosc, xosc, pll_sys, pll_usb, ref, sys, peri, usb, adc, rtc). Refusal 23; malformed where a fraction
 * of the RP2040 has more than 8 bits. */
uint64_t dizbaral_gpout_frequency(uint8_t chip, uint8_t source, uint32_t whole, uint16_t fraction,
                                  const uint32_t freqs[10]);

/* Writes the sheet of the chip's system_freq plan (12 MHz crystal) at a reading of the regulator to the start of the
 * buffer. The length in bytes; bytes past it keep their values. Refusals 18, 1 to 14, 19. */
uint64_t dizbaral_system_sheet(uint8_t chip, uint32_t hz, uint8_t reading, uint8_t *sheet, uint64_t length);

/* The same for a crystal of crystal_hz, with the PLLs that dizbaral_search and dizbaral_usb_pll find. Before the other
 * refusals 15, then 25. */
uint64_t dizbaral_system_sheet_from(uint8_t chip, uint32_t crystal_hz, uint32_t hz, uint8_t reading, uint8_t *sheet,
                                    uint64_t length);

/* The same for a plan of 48 numbers, 43 for the RP235x: docs/CASES.md, A plan in numbers. Malformed where they are of
 * no plan. */
uint64_t dizbaral_plan_sheet(uint8_t chip, const uint32_t *plan, uint64_t numbers, uint8_t reading, uint8_t *sheet,
                             uint64_t length);

/* The presets: the numbers of the plan that the Rust's function of that name makes, as dizbaral_plan_sheet takes them. The
 * plan's chip, with as many numbers as dizbaral_read_sheet writes. dizbaral_system_freq_from has refusals 15, then 25;
 * dizbaral_manual_pll, whose chip is the RP2040, has refusal 5 and is malformed for a code that no voltage has. */
uint64_t dizbaral_crystal(uint8_t chip, uint32_t crystal_hz, uint32_t plan[48]);
uint64_t dizbaral_rosc(uint8_t chip, uint32_t plan[48]);
uint64_t dizbaral_default(uint8_t chip, uint32_t plan[48]);
uint64_t dizbaral_system_freq(uint8_t chip, uint32_t hz, uint32_t plan[48]);
uint64_t dizbaral_system_freq_from(uint8_t chip, uint32_t crystal_hz, uint32_t hz, uint32_t plan[48]);
uint64_t dizbaral_manual_pll(uint32_t crystal_hz, uint8_t refdiv, uint16_t fbdiv, uint8_t post_div1, uint8_t post_div2,
                             uint8_t voltage, uint32_t plan[48]);

/* read_sheet: writes the numbers of the plan whose sheet at this reading is exactly these bytes, with the smallest delay
 * multiplier and the smallest settling time, which is given. The plan's chip: DIZBARAL_RP2040 with 48 numbers,
 * DIZBARAL_RP235X with 43; numbers past them keep their values. Refusals 18, 26. */
uint64_t dizbaral_read_sheet(const uint8_t *sheet, uint64_t length, uint8_t reading, uint32_t plan[48]);

/* Writes every setting that gives the target with no remainder, each once, two bytes each, most significant first:
 * feedback divider (9 bits), post dividers (3)(3), a zero bit. The lowest feedback divider comes first, then the
 * greatest post 1, then the greatest post 2. The length in bytes. Refusal 19. */
uint64_t dizbaral_list(uint32_t input_hz, uint32_t target_hz, uint8_t *list, uint64_t length);

/* Starts a runner with a sheet: 0, and the runner is fresh, with the sheet and its length kept and zeros past it. It may
 * have been anything before, zeros or a run that stopped. Refusal 20 for the length, where nothing changes.
 * The caller lends a runner as 15 numbers (position, lock polls, total of unready polls, stopped mark, kept length, ten
 * frequencies) and its kept bytes, and leaves both alone between the calls. All zeros are a runner before any start,
 * whose kept sheet is empty. */
uint64_t dizbaral_start(uint32_t runner[15], uint8_t kept[DIZBARAL_SHEET_BYTES], const uint8_t *sheet, uint64_t length);

/* One call of the runner over the sheet that it was started with: DIZBARAL_DONE, DIZBARAL_PASSED, DIZBARAL_WAITING, or
 * the word of the step that is handed out (its kind in the six highest bits). ready says whether what the step waits
 * for is there.
 * A stopped mark other than 0 and 1 is malformed. Refusals 21 (also a kept length over DIZBARAL_SHEET_BYTES or no
 * multiple of 8), 22, 27 (the sheet is not the kept one), 20.
 * The lock timeout, the first refusal 22 of a run, sets the stopped mark and adds 1 to the total; position, lock polls
 * and frequencies stay. */
uint64_t dizbaral_run(uint32_t runner[15], const uint8_t kept[DIZBARAL_SHEET_BYTES], const uint8_t *sheet,
                      uint64_t length, bool ready);

/* What the step at a position of a sheet, from 0 on, does to the chip; in access the address of a register, a mask and a
 * value:
 *   DIZBARAL_NOTHING   no register (a store, the chip mark): all 0
 *   DIZBARAL_WRITE     the whole register becomes the value
 *   DIZBARAL_CHANGE    its bits in the mask become the value's, the others stay
 *   DIZBARAL_WAIT      wait until its bits in the mask are the value
 *   DIZBARAL_DELAY     let as many processor cycles pass as the value says; address and mask are 0
 * Refusal 20: at this position is no step, or none that the chip has. */
uint64_t dizbaral_access(uint8_t chip, const uint8_t *sheet, uint64_t length, uint32_t position, uint32_t access[3]);

/* Starts eight boards with one sheet: 0, and all are fresh. They may have been anything before. Refusal 20 for the
 * length, where nothing changes.
 * The caller lends a bench as 113 numbers (of each board from 0 to 7 position, lock polls, total of unready polls, stopped
 * mark, ten frequencies; then the kept length) and its kept bytes, and leaves both alone between the calls. */
uint64_t dizbaral_bench_start(uint32_t bench[DIZBARAL_BENCH_NUMBERS], uint8_t kept[DIZBARAL_SHEET_BYTES],
                              const uint8_t *sheet, uint64_t length);

/* One call for a board: refusal 28 where the number is over 7, else what dizbaral_run does for a runner of its own that
 * was started with the same sheet. Nothing of another board is looked at or changed. */
uint64_t dizbaral_bench_run(uint32_t bench[DIZBARAL_BENCH_NUMBERS], const uint8_t kept[DIZBARAL_SHEET_BYTES],
                            uint8_t board, const uint8_t *sheet, uint64_t length, bool ready);

/* How long to wait for a sheet of this library: where no wait of a started runner's run hears more than k unready
 * polls, at most this many calls of dizbaral_run come before the first that answers DIZBARAL_DONE, and none is refused.
 * 66 + 10 * k. From 1000000 on a lock may time out, and the answer is 4294967295. */
uint32_t dizbaral_longest_wait(uint32_t k);

/* Sleep (docs/SLEEP.md): saves the eleven register words in a slot from 0 to 3, and makes them the words of the sleeping
 * chip. The four slots are 48 numbers, a flag (1 where it is saved, else 0; any other is malformed) and eleven words
 * each; with nothing saved they are zeros. The steps are written as two numbers each: a register and the value to be
 * written to it, or one of the waits above and 0. How many numbers of steps were written; those past them keep their
 * values. Refusal 29. */
uint64_t dizbaral_sleep(uint32_t slots[48], uint8_t slot, uint32_t words[11], uint32_t steps[28]);

/* Wake: the same, and makes the words those of the last sleep in the slot, which keeps them. Refusals 29, 30. */
uint64_t dizbaral_wake(uint32_t slots[48], uint8_t slot, uint32_t words[11], uint32_t steps[28]);

#ifdef __cplusplus
}
#endif

#endif
