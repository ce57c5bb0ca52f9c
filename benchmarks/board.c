/* The preset's sheet (sheet.h) on a bare Cortex-M0, for benchmarks/board: each call by itself, then firmware/execute.c. A register
 * that is waited for is ready at once, and delays are only added up. */
#include <stdint.h>

/* dizbaral_access writes address, mask and value: a wait passes where the register has the third. */
#define REGISTER_READ(address) ((&(address))[2])
#define REGISTER_WRITE(address, value) (written = (address), written = (value))
#define LET_PASS(cycles) (delayed += (cycles))
static volatile uint32_t written, delayed;
#include "../targets/firmware/execute.c"
#include "sheet.h"

enum { STACK = 0x1000, PAINT = 0x51ac51ac };

static uint32_t runner[15];
static uint8_t kept[DIZBARAL_SHEET_BYTES];

static uint32_t semihosting(uint32_t operation, const void *argument) {
    register uint32_t r0 __asm__("r0") = operation;
    register const void *r1 __asm__("r1") = argument;
    __asm__ volatile("bkpt 0xab" : "+r"(r0) : "r"(r1) : "memory");
    return r0;
}

static void say(const char *name, uint32_t number) {
    char digits[12] = {[10] = '\n'};
    int at = 10;
    do
        digits[--at] = (char)('0' + number % 10);
    while ((number /= 10) != 0);
    semihosting(4, name);
    semihosting(4, digits + at);
}

/* How deep the stack goes under the frame of the caller: painted before the code, looked at after it. */
#define DEPTH(code)                                                                                                            \
    __extension__({                                                                                                            \
        uint32_t *top;                                                                                                         \
        __asm__ volatile("mov %0, sp" : "=r"(top));                                                                            \
        uint32_t *low = top - STACK / 4;                                                                                       \
        for (uint32_t *word = low; word < top; word++)                                                                         \
            *word = PAINT;                                                                                                     \
        __asm__ volatile("" ::: "memory");                                                                                     \
        code;                                                                                                                  \
        __asm__ volatile("" ::: "memory");                                                                                     \
        while (*low == PAINT)                                                                                                  \
            low++;                                                                                                             \
        4 * (uint32_t)(top - low);                                                                                             \
    })

static uint64_t answer;

static void access_all(void) {
    uint32_t at[3];
    for (uint32_t position = 0; 8 * position < sizeof sheet; position++)
        dizbaral_access(DIZBARAL_RP2040, sheet, sizeof sheet, position, at);
}

static void run_all(void) {
    for (uint32_t call = 0; call <= sizeof sheet / 8; call++)
        answer = dizbaral_run(runner, kept, sheet, sizeof sheet, true);
}

__attribute__((noinline)) static void carry_out(void) {
    answer = dizbaral_execute(DIZBARAL_RP2040, sheet, sizeof sheet, runner, kept);
}

void reset(void) {
    say("stack dizbaral_start ", DEPTH(answer = dizbaral_start(runner, kept, sheet, sizeof sheet)));
    say("stack dizbaral_access ", DEPTH(access_all()));
    say("stack dizbaral_run ", DEPTH(run_all()));
    say("stack dizbaral_execute ", DEPTH(carry_out()));
    say("answer ", (uint32_t)answer);
    say("system ", runner[10]);
    say("delayed ", delayed);
    semihosting(0x18, (const void *)0x20026);
}

static void fault(void) {
    semihosting(4, "fault\n");
    semihosting(0x18, (const void *)0x20026);
}

__attribute__((section(".vectors"))) const void *const vectors[16] = {(void *)0x20004000, (void *)reset, (void *)fault,
                                                                      (void *)fault};
