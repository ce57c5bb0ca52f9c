/* The library on the PC: of each line of standard input, the length of its answer on a line, then the answer. */
#include <stdint.h>
#include <stdio.h>

uint64_t dizbaral_answer(const uint8_t *line, uint64_t length, uint8_t *out, uint64_t room);

int main(void) {
    static uint8_t line[16384], out[131072];
    uint64_t length = 0;
    for (int c; (c = getchar()) != EOF;) {
        if (c != '\n') {
            if (length < sizeof line)
                line[length++] = (uint8_t)c;
            continue;
        }
        uint64_t n = dizbaral_answer(line, length, out, sizeof out);
        printf("%llu\n", (unsigned long long)n);
        fwrite(out, 1, n, stdout);
        length = 0;
    }
    return 0;
}
