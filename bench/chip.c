/* Times a page read and a page program through the chip model against a plain copy of the same 2,176 bytes. */
#include <stdint.h>
#include <stdio.h>
#include <stdlib.h>
#include <string.h>
#include <time.h>

#include "table.h"

enum { PAGE = 2176, PAGES = 64, BLOCKS = 4096, ROUNDS = 200000, REPEATS = 7 };

size_t chip_bench_read(uint8_t *array, size_t array_len, uint8_t *reg, size_t reg_len, uint8_t *history,
                       size_t history_len, const uint8_t *mask, size_t mask_len, const uint32_t *fates,
                       size_t fates_len, size_t row, uint8_t *buffer, size_t buffer_len);
size_t chip_bench_program(uint8_t *array, size_t array_len, uint8_t *reg, size_t reg_len, uint8_t *history,
                          size_t history_len, const uint8_t *mask, size_t mask_len, const uint32_t *fates,
                          size_t fates_len, size_t row, const uint8_t *data, size_t data_len);

static double now_ns(void) {
    struct timespec t;
    clock_gettime(CLOCK_PROCESS_CPUTIME_ID, &t);
    return t.tv_sec * 1e9 + t.tv_nsec;
}

static void copy(uint8_t *to, const uint8_t *from) {
    memcpy(to, from, PAGE);
    __asm__ volatile("" : : "r"(to), "r"(from) : "memory");
}

static double least(double a, double b) { return a < b ? a : b; }

int main(void) {
    size_t size = (size_t)PAGE * PAGES * BLOCKS;
    uint8_t *array = malloc(size), *mask = malloc(PAGE * PAGES), *history = malloc(BLOCKS);
    static uint8_t reg[PAGE], buffer[PAGE], data[PAGE];
    static const uint32_t fates[1] = {0};
    if (!array || !mask || !history) {
        return 1;
    }
    memset(array, 0xff, (size_t)PAGE * PAGES); /* block 0 is the only one used */
    memset(mask, 0xff, PAGE * PAGES);
    memset(history, 0, BLOCKS);
    memset(data, 0x5a, PAGE);
    double read = 1e18, program = 1e18, plain = 1e18;
    size_t read_cycles = 0, program_cycles = 0;
    for (int k = 0; k < REPEATS; k++) {
        double t = now_ns();
        for (int i = 0; i < ROUNDS; i++) {
            copy(buffer, data);
        }
        plain = least(plain, (now_ns() - t) / ROUNDS);
        t = now_ns();
        for (int i = 0; i < ROUNDS; i++) {
            read_cycles = chip_bench_read(array, size, reg, PAGE, history, BLOCKS, mask, PAGE * PAGES, fates, 0, 3,
                                          buffer, PAGE);
        }
        read = least(read, (now_ns() - t) / ROUNDS);
        t = now_ns();
        for (int i = 0; i < ROUNDS; i++) {
            history[0] = 0; /* as after an erase */
            program_cycles = chip_bench_program(array, size, reg, PAGE, history, BLOCKS, mask, PAGE * PAGES, fates, 0, 3,
                                                data, PAGE);
        }
        program = least(program, (now_ns() - t) / ROUNDS);
    }
    printf("\n| Operation | Cycles | Time | Times the copy |\n|---|---|---|---|\n");
    printf("| copy of a page | 0 | %.1f ns | 1.0 |\n", plain);
    print_row_of("read of a page", read_cycles);
    printf(" | %.1f ns | %.1f |\n", read, read / plain);
    print_row_of("program of a page", program_cycles);
    printf(" | %.1f ns | %.1f |\n", program, program / plain);
    return read_cycles == PAGE + 10 && program_cycles == PAGE + 9 && array[3 * PAGE] == 0x5a ? 0 : 1;
}
