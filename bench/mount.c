/*
 * Times a full mount through the chip model against one pass that counts the zero bits of the same array, by bytes and by words; and a
 * quick mount against a full one.
 */
#include <stdio.h>
#include <stdlib.h>
#include <string.h>
#include <time.h>

#include "../c/flash_store.h"
#include "table.h"

enum { MAIN = 2048, SPARE = 128, PAGE = MAIN + SPARE, PAGES = 64, BLOCK = PAGE * PAGES, MOST = 4096, REPEATS = 5 };

static uint8_t state[FLASH_STORE_STATE_BYTES], page_register[PAGE], history[MOST], mask[BLOCK];
static size_t interface[FLASH_STORE_INTERFACE_WORDS];
static const uint32_t fates[1]; /* none is lent: every operation passes */

static double now(void) {
    struct timespec t;
    clock_gettime(CLOCK_PROCESS_CPUTIME_ID, &t);
    return t.tv_sec + t.tv_nsec * 1e-9;
}

static double least(double a, double b) { return a < b ? a : b; }

__attribute__((noinline)) static size_t zero_bits(const uint8_t *bytes, size_t length) {
    size_t zeros = 0;
    for (size_t i = 0; i < length; i++) {
        zeros += 8 - __builtin_popcount(bytes[i]);
    }
    return zeros;
}

__attribute__((noinline)) static size_t zero_bits_of_words(const uint64_t *words, size_t length) {
    size_t zeros = 0;
    for (size_t i = 0; i < length; i++) {
        zeros += 64 - __builtin_popcountll(words[i]);
    }
    return zeros;
}

static void put_number(uint8_t *at, size_t bytes, size_t number) {
    for (size_t i = 0; i < bytes; i++) {
        at[i] = number >> (8 * i) & 0xff;
    }
}

/* Label and check of a page whose main bytes are there (docs/FORMAT.md). */
static void finish(uint8_t *page, uint8_t kind, size_t logical, size_t place, size_t number) {
    uint8_t *spare = page + MAIN;
    memset(spare, 0xff, SPARE);
    spare[1] = kind;
    put_number(spare + 2, 2, logical);
    put_number(spare + 4, 1, place);
    put_number(spare + 5, 8, number);
    put_number(spare + 13, 2, zero_bits(page, MAIN + 13));
}

/* Block 0 holds the table, with no invalid block; so many blocks in all are filled, the others each with a complete copy. */
static void fill(uint8_t *array, size_t blocks, size_t filled) {
    uint64_t random = 1;
    memset(array, 0xff, BLOCK * blocks);
    for (size_t b = 0; b < filled; b++) {
        for (size_t p = 0; p < PAGES; p++) {
            uint8_t *page = array + b * BLOCK + p * PAGE;
            memset(page, 0xff, MAIN);
            if (b > 0) {
                for (size_t i = 0; i < MAIN; i += 8) {
                    random = random * 6364136223846793005u + 1442695040888963407u;
                    put_number(page + i, 8, random);
                }
            } else if (p == 0) {
                put_number(page, 2, blocks);
                put_number(page + 2, 2, blocks - 2);
                put_number(page + 4, 2, 0);
                put_number(page + 6, 2, 8);
                memset(page + 8, 0, (blocks + 7) / 8);
            }
            finish(page, b > 0 ? 0x6c : 0x74, b > 0 ? (b - 1) % (blocks - 2) : 0, p, b + 1);
        }
    }
}

typedef size_t mount_call(size_t, size_t, size_t, size_t, size_t, uint8_t *, size_t, size_t *, size_t, uint8_t *, size_t, uint8_t *,
                          size_t, uint8_t *, size_t, const uint8_t *, size_t, const uint32_t *, size_t, uint32_t, size_t *,
                          size_t);

/* One mount of the 002 part, full or quick: its time, 0 where it was not answered 0 after so many cycles. */
static double time_mount(mount_call *call, uint8_t *array, size_t cycles) {
    size_t sent[1] = {0};
    double t = now();
    size_t answer = call(MAIN, SPARE, PAGES, MOST, MOST - 2, state, sizeof state, interface, FLASH_STORE_INTERFACE_WORDS, array,
                         (size_t)BLOCK * MOST, page_register, PAGE, history, MOST, mask, BLOCK, fates, 0, FLASH_STORE_UNCUT,
                         sent, 1);
    t = now() - t;
    return answer == FLASH_STORE_DONE && sent[0] == cycles ? t : 0;
}

/* A quick mount against a full one, in turn, best of the repeats; 1 where an answer or the cycles are not the expected ones. */
static int compare(const char *name, uint8_t *array, size_t filled) {
    size_t page = PAGE + 10, full_cycles = 3 + MOST * PAGES * page;
    size_t quick_cycles = 3 + filled * (PAGES * page + 11) + (MOST - filled) * (2 * page + 11);
    double full = 1e9, quick = 1e9;
    for (int k = 0; k < REPEATS; k++) {
        full = least(full, time_mount(flash_store_mount, array, full_cycles));
        quick = least(quick, time_mount(flash_store_quick_mount, array, quick_cycles));
    }
    print_row_of(name, filled);
    printf(" | ");
    print_number(full_cycles);
    printf(" | ");
    print_number(quick_cycles);
    printf(" | %.3f s | %.3f s | %.3f |\n", full, quick, quick / full);
    return full == 0 || quick == 0;
}

/* Mount and counts, best of the repeats; 1 where an answer, the cycles or the counts are not the expected ones. */
static int measure(const char *name, uint8_t *array, size_t blocks, size_t expected) {
    size_t size = BLOCK * blocks, cycles = 3 + blocks * PAGES * (PAGE + 10);
    size_t sent[1] = {0}, answer = expected, by_bytes = 0, by_words = 0;
    double mount = 1e9, bytes_time = 1e9, words_time = 1e9;
    for (int k = 0; k < REPEATS && answer == expected; k++) {
        double t = now();
        answer = flash_store_mount(MAIN, SPARE, PAGES, blocks, blocks - 2, state, sizeof state, interface,
                                   FLASH_STORE_INTERFACE_WORDS, array, size, page_register, PAGE, history, blocks, mask,
                                   BLOCK, fates, 0, FLASH_STORE_UNCUT, sent, 1);
        mount = least(mount, now() - t);
        t = now();
        by_bytes = zero_bits(array, size);
        bytes_time = least(bytes_time, now() - t);
        t = now();
        by_words = zero_bits_of_words((const uint64_t *)array, size / 8);
        words_time = least(words_time, now() - t);
    }
    print_row_of(name, blocks);
    printf(" | %zu | ", answer);
    print_number(sent[0]);
    printf(" | %.3f s | %.3f s | %.1f | %.3f s | %.1f |\n", mount, bytes_time, mount / bytes_time, words_time,
           mount / words_time);
    return answer != expected || sent[0] != cycles || by_bytes != by_words;
}

int main(void) {
    uint8_t *array = malloc((size_t)BLOCK * MOST);
    int differs = 0;
    if (!array) {
        return 1;
    }
    printf("\n| Chip | Blocks | Answer | Cycles | Mount | Count by bytes | Times | Count by words | Times |\n");
    printf("|---|---|---|---|---|---|---|---|---|\n");
    for (size_t blocks = MOST / 8; blocks <= MOST; blocks *= 2) {
        fill(array, blocks, blocks);
        differs |= measure("whole pages", array, blocks, FLASH_STORE_DONE);
    }
    for (size_t blocks = MOST / 8; blocks <= MOST; blocks *= 2) {
        memset(array, 0xff, BLOCK * blocks);
        differs |= measure("erased", array, blocks, FLASH_STORE_NO_TABLE);
    }
    printf("\n| Chip | Filled blocks | Mount, cycles | Quick mount, cycles | Mount | Quick mount | Share |\n");
    printf("|---|---|---|---|---|---|---|\n");
    fill(array, MOST, 1);
    differs |= compare("just formatted", array, 1);
    fill(array, MOST, MOST / 2);
    differs |= compare("half full", array, MOST / 2);
    fill(array, MOST, MOST);
    differs |= compare("full", array, MOST);
    free(array);
    return differs;
}
