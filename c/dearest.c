/*
 * The dearest writes of the 002 part with 0, 1 and 10 failed fills: the words and cycles that are told, the time and charge that
 * follow from them, and the write itself with those words. Then the refusals. Ends with 1 where a figure is not the expected one.
 */
#include <stdio.h>
#include <stdlib.h>
#include <string.h>

#include "flash_store.h"

enum { MAIN = 2048, SPARE = 128, PAGES = 64, BLOCKS = 4096, LOGICAL = 4000, PAGE = MAIN + SPARE };

/* The most words asked for here: 11 data fills and a table fill. */
enum { MOST_FAILED = 10, MOST_WORDS = 2 * PAGES * (MOST_FAILED + 1) + PAGES + 1 };

/* The part at 3 V, asked for its status every 40 us. */
enum { BUS_NS = 20, POLL_NS = 40000, MILLIAMPERES = 30 };

static uint8_t page_register[PAGE], history[BLOCKS], page[MAIN];
static uint32_t words[MOST_WORDS];

static struct flash_store store = {
    .main = MAIN,
    .spare = SPARE,
    .pages = PAGES,
    .blocks = BLOCKS,
    .logical = LOGICAL,
    .array_len = (size_t)PAGE * PAGES * BLOCKS,
    .page_register = page_register,
    .page_register_len = sizeof page_register,
    .history = history,
    .history_len = sizeof history,
};

static struct flash_store_call uncut = {.allowed = FLASH_STORE_UNCUT};

static int differs;

static void expect(int holds, const char *what) {
    if (!holds) {
        printf("  %s: not as expected\n", what);
        differs = 1;
    }
}

/* Writes page 0 of logical block 0, over an old copy but for the first time. */
static enum flash_store_answer write_page(struct flash_store_call *call, uint8_t byte) {
    memset(page, byte, sizeof page);
    return flash_store_do_write(&store, call, 0, 0, page, sizeof page);
}

/* Asks for the dearest write, then runs it. */
static void show(size_t failed, size_t expected) {
    size_t count = flash_store_dearest_words(PAGES, failed), cycles = 0;
    enum flash_store_answer answer = flash_store_do_dearest_write(&store, failed, words, count, &cycles);
    uint64_t us = flash_store_dearest_ns(cycles, count, BUS_NS, POLL_NS) / 1000;
    printf("failed fills %zu: answer %d, %zu words, %zu cycles, %llu us, %llu uC\n", failed, answer, count, cycles,
           (unsigned long long)us, (unsigned long long)(us * MILLIAMPERES / 1000));
    expect(answer == FLASH_STORE_DONE && cycles == expected, "dearest write");
    struct flash_store_call slow = {.fates = words, .fates_len = count, .allowed = FLASH_STORE_UNCUT};
    answer = write_page(&slow, (uint8_t)failed);
    printf("  written with these words: answer %d, %zu cycles\n", answer, slow.sent);
    expect(answer == FLASH_STORE_DONE && slow.sent == cycles, "write");
}

/* A refusal tells no cycles and leaves the words. */
static void refuse(const char *name, size_t failed, size_t count, enum flash_store_answer expected) {
    size_t cycles = 1;
    words[0] = 7;
    enum flash_store_answer answer = flash_store_do_dearest_write(&store, failed, words, count, &cycles);
    printf("%s: answer %d, %zu cycles\n", name, answer, cycles);
    expect(answer == expected && cycles == 0 && words[0] == 7, "refusal");
}

int main(void) {
    store.array = malloc(store.array_len);
    if (!store.array) {
        printf("no memory for the chip\n");
        return 1;
    }
    memset(store.array, 0xff, store.array_len);
    expect(flash_store_do_format(&store, &uncut) == FLASH_STORE_DONE, "format");
    expect(write_page(&uncut, 0xa5) == FLASH_STORE_DONE, "first write");
    show(0, 302143);
    show(1, 760706);
    show(MOST_FAILED, 3479975);
    refuse("more than blocks - 3", BLOCKS - 2, 0, FLASH_STORE_ADDRESS);
    refuse("a word short", 1, flash_store_dearest_words(PAGES, 1) - 1, FLASH_STORE_LENGTH);
    store.blocks = 3;
    refuse("three blocks", 1, 0, FLASH_STORE_GEOMETRY);
    free(store.array);
    return differs;
}
