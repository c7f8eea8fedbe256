/*
 * The small chip with one sequence number left: a write takes it, the next write finds none and stops the state, and a mount
 * brings it back with the page under the last number. A formatting goes on from the greatest number on the chip and finds none either,
 * but has erased that page by then: the next one goes on from the table's number. Ends with 1 where a figure is not the expected one.
 */
#include <inttypes.h>
#include <stdio.h>
#include <string.h>

#include "flash_store.h"

enum { MAIN = 32, SPARE = 16, PAGES = 4, BLOCKS = 4, LOGICAL = 2, PAGE = MAIN + SPARE, BLOCK = PAGE * PAGES };

/* Cycles: the status, a formatting, one up to its table, a mount, a read with a copy, a write without an old copy and one over it. */
enum { STATUS = 2, FORMAT = 1196, ERASED = 954, MOUNT = 931, READ = MAIN + 10, WRITE = 237, WRITE_OVER = 363 };

/* Where numbers stand: in the state, and in the spare bytes of a page (docs/FORMAT.md). */
enum { STATE_NUMBER = 24, PAGE_NUMBER = MAIN + 5 };

static uint8_t array[BLOCK * BLOCKS], page_register[PAGE], history[BLOCKS];

static struct flash_store store = {
    .main = MAIN,
    .spare = SPARE,
    .pages = PAGES,
    .blocks = BLOCKS,
    .logical = LOGICAL,
    .array = array,
    .array_len = sizeof array,
    .page_register = page_register,
    .page_register_len = sizeof page_register,
    .history = history,
    .history_len = sizeof history,
};

static struct flash_store_call call = {.allowed = FLASH_STORE_UNCUT};

static int differs;

static void expect(int holds, const char *what) {
    if (!holds) {
        printf("  %s: not as expected\n", what);
        differs = 1;
    }
}

/* Eight bytes as a number, low byte first. */
static uint64_t number_at(const uint8_t *bytes) {
    uint64_t number = 0;
    for (int i = 7; i >= 0; i--) {
        number = number << 8 | bytes[i];
    }
    return number;
}

static void put_number(uint8_t *bytes, uint64_t number) {
    for (int i = 0; i < 8; i++) {
        bytes[i] = (uint8_t)(number >> 8 * i);
    }
}

/* One call, and the number that the state then holds: the greatest that was found or taken. */
static void show(const char *name, enum flash_store_answer answer, enum flash_store_answer expected, size_t cycles,
                 uint64_t number) {
    uint64_t held = number_at(store.state + STATE_NUMBER);
    printf("%-21s answer %d, %zu cycles, number %" PRIu64 "\n", name, answer, call.sent, held);
    expect(answer == expected, "answer");
    expect(call.sent == cycles, "cycles");
    expect(held == number, "number");
}

static enum flash_store_answer write_page(uint8_t byte) {
    uint8_t bytes[MAIN];
    memset(bytes, byte, sizeof bytes);
    return flash_store_do_write(&store, &call, 0, 0, bytes, sizeof bytes);
}

/* Reads page 0 of block 0, of which every byte must be this one. */
static void show_page(uint8_t byte, uint64_t number) {
    uint8_t page[MAIN], expected[MAIN];
    memset(page, ~byte, sizeof page);
    memset(expected, byte, sizeof expected);
    enum flash_store_answer answer = flash_store_do_read(&store, &call, 0, 0, page, sizeof page);
    show("read block 0 page 0", answer, FLASH_STORE_DONE, READ, number);
    printf("  first byte %02x\n", page[0]);
    expect(memcmp(page, expected, sizeof page) == 0, "page");
}

/* The number on page 0 of the block filled last. */
static void show_chip(uint64_t number) {
    size_t block = store.state[16];
    uint64_t stored = number_at(array + block * BLOCK + PAGE_NUMBER);
    printf("  stored in block %zu under number %" PRIu64 "\n", block, stored);
    expect(stored == number, "stored number");
}

int main(void) {
    memset(array, 0xff, sizeof array);
    show("format", flash_store_do_format(&store, &call), FLASH_STORE_DONE, FORMAT, 1);
    show("write 11", write_page(0x11), FLASH_STORE_DONE, WRITE, 2);
    /* As if all numbers but the last had been taken. */
    put_number(store.state + STATE_NUMBER, UINT64_MAX - 1);
    show("write 22", write_page(0x22), FLASH_STORE_DONE, WRITE_OVER, UINT64_MAX);
    show_chip(UINT64_MAX);
    show("write 33", write_page(0x33), FLASH_STORE_SPENT, STATUS, 0);
    show("write 33, stopped", write_page(0x33), FLASH_STORE_MOUNT_FIRST, 0, 0);
    show("mount", flash_store_do_mount(&store, &call), FLASH_STORE_DONE, MOUNT, UINT64_MAX);
    show_page(0x22, UINT64_MAX);
    show("format", flash_store_do_format(&store, &call), FLASH_STORE_SPENT, ERASED, 0);
    show("format again", flash_store_do_format(&store, &call), FLASH_STORE_DONE, FORMAT, 2);
    return differs;
}
