/*
 * The small chip of 4 blocks, new: formatted, mounted, read and written; writes cut by a pulled plug, and what the next mount
 * finds; the write-protect line tied low and released; erased. Ends with 1 where a figure is not the expected one.
 */
#include <stdio.h>
#include <string.h>

#include "flash_store.h"

enum { MAIN = 32, SPARE = 16, PAGES = 4, BLOCKS = 4, LOGICAL = 2, PAGE = MAIN + SPARE, BLOCK = PAGE * PAGES };

/* Cycles: the status, an erase, a program, every page after a reset, a read with a copy. */
enum { STATUS = 2, ERASE = 7, PROGRAM = PAGE + 9, MOUNT = 931, READ = MAIN + 10 };

/* A filled block, a formatting, which reads every page first, a new copy of a block, one that keeps three pages of the old copy. */
enum {
    FILL = ERASE + PAGES * PROGRAM,
    FORMAT = MOUNT + STATUS + BLOCKS * ERASE + FILL,
    COPY = STATUS + FILL,
    COPY_OVER = COPY + 3 * READ
};

static uint8_t array[BLOCK * BLOCKS], page_register[PAGE], history[BLOCKS], mask[BLOCK], page[MAIN];

static struct flash_store store = {
    .main = MAIN,
    .spare = SPARE,
    .pages = PAGES,
    .blocks = BLOCKS,
    .logical = LOGICAL,
    .array = array,
    .array_len = sizeof array,
    .page_register = page_register,
    .page_register_len = sizeof page_register,
    .history = history,
    .history_len = sizeof history,
};

/* As a product calls: no mask, no fate words, no cut. */
static struct flash_store_call uncut = {.allowed = FLASH_STORE_UNCUT};
static struct flash_store_call cut = {.mask = mask, .mask_len = sizeof mask, .allowed = 100};
static struct flash_store_call low = {.allowed = FLASH_STORE_UNCUT, .write_protected = 1};

static int differs;

static void show(const char *name, size_t answer, size_t expected, struct flash_store_call *call, size_t cycles) {
    printf("%-30s answer %zu, %zu cycles\n", name, answer, call->sent);
    if (answer != expected || call->sent != cycles) {
        printf("expected answer %zu, %zu cycles\n", expected, cycles);
        differs = 1;
    }
    call->sent = 0;
}

static size_t read_page(struct flash_store_call *call, size_t block, size_t length) {
    return flash_store_do_read(&store, call, block, 0, page, length);
}

/* Reads page 0 of block 0, of which every byte must be this one. */
static void show_page(const char *name, struct flash_store_call *call, uint8_t byte, size_t cycles) {
    memset(page, ~byte, sizeof page);
    show(name, read_page(call, 0, MAIN), FLASH_STORE_DONE, call, cycles);
    printf("  first byte %02x\n", page[0]);
    for (size_t i = 0; i < MAIN; i++) {
        if (page[i] != byte) {
            printf("byte %zu is %02x, expected %02x\n", i, page[i], byte);
            differs = 1;
        }
    }
}

/* Fills page 0 of block 0 with a byte. */
static size_t write_page(struct flash_store_call *call, uint8_t byte) {
    uint8_t bytes[MAIN];
    memset(bytes, byte, sizeof bytes);
    return flash_store_do_write(&store, call, 0, 0, bytes, sizeof bytes);
}

/* A plain call, for a state buffer that is a byte short. */
static size_t format_short(void) {
    return flash_store_format(MAIN, SPARE, PAGES, BLOCKS, LOGICAL, store.state, sizeof store.state - 1, store.interface,
                              FLASH_STORE_INTERFACE_WORDS, array, sizeof array, page_register, sizeof page_register,
                              history, sizeof history, mask, sizeof mask, flash_store_fates(&uncut), 0, FLASH_STORE_UNCUT,
                              &uncut.sent, 1);
}

/* A formatting with one logical block too many. */
static size_t format_three(void) {
    struct flash_store larger = store;
    larger.logical = 3;
    return flash_store_do_format(&larger, &uncut);
}

/* The new chip formatted and mounted, and calls that are refused. */
static void begin(void) {
    memset(array, 0xff, sizeof array);
    show("read before any mount", read_page(&uncut, 0, MAIN), FLASH_STORE_MOUNT_FIRST, &uncut, 0);
    show("write before any mount", write_page(&uncut, 0), FLASH_STORE_MOUNT_FIRST, &uncut, 0);
    show("format, 3 logical blocks", format_three(), FLASH_STORE_GEOMETRY, &uncut, 0);
    show("format, state a byte short", format_short(), FLASH_STORE_BAD_BUFFER, &uncut, 0);
    show("mount of a new chip", flash_store_do_mount(&store, &uncut), FLASH_STORE_NO_TABLE, &uncut, MOUNT);
    show("format", flash_store_do_format(&store, &uncut), FLASH_STORE_DONE, &uncut, FORMAT);
    show("mount cut after 100 cycles", flash_store_do_mount(&store, &cut), FLASH_STORE_CUT, &cut, 100);
    show("read after the cut", read_page(&uncut, 0, MAIN), FLASH_STORE_MOUNT_FIRST, &uncut, 0);
    show("mount", flash_store_do_mount(&store, &uncut), FLASH_STORE_DONE, &uncut, MOUNT);
    show_page("read block 0 page 0", &uncut, 0xff, 0);
    show("read block 2 page 0", read_page(&uncut, 2, MAIN), FLASH_STORE_ADDRESS, &uncut, 0);
    show("read into 31 bytes", read_page(&uncut, 0, MAIN - 1), FLASH_STORE_LENGTH, &uncut, 0);
    show("erase block 2", flash_store_do_erase(&store, &uncut, 2), FLASH_STORE_ADDRESS, &uncut, 0);
}

/* Power returns: the cells are as the cut left them, interface and page register are new, and the state is gone. */
static void power_on(void) {
    memset(store.interface, 0, sizeof store.interface);
    memset(page_register, 0, sizeof page_register);
    memset(store.state, 0, sizeof store.state);
}

/* A write that is cut after so many cycles, where the operation under way takes these bits of each byte; what a mount finds. */
static void pull_plug(const char *name, uint8_t written, uint32_t allowed, uint8_t taken, uint8_t found) {
    memset(mask, taken, sizeof mask);
    cut.allowed = allowed;
    show(name, write_page(&cut, written), FLASH_STORE_CUT, &cut, allowed);
    show("read after the cut", read_page(&uncut, 0, MAIN), FLASH_STORE_MOUNT_FIRST, &uncut, 0);
    power_on();
    show("mount", flash_store_do_mount(&store, &uncut), FLASH_STORE_DONE, &uncut, MOUNT);
    show_page("read block 0 page 0", &uncut, found, READ);
}

/* The write-protect line is low while boards are swapped: calls that write change nothing, and the others go on. */
static void tie_low(uint8_t held) {
    static uint8_t before[sizeof array];
    memcpy(before, array, sizeof array);
    show("write 77, line low", write_page(&low, 0x77), FLASH_STORE_PROTECTED, &low, STATUS);
    show("erase block 0, line low", flash_store_do_erase(&store, &low, 0), FLASH_STORE_PROTECTED, &low, STATUS);
    show("format, line low", flash_store_do_format(&store, &low), FLASH_STORE_PROTECTED, &low, MOUNT + STATUS);
    show_page("read block 0 page 0, line low", &low, held, READ);
    show("mount, line low", flash_store_do_mount(&store, &low), FLASH_STORE_DONE, &low, MOUNT);
    show_page("read block 0 page 0, line low", &low, held, READ);
    if (memcmp(before, array, sizeof array) != 0) {
        printf("the array has changed\n");
        differs = 1;
    }
    show("write 77, line released", write_page(&uncut, 0x77), FLASH_STORE_DONE, &uncut, COPY_OVER);
    show_page("read block 0 page 0", &uncut, 0x77, READ);
}

int main(void) {
    begin();
    show("write 11 to block 0 page 0", write_page(&uncut, 0x11), FLASH_STORE_DONE, &uncut, COPY);
    show_page("read block 0 page 0", &uncut, 0x11, READ);
    show("write 22 over it", write_page(&uncut, 0x22), FLASH_STORE_DONE, &uncut, COPY_OVER);
    show_page("read block 0 page 0", &uncut, 0x22, READ);
    /* Cut two before its end, a program has begun, and its status is not read. */
    pull_plug("write 33, first program halved", 0x33, STATUS + ERASE + PROGRAM - 2, 0x0f, 0x22);
    pull_plug("write 44, last program halved", 0x44, COPY_OVER - 2, 0x0f, 0x22);
    pull_plug("write 55, last program whole", 0x55, COPY_OVER - 2, 0xff, 0x55);
    cut.mask = NULL;
    pull_plug("write 66, no mask", 0x66, COPY_OVER - 2, 0xff, 0x55);
    tie_low(0x55);
    show("erase block 0", flash_store_do_erase(&store, &uncut, 0), FLASH_STORE_DONE, &uncut, COPY);
    show_page("read block 0 page 0", &uncut, 0xff, READ);
    return differs;
}
