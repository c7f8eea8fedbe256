/*
 * Quick mounts beside full ones: the small chip just formatted, with one copy and with copies in all its blocks; and a list of calls
 * on a chip of 5 blocks after which the two give different numbers, and bring back the same page. Ends with 1 where a figure is not
 * the expected one.
 */
#include <stdio.h>
#include <string.h>

#include "flash_store.h"

enum { MAIN = 32, SPARE = 16, PAGES = 4, PAGE = MAIN + SPARE, BLOCK = PAGE * PAGES, MOST = 5 };

/* The state's bytes 24 to 31 are one less than its next number, low byte first (docs/FORMAT.md). */
enum { NUMBER_AT = 24 };

static uint8_t array[BLOCK * MOST], page_register[PAGE], history[MOST], mask[BLOCK], bytes[MAIN];
static struct flash_store store;
static struct flash_store_call uncut = {.allowed = FLASH_STORE_UNCUT};
static int differs;

static void expect(const char *name, size_t is, size_t expected) {
    printf("%-44s %zu\n", name, is);
    if (is != expected) {
        printf("expected %zu\n", expected);
        differs = 1;
    }
}

/* A new chip of so many blocks. */
static void new_chip(size_t blocks, size_t logical) {
    memset(&store, 0, sizeof store);
    memset(array, 0xff, sizeof array);
    memset(history, 0, sizeof history);
    store.main = MAIN;
    store.spare = SPARE;
    store.pages = PAGES;
    store.blocks = blocks;
    store.logical = logical;
    store.array = array;
    store.array_len = BLOCK * blocks;
    store.page_register = page_register;
    store.page_register_len = PAGE;
    store.history = history;
    store.history_len = blocks;
}

static size_t write_byte(struct flash_store_call *call, uint8_t byte) {
    memset(bytes, byte, sizeof bytes);
    return flash_store_do_write(&store, call, 0, 0, bytes, MAIN);
}

static size_t first_byte(void) {
    uint8_t page[MAIN];
    memset(page, 0, sizeof page);
    flash_store_do_read(&store, &uncut, 0, 0, page, MAIN);
    return page[0];
}

static size_t next_number(const struct flash_store *of) {
    size_t number = 0;
    for (size_t i = 8; i > 0; i--) {
        number = number << 8 | of->state[NUMBER_AT + i - 1];
    }
    return number + 1;
}

/* The cycles of a full and of a quick mount. */
static void show_both(const char *full, size_t full_cycles, const char *quick, size_t quick_cycles) {
    expect(full, flash_store_do_mount(&store, &uncut) == FLASH_STORE_DONE ? uncut.sent : 0, full_cycles);
    expect(quick, flash_store_do_quick_mount(&store, &uncut) == FLASH_STORE_DONE ? uncut.sent : 0, quick_cycles);
}

static void show_cycles(void) {
    new_chip(4, 2);
    flash_store_do_format(&store, &uncut);
    show_both("just formatted: cycles of a mount", 931, "just formatted: cycles of a quick mount", 627);
    write_byte(&uncut, 0x11);
    show_both("one copy: cycles of a mount", 931, "one copy: cycles of a quick mount", 743);
    write_byte(&uncut, 0x22);
    write_byte(&uncut, 0x33);
    show_both("every block filled: cycles of a mount", 931, "every block filled: cycles of a quick mount", 975);
    expect("its page reads", first_byte(), 0x33);
}

/* A write of page 0 that is cut, with these fate words; operations that do not pass take the bits of the mask. */
static void cut_write(const uint32_t *fates, size_t words, uint32_t allowed, uint8_t byte) {
    struct flash_store_call cut = {
        .mask = mask, .mask_len = sizeof mask, .fates = fates, .fates_len = words, .allowed = allowed};
    expect("a write is cut: answer", write_byte(&cut, byte), FLASH_STORE_CUT);
}

/*
 * Block 2 is filled under number 3 but for its last page, whose program fails, and the write is cut in its next fill. After a mount
 * two blocks fail, and the third erase, of block 2, is cut when it has erased page 0: pages 1 and 2 are still whole under number 3,
 * which a full mount reads and a quick one does not.
 */
static void show_list(void) {
    static const uint32_t last_fails[8] = {[7] = 1 << 16}, two_fail[2] = {1 << 16, 1 << 16};
    struct flash_store full;
    new_chip(5, 1);
    flash_store_do_format(&store, &uncut);
    write_byte(&uncut, 0x44);
    memset(mask, 0, sizeof mask);
    cut_write(last_fails, 8, 366, 0x55);
    expect("a mount: answer", flash_store_do_mount(&store, &uncut), FLASH_STORE_DONE);
    memset(mask, 0xff, PAGE);
    cut_write(two_fail, 2, 21, 0x66);
    full = store;
    expect("a mount: answer", flash_store_do_mount(&full, &uncut), FLASH_STORE_DONE);
    expect("a quick mount in its place: answer", flash_store_do_quick_mount(&store, &uncut), FLASH_STORE_DONE);
    expect("next number by the mount", next_number(&full), 4);
    expect("next number by the quick mount", next_number(&store), 3);
    expect("the page reads", first_byte(), 0x44);
    expect("another write: answer", write_byte(&uncut, 0x77), FLASH_STORE_DONE);
    expect("a mount: answer", flash_store_do_mount(&store, &uncut), FLASH_STORE_DONE);
    expect("the page reads", first_byte(), 0x77);
}

int main(void) {
    show_cycles();
    show_list();
    return differs;
}
