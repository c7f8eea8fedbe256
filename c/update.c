/*
 * A box that was updated twice: its chip holds a copy that a version up to 4.6 wrote and one of a version up to 4.12. A mount brings
 * both back; a write stores its logical block in the new way, whitened, and keeps the other pages. The stored bytes are then undone
 * by the few lines of `white`. Ends with 1 where a figure is not the expected one.
 */
#include <stdio.h>
#include <string.h>

#include "flash_store.h"

enum { MAIN = 32, SPARE = 16, PAGES = 4, BLOCKS = 4, LOGICAL = 2, PAGE = MAIN + SPARE, BLOCK = PAGE * PAGES };

/* Kinds of pages, and where the kinds of the copies stand in the state (docs/FORMAT.md). */
enum { OLDEST_DATA = 0x44, OLDEST_TABLE = 0x54, OLD_DATA = 0x64, DATA = 0x6c, STATE_KINDS = 13424 };

static uint8_t array[BLOCK * BLOCKS], page_register[PAGE], history[BLOCKS];
static struct flash_store store = {
    .main = MAIN,
    .spare = SPARE,
    .pages = PAGES,
    .blocks = BLOCKS,
    .logical = LOGICAL,
    .array = array,
    .array_len = sizeof array,
    .page_register = page_register,
    .page_register_len = PAGE,
    .history = history,
    .history_len = BLOCKS,
};
static struct flash_store_call call = {.allowed = FLASH_STORE_UNCUT};
static int differs;

static void expect(int right, const char *what) {
    if (!right) {
        printf("  not the expected %s\n", what);
        differs = 1;
    }
}

static void put_number(uint8_t *at, size_t bytes, size_t number) {
    for (size_t i = 0; i < bytes; i++) {
        at[i] = number >> (8 * i) & 0xff;
    }
}

/* Label and check of a page whose main bytes are there, with a number of 4 bytes or of 8. */
static void finish(uint8_t *page, uint8_t kind, size_t logical, size_t place, size_t number) {
    uint8_t *spare = page + MAIN;
    size_t number_bytes = kind == OLD_DATA ? 8 : 4, zeros = 0;
    memset(spare, 0xff, SPARE);
    spare[1] = kind;
    put_number(spare + 2, 2, logical);
    put_number(spare + 4, 1, place);
    put_number(spare + 5, number_bytes, number);
    for (size_t i = 0; i < MAIN + 5 + number_bytes; i++) {
        zeros += 8 - __builtin_popcount(page[i]);
    }
    put_number(spare + 5 + number_bytes, 2, zeros);
}

/* A block whose first page begins with these bytes, the rest FFh. */
static void fill(size_t block, uint8_t kind, size_t logical, size_t number, const uint8_t *first, size_t length) {
    uint8_t *pages = array + block * BLOCK;
    memset(pages, 0xff, BLOCK);
    memcpy(pages, first, length);
    for (size_t p = 0; p < PAGES; p++) {
        finish(pages + p * PAGE, kind, logical, p, number);
    }
}

/* The table in block 0, logical block 0 in block 1 and logical block 1 in block 2; block 3 is erased. */
static void lay_out(void) {
    static const uint8_t table[9] = {BLOCKS, 0, LOGICAL, 0, 0, 0, 8, 0, 0};
    uint8_t page[MAIN];
    memset(array, 0xff, sizeof array);
    fill(0, OLDEST_TABLE, 0, 1, table, sizeof table);
    memset(page, 0xa5, MAIN);
    fill(1, OLDEST_DATA, 0, 2, page, MAIN);
    memset(page, 0x5a, MAIN);
    fill(2, OLD_DATA, 1, 3, page, MAIN);
}

/* The main bytes of the page at a place in its block as they are stored, from what they mean; or the other way. */
static void white(size_t place, uint8_t *main, size_t length) {
    size_t bits = place + 1;
    for (size_t i = 0; i < 8 * length; i++) {
        main[i / 8] ^= (bits >> 14) << (7 - i % 8);
        bits = (bits << 1 & 0x7fff) | ((bits >> 14 ^ bits >> 13) & 1);
    }
}

static void show(const char *name, enum flash_store_answer answer) {
    printf("%-38s answer %d, kinds %02x %02x\n", name, answer, store.state[STATE_KINDS], store.state[STATE_KINDS + 1]);
    expect(answer == FLASH_STORE_DONE, "answer");
}

static void expect_kinds(uint8_t first, uint8_t second) {
    expect(store.state[STATE_KINDS] == first && store.state[STATE_KINDS + 1] == second, "kinds");
}

/* A logical page, of which every byte must be this one. */
static void show_page(size_t block, size_t page, uint8_t byte) {
    uint8_t bytes[MAIN], expected[MAIN];
    memset(bytes, ~byte, MAIN);
    memset(expected, byte, MAIN);
    enum flash_store_answer answer = flash_store_do_read(&store, &call, block, page, bytes, MAIN);
    printf("  block %zu page %zu reads %02x\n", block, page, bytes[0]);
    expect(answer == FLASH_STORE_DONE && memcmp(bytes, expected, MAIN) == 0, "page");
}

/* The first bytes of a page on the chip, as they are stored and undone. */
static void show_stored(size_t block, size_t page, uint8_t byte) {
    uint8_t bytes[MAIN], expected[MAIN];
    memcpy(bytes, array + block * BLOCK + page * PAGE, MAIN);
    printf("  stored in block %zu page %zu:", block, page);
    for (int i = 0; i < 8; i++) {
        printf(" %02x", bytes[i]);
    }
    white(page, bytes, MAIN);
    printf("; undone: %02x\n", bytes[0]);
    memset(expected, byte, MAIN);
    expect(memcmp(bytes, expected, MAIN) == 0, "stored page");
}

static void show_pages(void) {
    show_page(0, 0, 0xa5);
    show_page(0, 1, 0xff);
    show_page(1, 0, 0x5a);
}

int main(void) {
    uint8_t bytes[MAIN];
    lay_out();
    show("mount of the updated box", flash_store_do_mount(&store, &call));
    expect_kinds(OLDEST_DATA, OLD_DATA);
    show_pages();
    memset(bytes, 0xc3, MAIN);
    show("write c3 to block 0 page 3", flash_store_do_write(&store, &call, 0, 3, bytes, MAIN));
    expect_kinds(DATA, OLD_DATA);
    show_stored(3, 0, 0xa5);
    show_stored(3, 1, 0xff);
    show_stored(3, 3, 0xc3);
    show("erase of block 1", flash_store_do_erase(&store, &call, 1));
    expect_kinds(DATA, DATA);
    show_stored(1, 0, 0xff);

    memset(store.interface, 0, sizeof store.interface);
    memset(store.state, 0, sizeof store.state);
    show("power returns: quick mount", flash_store_do_quick_mount(&store, &call));
    expect_kinds(DATA, DATA);
    show_page(0, 0, 0xa5);
    show_page(0, 3, 0xc3);
    show_page(1, 0, 0xff);
    return differs;
}
