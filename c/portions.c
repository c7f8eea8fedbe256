/*
 * A display that reads while a write goes on: the write of a page is opened and advanced by one page program at a time, and between any
 * two advances both pages of the display are read. Then what a second write, an erase and a mount get while one is open. Ends with 1 where
 * a figure is not the expected one.
 */
#include <stdio.h>
#include <string.h>

#include "flash_store.h"

enum { MAIN = 32, SPARE = 16, PAGES = 4, BLOCKS = 4, PAGE = MAIN + SPARE, BLOCK = PAGE * PAGES };

static uint8_t array[BLOCK * BLOCKS], page_register[PAGE], history[BLOCKS];
static struct flash_store store;
static struct flash_store_call uncut = {.allowed = FLASH_STORE_UNCUT};
static int differs;

static void expect(const char *name, size_t is, size_t expected) {
    printf("%-52s %zu\n", name, is);
    if (is != expected) {
        printf("expected %zu\n", expected);
        differs = 1;
    }
}

static size_t first_byte(size_t page) {
    uint8_t bytes[MAIN];
    memset(bytes, 0, sizeof bytes);
    flash_store_do_read(&store, &uncut, 0, page, bytes, MAIN);
    return bytes[0];
}

static const uint8_t *filled(uint8_t byte) {
    static uint8_t bytes[MAIN];
    memset(bytes, byte, sizeof bytes);
    return bytes;
}

/* One advance by a page program, and what the display shows after it. */
static size_t advance(const char *sent_name, size_t sent, const char *shown_name, size_t shown) {
    size_t finished = 2;
    size_t answer = flash_store_do_advance(&store, &uncut, 1, &finished);
    expect(sent_name, answer == FLASH_STORE_DONE ? uncut.sent : 0, sent);
    expect(shown_name, first_byte(0), shown);
    expect("  page 1 is kept", first_byte(1), 0x22);
    return finished;
}

int main(void) {
    store = (struct flash_store){.main = MAIN, .spare = SPARE, .pages = PAGES, .blocks = BLOCKS, .logical = 2};
    memset(array, 0xff, sizeof array);
    store.array = array;
    store.array_len = sizeof array;
    store.page_register = page_register;
    store.page_register_len = sizeof page_register;
    store.history = history;
    store.history_len = sizeof history;
    flash_store_do_format(&store, &uncut);
    flash_store_do_write(&store, &uncut, 0, 0, filled(0x11), MAIN);
    flash_store_do_write(&store, &uncut, 0, 1, filled(0x22), MAIN);

    expect("a write of page 0 is opened",
           flash_store_do_open_write(&store, &uncut, 0, 0, filled(0x33), MAIN) == FLASH_STORE_DONE ? uncut.sent : 0, 2);
    expect("  page 0 shows its old bytes", first_byte(0), 0x11);
    expect("page 0 is programmed: finished", advance("page 0 is programmed: cycles", 64, "  page 0", 0x11), 0);
    expect("page 1 is programmed: finished", advance("page 1 is programmed: cycles", 99, "  page 0", 0x11), 0);
    expect("page 2 is programmed: finished", advance("page 2 is programmed: cycles", 99, "  page 0", 0x11), 0);
    expect("page 3 is programmed: finished", advance("page 3 is programmed: cycles", 99, "  page 0", 0x33), 1);
    expect("an advance with none open", flash_store_do_advance(&store, &uncut, 1, &(size_t){0}), FLASH_STORE_WRITE_OPEN);

    flash_store_do_open_write(&store, &uncut, 1, 0, filled(0x44), MAIN);
    expect("a second write while one is open", flash_store_do_write(&store, &uncut, 0, 0, filled(0x55), MAIN),
           FLASH_STORE_WRITE_OPEN);
    expect("an erase while one is open", flash_store_do_erase(&store, &uncut, 0), FLASH_STORE_WRITE_OPEN);
    expect("a formatting while one is open", flash_store_do_format(&store, &uncut), FLASH_STORE_WRITE_OPEN);
    expect("a mount gives it up", flash_store_do_mount(&store, &uncut), FLASH_STORE_DONE);
    expect("an advance after it", flash_store_do_advance(&store, &uncut, 1, &(size_t){0}), FLASH_STORE_WRITE_OPEN);
    expect("page 0 shows what was stored", first_byte(0), 0x33);
    return differs;
}
