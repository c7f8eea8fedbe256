/*
 * A box that is formatted a second time: one block fails in a write and comes on the list of bad blocks. The formatting after it is cut
 * while it fills the new table, and a mount finds the old list; the next one, for another number of logical blocks, ends with the same
 * list, and the bad block keeps its bytes throughout. Ends with 1 where a figure is not the expected one.
 */
#include <stdio.h>
#include <string.h>

#include "flash_store.h"

enum { MAIN = 32, SPARE = 16, PAGES = 4, BLOCKS = 6, PAGE = MAIN + SPARE, BLOCK = PAGE * PAGES };

/* Cycles: every page after a reset, the status, an erase, a filled block. */
enum { READS = 3 + BLOCKS * PAGES * (PAGE + 10), STATUS = 2, ERASE = 7, FILL = ERASE + PAGES * (PAGE + 9) };

/* Where the table's block, the greatest number and the list of bad blocks stand in the state (docs/FORMAT.md). */
enum { STATE_TABLE = 8, STATE_NUMBER = 24, STATE_LIST = 544 };

static uint8_t array[BLOCK * BLOCKS], page_register[PAGE], history[BLOCKS], mask[BLOCK];

static struct flash_store store = {
    .main = MAIN,
    .spare = SPARE,
    .pages = PAGES,
    .blocks = BLOCKS,
    .logical = 1,
    .array = array,
    .array_len = sizeof array,
    .page_register = page_register,
    .page_register_len = sizeof page_register,
    .history = history,
    .history_len = sizeof history,
};

static struct flash_store_call uncut = {.allowed = FLASH_STORE_UNCUT};

static int differs;

/* One call; then the table's block, the greatest number and the bad blocks 0 to 7, a bit each, as the state has them. */
static void show(const char *name, enum flash_store_answer answer, size_t sent, enum flash_store_answer expected,
                 size_t cycles, uint8_t table, uint8_t number, uint8_t list) {
    const uint8_t *state = store.state;
    printf("%-28s answer %d, %zu cycles, table in block %d, number %d, list %02x\n", name, answer, sent,
           state[STATE_TABLE], state[STATE_NUMBER], state[STATE_LIST]);
    if (answer != expected || sent != cycles || state[STATE_TABLE] != table || state[STATE_NUMBER] != number ||
        state[STATE_LIST] != list) {
        printf("  not as expected\n");
        differs = 1;
    }
}

/* A write of logical block 0 whose first erase fails: block 1 comes on the list, and a table follows. */
static void wear(void) {
    static const uint32_t erase_fails[1] = {1 << 16};
    static const uint8_t bytes[MAIN];
    struct flash_store_call worn = {.fates = erase_fails, .fates_len = 1, .allowed = FLASH_STORE_UNCUT};
    enum flash_store_answer answer = flash_store_do_write(&store, &worn, 0, 0, bytes, sizeof bytes);
    show("write, an erase fails", answer, worn.sent, FLASH_STORE_DONE, STATUS + ERASE + 2 * FILL, 3, 4, 1 << 1);
}

/* A formatting cut before the last status read of the new table, of whose last program every second bit took effect. */
static void cut_formatting(void) {
    struct flash_store_call cut = {.mask = mask, .mask_len = sizeof mask};
    cut.allowed = READS + STATUS + (BLOCKS - 2) * ERASE + FILL - 1;
    memset(mask, 0x55, sizeof mask);
    enum flash_store_answer answer = flash_store_do_format(&store, &cut);
    show("format, cut", answer, cut.sent, FLASH_STORE_CUT, cut.allowed, 0, 0, 0);
    answer = flash_store_do_mount(&store, &uncut);
    show("mount", answer, uncut.sent, FLASH_STORE_DONE, READS, 3, 5, 1 << 1);
}

int main(void) {
    uint8_t before[BLOCK];
    memset(array, 0xff, sizeof array);
    enum flash_store_answer answer = flash_store_do_format(&store, &uncut);
    show("format", answer, uncut.sent, FLASH_STORE_DONE, READS + STATUS + BLOCKS * ERASE + FILL, 0, 1, 0);
    wear();
    memcpy(before, array + BLOCK, BLOCK);
    cut_formatting();
    /* Neither the listed block nor the old table's is erased in the first round; the old table's is at the end. */
    store.logical = 3;
    answer = flash_store_do_format(&store, &uncut);
    show("format, 3 logical blocks", answer, uncut.sent, FLASH_STORE_DONE, READS + STATUS + (BLOCKS - 1) * ERASE + FILL, 0,
         6, 1 << 1);
    store.logical = 4;
    answer = flash_store_do_format(&store, &uncut);
    show("format, 4 logical blocks", answer, uncut.sent, FLASH_STORE_WORN, READS + STATUS + (BLOCKS - 2) * ERASE, 0, 0, 0);
    if (memcmp(before, array + BLOCK, BLOCK) != 0 || history[1] != 255) {
        printf("block 1 has changed\n");
        differs = 1;
    }
    return differs;
}
