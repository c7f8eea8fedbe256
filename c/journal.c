/*
 * A van driver's day in the journal: sales, a refund of a stuck bar, a correction of the refund, and the plug pulled in the middle of a
 * sale: after each cut a mount finds the takings with that sale or without it. At last the journal is full. Ends with 1 where a figure is
 * not the expected one.
 */
#include <stdio.h>
#include <string.h>

#include "flash_store.h"

enum { MAIN = 32, SPARE = 16, PAGES = 4, BLOCKS = 5, LOGICAL = 3, PAGE = MAIN + SPARE, BLOCK = PAGE * PAGES };

/* Cycles: the status, an erase, a program, a page read, a write that keeps three pages of the old copy. */
enum { STATUS = 2, ERASE = 7, PROGRAM = PAGE + 9, READ = MAIN + 10, WRITE = STATUS + ERASE + PAGES * PROGRAM + 3 * READ };

static uint8_t array[BLOCK * BLOCKS], page_register[PAGE], history[BLOCKS], mask[BLOCK];

static struct flash_store store = {
    .main = MAIN,
    .spare = SPARE,
    .pages = PAGES,
    .blocks = BLOCKS,
    .logical = LOGICAL,
    .array = array,
    .array_len = sizeof array,
    .page_register = page_register,
    .page_register_len = sizeof page_register,
    .history = history,
    .history_len = sizeof history,
};

static struct flash_store_call uncut = {.allowed = FLASH_STORE_UNCUT};
static struct flash_store_call cut = {.mask = mask, .mask_len = sizeof mask};

static int differs;

static void expect(const char *what, uint64_t is, uint64_t expected) {
    if (is != expected) {
        printf("%s %llu, expected %llu\n", what, (unsigned long long)is, (unsigned long long)expected);
        differs = 1;
    }
}

/* A record, the answer that it must get, and its number, 0 where it is not stored. */
static void sell(const char *name, struct flash_store_call *call, uint8_t selection, uint16_t count, uint32_t price,
                 uint16_t replaces, size_t expected, size_t expected_number) {
    size_t number = 99;
    size_t answer = flash_store_do_append(&store, call, selection, count, price, replaces, &number);
    printf("%-42s answer %zu, record %zu\n", name, answer, number);
    expect("answer", answer, expected);
    expect("record", number, expected_number);
}

static void take(uint64_t expected) {
    uint64_t takings = 99;
    expect("answer", flash_store_do_takings(&store, &uncut, &takings), FLASH_STORE_DONE);
    printf("  takings %llu.%02llu\n", (unsigned long long)(takings / 100), (unsigned long long)(takings % 100));
    expect("takings", takings, expected);
}

/* Power returns: the cells are as the cut left them, interface, page register and state are new. */
static void power_on(void) {
    memset(store.interface, 0, sizeof store.interface);
    memset(page_register, 0, sizeof page_register);
    memset(store.state, 0, sizeof store.state);
    expect("mount", flash_store_do_mount(&store, &uncut), FLASH_STORE_DONE);
}

/* The sale that the plug is pulled in, after so many cycles; the operation under way takes these bits of each byte. */
static void pull_plug(const char *name, uint32_t allowed, uint8_t taken, uint64_t expected) {
    cut.allowed = allowed;
    memset(mask, taken, sizeof mask);
    sell(name, &cut, 12, 1, 150, 0, FLASH_STORE_CUT, 0);
    power_on();
    take(expected);
}

int main(void) {
    memset(array, 0xff, sizeof array);
    expect("format", flash_store_do_format(&store, &uncut), FLASH_STORE_DONE);
    take(0);
    sell("two bars at 1.50", &uncut, 12, 2, 150, 0, FLASH_STORE_DONE, 1);
    sell("a coffee at 1.20", &uncut, 7, 1, 120, 0, FLASH_STORE_DONE, 2);
    sell("three gums at 0.80", &uncut, 3, 3, 80, 0, FLASH_STORE_DONE, 3);
    take(660);
    sell("one bar was stuck: record 1 was one bar", &uncut, 12, 1, 150, 1, FLASH_STORE_DONE, 4);
    take(510);
    sell("it fell after all: record 4 was two bars", &uncut, 12, 2, 150, 4, FLASH_STORE_DONE, 5);
    take(660);
    sell("record 1 again: no longer in force", &uncut, 12, 0, 150, 1, FLASH_STORE_NOT_IN_FORCE, 0);
    sell("record 6: not there yet", &uncut, 12, 0, 150, 6, FLASH_STORE_NOT_IN_FORCE, 0);
    take(660);

    /* Record 6 is the second page of its block. Before its write the five records and the page after them are read; the write keeps
       the first page of the block. Cut two before its end, a program or an erase has begun, and its status is not read. */
    uint32_t reads = 6 * READ, first = reads + STATUS + ERASE;
    pull_plug("a bar, cut while records are read", reads - 1, 0xff, 660);
    pull_plug("a bar, cut in the erase, half taken", first - 2, 0x0f, 660);
    pull_plug("a bar, cut in the first program", first + READ + PROGRAM - 2, 0xff, 660);
    pull_plug("a bar, cut in its own program", first + READ + 2 * PROGRAM - 2, 0xff, 660);
    pull_plug("a bar, cut in the last program, half taken", reads + WRITE - 2, 0x0f, 660);
    pull_plug("a bar, cut in the last program, all taken", reads + WRITE - 2, 0xff, 810);

    sell("the coffee is refunded: record 2 was none", &uncut, 7, 0, 120, 2, FLASH_STORE_DONE, 7);
    take(690);
    for (size_t number = 8; number <= LOGICAL * PAGES; number++) {
        sell("a gum at 0.80", &uncut, 3, 1, 80, 0, FLASH_STORE_DONE, number);
    }
    sell("a gum more: no page is left", &uncut, 3, 1, 80, 0, FLASH_STORE_ADDRESS, 0);
    sell("record 2 again: that comes first", &uncut, 7, 0, 120, 2, FLASH_STORE_NOT_IN_FORCE, 0);
    take(1090);
    return differs;
}
