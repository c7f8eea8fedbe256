/* Times reads of one page through the library, also beside an open write, and refused reads, and advances by one page, with few and with
   many logical blocks. */
#include <stdio.h>
#include <stdlib.h>
#include <string.h>
#include <time.h>

#include "../c/flash_store.h"
#include "table.h"

enum {
    MAIN = 2048,
    SPARE = 128,
    PAGE = MAIN + SPARE,
    PAGES = 64,
    BLOCK = PAGE * PAGES,
    BLOCKS = 4096,
    ROUNDS = 20,
    CALLS = 2000,
    MAP = 1056,    /* where the map stands in the state (docs/FORMAT.md), */
    OPENED = 9248, /* the words of the open write */
    STEP = 9264,
    OLD = 9288,
    FILLED = 9296,
    KINDS = 13424, /* and the kinds of the copies: */
    WHITE = 0x6c,  /* whitened */
    PLAIN = 0x64   /* or plain */
};

static uint8_t page_register[PAGE], history[BLOCKS], mask[BLOCK], page[MAIN];
static struct flash_store store = {.main = MAIN, .spare = SPARE, .pages = PAGES, .blocks = BLOCKS};
static struct flash_store_call call = {.mask = mask, .mask_len = BLOCK, .allowed = FLASH_STORE_UNCUT};

static double now(void) {
    struct timespec t;
    clock_gettime(CLOCK_PROCESS_CPUTIME_ID, &t);
    return t.tv_sec + t.tv_nsec * 1e-9;
}

/* A state with the table in block 0 and logical block l in block l + 1, in copies of this kind, the last one without a copy. */
static void make_state(size_t logical, uint8_t status, uint8_t kind) {
    store.logical = logical;
    memset(store.state, 0, MAP);
    memset(store.state + MAP, 0xff, OPENED - MAP);
    memset(store.state + OPENED, 0, sizeof store.state - OPENED);
    store.state[0] = status;
    store.state[24] = 1;
    for (size_t l = 0; l + 1 < logical; l++) {
        store.state[MAP + 2 * l] = (l + 1) & 0xff;
        store.state[MAP + 2 * l + 1] = (l + 1) >> 8;
        store.state[KINDS + l] = kind;
    }
}

/* A write of page 1 of logical block 0 is open, without an old copy; page 0 of the last block is due. */
static void open_write(void) {
    store.state[OPENED] = 1;
    store.state[STEP] = 2;
    memset(store.state + OLD, 0xff, 2);
    store.state[OPENED + 32] = 1;
    store.state[FILLED] = (BLOCKS - 1) & 0xff;
    store.state[FILLED + 1] = (BLOCKS - 1) >> 8;
}

/* One row: the best round, in microseconds a call; 1 where an answer or the cycles are not the expected ones. */
static int measure(const char *name, size_t logical, uint8_t status, uint8_t kind, int opened, size_t block,
                   size_t expected, size_t cycles) {
    double best = 1e9;
    int differs = 0;
    make_state(logical, status, kind);
    if (opened) {
        open_write();
    }
    for (int r = 0; r < ROUNDS; r++) {
        double t = now();
        for (int k = 0; k < CALLS; k++) {
            size_t answer = flash_store_do_read(&store, &call, block, 0, page, MAIN);
            differs |= answer != expected || call.sent != cycles;
        }
        t = (now() - t) / CALLS * 1e6;
        best = t < best ? t : best;
    }
    print_row_of(name, logical);
    printf(" | %zu | ", expected);
    print_number(cycles);
    printf(" | %.2f µs |%s\n", best, differs ? " not as expected" : "");
    return differs;
}

/* One row of advances by one page: those of a fill but the last, page 0 first. */
static int measure_advances(size_t logical) {
    double best = 1e9;
    int differs = 0;
    for (int r = 0; r < ROUNDS; r++) {
        make_state(logical, 1, WHITE);
        open_write();
        history[BLOCKS - 1] = 0;
        double t = now();
        for (int k = 0; k + 1 < PAGES; k++) {
            size_t finished = 1;
            size_t answer = flash_store_do_advance(&store, &call, 1, &finished);
            differs |= answer != FLASH_STORE_DONE || finished || call.sent != PAGE + 9;
        }
        t = (now() - t) / (PAGES - 1) * 1e6;
        best = t < best ? t : best;
    }
    print_row_of("advance by one page", logical);
    printf(" | 0 | ");
    print_number(PAGE + 9);
    printf(" | %.2f µs |%s\n", best, differs ? " not as expected" : "");
    return differs;
}

int main(void) {
    static const size_t logical[] = {2, 4094};
    int differs = 0;
    store.array_len = (size_t)BLOCK * BLOCKS;
    store.array = calloc(store.array_len, 1);
    if (!store.array) {
        return 1;
    }
    store.page_register = page_register;
    store.page_register_len = PAGE;
    store.history = history;
    store.history_len = BLOCKS;
    printf("\n| Call | Logical blocks | Answer | Cycles | Time |\n|---|---|---|---|---|\n");
    for (int i = 0; i < 2; i++) {
        size_t n = logical[i];
        differs |= measure("read with a copy", n, 1, WHITE, 0, 0, FLASH_STORE_DONE, MAIN + 10);
        differs |= measure("the same beside an open write", n, 1, WHITE, 1, 0, FLASH_STORE_DONE, MAIN + 10);
        differs |= measure("read with a copy of kind 64h", n, 1, PLAIN, 0, 0, FLASH_STORE_DONE, MAIN + 10);
        differs |= measure("read without a copy", n, 1, WHITE, 0, n - 1, FLASH_STORE_DONE, 0);
        differs |= measure("no such logical block", n, 1, WHITE, 0, n, FLASH_STORE_ADDRESS, 0);
        differs |= measure("state not mounted", n, 0, WHITE, 0, 0, FLASH_STORE_MOUNT_FIRST, 0);
        differs |= measure_advances(n);
    }
    free(store.array);
    return differs;
}
