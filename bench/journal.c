/*
 * Times an append and the takings of the 002 part as the journal grows to 65,535 records. Its pages are laid out in the array, whitened;
 * the last record is appended. Every eighth record replaces the one before it.
 */
#include <stdio.h>
#include <stdlib.h>
#include <string.h>
#include <time.h>

#include "../c/flash_store.h"
#include "table.h"

enum { MAIN = 2048, SPARE = 128, PAGE = MAIN + SPARE, PAGES = 64, BLOCK = PAGE * PAGES, BLOCKS = 4096, REPEATS = 3 };

/* Cycles: a page read to find the journal's end, a record up to its price, a write of a page without an old copy. */
enum { READ = MAIN + 10, AMOUNT = 9 + 10, WRITE = 2 + 7 + PAGES * (PAGE + 9) };

/* The most records, and what each amounts to. */
enum { MOST = 65535, COUNT = 3 };
static const uint32_t PRICE = 0xfffffff7;

static uint8_t page_register[PAGE], history[BLOCKS];
static struct flash_store store = {
    .main = MAIN,
    .spare = SPARE,
    .pages = PAGES,
    .blocks = BLOCKS,
    .logical = BLOCKS - 2,
    .array_len = (size_t)BLOCK * BLOCKS,
    .page_register = page_register,
    .page_register_len = PAGE,
    .history = history,
    .history_len = BLOCKS,
};
static struct flash_store_call call = {.allowed = FLASH_STORE_UNCUT};

static double now(void) {
    struct timespec t;
    clock_gettime(CLOCK_PROCESS_CPUTIME_ID, &t);
    return t.tv_sec + t.tv_nsec * 1e-9;
}

static double least(double a, double b) { return a < b ? a : b; }

static void put_number(uint8_t *at, size_t bytes, uint64_t number) {
    for (size_t i = 0; i < bytes; i++) {
        at[i] = number >> (8 * i) & 0xff;
    }
}

/* Label and check of a page whose main bytes are there (docs/FORMAT.md). */
static void finish(uint8_t *page, uint8_t kind, size_t logical, size_t place, size_t number) {
    uint8_t *spare = page + MAIN;
    size_t zeros = 0;
    memset(spare, 0xff, SPARE);
    spare[1] = kind;
    put_number(spare + 2, 2, logical);
    put_number(spare + 4, 1, place);
    put_number(spare + 5, 8, number);
    for (size_t i = 0; i < MAIN + 13; i++) {
        zeros += 8 - __builtin_popcount(page[i]);
    }
    put_number(spare + 13, 2, zeros);
}

/* The streams that whiten the pages of a block (docs/FORMAT.md). */
static uint8_t streams[PAGES][MAIN];

static void make_streams(void) {
    for (size_t p = 0; p < PAGES; p++) {
        unsigned bits = p + 1;
        for (size_t i = 0; i < 8 * MAIN; i++) {
            streams[p][i / 8] |= (bits >> 14) << (7 - i % 8);
            bits = (bits << 1 & 0x7fff) | ((bits >> 14 ^ bits >> 13) & 1);
        }
    }
}

static void whiten(uint8_t *page, size_t place) {
    for (size_t i = 0; i < MAIN; i++) {
        page[i] ^= streams[place][i];
    }
}

static size_t replaces(size_t number) { return number % 8 ? 0 : number - 1; }

/* Block 0 holds the table, the next ones the copies of as many logical blocks as these records need; the others are erased. */
static void lay_out(size_t records) {
    memset(store.array, 0xff, store.array_len);
    for (size_t p = 0; p < PAGES; p++) {
        uint8_t *page = store.array + p * PAGE;
        if (p == 0) {
            put_number(page, 2, BLOCKS);
            put_number(page + 2, 2, BLOCKS - 2);
            put_number(page + 4, 2, 0);
            put_number(page + 6, 2, 8);
            memset(page + 8, 0, BLOCKS / 8);
        }
        finish(page, 0x74, 0, p, 1);
    }
    for (size_t k = 0; k < (records + PAGES - 1) / PAGES * PAGES; k++) {
        uint8_t *page = store.array + BLOCK + k * PAGE;
        if (k < records) {
            put_number(page, 2, k + 1);
            page[2] = 12;
            put_number(page + 3, 2, COUNT);
            put_number(page + 5, 4, PRICE);
            put_number(page + 9, 2, replaces(k + 1));
        }
        whiten(page, k % PAGES);
        finish(page, 0x6c, k / PAGES, k % PAGES, k / PAGES + 2);
    }
}

static void print_request(const char *name, size_t records, size_t reads, size_t amounts, double seconds) {
    print_row_of(name, records);
    printf(" | ");
    print_number(reads);
    printf(" | ");
    print_number(amounts);
    printf(" | ");
    print_number(call.sent);
    printf(" | %.2f ms |\n", seconds * 1e3);
}

/* The append of the record after so many, best of the repeats, each from the same state: the old copy stays. */
static int time_append(size_t records) {
    static uint8_t before[FLASH_STORE_STATE_BYTES];
    size_t kept = records % PAGES ? PAGES - 1 : 0, reads = records + (kept ? 1 : 0), number = 0, answer = 0;
    double best = 1e9;
    memcpy(before, store.state, sizeof before);
    for (int k = 0; k < REPEATS && answer == FLASH_STORE_DONE; k++) {
        memcpy(store.state, before, sizeof before);
        double t = now();
        answer = flash_store_do_append(&store, &call, 12, COUNT, PRICE, replaces(records + 1), &number);
        best = least(best, now() - t);
    }
    print_request("append", records + 1, reads + kept, 0, best);
    return answer != FLASH_STORE_DONE || number != records + 1 || call.sent != (reads + kept) * READ + WRITE;
}

/* The takings of so many records. The page after them is read where there is one and its logical block has a copy. */
static int time_takings(size_t records) {
    size_t past = records < MOST && records % PAGES ? 1 : 0, reads = records + past;
    size_t in_force = records - records / 8, answer = 0;
    uint64_t takings = 0;
    double best = 1e9;
    for (int k = 0; k < REPEATS && answer == FLASH_STORE_DONE; k++) {
        double t = now();
        answer = flash_store_do_takings(&store, &call, &takings);
        best = least(best, now() - t);
    }
    print_request("takings", records, reads, in_force, best);
    return answer != FLASH_STORE_DONE || takings != in_force * (uint64_t)COUNT * PRICE ||
           call.sent != reads * READ + in_force * AMOUNT;
}

int main(void) {
    static const size_t sizes[] = {0, 1023, 16383, MOST - 1};
    int differs = 0;
    store.array = malloc(store.array_len);
    if (!store.array) {
        return 1;
    }
    make_streams();
    printf("\n| Request | Record | Page reads | Reads of count and price | Cycles | Time |\n|---|---|---|---|---|---|\n");
    for (size_t i = 0; i < sizeof sizes / sizeof sizes[0]; i++) {
        lay_out(sizes[i]);
        memset(history, 0, sizeof history);
        differs |= flash_store_do_quick_mount(&store, &call) != FLASH_STORE_DONE;
        differs |= time_append(sizes[i]);
        differs |= time_takings(sizes[i] + 1);
    }
    free(store.array);
    return differs;
}
