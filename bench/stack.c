/* The stack that each call of the library takes: the call runs on a painted stack, and the paint that is left is counted. Then the
   sizes of what a caller keeps between calls. */
#include <stdio.h>
#include <string.h>
#include <ucontext.h>

#include "../c/flash_store.h"
#include "table.h"

enum {
    MAIN = 32,
    SPARE = 16,
    PAGE = MAIN + SPARE,
    PAGES = 4,
    BLOCK = PAGE * PAGES,
    BLOCKS = 4,
    STACK = 1 << 20,
    PAINT = 0xa5
};

static uint8_t array[BLOCK * BLOCKS], page_register[PAGE], history[BLOCKS], mask[BLOCK], page[MAIN], stack[STACK];
static uint8_t parameters[FLASH_STORE_PARAMETER_BYTES];
static uint32_t words[21];
static struct flash_store_sizes sizes;
static struct flash_store store = {
    .main = MAIN,
    .spare = SPARE,
    .pages = PAGES,
    .blocks = BLOCKS,
    .logical = 2,
    .array = array,
    .array_len = sizeof array,
    .page_register = page_register,
    .page_register_len = PAGE,
    .history = history,
    .history_len = BLOCKS,
};
static struct flash_store_call call = {.mask = mask, .mask_len = BLOCK, .allowed = FLASH_STORE_UNCUT};
static enum flash_store_answer answer;
static ucontext_t caller, callee;

static void format(void) { answer = flash_store_do_format(&store, &call); }
static void mount(void) { answer = flash_store_do_mount(&store, &call); }
static void quick_mount(void) { answer = flash_store_do_quick_mount(&store, &call); }
static void read_page(void) { answer = flash_store_do_read(&store, &call, 0, 0, page, MAIN); }
static void write_page(void) { answer = flash_store_do_write(&store, &call, 0, 0, page, MAIN); }
static size_t finished;
static void open_write(void) { answer = flash_store_do_open_write(&store, &call, 0, 0, page, MAIN); }
static void advance(void) { answer = flash_store_do_advance(&store, &call, 99, &finished); }
static void erase(void) { answer = flash_store_do_erase(&store, &call, 0); }
static void identify(void) { answer = flash_store_do_identify(&store, &call, parameters, sizeof parameters, &sizes); }
static void dearest(void) { answer = flash_store_do_dearest_write(&store, 1, words, 21, &call.sent); }
static size_t number;
static uint64_t told;
static void append(void) { answer = flash_store_do_append(&store, &call, 12, 2, 150, 0, &number); }
static void takings(void) { answer = flash_store_do_takings(&store, &call, &told); }
static void nothing(void) {}

/* The third copy of the parameter page is that of the small chip, with its CRC, E6D5h; the others are blank. */
static void make_parameters(void) {
    uint8_t *copy = parameters + 512;
    memcpy(copy, "ONFI", 4);
    copy[80] = MAIN;
    copy[84] = SPARE;
    copy[92] = PAGES;
    copy[96] = BLOCKS;
    copy[254] = 0xd5;
    copy[255] = 0xe6;
}

/* The bytes of the painted stack that a function changed. */
static size_t used(void (*function)(void)) {
    memset(stack, PAINT, STACK);
    getcontext(&callee);
    callee.uc_stack.ss_sp = stack;
    callee.uc_stack.ss_size = STACK;
    callee.uc_link = &caller;
    makecontext(&callee, function, 0);
    swapcontext(&caller, &callee);
    size_t left = 0;
    while (left < STACK && stack[left] == PAINT) {
        left++;
    }
    return STACK - left;
}

/* One row; 1 where the answer or the cycles are not the expected ones. */
static int measure(const char *name, void (*function)(void), size_t cycles) {
    size_t bytes = used(function) - used(nothing);
    print_row_of(name, bytes);
    printf(" |\n");
    return answer != FLASH_STORE_DONE || call.sent != cycles;
}

/* An erased chip, formatted for so many logical blocks. */
static void format_new(size_t logical) {
    memset(array, 0xff, sizeof array);
    memset(history, 0, sizeof history);
    store.logical = logical;
    call.fates_len = 0;
    format();
}

int main(void) {
    static const uint32_t erase_fails[1] = {1 << 16};
    /* Two reads to the journal's end come before the write. */
    static const uint32_t third_fails[3] = {[2] = 1 << 16};
    /* Over a table in block 0: 16 reads, the erase of block 1 (fails), 4 reads of its pages, 2 erases, the erase of a fill and its 4
       programs, the erase of block 0 (fails). */
    static const uint32_t failing[29] = {[16] = 1 << 16, [28] = 1 << 16};
    int differs = 0;
    printf("\n| Call | Bytes of stack |\n|---|---|\n");
    memset(array, 0xff, sizeof array);
    make_parameters();
    differs |= measure("identify", identify, 776);
    differs |= measure("dearest write", dearest, 6314);
    differs |= measure("format", format, 1196);
    differs |= measure("mount", mount, 931);
    differs |= measure("quick mount", quick_mount, 627);
    differs |= measure("write of a page without a copy", write_page, 237);
    differs |= measure("read of a page with a copy", read_page, MAIN + 10);
    differs |= measure("opening of a write", open_write, 2);
    differs |= measure("read beside it", read_page, MAIN + 10);
    differs |= measure("advance to its end", advance, 361);
    call.fates = erase_fails;
    call.fates_len = 1;
    differs |= measure("write over a copy, an erase fails", write_page, 605);
    call.fates_len = 0;
    differs |= measure("erase of a logical block", erase, 237);
    format_new(1);
    call.fates = failing;
    call.fates_len = 29;
    differs |= measure("format over a table, two erases fail", format, 1663);
    format_new(2);
    append();
    call.fates = third_fails;
    call.fates_len = 3;
    differs |= measure("append to a journal, an erase fails", append, 2 * (MAIN + 10) + 605);
    call.fates_len = 0;
    differs |= measure("takings", takings, 3 * (MAIN + 10) + 2 * 19);
    printf("\n| Kept by the caller | Bytes |\n|---|---|\n");
    print_row_of("state", sizeof store.state);
    printf(" |\n");
    print_row_of("interface", sizeof store.interface);
    printf(" |\n");
    return differs;
}
