/*
 * The small chip asked for its size, then formatted, mounted, written and read with the sizes that it told; parameter pages
 * with one bad copy and with three; a question that is refused, and one that is cut. Ends with 1 where a figure is not the
 * expected one.
 */
#include <stdio.h>
#include <string.h>

#include "flash_store.h"

enum { MAIN = 32, SPARE = 16, PAGES = 4, BLOCKS = 4, LOGICAL = 2, PAGE = MAIN + SPARE, BLOCK = PAGE * PAGES };

/* A copy of the parameter page. */
enum { COPY = 256, CRC_AT = 254 };

/* Cycles: a reset is 3, ECh with its address, 70h, a status read and 00h are 5, then all bytes come out. */
enum { ASKED = 3 + 5 + FLASH_STORE_PARAMETER_BYTES };

static uint8_t array[BLOCK * BLOCKS], page_register[PAGE], history[BLOCKS], parameters[3 * COPY];

/* The geometry is not known yet. */
static struct flash_store store = {
    .logical = LOGICAL,
    .array = array,
    .array_len = sizeof array,
    .page_register = page_register,
    .page_register_len = sizeof page_register,
    .history = history,
    .history_len = sizeof history,
};

/* No mask, no fate words: every operation passes. */
static struct flash_store_call uncut = {.allowed = FLASH_STORE_UNCUT};
static struct flash_store_call cut = {.allowed = ASKED - 1};

static const struct flash_store_sizes none = {0}, told = {MAIN, SPARE, PAGES, BLOCKS};

static int differs;

static void expect(int holds, const char *what) {
    if (!holds) {
        printf("  %s: not as expected\n", what);
        differs = 1;
    }
}

/* A number of so many bytes, low byte first. */
static void put(uint8_t *at, size_t bytes, uint32_t number) {
    for (size_t i = 0; i < bytes; i++) {
        at[i] = (uint8_t)(number >> 8 * i);
    }
}

/* The integrity CRC of ONFI 1.0: polynomial 8005h, start 4F4Eh, most significant bit first. */
static uint16_t integrity_crc(const uint8_t *bytes, size_t length) {
    uint16_t crc = 0x4f4e;
    for (size_t i = 0; i < length; i++) {
        crc ^= (uint16_t)(bytes[i] << 8);
        for (int bit = 0; bit < 8; bit++) {
            crc = (uint16_t)(crc & 0x8000 ? crc << 1 ^ 0x8005 : crc << 1);
        }
    }
    return crc;
}

/* The parameter page of the small chip: three equal copies. */
static void make_parameters(void) {
    memset(parameters, 0, sizeof parameters);
    memcpy(parameters, "ONFI", 4);
    put(parameters + 80, 4, MAIN);
    put(parameters + 84, 2, SPARE);
    put(parameters + 92, 4, PAGES);
    put(parameters + 96, 4, BLOCKS);
    put(parameters + CRC_AT, 2, integrity_crc(parameters, CRC_AT));
    memcpy(parameters + COPY, parameters, COPY);
    memcpy(parameters + 2 * COPY, parameters, COPY);
}

static void show(const char *name, enum flash_store_answer answer, enum flash_store_answer expected, size_t cycles) {
    printf("%-28s answer %d, %zu cycles\n", name, answer, uncut.sent);
    expect(answer == expected, "answer");
    expect(uncut.sent == cycles, "cycles");
}

/* Asks the chip for its size. */
static struct flash_store_sizes ask(const char *name, struct flash_store_call *call, size_t length,
                                    enum flash_store_answer expected, size_t cycles) {
    struct flash_store_sizes s;
    enum flash_store_answer answer = flash_store_do_identify(&store, call, parameters, length, &s);
    const struct flash_store_sizes *wanted = expected == FLASH_STORE_DONE ? &told : &none;
    printf("%-28s answer %d, %zu cycles: main %zu, spare %zu, pages %zu, blocks %zu\n", name, answer, call->sent, s.main,
           s.spare, s.pages, s.blocks);
    expect(answer == expected, "answer");
    expect(call->sent == cycles, "cycles");
    expect(memcmp(&s, wanted, sizeof s) == 0, "sizes");
    return s;
}

/* The store takes over what the chip told, and with it the lengths of the chip's memory. */
static int take_over(const struct flash_store_sizes *s) {
    store.main = s->main;
    store.spare = s->spare;
    store.pages = s->pages;
    store.blocks = s->blocks;
    store.page_register_len = s->main + s->spare;
    store.array_len = store.page_register_len * s->pages * s->blocks;
    store.history_len = s->blocks;
    return store.array_len == sizeof array;
}

static enum flash_store_answer read_page(uint8_t *page) {
    return flash_store_do_read(&store, &uncut, 0, 0, page, store.main);
}

/* Formats and mounts with the sizes told, then writes a page and reads it. */
static void use_sizes(void) {
    uint8_t written[MAIN], page[MAIN] = {0};
    memset(written, 0xa5, sizeof written);
    show("format", flash_store_do_format(&store, &uncut), FLASH_STORE_DONE, 1196);
    show("mount", flash_store_do_mount(&store, &uncut), FLASH_STORE_DONE, 931);
    show("write block 0 page 0", flash_store_do_write(&store, &uncut, 0, 0, written, store.main), FLASH_STORE_DONE, 237);
    show("read block 0 page 0", read_page(page), FLASH_STORE_DONE, MAIN + 10);
    expect(memcmp(page, written, sizeof page) == 0, "page");
}

/* Bad copies. A question that is answered leaves the state mounted, and one that is cut stops it. */
static void ask_again(void) {
    uint8_t page[MAIN];
    parameters[80] ^= 1;
    ask("first copy, one bit wrong", &uncut, sizeof parameters, FLASH_STORE_DONE, ASKED);
    parameters[COPY] = 'o';
    parameters[3 * COPY - 1] ^= 0x80;
    ask("three bad copies", &uncut, sizeof parameters, FLASH_STORE_NO_SIZES, ASKED);
    ask("page a byte short", &uncut, sizeof parameters - 1, FLASH_STORE_GEOMETRY, 0);
    show("read block 0 page 0", read_page(page), FLASH_STORE_DONE, MAIN + 10);
    ask("cut before the last byte", &cut, sizeof parameters, FLASH_STORE_CUT, ASKED - 1);
    show("read after the cut", read_page(page), FLASH_STORE_MOUNT_FIRST, 0);
}

int main(void) {
    memset(array, 0xff, sizeof array);
    make_parameters();
    store.logical = 3;
    ask("3 logical blocks", &uncut, sizeof parameters, FLASH_STORE_GEOMETRY, ASKED);
    store.logical = LOGICAL;
    struct flash_store_sizes sizes = ask("2 logical blocks", &uncut, sizeof parameters, FLASH_STORE_DONE, ASKED);
    if (!take_over(&sizes)) {
        printf("the chip told other sizes than its memory has\n");
        return 1;
    }
    use_sizes();
    ask_again();
    return differs;
}
