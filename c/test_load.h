/*
 * The draws of the test load, for C on x86-64 Linux; in the same archive as the store (c/flash_store.h).
 *
 * Each draw follows from the one before it, the first from the seed; from a seed that is not 0 no draw is 0. A draw's
 * remainder by 8 picks an erase (0), a read (1 to 3) or a write; the next draw the logical block by remainder, the next the
 * page by remainder, which an erase skips; a write's byte is the page draw's top eight bits.
 *
 * From seed 0 every draw is 0. A load from seed 0 gets 2, with no request and no cycle, not even a formatting; test_load_draw does
 * not test the seed, so a caller that runs a load refuses seed 0 itself.
 */
#ifndef TEST_LOAD_H
#define TEST_LOAD_H

#include <stdint.h>

#ifdef __cplusplus
extern "C" {
#endif

uint32_t test_load_draw(uint32_t last);

#ifdef __cplusplus
}
#endif

#endif
