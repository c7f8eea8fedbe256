/*
 * Price rules that the depot edits, for C on x86-64 Linux: the check of a table, and the price of a selection. Link
 * crates/flash_store/out/libflash_store.a, which `rt lib`, in crates/flash_store, proves and builds; neither call needs a store.
 *
 * Rule i of a table says that the selections from first[i] to last[i] cost price[i]. Selections run from 1 to 99. A table is
 * accepted if each selection falls in exactly one rule, and every rule has both ends in 1 to 99 and its last selection not
 * below its first.
 */
#ifndef PRICE_RULES_H
#define PRICE_RULES_H

#include <stddef.h>
#include <stdint.h>

#ifdef __cplusplus
extern "C" {
static_assert(sizeof(size_t) == 8, "the library is built for a size_t of 8 bytes");
#else
_Static_assert(sizeof(size_t) == 8, "the library is built for a size_t of 8 bytes");
#endif

/* The answers, in the order in which they are tested; of UNCOVERED and DISPUTED the smaller selection at fault decides. */
enum price_rules_answer {
    PRICE_RULES_ACCEPTED = 0,
    PRICE_RULES_BAD_BUFFER = 100, /* the buffer of the result has not one element: nothing changed */
    PRICE_RULES_OUT_OF_RANGE = 2, /* over 200 rules, lengths that differ, or a price asked for what is no selection */
    PRICE_RULES_DISPUTED = 18,    /* two rules cover the selection, or it is the first of a wrong rule (1 if that is outside) */
    PRICE_RULES_UNCOVERED = 17    /* no rule covers the selection */
};

enum { PRICE_RULES_MOST = 200 }; /* rules of a table */

/*
 * Every buffer is lent as a pointer and the number of its elements, in this order. Any numbers, lengths and contents get an
 * answer, which is returned. The caller sees to what no call can test: each pointer points to as many elements as its length
 * says, aligned for their type, not NULL (not even with length 0), and fault and found overlap no other buffer of the call.
 */

/* Checks a table. fault, 1 long: set to the smallest selection at fault; 0 with ACCEPTED and OUT_OF_RANGE. */
size_t price_rules_check(const uint8_t *first, size_t first_len, const uint8_t *last, size_t last_len,
                         const uint32_t *price, size_t price_len, size_t *fault, size_t fault_len);

/* Finds the price of a selection. found, 1 long: set to the price of its rule; 0 where the answer is not ACCEPTED. */
size_t price_rules_price(const uint8_t *first, size_t first_len, const uint8_t *last, size_t last_len,
                         const uint32_t *price, size_t price_len, size_t selection, uint32_t *found, size_t found_len);

#ifdef __cplusplus
}
#endif

#endif
