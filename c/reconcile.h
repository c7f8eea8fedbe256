/*
 * The box's sales against the coin mechanism's, for C on x86-64 Linux. Link crates/flash_store/out/libflash_store.a, which
 * `rt lib`, in crates/flash_store, proves and builds.
 *
 * Start with struct reconcile_sales, struct reconcile_totals and reconcile_do, at the end of this file. A call goes over both
 * lists once, takes no memory from a heap, and keeps nothing.
 */
#ifndef RECONCILE_H
#define RECONCILE_H

#include <stddef.h>
#include <stdint.h>

#ifdef __cplusplus
extern "C" {
static_assert(sizeof(size_t) == 8, "the library is built for a size_t of 8 bytes");
#else
_Static_assert(sizeof(size_t) == 8, "the library is built for a size_t of 8 bytes");
#endif

enum reconcile_answer {
    RECONCILE_DONE = 0,
    RECONCILE_REFUSED = 2,     /* a list does not rise, is too long or has not as many amounts as numbers: four zeros */
    RECONCILE_BAD_BUFFER = 100 /* totals is not RECONCILE_TOTALS long, or difference not 1: nothing changed */
};

enum {
    RECONCILE_MOST_SALES = 65535, /* of a list */
    RECONCILE_TOTALS = 3          /* agreed, only in the box, only in the mechanism, in this order */
};

/*
 * The plain call. Every buffer is lent as a pointer and the number of its elements, in this order. Any lengths and contents
 * get an answer. The caller sees to what no call can test: each pointer points to as many elements as its length says,
 * aligned for their type, not NULL (not even with length 0), and totals and difference overlap no other buffer of the call.
 *
 *   ..._numbers     sale numbers, each above the one before it
 *   ..._amounts     the amount of each sale
 *   totals          RECONCILE_TOTALS: the amounts of sales that both lists have with the same amount, of sales that only the
 *                   box has, of sales that only the mechanism has
 *   difference      1: over the sales that both have with different amounts, the box's amounts minus the mechanism's
 * The sum of the box's amounts minus the mechanism's is totals[1] - totals[2] + difference[0]. No total passes
 * 65,535 x 4,294,967,295, in size.
 */
size_t reconcile_lists(const uint32_t *box_numbers, size_t box_numbers_len, const uint32_t *box_amounts,
                       size_t box_amounts_len, const uint32_t *mechanism_numbers, size_t mechanism_numbers_len,
                       const uint32_t *mechanism_amounts, size_t mechanism_amounts_len, uint64_t *totals,
                       size_t totals_len, int64_t *difference, size_t difference_len);

/* A list of sales. NULL counts as no number, or as no amount, whatever count says; both NULL is a list without a sale. */
struct reconcile_sales {
    const uint32_t *numbers;
    const uint32_t *amounts;
    size_t count; /* of the numbers, and of the amounts */
};

struct reconcile_totals {
    uint64_t agreed, only_box, only_mechanism;
    int64_t difference;
};

static inline const uint32_t *reconcile_lent(const uint32_t *entries) {
    static const uint32_t none = 0;
    return entries ? entries : &none;
}

static inline size_t reconcile_length(const uint32_t *entries, size_t count) { return entries ? count : 0; }

/* Holds the box's list against the mechanism's. */
static inline enum reconcile_answer reconcile_do(const struct reconcile_sales *box,
                                                 const struct reconcile_sales *mechanism,
                                                 struct reconcile_totals *out) {
    uint64_t totals[RECONCILE_TOTALS] = {0, 0, 0};
    size_t answer = reconcile_lists(
        reconcile_lent(box->numbers), reconcile_length(box->numbers, box->count), reconcile_lent(box->amounts),
        reconcile_length(box->amounts, box->count), reconcile_lent(mechanism->numbers),
        reconcile_length(mechanism->numbers, mechanism->count), reconcile_lent(mechanism->amounts),
        reconcile_length(mechanism->amounts, mechanism->count), totals, RECONCILE_TOTALS, &out->difference, 1);
    out->agreed = totals[0];
    out->only_box = totals[1];
    out->only_mechanism = totals[2];
    return (enum reconcile_answer)answer;
}

#ifdef __cplusplus
}
#endif

#endif
