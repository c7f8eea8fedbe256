/*
 * Lists of sales held against each other, with the balance of each pair that is accepted. Ends with 1 where a figure is not
 * the expected one.
 */
#include <inttypes.h>
#include <stdio.h>

#include "reconcile.h"

enum { LONGEST = RECONCILE_MOST_SALES };

static uint32_t longest[LONGEST + 1], most[LONGEST + 1], least[LONGEST + 1];

static int differs;

static int64_t sum(const struct reconcile_sales *sales) {
    int64_t total = 0;
    for (size_t i = 0; sales->amounts && i < sales->count; i++) {
        total += sales->amounts[i];
    }
    return total;
}

static void expect(int holds, const char *what) {
    if (!holds) {
        printf("  %s: not as expected\n", what);
        differs = 1;
    }
}

static void show(const char *name, struct reconcile_sales box, struct reconcile_sales mechanism,
                 enum reconcile_answer expected, int64_t difference) {
    struct reconcile_totals t = {9, 9, 9, 9};
    enum reconcile_answer answer = reconcile_do(&box, &mechanism, &t);
    printf("%-20s answer %d, agreed %" PRIu64 ", box %" PRIu64 ", mechanism %" PRIu64 ", difference %" PRId64 "\n", name,
           answer, t.agreed, t.only_box, t.only_mechanism, t.difference);
    expect(answer == expected, "answer");
    expect(t.difference == difference, "difference");
    if (answer == RECONCILE_DONE) {
        expect(sum(&box) - sum(&mechanism) == (int64_t)t.only_box - (int64_t)t.only_mechanism + t.difference, "balance");
    } else {
        expect(t.agreed == 0 && t.only_box == 0 && t.only_mechanism == 0, "zeros");
    }
}

static void show_short(void) {
    static const uint32_t box_numbers[] = {1, 2, 5, 7}, box_amounts[] = {100, 150, 60, 20};
    static const uint32_t numbers[] = {1, 3, 5, 7}, amounts[] = {100, 80, 50, 50};
    static const uint32_t repeated[] = {1, 3, 3, 7}, falls[] = {1, 5, 7, 6};
    struct reconcile_sales box = {box_numbers, box_amounts, 4}, mechanism = {numbers, amounts, 4};
    struct reconcile_sales none = {NULL, NULL, 0};
    show("four sales", box, mechanism, RECONCILE_DONE, -20);
    show("the other way", mechanism, box, RECONCILE_DONE, 20);
    show("equal", box, box, RECONCILE_DONE, 0);
    show("mechanism empty", box, none, RECONCILE_DONE, 0);
    show("both empty", none, none, RECONCILE_DONE, 0);
    show("a number twice", box, (struct reconcile_sales){repeated, amounts, 4}, RECONCILE_REFUSED, 0);
    show("falls at the last", (struct reconcile_sales){falls, amounts, 4}, mechanism, RECONCILE_REFUSED, 0);
}

/* A list of which one half, or the whole, is not given. */
static void show_missing(void) {
    static const uint32_t numbers[] = {1, 2, 5}, amounts[] = {100, 150, 60};
    struct reconcile_sales whole = {numbers, amounts, 3}, none = {NULL, NULL, 3};
    struct reconcile_sales no_amounts = {numbers, NULL, 3}, no_numbers = {NULL, amounts, 3};
    show("box, no amount", no_amounts, whole, RECONCILE_REFUSED, 0);
    show("box, no number", no_numbers, whole, RECONCILE_REFUSED, 0);
    show("mechanism, no amount", whole, no_amounts, RECONCILE_REFUSED, 0);
    show("mechanism, no number", whole, no_numbers, RECONCILE_REFUSED, 0);
    show("mechanism not given", whole, none, RECONCILE_DONE, 0);
}

static void show_long(void) {
    for (uint32_t i = 0; i <= LONGEST; i++) {
        longest[i] = i;
        most[i] = UINT32_MAX;
    }
    struct reconcile_sales high = {longest, most, LONGEST}, low = {longest, least, LONGEST};
    show("longest, above", high, low, RECONCILE_DONE, INT64_C(281470681677825));
    show("longest, below", low, high, RECONCILE_DONE, INT64_C(-281470681677825));
    show("longest, equal", high, high, RECONCILE_DONE, 0);
    show("one sale too many", (struct reconcile_sales){longest, most, LONGEST + 1}, low, RECONCILE_REFUSED, 0);
}

/* The plain call: an amount too few, and buffers of a wrong length, which keep what they hold. */
static void show_plain(void) {
    uint64_t totals[4] = {9, 9, 9, 9};
    int64_t difference[2] = {-9, -9};
    size_t few = reconcile_lists(longest, 3, most, 2, longest, 3, most, 3, totals, 3, difference, 1);
    expect(totals[0] == 0 && totals[1] == 0 && totals[2] == 0 && difference[0] == 0, "zeros");
    expect(totals[3] == 9 && difference[1] == -9, "what lies behind");
    totals[0] = 9;
    difference[0] = -9;
    size_t short_totals = reconcile_lists(longest, 3, most, 3, longest, 3, most, 3, totals, 2, difference, 1);
    size_t long_difference = reconcile_lists(longest, 3, most, 3, longest, 3, most, 3, totals, 3, difference, 2);
    expect(totals[0] == 9 && difference[0] == -9, "buffers kept");
    printf("an amount too few    answer %zu\n", few);
    printf("wrong buffers        answers %zu and %zu\n", short_totals, long_difference);
    expect(few == RECONCILE_REFUSED, "answer");
    expect(short_totals == RECONCILE_BAD_BUFFER && long_difference == RECONCILE_BAD_BUFFER, "answers");
}

int main(void) {
    show_short();
    show_missing();
    show_long();
    show_plain();
    return differs;
}
