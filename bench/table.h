/* What the benchmark programs share: numbers as the tables of docs/BENCHMARKS.md show them. */
#ifndef TABLE_H
#define TABLE_H

#include <stddef.h>
#include <stdio.h>

/* A number with a comma before every three digits. */
static void print_number(size_t number) {
    if (number >= 1000) {
        print_number(number / 1000);
        printf(",%03zu", number % 1000);
    } else {
        printf("%zu", number);
    }
}

static inline void print_row_of(const char *name, size_t number) {
    printf("| %s | ", name);
    print_number(number);
}

#endif
