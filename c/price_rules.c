/*
 * The price rules of a vending machine: checked, prices found; edits that leave a selection out, cover one twice or turn a
 * rule round. Ends with 1 where a figure is not the expected one.
 */
#include <stdio.h>

#include "price_rules.h"

/* Drinks, snacks, sandwiches, sweets; prices in cents. */
enum { DRINKS, SNACKS, SANDWICHES, SWEETS, RULES };

static uint8_t first[RULES] = {1, 20, 40, 60};
static uint8_t last[RULES] = {19, 39, 59, 99};
static const uint32_t price[RULES] = {150, 120, 350, 90};

static int differs;

static void compare(size_t answer, size_t number, size_t expected, size_t expected_number) {
    if (answer != expected || number != expected_number) {
        printf("expected answer %zu, %zu\n", expected, expected_number);
        differs = 1;
    }
}

static void check(const char *name, size_t rules, size_t expected, size_t at) {
    size_t fault = 1234;
    size_t answer = price_rules_check(first, rules, last, rules, price, rules, &fault, 1);
    printf("%-34s answer %zu, selection %zu\n", name, answer, fault);
    compare(answer, fault, expected, at);
}

static void find(const char *name, size_t selection, size_t expected, uint32_t cents) {
    uint32_t found = 1234;
    size_t answer = price_rules_price(first, RULES, last, RULES, price, RULES, selection, &found, 1);
    printf("%-34s answer %zu, price %u\n", name, answer, (unsigned)found);
    compare(answer, found, expected, cents);
}

/* A buffer of another length than 1 stays as it is. */
static void keep(void) {
    size_t fault[2] = {1234, 5678};
    uint32_t found[2] = {1234, 5678};
    size_t checked = price_rules_check(first, RULES, last, RULES, price, RULES, fault, 2);
    size_t priced = price_rules_price(first, RULES, last, RULES, price, RULES, 1, found, 2);
    printf("%-34s answer %zu, %zu %zu\n", "check, 2 places for the fault", checked, fault[0], fault[1]);
    printf("%-34s answer %zu, %u %u\n", "price, 2 places for it", priced, (unsigned)found[0], (unsigned)found[1]);
    compare(checked, fault[0], PRICE_RULES_BAD_BUFFER, 1234);
    compare(priced, found[1], PRICE_RULES_BAD_BUFFER, 5678);
}

int main(void) {
    check("drinks to sweets", RULES, PRICE_RULES_ACCEPTED, 0);
    find("price of 1", 1, PRICE_RULES_ACCEPTED, 150);
    find("price of 39", 39, PRICE_RULES_ACCEPTED, 120);
    find("price of 40", 40, PRICE_RULES_ACCEPTED, 350);
    find("price of 99", 99, PRICE_RULES_ACCEPTED, 90);
    find("price of 0", 0, PRICE_RULES_OUT_OF_RANGE, 0);
    find("price of 100", 100, PRICE_RULES_OUT_OF_RANGE, 0);
    check("the first three rules", SWEETS, PRICE_RULES_UNCOVERED, 60);
    last[SANDWICHES] = 64;
    check("sandwiches to 64", RULES, PRICE_RULES_DISPUTED, 60);
    find("price of 1 then", 1, PRICE_RULES_DISPUTED, 0);
    first[SNACKS] = 25;
    check("snacks from 25 too", RULES, PRICE_RULES_UNCOVERED, 20);
    first[SNACKS] = 20;
    last[SNACKS] = 19;
    check("snacks from 20 to 19", RULES, PRICE_RULES_DISPUTED, 20);
    last[SNACKS] = 100;
    check("snacks from 20 to 100", RULES, PRICE_RULES_DISPUTED, 20);
    first[SNACKS] = 0;
    check("snacks from 0 to 100", RULES, PRICE_RULES_DISPUTED, 1);
    first[SNACKS] = 20;
    last[SNACKS] = 39;
    last[SANDWICHES] = 59;
    check("as it was", RULES, PRICE_RULES_ACCEPTED, 0);
    keep();
    return differs;
}
