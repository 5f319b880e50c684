/* Sorts doubles by the keys that two lines of ../README.md make of them. check.sh writes these lines to double_keys.inc. */
#include "dary_heap_c.h"

#include <float.h>
#include <math.h>
#include <stdio.h>
#include <string.h>

static int64_t key_of(double number) {
    int64_t key;
#include "double_keys.inc"
    return key;
}

int main(void) {
    /* in ascending order */
    const double numbers[] = {-INFINITY, -DBL_MAX, -2.5, -1.0, -DBL_MIN, -0.0, 0.0, DBL_MIN, 1.0, 2.5, DBL_MAX, INFINITY};
    enum { LEN = sizeof numbers / sizeof *numbers };
    struct dheap_entry items[LEN];
    for (size_t i = 0; i < LEN; i++)
        items[i] = (struct dheap_entry){key_of(numbers[LEN - 1 - i]), LEN - 1 - i};
    bool right = dheap_max_sort_entry(items, LEN, 4);
    for (size_t i = 0; i < LEN; i++)
        right &= items[i].value == i && (i == 0 || items[i - 1].key < items[i].key);
    puts(right ? "the keys of doubles are in the order of the numbers" : "the keys of doubles are in another order");
    return !right;
}
