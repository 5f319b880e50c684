/* Prints the greatest K numbers of standard input, the greatest first, in memory for K numbers.
 *
 * They are kept as a min-heap. A number that is greater than the least of them takes the place of that one, and
 * `replace` repairs the heap. */
#include <dary_heap_c.h>

#include <inttypes.h>
#include <stdio.h>
#include <stdlib.h>

#define ARITY 4
#define K 3

static void must(bool done) {
    if (!done)
        abort();
}

int main(void) {
    int64_t greatest[K];
    size_t len = 0;
    int64_t number;
    while (scanf("%" SCNd64, &number) == 1) {
        if (len < K) {
            greatest[len++] = number;
            must(dheap_min_push_i64(greatest, len, ARITY));
        } else if (greatest[0] < number) {
            greatest[0] = number;
            must(dheap_min_replace_i64(greatest, len, ARITY));
        }
    }
    if (!feof(stdin)) {
        fputs("this is no number\n", stderr);
        return 1;
    }
    /* A min-heap is sorted in descending order. */
    must(dheap_min_sort_heap_i64(greatest, len, ARITY));
    for (size_t i = 0; i < len; i++)
        printf("%" PRId64 "\n", greatest[i]);
    return 0;
}
