/* SPDX-License-Identifier: MIT OR Apache-2.0 */

/* Binary and d-ary heaps (min-heaps, max-heaps, priority queues) in arrays of the caller, in place.
 *
 * A heap is an array in which no item comes before its parent: the item at a place i above 0 has its parent at
 * place (i - 1) / arity. So the first item is one that no other comes before. In a max-heap the greatest comes
 * first, and in a min-heap the least. A priority queue is such an array with its length: `push` adds an item,
 * items[0] is the next one, and `pop` takes it out. The array is yours. No function allocates memory or keeps a
 * pointer.
 *
 * Names
 *
 *   dheap_max_push_i64
 *         |   |    |
 *         |   |    the items: i64 (int64_t), u64 (uint64_t), double, entry (struct dheap_entry),
 *         |   |    sequenced (struct dheap_sequenced), or keyed (entries whose places are kept, to push,
 *         |   |    pop, fix and remove)
 *         |   make, push, pop, replace, fix, remove, mend, sort_heap, sort or is_heap
 *         max-heap or min-heap
 *
 * Doubles are compared by the total order of IEEE 754: -0.0 is less than 0.0, and a NaN is greater than all
 * numbers, or less than all if its sign bit is set. The other numbers are ordered as by `<`.
 *
 * Arguments and results
 *
 * The arguments are the array, its length, the arity, and what the function needs beyond. The arity is how many
 * children a place may have, from 1 to DARY_HEAP_ARITY_MAX.
 *
 * Each function returns true if it did what it says. It returns false, and nothing is changed, if the arity
 * isn't 1 to DARY_HEAP_ARITY_MAX, if there is no item to push, pop, replace, fix or remove, or if a place, a start or a
 * value is out of the range that is said with the function. A compiler that can warn does so if you ignore the result.
 *
 * What you have to uphold
 *
 * - `items` points to `len` items, aligned as C aligns them, and isn't null, even if `len` is 0. For all
 *   functions but `is_heap` they are writable.
 * - Nobody else writes these items during the call, or reads them if the function may write.
 *   Calls on different arrays may run at the same time.
 *
 * Nothing else is a precondition. If the items aren't a heap where a function says that they are, it moves
 * them all the same, loses none and doubles none, and what it says of heap order afterwards may not hold.
 *
 * Costs
 *
 * In comparisons, at most. The depth of a place is how many steps it is from there to place 0: from arity
 * 2 on less than log(arity * n) to the base of the arity, for a place below n. At arity 1 it is the place.
 *
 * Versions
 *
 * A program that is compiled with one version may be linked with a library of a later patch version, and from
 * version 1 on of a later minor version. Before version 1 a new minor version may change or remove what is
 * declared and promised here. The order of items that no function promises, as which of several equal keys comes
 * first, may change at any time.
 */
#ifndef DARY_HEAP_C_H
#define DARY_HEAP_C_H

#include <stdbool.h>
#include <stddef.h>
#include <stdint.h>

#define DARY_HEAP_VERSION_MAJOR 0
#define DARY_HEAP_VERSION_MINOR 2
#define DARY_HEAP_VERSION_PATCH 0

/* The greatest arity. The least is 1. */
#define DARY_HEAP_ARITY_MAX 8

#if (defined(__cplusplus) && __cplusplus >= 201703L) || (defined(__STDC_VERSION__) && __STDC_VERSION__ >= 202311L)
#define DARY_HEAP_MUST_USE [[nodiscard]]
#elif defined(__GNUC__)
#define DARY_HEAP_MUST_USE __attribute__((warn_unused_result))
#else
#define DARY_HEAP_MUST_USE
#endif

#ifdef __cplusplus
extern "C" {
#endif

/* An item that is compared by its key alone. Of equal keys any may come first. */
struct dheap_entry {
    int64_t key;
    uint64_t value; /* any number of yours, such as an index or an address. Only the `keyed` functions look at it */
};

/* An item that is compared by its key, and then by its sequence number: of equal keys the lesser number comes
 * first, in a max-heap as in a min-heap. Count up a number at each push, and equal keys come out in the order in
 * which they came in. */
struct dheap_sequenced {
    int64_t key;
    uint64_t sequence;
    uint64_t value; /* as above */
};

/* dheap_max_make_*, dheap_min_make_*: makes a heap of the items. Items that are a heap already stay where
 * they are.
 *
 * Cost: 2 * (len - 1) from arity 2 on, and len * (len - 1) / 2 at arity 1. None if there is no item. */
DARY_HEAP_MUST_USE bool dheap_max_make_i64(int64_t *items, size_t len, size_t arity);
DARY_HEAP_MUST_USE bool dheap_min_make_i64(int64_t *items, size_t len, size_t arity);
DARY_HEAP_MUST_USE bool dheap_max_make_u64(uint64_t *items, size_t len, size_t arity);
DARY_HEAP_MUST_USE bool dheap_min_make_u64(uint64_t *items, size_t len, size_t arity);
DARY_HEAP_MUST_USE bool dheap_max_make_double(double *items, size_t len, size_t arity);
DARY_HEAP_MUST_USE bool dheap_min_make_double(double *items, size_t len, size_t arity);
DARY_HEAP_MUST_USE bool dheap_max_make_entry(struct dheap_entry *items, size_t len, size_t arity);
DARY_HEAP_MUST_USE bool dheap_min_make_entry(struct dheap_entry *items, size_t len, size_t arity);
DARY_HEAP_MUST_USE bool dheap_max_make_sequenced(struct dheap_sequenced *items, size_t len, size_t arity);
DARY_HEAP_MUST_USE bool dheap_min_make_sequenced(struct dheap_sequenced *items, size_t len, size_t arity);

/* dheap_max_push_*, dheap_min_push_*: adds the last item to the heap of the items before it. So write the new
 * item behind the heap, and call this with it counted in. Returns false if len is 0.
 *
 * Cost: the depth of place len - 1. */
DARY_HEAP_MUST_USE bool dheap_max_push_i64(int64_t *items, size_t len, size_t arity);
DARY_HEAP_MUST_USE bool dheap_min_push_i64(int64_t *items, size_t len, size_t arity);
DARY_HEAP_MUST_USE bool dheap_max_push_u64(uint64_t *items, size_t len, size_t arity);
DARY_HEAP_MUST_USE bool dheap_min_push_u64(uint64_t *items, size_t len, size_t arity);
DARY_HEAP_MUST_USE bool dheap_max_push_double(double *items, size_t len, size_t arity);
DARY_HEAP_MUST_USE bool dheap_min_push_double(double *items, size_t len, size_t arity);
DARY_HEAP_MUST_USE bool dheap_max_push_entry(struct dheap_entry *items, size_t len, size_t arity);
DARY_HEAP_MUST_USE bool dheap_min_push_entry(struct dheap_entry *items, size_t len, size_t arity);
DARY_HEAP_MUST_USE bool dheap_max_push_sequenced(struct dheap_sequenced *items, size_t len, size_t arity);
DARY_HEAP_MUST_USE bool dheap_min_push_sequenced(struct dheap_sequenced *items, size_t len, size_t arity);

/* dheap_max_pop_*, dheap_min_pop_*: moves the first item of a heap to items[len - 1]. The items before it are a
 * heap afterwards. Returns false if len is 0, so `while (dheap_min_pop_i64(items, len, 4)) len--;` ends.
 *
 * Cost: the arity times the depth of place len - 2. None if len is 1. */
DARY_HEAP_MUST_USE bool dheap_max_pop_i64(int64_t *items, size_t len, size_t arity);
DARY_HEAP_MUST_USE bool dheap_min_pop_i64(int64_t *items, size_t len, size_t arity);
DARY_HEAP_MUST_USE bool dheap_max_pop_u64(uint64_t *items, size_t len, size_t arity);
DARY_HEAP_MUST_USE bool dheap_min_pop_u64(uint64_t *items, size_t len, size_t arity);
DARY_HEAP_MUST_USE bool dheap_max_pop_double(double *items, size_t len, size_t arity);
DARY_HEAP_MUST_USE bool dheap_min_pop_double(double *items, size_t len, size_t arity);
DARY_HEAP_MUST_USE bool dheap_max_pop_entry(struct dheap_entry *items, size_t len, size_t arity);
DARY_HEAP_MUST_USE bool dheap_min_pop_entry(struct dheap_entry *items, size_t len, size_t arity);
DARY_HEAP_MUST_USE bool dheap_max_pop_sequenced(struct dheap_sequenced *items, size_t len, size_t arity);
DARY_HEAP_MUST_USE bool dheap_min_pop_sequenced(struct dheap_sequenced *items, size_t len, size_t arity);

/* dheap_max_replace_*, dheap_min_replace_*: the items were a heap, and then items[0] was overwritten by anything.
 * They are a heap afterwards. Items that are a heap already stay where they are. Returns false if len is 0.
 *
 * This does the work of a pop and a push in one way down. The new item is compared on its way down, so one that
 * stays near the front costs little. One that sinks to the last depth takes the arity in comparisons for each
 * level, where a pop and a push take one less a level and a short way up.
 *
 * Cost: the arity times the depth of place len - 1. */
DARY_HEAP_MUST_USE bool dheap_max_replace_i64(int64_t *items, size_t len, size_t arity);
DARY_HEAP_MUST_USE bool dheap_min_replace_i64(int64_t *items, size_t len, size_t arity);
DARY_HEAP_MUST_USE bool dheap_max_replace_u64(uint64_t *items, size_t len, size_t arity);
DARY_HEAP_MUST_USE bool dheap_min_replace_u64(uint64_t *items, size_t len, size_t arity);
DARY_HEAP_MUST_USE bool dheap_max_replace_double(double *items, size_t len, size_t arity);
DARY_HEAP_MUST_USE bool dheap_min_replace_double(double *items, size_t len, size_t arity);
DARY_HEAP_MUST_USE bool dheap_max_replace_entry(struct dheap_entry *items, size_t len, size_t arity);
DARY_HEAP_MUST_USE bool dheap_min_replace_entry(struct dheap_entry *items, size_t len, size_t arity);
DARY_HEAP_MUST_USE bool dheap_max_replace_sequenced(struct dheap_sequenced *items, size_t len, size_t arity);
DARY_HEAP_MUST_USE bool dheap_min_replace_sequenced(struct dheap_sequenced *items, size_t len, size_t arity);

/* dheap_max_fix_*, dheap_min_fix_*: the items were a heap, and then items[place] was overwritten by anything. They
 * are a heap afterwards. Items that are a heap already stay where they are. Returns false if the place isn't below len.
 *
 * Cost: the depth of the place, and the arity for each level from there down to that of place len - 1. */
DARY_HEAP_MUST_USE bool dheap_max_fix_i64(int64_t *items, size_t len, size_t arity, size_t place);
DARY_HEAP_MUST_USE bool dheap_min_fix_i64(int64_t *items, size_t len, size_t arity, size_t place);
DARY_HEAP_MUST_USE bool dheap_max_fix_u64(uint64_t *items, size_t len, size_t arity, size_t place);
DARY_HEAP_MUST_USE bool dheap_min_fix_u64(uint64_t *items, size_t len, size_t arity, size_t place);
DARY_HEAP_MUST_USE bool dheap_max_fix_double(double *items, size_t len, size_t arity, size_t place);
DARY_HEAP_MUST_USE bool dheap_min_fix_double(double *items, size_t len, size_t arity, size_t place);
DARY_HEAP_MUST_USE bool dheap_max_fix_entry(struct dheap_entry *items, size_t len, size_t arity, size_t place);
DARY_HEAP_MUST_USE bool dheap_min_fix_entry(struct dheap_entry *items, size_t len, size_t arity, size_t place);
DARY_HEAP_MUST_USE bool dheap_max_fix_sequenced(struct dheap_sequenced *items, size_t len, size_t arity, size_t place);
DARY_HEAP_MUST_USE bool dheap_min_fix_sequenced(struct dheap_sequenced *items, size_t len, size_t arity, size_t place);

/* dheap_max_remove_*, dheap_min_remove_*: moves the item at a place of a heap to items[len - 1]. The items before it
 * are a heap afterwards. Returns false if the place isn't below len.
 *
 * Cost: that of a fix at the same place of len - 1 items. */
DARY_HEAP_MUST_USE bool dheap_max_remove_i64(int64_t *items, size_t len, size_t arity, size_t place);
DARY_HEAP_MUST_USE bool dheap_min_remove_i64(int64_t *items, size_t len, size_t arity, size_t place);
DARY_HEAP_MUST_USE bool dheap_max_remove_u64(uint64_t *items, size_t len, size_t arity, size_t place);
DARY_HEAP_MUST_USE bool dheap_min_remove_u64(uint64_t *items, size_t len, size_t arity, size_t place);
DARY_HEAP_MUST_USE bool dheap_max_remove_double(double *items, size_t len, size_t arity, size_t place);
DARY_HEAP_MUST_USE bool dheap_min_remove_double(double *items, size_t len, size_t arity, size_t place);
DARY_HEAP_MUST_USE bool dheap_max_remove_entry(struct dheap_entry *items, size_t len, size_t arity, size_t place);
DARY_HEAP_MUST_USE bool dheap_min_remove_entry(struct dheap_entry *items, size_t len, size_t arity, size_t place);
DARY_HEAP_MUST_USE bool dheap_max_remove_sequenced(struct dheap_sequenced *items, size_t len, size_t arity,
                                                   size_t place);
DARY_HEAP_MUST_USE bool dheap_min_remove_sequenced(struct dheap_sequenced *items, size_t len, size_t arity,
                                                   size_t place);

/* dheap_max_mend_*, dheap_min_mend_*: the items before `start` are a heap, and those from there on were written
 * behind them. All are a heap afterwards. Returns false if the start is above len. If it is len, nothing is to be
 * done. By which way it makes the heap isn't promised: the cost alone is.
 *
 * Cost: the greater of that of a make and, for each item from `start` on, the depth of place len - 1. None if
 * start is len. */
DARY_HEAP_MUST_USE bool dheap_max_mend_i64(int64_t *items, size_t len, size_t arity, size_t start);
DARY_HEAP_MUST_USE bool dheap_min_mend_i64(int64_t *items, size_t len, size_t arity, size_t start);
DARY_HEAP_MUST_USE bool dheap_max_mend_u64(uint64_t *items, size_t len, size_t arity, size_t start);
DARY_HEAP_MUST_USE bool dheap_min_mend_u64(uint64_t *items, size_t len, size_t arity, size_t start);
DARY_HEAP_MUST_USE bool dheap_max_mend_double(double *items, size_t len, size_t arity, size_t start);
DARY_HEAP_MUST_USE bool dheap_min_mend_double(double *items, size_t len, size_t arity, size_t start);
DARY_HEAP_MUST_USE bool dheap_max_mend_entry(struct dheap_entry *items, size_t len, size_t arity, size_t start);
DARY_HEAP_MUST_USE bool dheap_min_mend_entry(struct dheap_entry *items, size_t len, size_t arity, size_t start);
DARY_HEAP_MUST_USE bool dheap_max_mend_sequenced(struct dheap_sequenced *items, size_t len, size_t arity, size_t start);
DARY_HEAP_MUST_USE bool dheap_min_mend_sequenced(struct dheap_sequenced *items, size_t len, size_t arity, size_t start);

/* dheap_max_sort_heap_*, dheap_min_sort_heap_*: sorts a heap. What comes first in the heap is last afterwards: a
 * max-heap ascends, and a min-heap descends. Of items that aren't a heap no order is promised afterwards:
 * dheap_max_sort_* sorts any items.
 *
 * Cost: that of a pop at each length from len down to 2. */
DARY_HEAP_MUST_USE bool dheap_max_sort_heap_i64(int64_t *items, size_t len, size_t arity);
DARY_HEAP_MUST_USE bool dheap_min_sort_heap_i64(int64_t *items, size_t len, size_t arity);
DARY_HEAP_MUST_USE bool dheap_max_sort_heap_u64(uint64_t *items, size_t len, size_t arity);
DARY_HEAP_MUST_USE bool dheap_min_sort_heap_u64(uint64_t *items, size_t len, size_t arity);
DARY_HEAP_MUST_USE bool dheap_max_sort_heap_double(double *items, size_t len, size_t arity);
DARY_HEAP_MUST_USE bool dheap_min_sort_heap_double(double *items, size_t len, size_t arity);
DARY_HEAP_MUST_USE bool dheap_max_sort_heap_entry(struct dheap_entry *items, size_t len, size_t arity);
DARY_HEAP_MUST_USE bool dheap_min_sort_heap_entry(struct dheap_entry *items, size_t len, size_t arity);
DARY_HEAP_MUST_USE bool dheap_max_sort_heap_sequenced(struct dheap_sequenced *items, size_t len, size_t arity);
DARY_HEAP_MUST_USE bool dheap_min_sort_heap_sequenced(struct dheap_sequenced *items, size_t len, size_t arity);

/* dheap_max_sort_*, dheap_min_sort_*: sorts the items, whatever they are: makes a heap of them, and sorts that.
 * With `max` they ascend afterwards, and with `min` they descend. It isn't stable. Of equal keys of
 * dheap_sequenced the lesser sequence number stands behind the greater ones.
 *
 * Cost: that of a make and a sort_heap. */
DARY_HEAP_MUST_USE bool dheap_max_sort_i64(int64_t *items, size_t len, size_t arity);
DARY_HEAP_MUST_USE bool dheap_min_sort_i64(int64_t *items, size_t len, size_t arity);
DARY_HEAP_MUST_USE bool dheap_max_sort_u64(uint64_t *items, size_t len, size_t arity);
DARY_HEAP_MUST_USE bool dheap_min_sort_u64(uint64_t *items, size_t len, size_t arity);
DARY_HEAP_MUST_USE bool dheap_max_sort_double(double *items, size_t len, size_t arity);
DARY_HEAP_MUST_USE bool dheap_min_sort_double(double *items, size_t len, size_t arity);
DARY_HEAP_MUST_USE bool dheap_max_sort_entry(struct dheap_entry *items, size_t len, size_t arity);
DARY_HEAP_MUST_USE bool dheap_min_sort_entry(struct dheap_entry *items, size_t len, size_t arity);
DARY_HEAP_MUST_USE bool dheap_max_sort_sequenced(struct dheap_sequenced *items, size_t len, size_t arity);
DARY_HEAP_MUST_USE bool dheap_min_sort_sequenced(struct dheap_sequenced *items, size_t len, size_t arity);

/* dheap_max_is_heap_*, dheap_min_is_heap_*: writes to *answer whether the items are a heap. `answer` points to a
 * bool.
 *
 * Cost: len - 1. None if len is 0. */
DARY_HEAP_MUST_USE bool dheap_max_is_heap_i64(const int64_t *items, size_t len, size_t arity, bool *answer);
DARY_HEAP_MUST_USE bool dheap_min_is_heap_i64(const int64_t *items, size_t len, size_t arity, bool *answer);
DARY_HEAP_MUST_USE bool dheap_max_is_heap_u64(const uint64_t *items, size_t len, size_t arity, bool *answer);
DARY_HEAP_MUST_USE bool dheap_min_is_heap_u64(const uint64_t *items, size_t len, size_t arity, bool *answer);
DARY_HEAP_MUST_USE bool dheap_max_is_heap_double(const double *items, size_t len, size_t arity, bool *answer);
DARY_HEAP_MUST_USE bool dheap_min_is_heap_double(const double *items, size_t len, size_t arity, bool *answer);
DARY_HEAP_MUST_USE bool dheap_max_is_heap_entry(const struct dheap_entry *items, size_t len, size_t arity,
                                                bool *answer);
DARY_HEAP_MUST_USE bool dheap_min_is_heap_entry(const struct dheap_entry *items, size_t len, size_t arity,
                                                bool *answer);
DARY_HEAP_MUST_USE bool dheap_max_is_heap_sequenced(const struct dheap_sequenced *items, size_t len, size_t arity,
                                                    bool *answer);
DARY_HEAP_MUST_USE bool dheap_min_is_heap_sequenced(const struct dheap_sequenced *items, size_t len, size_t arity,
                                                    bool *answer);

/* Entries whose places are kept
 *
 * The functions that end in `keyed` do what those do that end in `entry`, at the same costs, and also write where
 * each item is: afterwards places[value] is the place of the item with that value. So an item is found by its
 * value without a look at the others, to be changed or removed.
 *
 * `places` points to `count` numbers, as `items` does to `len` items, and the two arrays have no byte in common.
 *
 * A push returns false, and changes nothing, if the value of the last item isn't below `count`, and so does a fix if
 * that of the item at the place isn't. So a heap that grew from no item by these functions has no such value.
 *
 * What is said of places holds if
 *
 * - no two items have the same value, and
 * - places[value] is the place of the item with that value, for each item, but it may be wrong for the one that is
 *   pushed, popped, fixed or removed, if its value is below `count`. So the item at the place of a fix or a remove may
 *   have been overwritten by one with another value.
 *
 * Then it is the place of each of the `len` items afterwards, also of the one that a pop or a remove puts behind the
 * others. The place of a value that no item has may be any number, and stays as it is. So there is an item with a
 * value v below `count` exactly if places[v] < len and items[places[v]].value == v.
 *
 * If these two don't hold, places may be wrong afterwards. What is said of the items holds all the same, and nothing
 * outside the two arrays is read or written. */
DARY_HEAP_MUST_USE bool dheap_max_push_keyed(struct dheap_entry *items, size_t len, size_t arity, size_t *places,
                                             size_t count);
DARY_HEAP_MUST_USE bool dheap_min_push_keyed(struct dheap_entry *items, size_t len, size_t arity, size_t *places,
                                             size_t count);

DARY_HEAP_MUST_USE bool dheap_max_pop_keyed(struct dheap_entry *items, size_t len, size_t arity, size_t *places,
                                            size_t count);
DARY_HEAP_MUST_USE bool dheap_min_pop_keyed(struct dheap_entry *items, size_t len, size_t arity, size_t *places,
                                            size_t count);

DARY_HEAP_MUST_USE bool dheap_max_fix_keyed(struct dheap_entry *items, size_t len, size_t arity, size_t place,
                                            size_t *places, size_t count);
DARY_HEAP_MUST_USE bool dheap_min_fix_keyed(struct dheap_entry *items, size_t len, size_t arity, size_t place,
                                            size_t *places, size_t count);

DARY_HEAP_MUST_USE bool dheap_max_remove_keyed(struct dheap_entry *items, size_t len, size_t arity, size_t place,
                                               size_t *places, size_t count);
DARY_HEAP_MUST_USE bool dheap_min_remove_keyed(struct dheap_entry *items, size_t len, size_t arity, size_t place,
                                               size_t *places, size_t count);

#ifdef __cplusplus
}
#endif

#endif
