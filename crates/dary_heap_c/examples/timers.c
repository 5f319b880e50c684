/* Timers in the order in which they are due, of which some recur, some are moved and some are cancelled.
 *
 * The timers are a min-heap: the key of an entry is the moment at which a timer is due, and its value says which timer
 * it is. The functions that end in `keyed` keep where each timer is, so it is found without a look at the others. */
#include <dary_heap_c.h>

#include <inttypes.h>
#include <stdio.h>
#include <stdlib.h>

#define ARITY 4
#define MOST 8

/* Timers 0 to MOST - 1. If one is set, `place` has its place in the heap, and else any number. */
struct timers {
    struct dheap_entry heap[MOST];
    size_t len;
    size_t place[MOST];
};

/* The functions return false if an argument is out of range, which here would be a fault of this program. */
static void must(bool done) {
    if (!done)
        abort();
}

static bool is_set(const struct timers *timers, uint64_t which) {
    const size_t place = timers->place[which];
    return place < timers->len && timers->heap[place].value == which;
}

/* Sets a timer, or moves it to another moment if it is set. */
static void set(struct timers *timers, uint64_t which, int64_t due) {
    if (is_set(timers, which)) {
        const size_t place = timers->place[which];
        timers->heap[place].key = due;
        must(dheap_min_fix_keyed(timers->heap, timers->len, ARITY, place, timers->place, MOST));
    } else {
        timers->heap[timers->len++] = (struct dheap_entry){due, which};
        must(dheap_min_push_keyed(timers->heap, timers->len, ARITY, timers->place, MOST));
    }
}

/* Returns false if the timer isn't set. */
static bool cancel(struct timers *timers, uint64_t which) {
    if (!is_set(timers, which))
        return false;
    must(dheap_min_remove_keyed(timers->heap, timers->len, ARITY, timers->place[which], timers->place, MOST));
    timers->len--;
    return true;
}

/* Runs the timers that are due. Number 4 recurs after 40. */
static void run(struct timers *timers, int64_t now) {
    while (timers->len > 0 && timers->heap[0].key <= now) {
        const struct dheap_entry next = timers->heap[0];
        printf("%" PRId64 ": timer %" PRIu64 ", due at %" PRId64 "\n", now, next.value, next.key);
        if (next.value == 4) {
            set(timers, 4, next.key + 40);
        } else {
            must(dheap_min_pop_keyed(timers->heap, timers->len, ARITY, timers->place, MOST));
            timers->len--;
        }
    }
}

int main(void) {
    static const int64_t due[] = {50, 20, 90, 25, 70, 60};
    struct timers timers = {.len = 0};
    for (uint64_t which = 0; which < sizeof due / sizeof *due; which++)
        set(&timers, which, due[which]);
    must(cancel(&timers, 3));
    must(!cancel(&timers, 3));
    set(&timers, 2, 55);
    for (int64_t now = 30; now <= 120; now += 30)
        run(&timers, now);
    return 0;
}
