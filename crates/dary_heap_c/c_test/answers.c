/* Calls each function of the library at each arity on many arrays, compares what it does with the definition of a
 * heap, and prints how many answers are wrong. The expected answers are computed here, from the definitions. With
 * the word `short` it leaves out the arrays of many megabytes. */
#define _DEFAULT_SOURCE
#include "dary_heap_c.h"

#include <float.h>
#include <math.h>
#include <stdio.h>
#include <stdlib.h>
#include <string.h>
#include <sys/mman.h>
#include <unistd.h>

#define LONGEST 70

/* The functions, with those behind that have a place or a start. ANY stands for all. */
enum function { MAKE, SORT, PUSH, POP, REPLACE, SORT_HEAP, FIX, REMOVE, MEND, IS_HEAP, ANY };

static const char *const names[] = {"make", "sort",   "push", "pop",     "replace", "sort_heap",
                                    "fix",  "remove", "mend", "is_heap", "any"};

/* The order and the arity of the calls that are made now. */
static bool is_max;
static size_t arity;

static int checks, wrong;

static void check(bool right, enum function function, const char *kind, size_t len, const char *what) {
    checks++;
    if (right)
        return;
    wrong++;
    printf("dary_heap_c: %s_%s_%s at arity %zu, length %zu: %s\n", is_max ? "max" : "min",
           names[function], kind, arity, len, what);
}

/* Where the items of a test stand. */
enum place { BETWEEN_GUARDS, BEFORE_A_PAGE, BEHIND_A_PAGE, PLACES };

/* Two pages, each between two that can't be read or written: one for items, and one for places. */
static char *page, *places_page;
static size_t page_size;

static char *made_page(void) {
    page_size = (size_t)sysconf(_SC_PAGESIZE);
    char *const pages = mmap(NULL, 3 * page_size, PROT_NONE, MAP_PRIVATE | MAP_ANONYMOUS, -1, 0);
    if (pages == MAP_FAILED || mprotect(pages + page_size, page_size, PROT_READ | PROT_WRITE) != 0)
        abort();
    return pages + page_size;
}

/* Room for so many items in a page. Beside it is room for a guard, or a page where a read or a write ends the
 * program. */
static void *array_in(char *in, enum place where, size_t len, size_t size) {
    switch (where) {
    case BEFORE_A_PAGE: return in + page_size - len * size;
    case BEHIND_A_PAGE: return in;
    default: return in + size;
    }
}

static void *array(enum place where, size_t len, size_t size) { return array_in(page, where, len, size); }

/* Lets the page be read alone, or written again. */
static void protect(bool reads_only) {
    if (mprotect(page, page_size, reads_only ? PROT_READ : PROT_READ | PROT_WRITE) != 0)
        abort();
}

/* Random numbers, the same in each run. */
static uint64_t state = 1;

static uint64_t drawn(uint64_t below) {
    state = state * 6364136223846793005u + 1442695040888963407u;
    return (state >> 20) % below;
}

/* A key. Every third array has few different ones, and every third has the ends of the range. */
static int64_t drawn_key(size_t kind) {
    switch (kind % 3) {
    case 0: return (int64_t)drawn(5) - 2;
    case 1: return drawn(2) ? INT64_MIN + (int64_t)drawn(3) : INT64_MAX - (int64_t)drawn(3);
    default: return (int64_t)drawn(1000000) - 500000;
    }
}

/* The sum of the hashes of some items of words, whatever their order. */
static uint64_t sum_of(const void *items, size_t len, size_t size) {
    uint64_t sum = 0;
    for (size_t i = 0; i < len; i++) {
        uint64_t hash = 0, word;
        for (size_t at = 0; at < size; at += sizeof word) {
            memcpy(&word, (const char *)items + i * size + at, sizeof word);
            hash = (hash ^ word) * UINT64_C(0x9e3779b97f4a7c15);
            hash ^= hash >> 29;
        }
        sum += hash;
    }
    return sum;
}

static int64_t i64_of(int64_t key, uint64_t value) {
    (void)value;
    return key;
}

static uint64_t u64_of(int64_t key, uint64_t value) {
    (void)value;
    return (uint64_t)key ^ (UINT64_C(1) << 63);
}

/* The ends of the range stand for the values that aren't finite, and the keys about 0 for those about 0. */
static double double_of(int64_t key, uint64_t value) {
    const double least[] = {-NAN, -INFINITY, -DBL_MAX}, greatest[] = {NAN, INFINITY, DBL_MAX};
    if (key < INT64_MIN + 3)
        return copysign(least[key - INT64_MIN], -1);
    if (key > INT64_MAX - 3)
        return copysign(greatest[INT64_MAX - key], 1);
    if (key == 0)
        return value % 2 ? -0.0 : 0.0;
    return key == 1 ? DBL_TRUE_MIN : key == -1 ? -DBL_TRUE_MIN : (double)key;
}

/* The total order of IEEE 754: first the sign, and then the other bits, which count down if it is set. */
static bool double_less(double a, double b) {
    uint64_t x, y;
    memcpy(&x, &a, sizeof x);
    memcpy(&y, &b, sizeof y);
    if (signbit(a) != signbit(b))
        return signbit(a);
    return signbit(a) ? y << 1 < x << 1 : x << 1 < y << 1;
}

static struct dheap_entry entry_of(int64_t key, uint64_t value) { return (struct dheap_entry){key, value}; }

static struct dheap_sequenced sequenced_of(int64_t key, uint64_t value) {
    return (struct dheap_sequenced){key, value, value};
}

#define KIND i64
#define ITEM int64_t
#define LESS(a, b) ((a) < (b))
#define EARLIER(a, b) false
#include "kind.h"

#define KIND u64
#define ITEM uint64_t
#define LESS(a, b) ((a) < (b))
#define EARLIER(a, b) false
#include "kind.h"

#define KIND double
#define ITEM double
#define LESS(a, b) double_less(a, b)
#define EARLIER(a, b) false
#include "kind.h"

#define KIND entry
#define ITEM struct dheap_entry
#define LESS(a, b) ((a).key < (b).key)
#define EARLIER(a, b) false
#include "kind.h"

#define KIND sequenced
#define ITEM struct dheap_sequenced
#define LESS(a, b) ((a).key < (b).key)
#define EARLIER(a, b) ((a).sequence < (b).sequence)
#include "kind.h"

#include "keyed.h"

/* Items with few different keys come out in the order of their keys, and equal ones in the order in which they came
 * in. */
static void test_turns(void) {
    struct dheap_sequenced items[LONGEST];
    for (size_t len = 0; len < LONGEST; len++) {
        items[len] = (struct dheap_sequenced){(int64_t)drawn(4), len, 1000 + len};
        check(call_sequenced(PUSH, items, len + 1, 0), PUSH, "sequenced", len, "it returns false");
    }
    struct dheap_sequenced before = items[0];
    for (size_t left = LONGEST; left > 0; left--) {
        const struct dheap_sequenced item = items[0];
        check(call_sequenced(POP, items, left, 0), POP, "sequenced", left, "it returns false");
        const bool later_key = is_max ? item.key < before.key : item.key > before.key;
        const bool later = item.key == before.key && item.sequence > before.sequence;
        check(left == LONGEST || later_key || later, POP, "sequenced", left, "it comes out of turn");
        check(item.value == 1000 + item.sequence, POP, "sequenced", left, "it has another value");
        before = item;
    }
}

int main(int words, char **word) {
    const bool is_short = words > 1 && strcmp(word[1], "short") == 0;
    page = made_page();
    places_page = made_page();
    for (size_t i = 0; i < 2 * DARY_HEAP_ARITY_MAX; i++) {
        arity = 1 + i / 2;
        is_max = i % 2 == 0;
        const bool has_long = !is_short && (arity == 2 || arity == 3 || arity == 4 || arity == 8);
        test_i64(has_long);
        test_u64(has_long);
        test_double(has_long);
        test_entry(has_long);
        test_sequenced(has_long);
        test_turns();
        test_keyed();
    }
    printf("dary_heap_c: %d of %d answers are wrong%s\n", wrong, checks, is_short ? ", without long arrays" : "");
    return wrong != 0;
}
