/* The tests of the functions of one kind, in the order and at the arity that are set. It is included
 * once for each kind, with these defined: KIND, the end of the functions' names; ITEM, the type of an
 * item; LESS(a, b), which compares the keys of two items; and EARLIER(a, b), whether of two items with
 * equal keys a comes before b. KIND_of(key, value) makes an item of two numbers. */
#define PASTE_(a, b) a##b
#define PASTE(a, b) PASTE_(a, b)
#define TEXT_(name) #name
#define TEXT(name) TEXT_(name)
#define LOCAL(name) PASTE(name##_, KIND)
#define ITEM_OF PASTE(KIND, _of)
#define CHECK(right, function, what) check(right, function, TEXT(KIND), len, what)
#define IS_SAME(a, b, len) (memcmp(a, b, (len) * sizeof(ITEM)) == 0)

/* Calls a function of this kind in the order that is set. */
#define CALL(function, ...)                                                                                            \
    (is_max ? PASTE(dheap_max_##function##_, KIND)(__VA_ARGS__) : PASTE(dheap_min_##function##_, KIND)(__VA_ARGS__))

/* Calls a function that writes no answer. The place is for those that have one. */
static bool LOCAL(call)(enum function function, ITEM *items, size_t len, size_t place) {
    switch (function) {
    case MAKE: return CALL(make, items, len, arity);
    case SORT: return CALL(sort, items, len, arity);
    case PUSH: return CALL(push, items, len, arity);
    case POP: return CALL(pop, items, len, arity);
    case REPLACE: return CALL(replace, items, len, arity);
    case SORT_HEAP: return CALL(sort_heap, items, len, arity);
    case FIX: return CALL(fix, items, len, arity, place);
    case REMOVE: return CALL(remove, items, len, arity, place);
    case MEND: return CALL(mend, items, len, arity, place);
    default: abort();
    }
}

/* What the library says, whatever stood where it writes its answer. */
static bool LOCAL(told)(const ITEM *items, size_t len) {
    bool answer = false, again = true;
    CHECK(CALL(is_heap, items, len, arity, &answer), IS_HEAP, "it returns false");
    CHECK(CALL(is_heap, items, len, arity, &again), IS_HEAP, "it returns false");
    CHECK(answer == again, IS_HEAP, "the answer isn't written");
    return answer;
}

static bool LOCAL(comes_before)(ITEM a, ITEM b) {
    if (LESS(a, b) || LESS(b, a))
        return is_max ? LESS(b, a) : LESS(a, b);
    return EARLIER(a, b);
}

static bool LOCAL(is_heap)(const ITEM *items, size_t len) {
    for (size_t i = 1; i < len; i++)
        if (LOCAL(comes_before)(items[i], items[(i - 1) / arity]))
            return false;
    return true;
}

/* Whether no item comes before this one. */
static bool LOCAL(is_first)(const ITEM *items, size_t len, ITEM item) {
    for (size_t i = 0; i < len; i++)
        if (LOCAL(comes_before)(items[i], item))
            return false;
    return true;
}

/* Whether no item comes before the one that stands behind it. */
static bool LOCAL(is_sorted)(const ITEM *items, size_t len) {
    for (size_t i = 1; i < len; i++)
        if (LOCAL(comes_before)(items[i - 1], items[i]))
            return false;
    return true;
}

/* Calls a function, by which none of `all` items is lost or doubled. */
static void LOCAL(moves)(enum function function, ITEM *items, size_t len, size_t place, size_t all) {
    const uint64_t sum = sum_of(items, all, sizeof *items);
    CHECK(LOCAL(call)(function, items, len, place), function, "it returns false");
    CHECK(sum_of(items, all, sizeof *items) == sum, function, "an item is lost or doubled");
}

static void LOCAL(makes_heap)(enum function function, ITEM *items, size_t len, size_t place) {
    LOCAL(moves)(function, items, len, place, len);
    CHECK(LOCAL(is_heap)(items, len), function, "it is no heap");
}

static void LOCAL(keeps_heap)(enum function function, ITEM *items, size_t len, size_t place) {
    ITEM heap[LONGEST + 1];
    memcpy(heap, items, len * sizeof *items);
    CHECK(LOCAL(call)(function, items, len, place), function, "it returns false for a heap");
    CHECK(IS_SAME(items, heap, len), function, "it moves the items of a heap");
}

/* Calls a function by which the item at a place goes behind the rest. */
static void LOCAL(takes_out)(enum function function, ITEM *items, size_t len, size_t place, size_t all) {
    const ITEM item = items[place];
    LOCAL(moves)(function, items, len, place, all);
    CHECK(IS_SAME(&items[len - 1], &item, 1), function, "the item isn't behind the rest");
    CHECK(LOCAL(is_heap)(items, len - 1), function, "the rest is no heap");
}

static void LOCAL(sorts)(enum function function, ITEM *items, size_t len) {
    LOCAL(moves)(function, items, len, 0, len);
    CHECK(LOCAL(is_sorted)(items, len), function, "it isn't sorted");
}

/* Of an array that is no heap each call keeps the items. */
static void LOCAL(test_any)(ITEM *items, const ITEM *given, size_t len) {
    const enum function begin = len > 0 ? PUSH : SORT_HEAP, end = len > 0 ? IS_HEAP : FIX;
    for (enum function function = begin; function < end; function++) {
        memcpy(items, given, len * sizeof *items);
        LOCAL(moves)(function, items, len, function < FIX ? 0 : drawn(len), len);
    }
}

/* A heap with one violation, at each place in turn, is none. */
static void LOCAL(test_violations)(ITEM *items, size_t len) {
    for (size_t i = 0; i < len; i++)
        items[i] = ITEM_OF(is_max ? (int64_t)(2 * (len - i)) : (int64_t)(2 * i + 2), i);
    const ITEM before_all = ITEM_OF(is_max ? (int64_t)(2 * len + 2) : 0, len);
    CHECK(LOCAL(told)(items, len), IS_HEAP, "it doesn't know a heap");
    for (size_t i = 1; i < len; i++) {
        const ITEM kept = items[i];
        items[i] = before_all;
        CHECK(!LOCAL(told)(items, len), IS_HEAP, "it overlooks an item before its parent");
        items[i] = kept;
    }
}

/* Pops until none is left. */
static void LOCAL(test_pops)(ITEM *items, const ITEM *heap, size_t len) {
    memcpy(items, heap, len * sizeof *items);
    for (size_t left = len; left > 0; left--) {
        const ITEM first = items[0];
        LOCAL(takes_out)(POP, items, left, 0, len);
        CHECK(LOCAL(is_first)(items, left - 1, first), POP, "another comes before the item");
    }
}

/* Pushes of the items onto none, and mends from each third start on. */
static void LOCAL(test_pushes)(ITEM *items, const ITEM *given, size_t len) {
    for (size_t there = 1; there <= len; there++) {
        items[there - 1] = given[there - 1];
        LOCAL(makes_heap)(PUSH, items, there, 0);
    }
    for (size_t start = 0; start <= len; start += 3) {
        memcpy(items, given, len * sizeof *items);
        CHECK(LOCAL(call)(MAKE, items, start, 0), MAKE, "it returns false");
        CHECK(IS_SAME(items + start, given + start, len - start), MAKE, "it writes past len");
        LOCAL(makes_heap)(MEND, items, len, start);
    }
}

/* Items of a heap are overwritten and removed. */
static void LOCAL(test_changes)(ITEM *items, const ITEM *heap, size_t len) {
    memcpy(items, heap, len * sizeof *items);
    for (size_t time = 0; len > 0 && time < 20; time++) {
        items[0] = ITEM_OF(drawn_key(len), len + time);
        LOCAL(makes_heap)(REPLACE, items, len, 0);
    }
    for (size_t place = 0; place < len; place++) {
        CHECK(LOCAL(call)(FIX, items, len, place), FIX, "it returns false");
        items[place] = ITEM_OF(drawn_key(len), 2 * len + place);
        LOCAL(makes_heap)(FIX, items, len, place);
        LOCAL(keeps_heap)(FIX, items, len, place);
    }
    for (size_t left = len; left > 0; left--)
        LOCAL(takes_out)(REMOVE, items, left, drawn(left), len);
}

/* If an argument is out of range, nothing changes. */
static void LOCAL(test_out_of_range)(ITEM *items, size_t len) {
    ITEM given[LONGEST + 1];
    for (size_t i = 0; i < len; i++)
        given[i] = items[i] = ITEM_OF(drawn_key(2), i);
    const size_t known = arity, unknown[] = {0, 9, 10, SIZE_MAX};
    for (size_t u = 0; u < sizeof unknown / sizeof *unknown; u++) {
        arity = unknown[u];
        for (enum function function = MAKE; function < IS_HEAP; function++)
            CHECK(!LOCAL(call)(function, items, len, 0), function, "it knows this arity");
        bool no = false, yes = true;
        CHECK(!CALL(is_heap, items, len, arity, &no) && !no, IS_HEAP, "it knows this arity");
        CHECK(!CALL(is_heap, items, len, arity, &yes) && yes, IS_HEAP, "it knows this arity");
    }
    arity = known;
    for (enum function function = PUSH; function < SORT_HEAP; function++)
        CHECK(!LOCAL(call)(function, items, 0, 0), function, "it finds an item where there is none");
    for (enum function function = FIX; function < IS_HEAP; function++) {
        const size_t past = function == MEND ? len + 1 : len;
        CHECK(!LOCAL(call)(function, items, len, past), function, "it knows a place past the last");
        CHECK(!LOCAL(call)(function, items, len, SIZE_MAX), function, "it knows this place");
    }
    CHECK(IS_SAME(items, given, len), ANY, "something was written");
}

/* All of these, on items between two others, or at a page that can't be read. */
static void LOCAL(test_at)(size_t len, enum place where) {
    ITEM given[LONGEST + 1], heap[LONGEST + 1];
    const ITEM guard = ITEM_OF(42, 4242);
    ITEM *const items = array(where, len, sizeof guard);
    const bool has_guards = where == BETWEEN_GUARDS;
    if (has_guards)
        items[-1] = items[len] = guard;
    for (size_t i = 0; i < len; i++)
        given[i] = ITEM_OF(drawn_key(len), i);
    LOCAL(test_any)(items, given, len);
    memcpy(items, given, len * sizeof *items);
    protect(true);
    CHECK(LOCAL(told)(items, len) == LOCAL(is_heap)(items, len), IS_HEAP, "another answer");
    protect(false);
    LOCAL(makes_heap)(MAKE, items, len, 0);
    CHECK(LOCAL(told)(items, len), IS_HEAP, "it doesn't know a heap");
    memcpy(heap, items, len * sizeof *items);
    LOCAL(keeps_heap)(MAKE, items, len, 0);
    LOCAL(test_pops)(items, heap, len);
    memcpy(items, heap, len * sizeof *items);
    LOCAL(sorts)(SORT_HEAP, items, len);
    memcpy(items, given, len * sizeof *items);
    LOCAL(sorts)(SORT, items, len);
    LOCAL(test_pushes)(items, given, len);
    LOCAL(test_changes)(items, heap, len);
    LOCAL(test_violations)(items, len);
    LOCAL(test_out_of_range)(items, len);
    CHECK(!has_guards || IS_SAME(&items[-1], &guard, 1), ANY, "it writes before the items");
    CHECK(!has_guards || IS_SAME(&items[len], &guard, 1), ANY, "it writes behind the items");
}

/* Calls on so many items that the library takes its ways for long arrays: from 1.25 MiB times the square of the arity
 * on, a pop goes down in another way. At arity 8 only the widest items are so many, and the others have 32 MiB. */
static void LOCAL(test_long)(void) {
    const bool is_widest = sizeof(ITEM) == sizeof(struct dheap_sequenced);
    const size_t bytes = arity == 8 && !is_widest ? (size_t)1 << 25 : (arity * arity * 5) << 18;
    const size_t len = bytes / sizeof(ITEM) + 1000;
    ITEM *const items = malloc(len * sizeof *items);
    if (items == NULL)
        abort();
    for (size_t i = 0; i < len; i++)
        items[i] = ITEM_OF((int64_t)(drawn(UINT64_C(1) << 40)), i);
    LOCAL(makes_heap)(MAKE, items, len, 0);
    LOCAL(takes_out)(POP, items, len, 0, len);
    LOCAL(makes_heap)(PUSH, items, len, 0);
    const size_t places[] = {0, 1, len / 2, len - 1};
    for (size_t i = 0; i < 2 * sizeof places / sizeof *places; i++) {
        const size_t place = places[i / 2];
        items[place] = ITEM_OF(i % 2 == 0 ? INT64_MAX / 2 : (int64_t)drawn(100), i);
        LOCAL(makes_heap)(place == 0 ? REPLACE : FIX, items, len, place);
    }
    LOCAL(takes_out)(REMOVE, items, len, 1, len);
    LOCAL(makes_heap)(MEND, items, len, len - 1);
    CHECK(LOCAL(told)(items, len), IS_HEAP, "it doesn't know a heap");
    LOCAL(sorts)(SORT_HEAP, items, len);
    free(items);
}

static void LOCAL(test)(bool has_long) {
    for (size_t len = 0; len <= LONGEST; len++)
        for (enum place where = 0; where < PLACES; where++)
            LOCAL(test_at)(len, where);
    if (has_long)
        LOCAL(test_long)();
}

#undef KIND
#undef ITEM
#undef LESS
#undef EARLIER
