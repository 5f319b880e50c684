/* The tests of the functions on entries whose places are kept, in the order and at the arity that are set. */
#define VALUES 70
#define KEYED_CHECK(right, function, what) check(right, function, "keyed", it->len, what)

/* The arguments of a call. Each call is made on copies that stand at a guard or at a page that can't be read. */
struct keyed {
    enum place where;
    struct dheap_entry items[VALUES];
    size_t len;
    size_t places[VALUES];
    size_t count;
};

static bool call_keyed(enum function function, struct dheap_entry *items, size_t len, size_t place, size_t *places,
                       size_t count) {
#define CALL_KEYED(name, ...)                                                                                          \
    (is_max ? dheap_max_##name##_keyed(items, len, arity, __VA_ARGS__)                                                 \
            : dheap_min_##name##_keyed(items, len, arity, __VA_ARGS__))
    switch (function) {
    case PUSH: return CALL_KEYED(push, places, count);
    case POP: return CALL_KEYED(pop, places, count);
    case FIX: return CALL_KEYED(fix, place, places, count);
    case REMOVE: return CALL_KEYED(remove, place, places, count);
    default: abort();
    }
#undef CALL_KEYED
}

/* Makes a call, and returns what it returns. */
static bool made_keyed(enum function function, struct keyed *it, size_t place) {
    const struct dheap_entry guard = {42, 4242};
    const size_t places_guard = 4343;
    const bool has_guards = it->where == BETWEEN_GUARDS;
    struct dheap_entry *const items = array_in(page, it->where, it->len, sizeof *items);
    size_t *const places = array_in(places_page, it->where, it->count, sizeof *places);
    memcpy(items, it->items, it->len * sizeof *items);
    memcpy(places, it->places, it->count * sizeof *places);
    if (has_guards) {
        items[-1] = items[it->len] = guard;
        places[-1] = places[it->count] = places_guard;
    }
    const bool done = call_keyed(function, items, it->len, place, places, it->count);
    memcpy(it->items, items, it->len * sizeof *items);
    memcpy(it->places, places, it->count * sizeof *places);
    if (has_guards) {
        const bool stay[] = {memcmp(&items[-1], &guard, sizeof guard) == 0,
                             memcmp(&items[it->len], &guard, sizeof guard) == 0};
        KEYED_CHECK(stay[0] && stay[1], function, "it writes outside the items");
        const bool places_stay = places[-1] == places_guard && places[it->count] == places_guard;
        KEYED_CHECK(places_stay, function, "it writes outside the places");
    }
    return done;
}

/* Whether the places say that there is an item with the value. */
static bool has(const struct keyed *it, size_t len, uint64_t value) {
    return it->places[value] < len && it->items[it->places[value]].value == value;
}

/* Makes a call, which keeps the items whatever the places are, and returns how many items are left in the heap. */
static size_t keeps_items(enum function function, struct keyed *it, size_t place) {
    const size_t left = function == POP || function == REMOVE ? it->len - 1 : it->len;
    const struct dheap_entry out = it->items[function == POP ? 0 : place];
    const uint64_t sum = sum_of(it->items, it->len, sizeof *it->items);
    KEYED_CHECK(made_keyed(function, it, place), function, "it returns false");
    KEYED_CHECK(sum_of(it->items, it->len, sizeof *it->items) == sum, function, "an item is lost or doubled");
    KEYED_CHECK(is_heap_entry(it->items, left), function, "it is no heap");
    if (left < it->len)
        KEYED_CHECK(memcmp(&it->items[left], &out, sizeof out) == 0, function, "the item isn't behind the rest");
    return left;
}

/* The same, and the call keeps the places. */
static size_t keeps_places(enum function function, struct keyed *it, size_t place) {
    size_t before[VALUES];
    memcpy(before, it->places, sizeof before);
    const size_t left = keeps_items(function, it, place);
    bool found = true, stays = true, is_in[VALUES] = {false};
    for (size_t i = 0; i < it->len; i++) {
        found = found && it->places[it->items[i].value] == i;
        is_in[it->items[i].value] = true;
    }
    for (size_t value = 0; value < VALUES; value++)
        stays = stays && (is_in[value] || it->places[value] == before[value]);
    KEYED_CHECK(found, function, "a place is wrong");
    KEYED_CHECK(stays, function, "the place of a value that no item has is written");
    return left;
}

/* What should be in the heap: of each value whether there is an item, and with which key. */
struct model {
    bool has[VALUES];
    int64_t key[VALUES];
};

static void compare(const struct keyed *it, const struct model *model, enum function function) {
    bool same = true;
    size_t len = 0;
    for (uint64_t value = 0; value < VALUES; value++) {
        len += model->has[value];
        same = same && has(it, it->len, value) == model->has[value];
        same = same && (!model->has[value] || it->items[it->places[value]].key == model->key[value]);
    }
    KEYED_CHECK(same && len == it->len, function, "the items aren't those that were put in");
}

/* Puts an item with a value that no item has at the end, or at a place in place of the one there. */
static enum function put(struct keyed *it, struct model *model, struct dheap_entry entry, bool replaces) {
    const size_t place = replaces ? drawn(it->len) : it->len++;
    if (replaces)
        model->has[it->items[place].value] = false;
    it->items[place] = entry;
    model->has[entry.value] = true;
    model->key[entry.value] = entry.key;
    keeps_places(replaces ? FIX : PUSH, it, place);
    return replaces ? FIX : PUSH;
}

static enum function take(struct keyed *it, struct model *model, enum function function, size_t place) {
    const struct dheap_entry out = it->items[place];
    if (function == POP)
        KEYED_CHECK(is_first_entry(it->items, it->len, out), POP, "another comes before the item");
    it->len = keeps_places(function, it, place);
    model->has[out.value] = false;
    return function;
}

/* Random commands, compared with the model after each. */
static void test_commands(struct keyed *it) {
    struct model model = {.has = {false}};
    it->len = 0;
    it->count = VALUES;
    for (size_t value = 0; value < VALUES; value++)
        it->places[value] = drawn(2) ? drawn(VALUES) : SIZE_MAX - drawn(3);
    for (size_t time = 0; time < 600; time++) {
        /* The heap grows in the first half, and shrinks in the second. */
        const bool grows = drawn(4) < (time < 300 ? 3 : 1);
        const struct dheap_entry entry = {drawn_key(time / 100), drawn(VALUES)};
        enum function function = ANY;
        if (model.has[entry.value] && drawn(2)) {
            it->items[it->places[entry.value]].key = model.key[entry.value] = entry.key;
            keeps_places(function = FIX, it, it->places[entry.value]);
        } else if (model.has[entry.value] && !grows) {
            function = take(it, &model, REMOVE, it->places[entry.value]);
        } else if (!model.has[entry.value] && grows) {
            function = put(it, &model, entry, it->len > 0 && drawn(3) == 0);
        } else if (it->len > 0 && !grows) {
            function = take(it, &model, POP, 0);
        }
        compare(it, &model, function);
    }
}

/* Makes a call that is to change nothing. */
static void changes_nothing(enum function function, struct keyed *it, size_t place, const char *what) {
    const struct keyed given = *it;
    KEYED_CHECK(!made_keyed(function, it, place), function, what);
    KEYED_CHECK(memcmp(it->items, given.items, sizeof given.items) == 0, function, "an item was written");
    KEYED_CHECK(memcmp(it->places, given.places, sizeof given.places) == 0, function, "a place was written");
}

/* Values that are too great or that several items have, and places that are wrong, do no harm to the items. A value that
 * is too great comes in by no push and no fix. */
static void test_any_places(struct keyed *it) {
    const uint64_t great[] = {VALUES, UINT64_MAX, UINT64_MAX - 1, UINT64_C(1) << 61, UINT64_C(1) << 63};
    const enum function functions[] = {PUSH, POP, FIX, REMOVE};
    for (size_t time = 0; time < 400; time++) {
        const enum function function = functions[time % 4];
        it->len = 1 + drawn(VALUES - 1);
        it->count = drawn(8);
        for (size_t i = 0; i < it->len; i++)
            it->items[i] = (struct dheap_entry){drawn_key(time), drawn(2) ? drawn(10) : great[drawn(5)]};
        for (size_t value = 0; value < VALUES; value++)
            it->places[value] = drawn(2) ? drawn(2 * VALUES) : SIZE_MAX;
        const size_t place = drawn(it->len), heap = function == PUSH ? it->len - 1 : it->len;
        KEYED_CHECK(call_entry(MAKE, it->items, heap, 0), MAKE, "it returns false");
        if (function == FIX || function == REMOVE)
            it->items[place].key = drawn_key(time);
        const uint64_t value = it->items[function == PUSH ? it->len - 1 : place].value;
        if ((function == PUSH || function == FIX) && value >= it->count)
            changes_nothing(function, it, place, "it takes a value without a place");
        else
            keeps_items(function, it, place);
    }
}

/* If the arity, a place or a value is out of range, neither array changes. */
static void test_keyed_out_of_range(struct keyed *it) {
    const enum function functions[] = {PUSH, POP, FIX, REMOVE};
    const size_t known = arity, unknown[] = {0, 9, 10, SIZE_MAX};
    it->len = it->count = drawn(VALUES);
    for (size_t i = 0; i < VALUES; i++) {
        it->items[i] = (struct dheap_entry){drawn_key(2), i};
        it->places[i] = 1000 + i;
    }
    for (size_t u = 0; u < sizeof unknown / sizeof *unknown; u++)
        for (size_t f = 0; f < 4; f++) {
            arity = unknown[u];
            changes_nothing(functions[f], it, 0, "it knows this arity");
        }
    arity = known;
    for (size_t f = 2; f < 4; f++) {
        changes_nothing(functions[f], it, it->len, "it knows a place past the last");
        changes_nothing(functions[f], it, SIZE_MAX, "it knows this place");
    }
    if (it->len == 0)
        return;
    it->count = it->len - 1;
    changes_nothing(PUSH, it, 0, "it takes a value without a place");
    changes_nothing(FIX, it, it->len - 1, "it takes a value without a place");
}

static void test_keyed(void) {
    for (enum place where = 0; where < PLACES; where++) {
        struct keyed it = {.where = where};
        const enum function functions[] = {PUSH, POP, FIX, REMOVE};
        for (size_t f = 0; f < 4; f++)
            changes_nothing(functions[f], &it, 0, "it finds an item where there is none");
        for (size_t time = 0; time < 8; time++) {
            test_commands(&it);
            test_any_places(&it);
            test_keyed_out_of_range(&it);
        }
    }
}
