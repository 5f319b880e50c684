// boost's d_ary_heap whose items can be changed, if its header is found. It does the workloads as the library does, whose
// sources say what each is.

#include <algorithm>
#include <cstddef>
#include <cstdint>
#include <new>
#include <unordered_map>
#include <vector>

#if __has_include(<boost/heap/d_ary_heap.hpp>)
#include <boost/heap/d_ary_heap.hpp>
#define HAS_BOOST 1
#endif

namespace {

constexpr std::uint64_t REFUSED = UINT64_MAX;

enum Call : std::size_t { PUSH, POP, CANCEL, REPRIORITISE, SEARCH, COUNT };

constexpr std::size_t CHANGES = 4;

struct Change {
    std::size_t key;
    std::uint64_t item;
};

struct Given {
    const std::uint64_t *items;
    std::size_t len;
    const Change *changes;
    std::size_t changes_len;
    std::size_t degree;
    std::uint64_t *out;
};

#ifdef HAS_BOOST

// An item, which alone is compared, with its key.
struct Entry {
    std::uint64_t item;
    std::size_t key;
};

struct Less {
    bool operator()(const Entry &one, const Entry &other) const { return one.item < other.item; }
    static void see(std::size_t) {}
};

// The same, and counts comparisons, and how many entries there are at most.
struct Tally {
    static inline std::uint64_t made = 0, most = 0;

    bool operator()(const Entry &one, const Entry &other) const {
        made++;
        return one.item < other.item;
    }
    static void see(std::size_t entries) { most = std::max(most, std::uint64_t(entries)); }
};

// The heap, with the handle of each key.
template <unsigned D, typename Compare = Less> class Heap {
    using Boosted = boost::heap::d_ary_heap<Entry, boost::heap::arity<D>, boost::heap::compare<Compare>,
                                            boost::heap::mutable_<true>>;

    struct Waiting {
        typename Boosted::handle_type handle;
        bool waits = false;
    };

    Boosted heap;
    std::vector<Waiting> keys;

  public:
    explicit Heap(std::size_t count) : keys(count) { heap.reserve(count); }

    void set(std::size_t key, std::uint64_t item) {
        Waiting &waiting = keys[key];
        if (waiting.waits)
            heap.update(waiting.handle, {item, key});
        else
            waiting = {heap.push({item, key}), true};
    }

    void raise(std::size_t key, std::uint64_t item) {
        Waiting &waiting = keys[key];
        if (waiting.waits)
            heap.increase(waiting.handle, {item, key});
        else
            waiting = {heap.push({item, key}), true};
        Compare::see(heap.size());
    }

    void cancel(std::size_t key) {
        if (keys[key].waits)
            heap.erase(keys[key].handle);
        keys[key].waits = false;
    }

    bool empty() const { return heap.empty(); }

    Entry pop() {
        const Entry entry = heap.top();
        heap.pop();
        keys[entry.key].waits = false;
        return entry;
    }
};

// The heap, with a map from each name to its handle. The name of a key is far from those of its neighbours.
class Named {
    using Boosted = boost::heap::d_ary_heap<Entry, boost::heap::arity<4>, boost::heap::compare<Less>,
                                            boost::heap::mutable_<true>>;

    // An odd number, and the one by which its product wraps to 1.
    static constexpr std::uint64_t FACTOR = 0x9e3779b97f4a7c15, INVERSE = 0xf1de83e19937733d;

    Boosted heap;
    std::unordered_map<std::uint64_t, Boosted::handle_type> names;

  public:
    explicit Named(std::size_t count) {
        heap.reserve(count);
        names.reserve(count);
    }

    void set(std::size_t key, std::uint64_t item) {
        const auto [at, is_new] = names.try_emplace(key * FACTOR);
        if (is_new)
            at->second = heap.push({item, at->first});
        else
            heap.update(at->second, {item, at->first});
    }

    void cancel(std::size_t key) {
        const auto at = names.find(key * FACTOR);
        if (at == names.end())
            return;
        heap.erase(at->second);
        names.erase(at);
    }

    bool empty() const { return heap.empty(); }

    Entry pop() {
        const Entry entry = heap.top();
        heap.pop();
        names.erase(entry.key);
        return {entry.item, entry.key * INVERSE};
    }
};

template <typename H> H pushed(const Given &given) {
    H heap(given.len);
    for (std::size_t key = 0; key < given.len; key++)
        heap.set(key, given.items[key]);
    return heap;
}

template <typename H> std::uint64_t pop(H heap, std::uint64_t *out, std::size_t count) {
    for (std::size_t at = 0; at < count && !heap.empty(); at++)
        out[at] = heap.pop().key;
    return count;
}

template <typename H> std::uint64_t cancel(const Given &given) {
    H timers(given.len);
    for (std::size_t key = 0; key < given.len; key++)
        timers.set(key, UINT64_MAX - given.items[key]);
    for (std::size_t at = 0; at < given.changes_len; at++) {
        const Change change = given.changes[at];
        timers.cancel(change.key);
        if (timers.empty())
            continue;
        const Entry due = timers.pop();
        given.out[at] = due.key;
        timers.set(due.key, due.item - change.item / 2);
        timers.set(change.key, due.item - change.item);
    }
    return given.changes_len;
}

template <typename H> std::uint64_t reprioritise(const Given &given) {
    H heap = pushed<H>(given);
    const std::size_t count = given.changes_len / CHANGES;
    for (std::size_t at = 0; at < count; at++) {
        const Change *const changes = given.changes + at * CHANGES;
        for (std::size_t change = 0; change < CHANGES; change++)
            heap.set(changes[change].key, changes[change].item);
        const std::size_t key = heap.pop().key;
        given.out[at] = key;
        heap.set(key, changes[CHANGES - 1].item / 2);
    }
    return count;
}

using Graph = std::vector<std::vector<Change>>;

// So many edges leave each node.
Graph graph_of(const Given &given) {
    Graph graph;
    graph.reserve(given.changes_len / given.degree);
    for (std::size_t at = 0; at < given.changes_len; at += given.degree)
        graph.emplace_back(given.changes + at, given.changes + at + given.degree);
    return graph;
}

// The least cost of a walk from node 0.
template <typename H> std::uint64_t cheapest(const Graph &graph, std::size_t goal) {
    std::vector<std::uint64_t> costs(graph.size(), UINT64_MAX);
    H nodes(graph.size());
    costs[0] = 0;
    nodes.raise(0, UINT64_MAX);
    while (!nodes.empty()) {
        const Entry least = nodes.pop();
        if (least.key == goal)
            return ~least.item;
        for (const Change &edge : graph[least.key]) {
            const std::uint64_t cost = ~least.item + edge.item;
            if (cost < costs[edge.key]) {
                costs[edge.key] = cost;
                nodes.raise(edge.key, ~cost);
            }
        }
    }
    return UINT64_MAX;
}

template <typename H> std::uint64_t search(const Given &given) {
    const Graph graph = graph_of(given);
    for (std::size_t at = 0; at < given.len; at++)
        given.out[at] = cheapest<H>(graph, given.items[at]);
    return 0;
}

template <typename H> std::uint64_t count(const Given &given) {
    Tally::made = Tally::most = 0;
    cheapest<H>(graph_of(given), given.items[0]);
    given.out[0] = Tally::made;
    given.out[1] = Tally::most;
    return 2;
}

template <typename H> std::uint64_t work_on(Call call, const Given &given) {
    switch (call) {
    case PUSH:
        return pop<H>(pushed<H>(given), given.out, 1);
    case POP:
        return pop<H>(pushed<H>(given), given.out, given.len);
    case CANCEL:
        return cancel<H>(given);
    case REPRIORITISE:
        return reprioritise<H>(given);
    default:
        return REFUSED;
    }
}

template <unsigned D> std::uint64_t work(Call call, const Given &given) {
    switch (call) {
    case SEARCH:
        return search<Heap<D>>(given);
    case COUNT:
        return count<Heap<D, Tally>>(given);
    default:
        return work_on<Heap<D>>(call, given);
    }
}

#else

class Named;

template <unsigned D> std::uint64_t work(Call, const Given &) { return REFUSED; }
template <typename H> std::uint64_t work_on(Call, const Given &) { return REFUSED; }

#endif

} // namespace

extern "C" std::uint64_t keyed_boost(std::size_t call, std::size_t arity, const std::uint64_t *items,
                                     std::size_t len, const Change *changes, std::size_t changes_len,
                                     std::size_t degree, std::uint64_t *out, std::size_t) {
    const Given given = {items, len, changes, changes_len, degree, out};
    try {
        switch (arity) {
        case 2:
            return work<2>(static_cast<Call>(call), given);
        case 4:
            return work<4>(static_cast<Call>(call), given);
        case 8:
            return work<8>(static_cast<Call>(call), given);
        }
    } catch (const std::bad_alloc &) {
    }
    return REFUSED;
}

extern "C" std::uint64_t named_boost(std::size_t call, std::size_t, const std::uint64_t *items, std::size_t len,
                                     const Change *changes, std::size_t changes_len, std::size_t degree,
                                     std::uint64_t *out, std::size_t) {
    const Given given = {items, len, changes, changes_len, degree, out};
    try {
        return work_on<Named>(static_cast<Call>(call), given);
    } catch (const std::bad_alloc &) {
        return REFUSED;
    }
}
