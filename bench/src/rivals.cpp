// The heaps of C++ that are timed beside: std::priority_queue, and boost's d_ary_heap if its header is found.
//
// Each function does one whole workload, as those of the library do. It returns how many items it wrote to the
// front of `out`, which has room for as many as may come, or UINT64_MAX if it has no such call or heap or memory
// allocation fails.

#include <algorithm>
#include <cstddef>
#include <cstdint>
#include <new>
#include <queue>
#include <utility>
#include <vector>

#if __has_include(<boost/heap/d_ary_heap.hpp>)
#include <boost/heap/d_ary_heap.hpp>
#define HAS_BOOST 1
#endif

namespace {

constexpr std::uint64_t REFUSED = UINT64_MAX;

// The calls as in workload.rs.
enum Call : std::size_t { COPY, BUILD, PUSH, EXTEND, HOLD, RETAIN, POP, CHURN, TURNS, GREATEST };

// The same order as of the struct in items.rs.
struct Record {
    std::int64_t key;
    std::uint64_t words[7];

    bool operator<(const Record &other) const { return key < other.key; }
};

// The queue of std. Its items lie in `c`, as those of a heap of arity 2.
template <typename T> struct Queue : std::priority_queue<T> {
    static constexpr bool BUILDS = true, LENDS = false;

    Queue() = default;
    // It builds, also if the items are heap ordered.
    Queue(const T *items, std::size_t len)
        : std::priority_queue<T>(std::less<T>(), std::vector<T>(items, items + len)) {}

    std::uint64_t write(T *out) const {
        std::copy(this->c.begin(), this->c.end(), out);
        return this->c.size();
    }

    // It has no iterator, so a copy pops.
    void write_greatest(T *out, std::size_t most) const {
        Queue copy(*this);
        for (std::size_t at = 0; at < most; at++, copy.pop())
            out[at] = copy.top();
    }
};

#ifdef HAS_BOOST
// boost's heap has no build, so items are pushed. It lends its items by an iterator, in the order of no list.
template <typename T, unsigned D> struct Boosted : boost::heap::d_ary_heap<T, boost::heap::arity<D>> {
    static constexpr bool BUILDS = false, LENDS = true;

    Boosted() = default;
    Boosted(const T *items, std::size_t len) {
        this->reserve(len);
        std::for_each(items, items + len, [this](const T &item) { this->push(item); });
    }

    std::uint64_t write(T *out) const {
        std::copy(this->begin(), this->end(), out);
        return this->size();
    }

    void write_greatest(T *out, std::size_t most) const { std::copy_n(this->ordered_begin(), most, out); }
};
#endif

// What a workload is given.
template <typename T> struct Given {
    const T *items;
    std::size_t len;
    const T *more;
    std::size_t more_len;
    std::size_t piece;
    T *out;
};

template <typename T> std::uint64_t copy(const Given<T> &given) {
    const std::vector<T> copied(given.items, given.items + given.len);
    std::copy(copied.begin(), copied.end(), given.out);
    return copied.size();
}

template <typename T, typename Heap> std::uint64_t push(const Given<T> &given) {
    Heap heap;
    for (std::size_t at = 0; at < given.len; at++)
        heap.push(given.items[at]);
    return heap.write(given.out);
}

template <typename T, typename Heap> std::uint64_t pop(const Given<T> &given) {
    Heap heap(given.items, given.len);
    std::uint64_t count = 0;
    while (!heap.empty()) {
        given.out[count++] = heap.top();
        heap.pop();
    }
    return count;
}

template <typename T, typename Heap> std::uint64_t churn(const Given<T> &given) {
    Heap heap(given.items, given.len);
    for (std::size_t at = 0; at < given.more_len; at++) {
        heap.push(given.more[at]);
        given.out[at] = heap.top();
        heap.pop();
    }
    return given.more_len;
}

// As in items.rs.
std::int64_t lowered(std::int64_t item, std::int64_t by) {
    const std::uint64_t less = static_cast<std::uint64_t>(by) & 0x03ffffffffffffff;
    return static_cast<std::int64_t>(static_cast<std::uint64_t>(item) - less);
}

template <typename T> T lowered(const T &item, const T &) { return item; }

template <typename T, typename Heap> std::uint64_t turns(const Given<T> &given) {
    Heap heap(given.items, given.len);
    for (std::size_t at = 0; at < given.more_len; at++) {
        given.out[at] = heap.top();
        heap.pop();
        heap.push(lowered(given.out[at], given.more[at]));
    }
    return given.more_len;
}

// As in workload.rs.
template <typename T, typename Heap> std::uint64_t greatest(const Given<T> &given) {
    const Heap heap(given.items, given.len);
    const std::size_t most = std::min(given.piece, given.len);
    const std::size_t all = std::max<std::size_t>(10000, Heap::LENDS ? given.len : 0);
    for (std::size_t asked = 0; asked < std::max<std::size_t>(all / given.piece, 1); asked++)
        heap.write_greatest(given.out, most);
    return most;
}

template <typename T, typename Heap> std::uint64_t work(Call call, const Given<T> &given) {
    switch (call) {
    case COPY:
        return copy(given);
    case BUILD:
        return Heap::BUILDS ? Heap(given.items, given.len).write(given.out) : REFUSED;
    case PUSH:
        return push<T, Heap>(given);
    case HOLD:
        return Heap(given.items, given.len).write(given.out);
    case POP:
        return pop<T, Heap>(given);
    case CHURN:
        return churn<T, Heap>(given);
    case TURNS:
        return turns<T, Heap>(given);
    case GREATEST:
        return greatest<T, Heap>(given);
    default:
        return REFUSED;
    }
}

template <typename T> std::uint64_t refuse(Call, const Given<T> &) { return REFUSED; }

// Makes the call on the heap of std if `heap` is 0, or else on boost's of that arity.
template <typename T> std::uint64_t over(std::size_t heap, Call call, const Given<T> &given) {
    constexpr std::uint64_t (*heaps[])(Call, const Given<T> &) = {
        work<T, Queue<T>>,
#ifdef HAS_BOOST
        // It has no arity 1.
        refuse<T>,
        work<T, Boosted<T, 2>>,
        work<T, Boosted<T, 3>>,
        work<T, Boosted<T, 4>>,
        work<T, Boosted<T, 5>>,
        work<T, Boosted<T, 6>>,
        work<T, Boosted<T, 7>>,
        work<T, Boosted<T, 8>>,
#endif
    };
    try {
        return heap < std::size(heaps) ? heaps[heap](call, given) : REFUSED;
    } catch (const std::bad_alloc &) {
        return REFUSED;
    }
}

} // namespace

#define RIVAL(NAME, T)                                                                                         \
    extern "C" std::uint64_t NAME(std::size_t call, std::size_t heap, const T *items, std::size_t len,         \
                                  const T *more, std::size_t more_len, std::size_t piece, T *out, std::size_t) { \
        return over<T>(heap, static_cast<Call>(call), {items, len, more, more_len, piece, out});               \
    }

RIVAL(rivals_of_numbers, std::int64_t)
RIVAL(rivals_of_records, Record)
