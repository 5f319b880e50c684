// Timers that keep their turn: those that are due at the same moment run in the order in which they were set.
//
// The timers are a min-heap of dheap_sequenced in a vector. The key is the moment at which a timer is due, the
// sequence number counts the timers that were set, and the value says which function runs.
#include <dary_heap_c.h>

#include <algorithm>
#include <cstdint>
#include <functional>
#include <iostream>
#include <stdexcept>
#include <utility>
#include <vector>

class Timers {
  public:
    using Id = std::uint64_t;

    // Sets a timer, and returns the number by which it is cancelled.
    Id set(std::int64_t due, std::function<void()> action) {
        const Id id = actions.size();
        actions.push_back(std::move(action));
        heap.push_back({due, id, id});
        must(dheap_min_push_sequenced(heap.data(), heap.size(), ARITY));
        return id;
    }

    // Returns whether the timer was set and hadn't run.
    bool cancel(Id id) {
        const auto is_it = [id](const dheap_sequenced &timer) { return timer.value == id; };
        const auto found = std::find_if(heap.begin(), heap.end(), is_it);
        if (found == heap.end())
            return false;
        must(dheap_min_remove_sequenced(heap.data(), heap.size(), ARITY, std::size_t(found - heap.begin())));
        heap.pop_back();
        return true;
    }

    void run(std::int64_t now) {
        while (!heap.empty() && heap.front().key <= now) {
            must(dheap_min_pop_sequenced(heap.data(), heap.size(), ARITY));
            const Id id = heap.back().value;
            heap.pop_back();
            actions[id]();
        }
    }

  private:
    static constexpr std::size_t ARITY = 4;

    static void must(bool done) {
        if (!done)
            throw std::logic_error("an argument of the heap is out of range");
    }

    std::vector<dheap_sequenced> heap;
    std::vector<std::function<void()>> actions;
};

int main() {
    Timers timers;
    const auto says = [](const char *text) { return [text] { std::cout << text << '\n'; }; };
    timers.set(20, says("first at 20"));
    const Timers::Id unwanted = timers.set(10, says("never"));
    timers.set(20, says("second at 20"));
    timers.set(5, says("at 5"));
    timers.set(20, says("third at 20"));
    if (!timers.cancel(unwanted) || timers.cancel(unwanted))
        return 1;
    for (std::int64_t now = 10; now <= 30; now += 10)
        timers.run(now);
}
