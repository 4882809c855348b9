// Queues of C and C++ as a worker of bench/run: boost::lockfree, Concurrency Kit, moodycamel's and oneTBB's, as far as
// their headers are installed. Each holds messages of one length by value, in as many slots as a ring of the requested
// capacity has records, as a power of two. Workloads and figures are those of bench/README.md.
#include "workloads.hpp"

#if __has_include(<boost/lockfree/spsc_queue.hpp>)
#include <boost/lockfree/queue.hpp>
#include <boost/lockfree/spsc_queue.hpp>

template <unsigned N> struct BoostSpsc {
    boost::lockfree::spsc_queue<Body<N>> queue;
    explicit BoostSpsc(size_t slots) : queue(slots) {}
    bool push(const Body<N> &body) { return queue.push(body); }
    template <class On> unsigned drain(On &&on) { return unsigned(queue.consume_all(on)); }
};

template <unsigned N> struct BoostQueue {
    boost::lockfree::queue<Body<N>, boost::lockfree::fixed_sized<true>> queue;
    explicit BoostQueue(size_t slots) : queue(std::min<size_t>(slots, 65534)) {}
    bool push(const Body<N> &body) { return queue.bounded_push(body); }
    template <class On> unsigned drain(On &&on) {
        unsigned count = 0;
        while (count < LIMIT && queue.consume_one(on)) count++;
        return count;
    }
};
#define HAS_BOOST
#endif

#if __has_include(<ck_ring.h>)
#define false 0 // (the header returns `false` as a pointer, which C++ does not allow)
extern "C" {
#include <ck_ring.h>
}
#undef false

// (the typed macros of ck_ring.h are for C; these are the functions that they call)
template <unsigned N, bool IS_FOR_ONE> struct CkRing {
    std::unique_ptr<ck_ring_t> ring{new ck_ring_t()};
    std::vector<Body<N>> slots;
    explicit CkRing(size_t count) : slots(count) { ck_ring_init(ring.get(), unsigned(count)); }
    bool push(const Body<N> &body) {
        return IS_FOR_ONE ? _ck_ring_enqueue_sp(ring.get(), slots.data(), &body, sizeof body, nullptr)
                          : _ck_ring_enqueue_mp(ring.get(), slots.data(), &body, sizeof body, nullptr);
    }
    template <class On> unsigned drain(On &&on) {
        unsigned count = 0;
        for (Body<N> body; count < LIMIT && _ck_ring_dequeue_sc(ring.get(), slots.data(), &body, sizeof body); count++)
            on(body);
        return count;
    }
};
template <unsigned N> using CkSpsc = CkRing<N, true>;
template <unsigned N> using CkMpsc = CkRing<N, false>;
#define HAS_CK
#endif

#if __has_include(<readerwriterqueue/readerwriterqueue.h>)
#include <readerwriterqueue/readerwriterqueue.h>

template <unsigned N> struct MoodySpsc {
    moodycamel::ReaderWriterQueue<Body<N>> queue;
    explicit MoodySpsc(size_t slots) : queue(slots) {}
    bool push(const Body<N> &body) { return queue.try_enqueue(body); }
    template <class On> unsigned drain(On &&on) {
        unsigned count = 0;
        for (; count < LIMIT && queue.peek(); count++) {
            on(*queue.peek());
            queue.pop();
        }
        return count;
    }
};
#define HAS_MOODY_SPSC
#endif

#if __has_include(<concurrentqueue/concurrentqueue.h>)
#include <concurrentqueue/concurrentqueue.h>

// Without tokens: with them, and no allocation, one producer can keep all blocks for good.
template <unsigned N> struct MoodyMpmc {
    moodycamel::ConcurrentQueue<Body<N>> queue;
    moodycamel::ConsumerToken token{queue};
    explicit MoodyMpmc(size_t slots) : queue(slots, 0, 8) {}
    bool push(const Body<N> &body) { return queue.try_enqueue(body); }
    template <class On> unsigned drain(On &&on) {
        unsigned count = 0;
        for (Body<N> body; count < LIMIT && queue.try_dequeue(token, body); count++) on(body);
        return count;
    }
};
#define HAS_MOODY_MPMC
#endif

#if defined WITH_TBB
#include <tbb/concurrent_queue.h>

template <unsigned N> struct Tbb {
    tbb::concurrent_bounded_queue<Body<N>> queue;
    explicit Tbb(size_t slots) { queue.set_capacity(std::ptrdiff_t(slots)); }
    bool push(const Body<N> &body) { return queue.try_push(body); }
    template <class On> unsigned drain(On &&on) {
        unsigned count = 0;
        for (Body<N> body; count < LIMIT && queue.try_pop(body); count++) on(body);
        return count;
    }
};
#endif

int main() {
    Table table;
#ifdef HAS_BOOST
    enter<BoostSpsc>(table, "boost-spsc", true);
    enter<BoostQueue>(table, "boost-queue", false);
#endif
#ifdef HAS_CK
    enter<CkSpsc>(table, "ck-spsc", true);
    enter<CkMpsc>(table, "ck-mpsc", false);
#endif
#ifdef HAS_MOODY_SPSC
    enter<MoodySpsc>(table, "moody-spsc", true);
#endif
#ifdef HAS_MOODY_MPMC
    enter<MoodyMpmc>(table, "moody-mpmc", false);
#endif
#ifdef WITH_TBB
    enter<Tbb>(table, "tbb", false);
#endif
    return answer_requests(table);
}
