// This header counts the ends of a ring, a broadcast buffer or a conductor, for is_abandoned. An end is a handle that
// writes, or a handle that reads. The library does not count handles, so only the handles of felter.hpp are counted.
// felter.hpp includes this header.
#ifndef FELTER_ENDS_HPP
#define FELTER_ENDS_HPP

#include "felter_result.hpp"

#include <atomic>
#include <memory>
#include <new>

namespace felter {
namespace detail {

struct counts {
    std::atomic<std::uint64_t> writers{0}, readers{0};
    std::atomic<std::uint64_t> &of(bool writes) noexcept { return writes ? writers : readers; }
};

// One end, which is counted until it is destroyed or given to a call.
class end {
public:
    end() noexcept = default;
    end(end &&from) noexcept : counts_(std::move(from.counts_)), writes_(from.writes_) {}
    end &operator=(end &&from) noexcept {
        if (this != &from) {
            leave();
            counts_ = std::move(from.counts_);
            writes_ = from.writes_;
        }
        return *this;
    }
    ~end() { leave(); }
    // Makes this end the first one of a new structure. Returns false if there was no memory.
    bool begin(bool writes) noexcept {
        try {
            join(std::make_shared<counts>(), writes);
            return true;
        } catch (const std::bad_alloc &) {
            return false;
        }
    }
    void follow(const end &other, bool writes) noexcept { join(other.counts_, writes); }
    void leave() noexcept {
        if (counts_) counts_->of(writes_).fetch_sub(1);
        counts_.reset();
    }
    bool is_abandoned() const noexcept { return !counts_ || counts_->of(!writes_).load() == 0; }

private:
    void join(std::shared_ptr<counts> to, bool writes) noexcept {
        leave();
        counts_ = std::move(to);
        writes_ = writes;
        if (counts_) counts_->of(writes_).fetch_add(1);
    }
    std::shared_ptr<counts> counts_;
    bool writes_ = false;
};

// Bases are destroyed in reverse order, so this base is destroyed after the handle.
struct with_end {
    end end_;
};

// A handle that is an end of a structure. The open claims of a producer are aborted when its object is freed. The count
// of ends falls only after that. So when the other side finds the lower count, no claim of the producer is open.
template <class Raw>
class end_of : private with_end, public owner<Raw> {
public:
    end_of() noexcept = default;
    end_of(end_of &&from) noexcept = default;
    end_of &operator=(end_of &&from) noexcept {
        owner<Raw>::operator=(std::move(from));
        end_ = std::move(from.end_);
        return *this;
    }

    // Returns whether every end of the other side was freed, closed or joined. If the result is true and this end is a
    // consumer or a receiver, no further message will come. Messages that were written before can still be read. The
    // result is also true if this end is empty.
    bool is_abandoned() const noexcept { return end_.is_abandoned(); }

    // felter.hpp calls begin() for the first end of a new structure, and follow() for each other end of this structure.
    // Both return false if there was no memory.
    bool begin(bool writes) noexcept { return end_.begin(writes); }
    template <class Other>
    bool follow(const end_of<Other> &other, bool writes) noexcept {
        end_.follow(other.its_end(), writes);
        return true;
    }
    const end &its_end() const noexcept { return end_; }
    // These functions get the result of a call to which this handle was given. If the call has succeeded, this end is
    // no longer counted. Both functions return the result of the call.
    felter::code given(felter::code why) noexcept {
        if (why) end_.leave();
        return why;
    }
    template <class T>
    result<T> given(result<T> found) noexcept {
        if (found) end_.leave();
        return found;
    }

protected:
    // Returns another end of the same structure, which a call fills.
    template <class Kind, class Call>
    result<Kind> other(bool writes, Call call) {
        Kind kind;
        kind.follow(*this, writes);
        const std::int32_t why = call(kind.raw());
        return answer(why, std::move(kind));
    }
};

// Returns the writing end of a new structure, which a call fills.
template <class Kind, class Call>
result<Kind> first(Call call) {
    Kind kind;
    if (!kind.begin(true)) return felter::code(FELTER_OUT_OF_MEMORY);
    const std::int32_t why = call(kind.raw());
    return answer(why, std::move(kind));
}

} // namespace detail
} // namespace felter

#endif
