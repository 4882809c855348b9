// felter_wait.h for C++17: calls that wait, sleepers, requests and doorbells, for the handles of felter.hpp. This
// header needs Linux, and is tested and not proved.
//
// To wait for a message, use read_asleep or receive_asleep, and call sleepers::wake after each write. read_wait and
// receive_wait are for writers that do not call wake. These two calls pause between tries, so they find a message up to
// about a millisecond late.
//
// Each of these calls also returns FELTER_NO_MESSAGE if the other side is gone and no message is left. A reader that
// sleeps does not learn this until it is woken, so call sleepers::wake after the last writer was freed or closed. A
// request ends soon after the conductor was freed.
#ifndef FELTER_WAIT_HPP
#define FELTER_WAIT_HPP

#include "felter.hpp"

#include "felter_wait.h"

#include <algorithm>
#include <chrono>

namespace felter {

// The timeout of a call that waits for ever.
inline constexpr std::chrono::milliseconds for_ever{-1};

namespace detail {
inline std::int64_t as_timeout(std::chrono::milliseconds it) noexcept { return static_cast<std::int64_t>(it.count()); }

// Calls `look` again and again until there is a message, the timeout has passed, or the other side is gone and left no
// message.
template <class End, class Look>
result<message> until_found(End &end, std::chrono::milliseconds timeout, Look look) {
    felter_pause pause = {0, 0, as_timeout(timeout)};
    for (;;) {
        // The call of is_abandoned comes before look, so the last look finds what was written before the other side was
        // gone.
        const bool is_last = end.is_abandoned();
        auto found = look();
        if (found.code() != FELTER_NO_MESSAGE || is_last || !felter_pauses(&pause)) return found;
    }
}
} // namespace detail

// Writes again and again while the ring is full or another producer is faster. After the timeout, or if the consumer is
// gone, the call returns the code of the last try.
inline code write_wait(producer &to, std::int32_t type_id, bytes body, std::chrono::milliseconds timeout) {
    felter_pause pause = {0, 0, detail::as_timeout(timeout)};
    for (;;) {
        const code why = to.write(type_id, body);
        if (!why.is_passing() || to.is_abandoned() || !felter_pauses(&pause)) return why;
    }
}

inline result<message> read_wait(consumer &from, buffer into, std::chrono::milliseconds timeout) {
    return detail::until_found(from, timeout, [&] { return from.read(into); });
}

inline result<message> receive_wait(receiver &from, buffer into, std::chrono::milliseconds timeout) {
    return detail::until_found(from, timeout, [&] { return from.receive(into); });
}

// Readers that sleep until a writer wakes them. The object is neither copied nor moved, and must live as long as a
// thread uses it.
class sleepers {
public:
    sleepers() noexcept = default;
    sleepers(const sleepers &) = delete;
    sleepers &operator=(const sleepers &) = delete;
    // Wakes all readers that sleep. Call this after each write, commit, abort or transmission, and after a producer or
    // a transmitter was freed or closed. The call costs one load if no reader sleeps.
    void wake() noexcept { felter_wake(&raw_); }
    felter_sleepers *raw() noexcept { return &raw_; }

private:
    felter_sleepers raw_ = FELTER_NO_SLEEPERS;
};

namespace detail {
// Calls `look`, and sleeps in between, until there is a message, the timeout has passed, or the other side is gone and
// left no message.
template <class End, class Look>
result<message> until_woken(End &end, felter_sleepers *in, std::chrono::milliseconds timeout, Look look) {
    felter_pause pause = {0, 0, as_timeout(timeout)};
    bool is_last = pause.timeout == 0;
    auto found = look();
    while (found.code() == FELTER_NO_MESSAGE && !is_last) {
        __atomic_add_fetch(&in->count, 1, __ATOMIC_SEQ_CST);
        const std::uint32_t turn = __atomic_load_n(&in->turn, __ATOMIC_SEQ_CST);
        // The call of is_abandoned comes before look, so the last look finds what was written before the other side was
        // gone. If the other side goes after that, the wake that follows ends the sleep.
        is_last = end.is_abandoned();
        found = look();
        if (found.code() == FELTER_NO_MESSAGE && !is_last) is_last = !felter_sleeps(in, turn, &pause);
        __atomic_sub_fetch(&in->count, 1, __ATOMIC_SEQ_CST);
    }
    return found;
}
} // namespace detail

inline result<message> read_asleep(consumer &from, sleepers &in, buffer into, std::chrono::milliseconds timeout) {
    return detail::until_woken(from, in.raw(), timeout, [&] { return from.read(into); });
}

inline result<message> receive_asleep(receiver &from, sleepers &in, buffer into, std::chrono::milliseconds timeout) {
    return detail::until_woken(from, in.raw(), timeout, [&] { return from.receive(into); });
}

// The outcome of a request, and what is known of its command.
struct requested {
    felter::code why;
    felter_answer answer;
};

namespace detail {
// Calls `send` again and again while the ring is full or another client is faster, and then waits for the reply. If the
// conductor is gone, the call makes the last try and looks for the reply once more.
template <class Send>
requested request(client &by, std::chrono::milliseconds timeout, Send send) {
    felter_pause pause = {0, 0, as_timeout(timeout)};
    felter_waiting waiting = FELTER_NOT_WAITED;
    felter_answer answer{};
    std::int32_t why = FELTER_OK;
    answer.outcome = FELTER_OUTCOME_NOT_SENT;
    do {
        if (by.is_abandoned()) pause.timeout = 0;
        why = send(&answer.id);
    } while (felter_sends_again(why, &pause));
    if (why != FELTER_OK) return {why, answer};
    do {
        // With the timeout 0 this poll is the last one.
        if (by.is_abandoned()) pause.timeout = 0;
    } while (!felter_awaits(by.raw(), &waiting, &pause, &answer, &why));
    return {why, answer};
}
} // namespace detail

// Requests. If the conductor is gone, a request does not wait until the timeout has passed. It ends with the code that
// it would return after the timeout.
inline requested request_allocate(client &by, std::int32_t type_id, bytes key, bytes label,
                                  std::chrono::milliseconds timeout, std::uint64_t of = 0) {
    return detail::request(by, timeout, [&](std::uint64_t *id) {
        return of ? felter_send_allocate_owned(by.raw(), type_id, of, key.data(), key.size(), label.data(),
                                               label.size(), id)
                  : felter_send_allocate(by.raw(), type_id, key.data(), key.size(), label.data(), label.size(), id);
    });
}

inline requested request_free(client &by, std::uint32_t counter, std::chrono::milliseconds timeout) {
    return detail::request(by, timeout, [&](std::uint64_t *id) { return felter_send_free(by.raw(), counter, id); });
}

inline requested request_set(client &by, std::uint32_t counter, std::int64_t value, std::chrono::milliseconds timeout) {
    return detail::request(by, timeout,
                           [&](std::uint64_t *id) { return felter_send_set(by.raw(), counter, value, id); });
}

inline requested request_close_owner(client &by, std::uint64_t of, std::chrono::milliseconds timeout) {
    return detail::request(by, timeout, [&](std::uint64_t *id) { return felter_send_close_owner(by.raw(), of, id); });
}

// An eventfd for poll and epoll. The destructor closes it.
class doorbell {
public:
    // Opens a doorbell, or returns std::nullopt and sets errno.
    static std::optional<doorbell> make() {
        const int descriptor = felter_doorbell();
        if (descriptor < 0) return std::nullopt;
        return doorbell(descriptor);
    }
    doorbell(doorbell &&from) noexcept : descriptor_(std::exchange(from.descriptor_, -1)) {}
    doorbell &operator=(doorbell &&from) noexcept {
        std::swap(descriptor_, from.descriptor_);
        return *this;
    }
    ~doorbell() {
        if (descriptor_ >= 0) close(descriptor_);
    }
    int descriptor() const noexcept { return descriptor_; }
    bool ring() noexcept { return felter_ring_doorbell(descriptor_) == 0; }
    // Clears the doorbell, and returns whether it was rung.
    bool clear() noexcept { return felter_clear_doorbell(descriptor_) == 1; }
    // Waits until the doorbell is rung, and returns whether it was rung. A signal does not end the wait.
    bool wait(std::chrono::milliseconds timeout) noexcept {
        using std::chrono::milliseconds;
        const auto began = std::chrono::steady_clock::now();
        for (auto left = timeout; descriptor_ >= 0;) {
            // (one call of poll waits for at most 2^31 - 1 milliseconds, or for ever if the number is negative)
            const auto most = std::clamp(left, milliseconds(-1), milliseconds(INT_MAX));
            const int found = felter_wait_doorbell(descriptor_, static_cast<int>(most.count()));
            if (found == 1) return true;
            if (found < 0 && errno != EINTR) return false;
            if (timeout.count() < 0) continue;
            left = timeout - std::chrono::duration_cast<milliseconds>(std::chrono::steady_clock::now() - began);
            if (left.count() <= 0) return false;
        }
        return false;
    }

private:
    explicit doorbell(int descriptor) noexcept : descriptor_(descriptor) {}
    int descriptor_;
};

} // namespace felter

#endif
