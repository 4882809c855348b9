// Counters, readers of their values, shared counters, and conductors with their clients, for C++17. felter.hpp includes
// this header.
#ifndef FELTER_SERVICE_HPP
#define FELTER_SERVICE_HPP

#include "felter.hpp"

#include <array>

namespace felter {

// The key of a counter, which is filled up to 112 bytes with zeros.
using key_bytes = std::array<std::uint8_t, 112>;

namespace detail {
template <class Call, class Raw>
result<std::string> label_of(Call call, Raw *raw, std::uint32_t id) {
    std::string label(380, '\0');
    std::size_t len = 0;
    const std::int32_t why = call(raw, id, &len, &label[0], label.size());
    label.resize(why == FELTER_OK ? len : 0);
    return answer(why, std::move(label));
}
} // namespace detail

class reader : public owner<felter_reader> {
public:
    result<std::int64_t> value(std::uint32_t id) {
        return detail::out<std::int64_t>([&](std::int64_t *it) { return felter_reader_value(raw(), id, it); });
    }
};

class counters : public owner<felter_counters> {
public:
    static result<counters> make(std::uint32_t count, std::uint32_t reuse_ms = 0) {
        return detail::made<counters>([&](felter_counters *it) { return felter_counters_new(count, reuse_ms, it); });
    }
    // Makes counters in `length` bytes of memory, which must stay until each handle was freed (rules 7 and 8 of
    // felter.h).
    static result<counters> make_in(void *memory, std::size_t length, std::uint32_t count,
                                    std::uint32_t reuse_ms = 0) {
        return detail::made<counters>(
            [&](felter_counters *it) { return felter_counters_new_in(memory, length, count, reuse_ms, it); });
    }
    result<std::uint32_t> allocate(std::uint64_t now, std::int32_t type_id, bytes key, bytes label,
                                   std::uint64_t registration = 0, std::uint64_t of = 0) {
        return detail::out<std::uint32_t>([&](std::uint32_t *it) {
            return felter_counter_allocate_owned(raw(), now, type_id, key.data(), key.size(), label.data(),
                                                 label.size(), registration, of, it);
        });
    }
    code release(std::uint64_t now, std::uint32_t id) { return felter_counter_free(raw(), now, id); }
    code set(std::uint32_t id, std::int64_t value) { return felter_counter_set(raw(), id, value); }
    result<std::int64_t> add(std::uint32_t id, std::int64_t delta) {
        return detail::out<std::int64_t>([&](std::int64_t *it) { return felter_counter_add(raw(), id, delta, it); });
    }
    result<std::int64_t> increment(std::uint32_t id) {
        return detail::out<std::int64_t>([&](std::int64_t *it) { return felter_counter_increment(raw(), id, it); });
    }
    result<std::int64_t> decrement(std::uint32_t id) {
        return detail::out<std::int64_t>([&](std::int64_t *it) { return felter_counter_decrement(raw(), id, it); });
    }
    result<std::int64_t> get_and_set(std::uint32_t id, std::int64_t value) {
        return detail::out<std::int64_t>(
            [&](std::int64_t *it) { return felter_counter_get_and_set(raw(), id, value, it); });
    }
    result<std::int64_t> value(std::uint32_t id) {
        return detail::out<std::int64_t>([&](std::int64_t *it) { return felter_counter_value(raw(), id, it); });
    }
    result<std::uint32_t> find(std::int32_t type_id, std::uint64_t registration) {
        return detail::out<std::uint32_t>(
            [&](std::uint32_t *it) { return felter_counter_find(raw(), type_id, registration, it); });
    }
    result<std::uint32_t> propose_max(std::uint32_t id, std::int64_t value) {
        return detail::out<std::uint32_t>(
            [&](std::uint32_t *it) { return felter_counter_propose_max(raw(), id, value, it); });
    }
    result<std::uint32_t> compare_and_set(std::uint32_t id, std::int64_t expected, std::int64_t value) {
        return detail::out<std::uint32_t>(
            [&](std::uint32_t *it) { return felter_counter_compare_and_set(raw(), id, expected, value, it); });
    }
    result<std::int32_t> type_id(std::uint32_t id) {
        return detail::out<std::int32_t>([&](std::int32_t *it) { return felter_counter_type_id(raw(), id, it); });
    }
    result<std::uint64_t> registration(std::uint32_t id) {
        return detail::out<std::uint64_t>(
            [&](std::uint64_t *it) { return felter_counter_registration(raw(), id, it); });
    }
    result<std::uint64_t> owner(std::uint32_t id) {
        return detail::out<std::uint64_t>([&](std::uint64_t *it) { return felter_counter_owner(raw(), id, it); });
    }
    result<std::int32_t> state(std::uint32_t id) {
        return detail::out<std::int32_t>([&](std::int32_t *it) { return felter_counter_state(raw(), id, it); });
    }
    result<std::uint64_t> deadline(std::uint32_t id) {
        return detail::out<std::uint64_t>([&](std::uint64_t *it) { return felter_counter_deadline(raw(), id, it); });
    }
    result<std::uint32_t> close_owner(std::uint64_t now, std::uint64_t of) {
        return detail::out<std::uint32_t>(
            [&](std::uint32_t *it) { return felter_counters_close_owner(raw(), now, of, it); });
    }
    // Returns the number of ids, whether they are in use or not.
    result<std::uint32_t> count() {
        return detail::out<std::uint32_t>([&](std::uint32_t *it) { return felter_counters_count(raw(), it); });
    }
    // Returns the number of counters that can be allocated at the moment `now`.
    result<std::uint32_t> available(std::uint64_t now) {
        return detail::out<std::uint32_t>(
            [&](std::uint32_t *it) { return felter_counters_available(raw(), now, it); });
    }
    result<std::string> label(std::uint32_t id) { return detail::label_of(felter_counter_label, raw(), id); }
    result<key_bytes> key(std::uint32_t id) {
        return detail::out<key_bytes>(
            [&](key_bytes *it) { return felter_counter_key(raw(), id, it->data(), it->size()); });
    }
    result<felter::reader> reader() {
        return detail::made<felter::reader>([&](felter_reader *it) { return felter_counters_reader(raw(), it); });
    }
    code join(felter::reader &back) { return felter_counters_join(raw(), back.raw()); }
};

// Adds to a shared counter. Each thread adds with an adder of its own. `make` makes a shared counter with the value 0,
// and returns its first adder.
class adder : public owner<felter_adder> {
public:
    static result<adder> make() {
        return detail::made<adder>([](felter_adder *it) { return felter_adder_new(it); });
    }
    result<adder> split() {
        return detail::made<adder>([&](felter_adder *it) { return felter_adder_split(raw(), it); });
    }
    code join(adder &other) { return felter_adder_join(raw(), other.raw()); }
    // Adds `delta` to the value, and returns the value before the addition. A sum that does not fit in 64 bits wraps.
    result<std::int64_t> add(std::int64_t delta) {
        return detail::out<std::int64_t>([&](std::int64_t *it) { return felter_adder_add(raw(), delta, it); });
    }
    // Returns the sum of all amounts that were added with all adders.
    result<std::int64_t> value() {
        return detail::out<std::int64_t>([&](std::int64_t *it) { return felter_adder_value(raw(), it); });
    }
    result<std::uint32_t> shares() {
        return detail::out<std::uint32_t>([&](std::uint32_t *it) { return felter_adder_shares(raw(), it); });
    }
};

struct reply {
    std::int32_t kind; // enum felter_reply
    std::int64_t number;
};

class client : public detail::end_of<felter_client> {
public:
    result<std::uint64_t> allocate(std::int32_t type_id, bytes key, bytes label, std::uint64_t of = 0) {
        return detail::out<std::uint64_t>([&](std::uint64_t *it) {
            return of ? felter_send_allocate_owned(raw(), type_id, of, key.data(), key.size(), label.data(),
                                                   label.size(), it)
                      : felter_send_allocate(raw(), type_id, key.data(), key.size(), label.data(), label.size(), it);
        });
    }
    result<std::uint64_t> release(std::uint32_t counter) {
        return detail::out<std::uint64_t>([&](std::uint64_t *it) { return felter_send_free(raw(), counter, it); });
    }
    result<std::uint64_t> set(std::uint32_t counter, std::int64_t value) {
        return detail::out<std::uint64_t>(
            [&](std::uint64_t *it) { return felter_send_set(raw(), counter, value, it); });
    }
    result<std::uint64_t> close_owner(std::uint64_t of) {
        return detail::out<std::uint64_t>([&](std::uint64_t *it) { return felter_send_close_owner(raw(), of, it); });
    }
    // After FELTER_LAPPED, `*lapped` is how often the client was lapped, unless `lapped` is nullptr.
    result<reply> poll(std::uint64_t correlation, std::uint64_t *lapped = nullptr) {
        std::uint64_t count = 0;
        return detail::out<reply>([&](reply *it) {
            return felter_poll(raw(), correlation, &it->kind, &it->number, lapped ? lapped : &count);
        });
    }
    result<std::uint64_t> heartbeat() {
        return detail::out<std::uint64_t>([&](std::uint64_t *it) { return felter_client_heartbeat(raw(), it); });
    }
};

struct work {
    std::uint64_t messages;
    std::int32_t stopped; // enum felter_stop
};

struct finished {
    std::uint64_t received, left;
};

class conductor : public detail::end_of<felter_conductor> {
public:
    static result<conductor> make(std::uint32_t capacity, std::uint32_t replies, std::uint32_t counters,
                                  std::uint32_t reuse_ms = 0) {
        return detail::first<conductor>(
            [&](felter_conductor *it) { return felter_conductor_new(capacity, replies, counters, reuse_ms, it); });
    }
    result<felter::client> client() {
        return other<felter::client>(false, [&](felter_client *it) { return felter_conductor_client(raw(), it); });
    }
    result<felter::work> work(std::uint64_t now, std::uint32_t limit = UINT32_MAX) {
        return detail::out<felter::work>(
            [&](felter::work *it) { return felter_conductor_work(raw(), now, limit, &it->messages, &it->stopped); });
    }
    code set_heartbeat(std::uint64_t value) { return felter_conductor_set_heartbeat(raw(), value); }
    result<std::int64_t> value(std::uint32_t id) {
        return detail::out<std::int64_t>([&](std::int64_t *it) { return felter_conductor_value(raw(), id, it); });
    }
    result<std::uint32_t> find(std::int32_t type_id, std::uint64_t registration) {
        return detail::out<std::uint32_t>(
            [&](std::uint32_t *it) { return felter_conductor_find(raw(), type_id, registration, it); });
    }
    result<std::int32_t> type_id(std::uint32_t id) {
        return detail::out<std::int32_t>([&](std::int32_t *it) { return felter_conductor_type_id(raw(), id, it); });
    }
    result<std::uint64_t> registration(std::uint32_t id) {
        return detail::out<std::uint64_t>(
            [&](std::uint64_t *it) { return felter_conductor_registration(raw(), id, it); });
    }
    result<std::uint64_t> owner(std::uint32_t id) {
        return detail::out<std::uint64_t>([&](std::uint64_t *it) { return felter_conductor_owner(raw(), id, it); });
    }
    result<std::int32_t> state(std::uint32_t id) {
        return detail::out<std::int32_t>([&](std::int32_t *it) { return felter_conductor_state(raw(), id, it); });
    }
    result<std::uint64_t> deadline(std::uint32_t id) {
        return detail::out<std::uint64_t>([&](std::uint64_t *it) { return felter_conductor_deadline(raw(), id, it); });
    }
    result<std::uint32_t> count() {
        return detail::out<std::uint32_t>([&](std::uint32_t *it) { return felter_conductor_count(raw(), it); });
    }
    result<std::string> label(std::uint32_t id) { return detail::label_of(felter_conductor_label, raw(), id); }
    result<key_bytes> key(std::uint32_t id) {
        return detail::out<key_bytes>(
            [&](key_bytes *it) { return felter_conductor_key(raw(), id, it->data(), it->size()); });
    }
    result<receiver> subscribe() {
        return other<receiver>(false, [&](felter_receiver *it) { return felter_conductor_subscribe(raw(), it); });
    }
    result<felter::reader> reader() {
        return detail::made<felter::reader>([&](felter_reader *it) { return felter_conductor_reader(raw(), it); });
    }
    code join(felter::client &back) { return back.given(felter_conductor_join(raw(), back.raw())); }
    code join(receiver &back) { return back.given(felter_conductor_join_receiver(raw(), back.raw())); }
    code join(felter::reader &back) { return felter_conductor_join_reader(raw(), back.raw()); }
    result<finished> finish() {
        return given(detail::out<finished>(
            [&](finished *it) { return felter_conductor_finish(raw(), &it->received, &it->left); }));
    }
};

} // namespace felter

#endif
