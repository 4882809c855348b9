// felter for C++17. Handles free themselves and can be moved but not copied. Bodies are views of bytes, which convert
// to std::span from C++20 on. Each method has the name of a call of felter.h. The comment of that call says what the
// method does. A method returns a code, or a result with a value or a code. A board is a broadcast buffer.
//
//     auto ring = felter::many_to_one(65536).value();
//     ring.producer.write(7, "hello").value();
//     std::array<std::uint8_t, 64> room;
//     if (auto message = ring.consumer.read(room)) use(message->type_id, message->body);
//
// The rules of felter.h apply here too. For example, only one thread at a time may use a handle. This header is tested
// and not proved.
#ifndef FELTER_HPP
#define FELTER_HPP

#include "felter_result.hpp"

#if __cplusplus >= 201703L

#include "felter_ends.hpp"

#include <algorithm>

namespace felter {

// The capacity of a ring or a board, and the length of its longest message, in bytes.
struct sizes {
    std::uint32_t capacity, longest;
};

namespace detail {
inline result<sizes> sizes_of(felter_handle &handle) {
    return out<sizes>([&](sizes *it) { return felter_capacity(&handle, &it->capacity, &it->longest); });
}
} // namespace detail

struct positions {
    std::uint64_t head, tail;
};

class producer;

// Room for one message. The destructor aborts the claim unless it was committed, and so does an assignment of another
// claim. The producer must live longer than the claim, and must not be moved while the claim exists. If the producer is
// joined to another one, the claim belongs to the other producer. Then settle it by felter_commit or felter_abort, with
// the other producer and number(), since this object can no longer settle it.
class claim {
public:
    claim(claim &&from) noexcept : raw_(std::exchange(from.raw_, nullptr)), number_(from.number_) {}
    claim &operator=(claim &&from) noexcept {
        if (this != &from) {
            abort_if_open();
            raw_ = std::exchange(from.raw_, nullptr);
            number_ = from.number_;
        }
        return *this;
    }
    ~claim() { abort_if_open(); }
    // Returns the number of the claim, which is its position in the ring.
    std::uint64_t number() const noexcept { return number_; }
    code put(std::size_t offset, bytes from) {
        return raw_ ? felter_put(raw_, number_, offset, from.data(), from.size()) : FELTER_NO_CLAIM;
    }
    code commit() { return raw_ ? felter_commit(std::exchange(raw_, nullptr), number_) : FELTER_NO_CLAIM; }
    code abort() { return raw_ ? felter_abort(std::exchange(raw_, nullptr), number_) : FELTER_NO_CLAIM; }

private:
    friend class producer;
    claim(felter_producer *raw, std::uint64_t number) noexcept : raw_(raw), number_(number) {}
    void abort_if_open() noexcept {
        if (raw_ && felter_abort(raw_, number_)) return;
    }
    felter_producer *raw_;
    std::uint64_t number_;
};

// The number of messages of a batch that were written, and the code of the first message that was refused.
struct written {
    std::uint32_t count;
    felter::code why;
};

class producer : public detail::end_of<felter_producer> {
public:
    result<felter::sizes> sizes() { return detail::sizes_of(raw()->handle); }
    code write(std::int32_t type_id, bytes body) { return felter_write(raw(), type_id, body.data(), body.size()); }
    // Writes messages from a buffer with the layout that felter_read_batch writes, up to the first one that is refused.
    // If a record has a bad type id or length, no message is written.
    felter::written write_batch(bytes records) {
        std::uint32_t count = 0;
        const std::int32_t why = felter_write_batch(raw(), records.data(), records.size(), &count);
        return {count, why};
    }
    result<felter::claim> claim(std::int32_t type_id, std::size_t len) {
        std::uint64_t number = 0;
        const std::int32_t why = felter_claim(raw(), type_id, len, &number);
        if (why != FELTER_OK) return felter::code(why);
        return felter::claim(raw(), number);
    }
    result<producer> split() {
        return other<producer>(true, [&](felter_producer *it) { return felter_split(raw(), it); });
    }
    code join(producer &other) { return other.given(felter_join(raw(), other.raw())); }
    result<felter::positions> positions() {
        return detail::out<felter::positions>(
            [&](felter::positions *it) { return felter_positions(raw(), &it->head, &it->tail); });
    }
    // Returns how many bytes of the ring are claimed and not yet read. The call loads the positions once.
    result<std::uint64_t> used() {
        const auto its = sizes();
        const auto at = positions();
        if (!its) return its.code();
        if (!at) return at.code();
        // The head is loaded before the tail, so the loaded tail may be more than a capacity above the loaded head.
        return std::min<std::uint64_t>((*at).tail - (*at).head, (*its).capacity);
    }
    // Returns how many bytes are free. A message also takes some of these bytes for its header, and for padding.
    result<std::uint64_t> available() {
        const auto its = sizes();
        const auto claimed = used();
        if (!claimed) return claimed.code();
        return (*its).capacity - *claimed;
    }
    // Returns whether everything that was claimed was read.
    result<bool> is_empty() {
        const auto claimed = used();
        if (!claimed) return claimed.code();
        return *claimed == 0;
    }
    result<std::uint64_t> next_id() {
        return detail::out<std::uint64_t>([&](std::uint64_t *it) { return felter_next_id(raw(), it); });
    }
    result<std::uint64_t> heartbeat() {
        return detail::out<std::uint64_t>([&](std::uint64_t *it) { return felter_heartbeat(raw(), it); });
    }
    result<std::uint32_t> shares() {
        return detail::out<std::uint32_t>([&](std::uint32_t *it) { return felter_shares(raw(), it); });
    }
};

// The kind of thing that a consumer finds next (enum felter_found), and the position of the head in bytes.
struct standing {
    std::int32_t found;
    std::uint64_t head;
};

class consumer : public detail::end_of<felter_consumer> {
public:
    result<felter::sizes> sizes() { return detail::sizes_of(raw()->handle); }
    // Reads the next message into a buffer, and removes the message from the ring.
    result<message> read(buffer into) { return copied(felter_read, into); }
    // Copies the next message into a buffer, and leaves it in the ring.
    result<message> peek(buffer into) { return copied(felter_peek, into); }
    // Removes the next message from the ring. The call copies no byte of the message, so its time does not grow with
    // the length of the message.
    code take() { return felter_take(raw()); }
    // Reads up to `limit` messages into a buffer. To see the messages, iterate over the batch: for (auto message :
    // *batch). The batch is valid as long as the buffer is.
    result<batch> read_batch(std::uint32_t limit, buffer into) {
        std::uint32_t count = 0;
        std::size_t used = 0;
        const std::int32_t why = felter_read_batch(raw(), limit, &count, &used, into.data(), into.size());
        return detail::answer(why, batch(into.data(), count));
    }
    // Reads up to `limit` messages into a buffer, and calls f with each. If f throws, the later messages of the batch
    // are lost. They were taken from the ring, and f is not called with them. To keep these messages, call the overload
    // above, which returns a batch.
    template <class F>
    result<std::uint32_t> read_batch(std::uint32_t limit, buffer into, F f) {
        auto found = read_batch(limit, into);
        if (!found) return found.code();
        for (message it : *found) f(it);
        return found->size();
    }
    result<felter::standing> standing(producer &of) {
        return detail::out<felter::standing>(
            [&](felter::standing *it) { return felter_standing(of.raw(), raw(), &it->found, &it->head); });
    }
    code set_heartbeat(std::uint64_t value) { return felter_set_heartbeat(raw(), value); }
    code close(producer &last) { return last.given(felter_close(raw(), last.raw())); }
    result<std::uint64_t> finish() {
        return given(detail::out<std::uint64_t>([&](std::uint64_t *it) { return felter_finish(raw(), it); }));
    }

private:
    template <class F>
    result<message> copied(F call, buffer into) {
        message found{};
        std::size_t len = 0;
        const std::int32_t why = call(raw(), &found.type_id, &len, into.data(), into.size());
        found.body = {into.data(), why == FELTER_OK ? len : 0};
        return detail::answer(why, found);
    }
};

// The first producer of a ring, and its consumer.
struct ring {
    felter::producer producer;
    felter::consumer consumer;
};

namespace detail {
template <class Call, class... Its>
result<ring> ring_by(Call call, Its... its) {
    ring made;
    if (!made.producer.begin(true) || !made.consumer.follow(made.producer, false)) return code(FELTER_OUT_OF_MEMORY);
    const std::int32_t why = call(its..., made.producer.raw(), made.consumer.raw());
    return answer(why, std::move(made));
}
} // namespace detail

inline result<ring> many_to_one(std::uint32_t capacity, std::uint64_t start = 0) {
    return detail::ring_by(felter_many_to_one_new_at, capacity, start);
}

inline result<ring> one_to_one(std::uint32_t capacity, std::uint64_t start = 0) {
    return detail::ring_by(felter_one_to_one_new_at, capacity, start);
}

// Make a ring in `length` bytes of memory, which must stay until each handle was freed (rules 7 and 8 of felter.h).
inline result<ring> many_to_one_in(void *memory, std::size_t length, std::uint32_t capacity) {
    return detail::ring_by([=](auto... its) { return felter_many_to_one_new_in(memory, length, its...); }, capacity);
}

inline result<ring> one_to_one_in(void *memory, std::size_t length, std::uint32_t capacity) {
    return detail::ring_by([=](auto... its) { return felter_one_to_one_new_in(memory, length, its...); }, capacity);
}

// What was recovered from a ring whose process died. The messages are valid as long as the buffer is. write_batch takes
// the records.
struct recovered {
    std::uint64_t open_claims;
    batch messages;
    bytes records;
};

// Lays the messages of a ring into a buffer. The image is the memory of the ring, for example its mapped file. A buffer
// that is as long as the image is always long enough.
inline result<recovered> recover(bytes image, buffer into) {
    recovered found{};
    std::uint32_t count = 0;
    std::size_t used = 0;
    const std::int32_t why = felter_recover(image.data(), image.size(), &found.open_claims, &count, &used, into.data(),
                                            into.size());
    found.messages = batch(into.data(), count);
    found.records = {into.data(), why == FELTER_OK ? used : 0};
    return detail::answer(why, found);
}

// Returns what recover finds wrong with an image, in words. The text is empty if nothing is wrong.
inline std::string finding(bytes image) {
    char text[128];
    std::size_t len = 0;
    const std::int32_t why = felter_finding(image.data(), image.size(), &len, text, sizeof text);
    return why == FELTER_OK ? std::string(text, len) : std::string(felter_text(why));
}

// The place at which a receiver was lapped, and the intent that showed the lap.
struct lap {
    std::uint64_t place, intent;
};

class receiver : public detail::end_of<felter_receiver> {
public:
    result<felter::sizes> sizes() { return detail::sizes_of(raw()->handle); }
    result<std::uint64_t> place() {
        return detail::out<std::uint64_t>([&](std::uint64_t *it) { return felter_receiver_place(raw(), it); });
    }
    // Returns the place at which the receiver was lapped last, and the intent.
    result<felter::lap> lap() {
        return detail::out<felter::lap>(
            [&](felter::lap *it) { return felter_receiver_lap(raw(), &it->place, &it->intent); });
    }
    // Copies the next message into a buffer of at least an eighth of the capacity. After FELTER_LAPPED, lapped_count
    // returns how often the receiver was lapped.
    result<message> receive(buffer into) {
        message found{};
        std::size_t len = 0;
        std::uint64_t lapped = 0;
        const std::int32_t why = felter_receive(raw(), &found.type_id, &len, &lapped, into.data(), into.size());
        found.body = {into.data(), why == FELTER_OK ? len : 0};
        return detail::answer(why, found);
    }
    result<std::uint64_t> lapped_count() {
        return detail::out<std::uint64_t>([&](std::uint64_t *it) { return felter_lapped_count(raw(), it); });
    }
};

// The type id of a record, and the length of its body, which is not yet copied.
struct raw_record {
    std::int32_t type_id;
    std::size_t len;
};

class raw_receiver : public detail::end_of<felter_raw_receiver> {
public:
    result<felter::sizes> sizes() { return detail::sizes_of(raw()->handle); }
    result<std::uint64_t> place() {
        return detail::out<std::uint64_t>([&](std::uint64_t *it) { return felter_raw_receiver_place(raw(), it); });
    }
    result<felter::lap> lap() {
        return detail::out<felter::lap>(
            [&](felter::lap *it) { return felter_raw_receiver_lap(raw(), &it->place, &it->intent); });
    }
    result<raw_record> receive_next() {
        std::uint64_t lapped = 0;
        return detail::out<raw_record>(
            [&](raw_record *it) { return felter_receive_next(raw(), &it->type_id, &it->len, &lapped); });
    }
    code load_body(buffer into) { return felter_load_body(raw(), into.data(), into.size()); }
    code validate() { return felter_validate(raw()); }
    result<std::uint64_t> lapped_count() {
        return detail::out<std::uint64_t>([&](std::uint64_t *it) { return felter_raw_lapped_count(raw(), it); });
    }
};

class transmitter : public detail::end_of<felter_transmitter> {
public:
    static result<transmitter> make(std::uint32_t capacity, std::uint64_t start = 0) {
        return detail::first<transmitter>(
            [&](felter_transmitter *it) { return felter_board_new_at(capacity, start, it); });
    }
    // Makes a board in `length` bytes of memory, which must stay until each handle was freed (rules 7 and 8 of
    // felter.h).
    static result<transmitter> make_in(void *memory, std::size_t length, std::uint32_t capacity) {
        return detail::first<transmitter>(
            [&](felter_transmitter *it) { return felter_board_new_in(memory, length, capacity, it); });
    }
    result<felter::sizes> sizes() { return detail::sizes_of(raw()->handle); }
    code transmit(std::int32_t type_id, bytes body) {
        return felter_transmit(raw(), type_id, body.data(), body.size());
    }
    result<receiver> subscribe() {
        return other<receiver>(false, [&](felter_receiver *it) { return felter_subscribe(raw(), it); });
    }
    result<raw_receiver> subscribe_raw() {
        return other<raw_receiver>(false, [&](felter_raw_receiver *it) { return felter_subscribe_raw(raw(), it); });
    }
    code join(receiver &back) { return back.given(felter_board_join(raw(), back.raw())); }
    code join(raw_receiver &back) { return back.given(felter_board_join_raw(raw(), back.raw())); }
    result<std::uint64_t> close() {
        return given(detail::out<std::uint64_t>([&](std::uint64_t *it) { return felter_board_close(raw(), it); }));
    }
};

} // namespace felter

#include "felter_service.hpp"

#endif // of C++17
#endif
