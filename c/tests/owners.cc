// What felter.hpp adds: handles that move and free themselves, claims that abort, views, results, and errors.
#include "felter.hpp"

#include "check.hpp"

#include <array>
#include <string>
#include <thread>
#include <vector>
#if __cplusplus >= 202002L
#include <ranges>
#endif

namespace {

static_assert(!std::is_copy_constructible_v<felter::producer>);
static_assert(std::is_nothrow_move_constructible_v<felter::producer>);
static_assert(!std::is_copy_constructible_v<felter::claim>);
static_assert(sizeof(felter::counters) == sizeof(felter_counters));
static_assert(sizeof(felter::adder) == sizeof(felter_adder));
// An array that can be written is no text in quotes: its last byte may be one of the body.
static_assert(std::is_convertible_v<const char (&)[4], felter::bytes>);
static_assert(!std::is_convertible_v<char (&)[4], felter::bytes>);
// A temporary result gives no reference to its value.
static_assert(!std::is_reference_v<decltype(std::declval<felter::result<felter::batch>>().value())>);
static_assert(!std::is_reference_v<decltype(*std::declval<felter::result<felter::batch>>())>);
#if __cplusplus >= 202002L
static_assert(std::ranges::input_range<const felter::batch>);
#endif

void rings() {
    auto ring = felter::many_to_one(512).value();
    std::array<std::uint8_t, 64> room{};
    ring.producer.write(7, "hello").value();
    ring.producer.write(8, std::string("text")).value();
    ring.producer.write(9, std::vector<std::uint8_t>{1, 2, 3}).value();
    const std::uint8_t plain[] = {1, 2};
    ring.producer.write(10, {plain, sizeof plain}).value();
    auto first = ring.consumer.read(room);
    CHECK(first && first->type_id == 7 && first->body.text() == "hello");
#ifdef __cpp_lib_span
    std::span<const std::byte> body = first->body;
    CHECK(body.size() == 5 && body[0] == std::byte{'h'});
    ring.producer.write(11, body).value();
#else
    ring.producer.write(11, "hello").value();
#endif
    std::array<std::uint8_t, 512> more;
    std::vector<std::int32_t> types;
    auto count = ring.consumer.read_batch(9, more, [&](felter::message it) { types.push_back(it.type_id); });
    CHECK(count && *count == 4 && types == (std::vector<std::int32_t>{8, 9, 10, 11}));
    CHECK(ring.consumer.read(room).code() == FELTER_NO_MESSAGE);
    CHECK(ring.consumer.read(room).code().is_passing());
    CHECK(!ring.producer.write(0, "x"));
    CHECK(std::string(ring.producer.write(0, "x").text()) == "the type id is below 1");
    try {
        ring.producer.write(0, "x").value();
        CHECK(false);
    } catch (const felter::error &caught) {
        CHECK(caught.why() == FELTER_BAD_TYPE && std::string(caught.what()) == "4 the type id is below 1");
    }
    CHECK(felter::one_to_one(100).code() == FELTER_BAD_CAPACITY);
}

// A batch stays in its buffer if what looks at its messages throws.
void batches() {
    auto ring = felter::one_to_one(1024).value();
    const std::vector<std::string> texts{"one", "", "three", "four"};
    for (const auto &it : texts) ring.producer.write(1, it).value();
    std::array<std::uint8_t, 512> room{};
    auto batch = ring.consumer.read_batch(3, room).value();
    CHECK(batch.size() == 3);
    std::vector<std::string> seen;
    try {
        for (auto it : batch) {
            seen.emplace_back(it.body.text());
            if (seen.size() == 1) throw std::runtime_error("in the middle");
        }
        CHECK(false);
    } catch (const std::runtime_error &) {
        auto next = batch.begin();
        for (++next; next != batch.end(); ++next) seen.emplace_back((*next).body.text());
    }
    CHECK(seen == (std::vector<std::string>{"one", "", "three"}));
    CHECK(ring.consumer.read(room).value().body.text() == "four");
    auto none = ring.consumer.read_batch(3, room);
    CHECK(none.code() == FELTER_NO_MESSAGE);
    // Records as a batch has them are written by one call.
    struct { felter_record head; char body[8]; } records[2] = {{{3, 5}, "abc"}, {{2, 6}, "de"}};
    auto written = ring.producer.write_batch({records, sizeof records});
    CHECK(written.count == 2 && written.why);
    CHECK(ring.consumer.read(room).value().body.text() == "abc" && ring.consumer.read(room).value().type_id == 6);
    records[1].head.type_id = 0;
    written = ring.producer.write_batch({records, sizeof records});
    CHECK(written.count == 0 && written.why == FELTER_BAD_TYPE);
    CHECK(ring.consumer.read(room).code() == FELTER_NO_MESSAGE);
    CHECK(felter::producer().write_batch({}).why == FELTER_NO_HANDLE);
}

// A `for` goes through the batch of a result that is a temporary, and of one that is constant.
void batches_of_temporaries() {
    auto ring = felter::one_to_one(1024).value();
    std::array<std::uint8_t, 512> room{};
    std::string seen;
    for (const char *it : {"one ", "two ", "three ", "four ", "five "}) ring.producer.write(1, std::string(it)).value();
    for (auto it : ring.consumer.read_batch(2, room).value()) seen += it.body.text();
    for (auto it : *ring.consumer.read_batch(1, room)) seen += it.body.text();
    const auto rest = ring.consumer.read_batch(9, room);
    for (auto it : rest.value()) seen += it.body.text();
    CHECK(seen == "one two three four five " && rest->size() == 2);
    const auto none = ring.consumer.read_batch(9, room);
    try {
        CHECK(none.value().size() == 0 && false);
    } catch (const felter::error &caught) {
        CHECK(caught.why() == FELTER_NO_MESSAGE);
    }
}

void standing() {
    auto ring = felter::one_to_one(512).value();
    CHECK(ring.producer.is_empty().value() && ring.producer.available().value() == 512);
    ring.producer.write(1, "thirteen byte").value();
    CHECK(ring.producer.used().value() == 24 && !ring.producer.is_empty().value());
    ring.consumer.take().value();
    CHECK(ring.producer.is_empty().value());
    CHECK(felter::producer().used().code() == FELTER_NO_HANDLE);
    CHECK(ring.consumer.standing(ring.producer).value().found == FELTER_FOUND_NONE);
    auto claim = ring.producer.claim(1, 4).value();
    CHECK(ring.consumer.standing(ring.producer).value().found == FELTER_FOUND_CLAIM);
    claim.commit().value();
    CHECK(ring.consumer.standing(ring.producer).value().found == FELTER_FOUND_MESSAGE);
}

// The other side is seen to go, by whatever way it goes.
void ends_that_go() {
    auto ring = felter::many_to_one(512).value();
    CHECK(!ring.producer.is_abandoned() && !ring.consumer.is_abandoned());
    {
        auto other = ring.producer.split().value();
        auto moved = std::move(ring.producer);
        CHECK(!ring.consumer.is_abandoned());
        moved.join(other).value();
        CHECK(!ring.consumer.is_abandoned());
        ring.producer = std::move(moved);
    }
    CHECK(!ring.consumer.is_abandoned());
    ring.producer = felter::producer();
    CHECK(ring.consumer.is_abandoned());
    auto closed = felter::many_to_one(512).value();
    auto refused = closed.producer.split().value();
    CHECK(closed.consumer.close(closed.producer) == FELTER_PRODUCERS_OUT && !closed.consumer.is_abandoned());
    closed.producer.join(refused).value();
    closed.consumer.close(closed.producer).value();
    CHECK(closed.consumer.is_abandoned() && closed.consumer.finish().value() == 0);
    auto written = felter::one_to_one(512).value();
    written.consumer = felter::consumer();
    CHECK(written.producer.is_abandoned());
    auto transmitter = felter::transmitter::make(512).value();
    auto receiver = transmitter.subscribe().value();
    auto raw = transmitter.subscribe_raw().value();
    CHECK(!transmitter.is_abandoned() && !receiver.is_abandoned() && !raw.is_abandoned());
    transmitter.join(raw).value();
    CHECK(!transmitter.is_abandoned());
    transmitter = felter::transmitter();
    CHECK(receiver.is_abandoned());
    auto conductor = felter::conductor::make(1024, 1024, 2).value();
    auto client = conductor.client().value();
    CHECK(!conductor.is_abandoned() && !client.is_abandoned());
    conductor.join(client).value();
    CHECK(conductor.is_abandoned());
    CHECK(felter::client().is_abandoned());
}

// What counters and conductors say of a record.
void records() {
    auto counters = felter::counters::make(4).value();
    const auto id = counters.allocate(0, 1, "key", "a label").value();
    CHECK(counters.count().value() == 4 && counters.label(id).value() == "a label");
    CHECK(counters.key(id).value()[2] == 'y' && counters.key(id).value()[3] == 0);
    CHECK(counters.label(3).code() == FELTER_NOT_ALLOCATED && counters.key(9).code() == FELTER_BAD_ID);
    auto conductor = felter::conductor::make(1024, 1024, 2).value();
    auto client = conductor.client().value();
    client.allocate(1, "k", "its label").value();
    CHECK(conductor.work(0).value().messages == 1);
    CHECK(conductor.count().value() == 2 && conductor.label(0).value() == "its label");
    CHECK(conductor.key(0).value()[0] == 'k');
}

// A message is seen before it is taken.
void peeks() {
    auto ring = felter::one_to_one(512).value();
    std::array<std::uint8_t, 64> room{};
    CHECK(ring.consumer.peek(room).code() == FELTER_NO_MESSAGE && ring.consumer.take() == FELTER_NO_MESSAGE);
    ring.producer.write(3, "first").value();
    ring.producer.write(4, "second").value();
    for (int i = 0; i < 2; i++) {
        auto message = ring.consumer.peek(room);
        CHECK(message && message->type_id == 3 && message->body.text() == "first");
    }
    ring.consumer.take().value();
    CHECK(ring.consumer.read(room).value().body.text() == "second");
}

void claims() {
    auto ring = felter::one_to_one(512).value();
    std::array<std::uint8_t, 64> room{};
    { auto dropped = ring.producer.claim(1, 4).value(); }
    auto claim = ring.producer.claim(2, 4).value();
    claim.put(1, "ab").value();
    CHECK(claim.put(3, "ab") == FELTER_PUT_RANGE);
    auto moved = std::move(claim);
    CHECK(claim.commit() == FELTER_NO_CLAIM);
    moved.commit().value();
    CHECK(moved.abort() == FELTER_NO_CLAIM);
    auto message = ring.consumer.read(room);
    CHECK(message && message->type_id == 2 && message->body.text() == std::string_view("\0ab\0", 4));
}

// An assignment aborts the claim that was there. A claim of a producer that was joined is settled by its number.
void claims_that_move() {
    auto ring = felter::many_to_one(512).value();
    std::array<std::uint8_t, 64> room{};
    auto claim = ring.producer.claim(1, 0).value(), next = ring.producer.claim(2, 0).value();
    claim = std::move(next);
    CHECK(ring.consumer.read(room).code() == FELTER_NO_MESSAGE);
    claim.commit().value();
    CHECK(ring.consumer.read(room).value().type_id == 2 && next.commit() == FELTER_NO_CLAIM);
    auto &same = claim = ring.producer.claim(3, 0).value();
    claim = std::move(same);
    CHECK(claim.commit() && ring.consumer.read(room).value().type_id == 3);
    auto other = ring.producer.split().value();
    auto left = other.claim(4, 0).value();
    CHECK(left.number() == ring.producer.positions().value().head);
    ring.producer.join(other).value();
    CHECK(left.commit() == FELTER_NO_HANDLE && ring.consumer.read(room).code() == FELTER_NO_MESSAGE);
    CHECK(felter_commit(ring.producer.raw(), left.number()) == FELTER_OK);
    CHECK(ring.consumer.read(room).value().type_id == 4);
}

void threads_and_ends() {
    auto ring = felter::many_to_one(4096).value();
    auto other = ring.producer.split().value();
    std::thread thread([other = std::move(other)]() mutable { other.write(3, "from a thread").value(); });
    std::array<std::uint8_t, 64> room{};
    auto message = ring.consumer.read(room);
    while (message.code() == FELTER_NO_MESSAGE) message = ring.consumer.read(room);
    CHECK(message && message->body.text() == "from a thread");
    thread.join();
    // (the other producer was freed with the thread's function, and is not missed)
    ring.consumer.close(ring.producer).value();
    CHECK(ring.consumer.finish().value() == 0);
    auto whole = felter::many_to_one(128).value();
    whole.consumer.close(whole.producer).value();
    CHECK(whole.consumer.finish().value() == 0);
    CHECK(whole.consumer.finish().code() == FELTER_NO_HANDLE);
}

// Threads add to a shared counter, and the total is exact.
void adders() {
    auto adder = felter::adder::make().value();
    auto one = adder.split().value(), two = adder.split().value();
    const auto add = [](felter::adder &to, std::int64_t amount) {
        for (int i = 0; i < 20000; i++) to.add(amount).value();
    };
    std::thread thread([&] { add(one, 3); });
    add(two, -1);
    thread.join();
    CHECK(two.split().code() == FELTER_NO_SHARES && two.shares().value() == 1);
    CHECK(felter::adder::make().value().join(one) == FELTER_OTHER_RING);
    CHECK(adder.join(one) && adder.join(two) && two.value().code() == FELTER_NO_HANDLE);
    CHECK(adder.value().value() == 40000 && adder.shares().value() == 65536);
    CHECK(adder.add(INT64_MAX).value() == 40000 && adder.value().value() == INT64_MIN + 39999);
}

void boards_and_conductors() {
    auto transmitter = felter::transmitter::make(512).value();
    auto receiver = transmitter.subscribe().value();
    auto raw = transmitter.subscribe_raw().value();
    std::array<std::uint8_t, 64> room{};
    transmitter.transmit(5, "all").value();
    CHECK(receiver.receive(room).value().body.text() == "all");
    CHECK(raw.receive_next().value().len == 3 && raw.load_body(room) && raw.validate());
    transmitter.join(receiver).value();
    transmitter.join(raw).value();
    CHECK(transmitter.close().value() == 16);
    auto counters = felter::counters::make(4).value();
    const auto id = counters.allocate(0, 1, "key", "label").value();
    counters.set(id, 5).value();
    auto reader = counters.reader().value();
    CHECK(counters.add(id, 2).value() == 5 && reader.value(id).value() == 7);
    CHECK(counters.increment(id).value() == 7 && counters.decrement(id).value() == 8);
    CHECK(counters.get_and_set(id, -1).value() == 7 && reader.value(id).value() == -1);
    CHECK(counters.compare_and_set(id, 7, 9).value() == 0 && reader.value(id).value() == -1);
    CHECK(counters.compare_and_set(id, -1, 9).value() == 1 && reader.value(id).value() == 9);
    CHECK(counters.available(0).value() == 3 && counters.increment(3).code() == FELTER_NOT_ALLOCATED);
    auto conductor = felter::conductor::make(1024, 4096, 8).value();
    auto client = conductor.client().value();
    const auto asked = client.allocate(1, "", "label").value();
    CHECK(conductor.work(0).value().messages == 1);
    auto reply = client.poll(asked);
    CHECK(reply && reply->kind == FELTER_REPLY_ALLOCATED && reply->number == 0);
    conductor.join(client).value();
    CHECK(conductor.finish().value().received == 1);
}

// A client learns how often it was lapped.
void laps() {
    auto conductor = felter::conductor::make(4096, 256, 2).value();
    auto late = conductor.client().value(), client = conductor.client().value();
    const auto overtake = [&] {
        for (int i = 0; i < 20; i++) client.set(0, i).value();
        CHECK(conductor.work(0).value().messages == 20);
    };
    std::uint64_t lapped = 77;
    CHECK(late.poll(0, &lapped).code() == FELTER_NO_MESSAGE && lapped == 77);
    for (std::uint64_t count = 1; count < 3; count++) {
        overtake();
        CHECK(late.poll(0, &lapped).code() == FELTER_LAPPED && lapped == count);
    }
    overtake();
    CHECK(late.poll(0).code() == FELTER_LAPPED && lapped == 2);
}

void memory_of_the_caller() {
    alignas(64) static std::array<std::uint8_t, 8192> memory{};
    std::array<std::uint8_t, 64> room{};
    for (const auto make : {felter::many_to_one_in, felter::one_to_one_in}) {
        CHECK(make(memory.data() + 8, memory.size() - 8, 1024).code() == FELTER_BAD_MEMORY);
        CHECK(make(memory.data(), 2943, 1024).code() == FELTER_BAD_MEMORY);
        auto ring = make(memory.data(), 2944, 1024).value();
        ring.producer.write(7, "hello").value();
        CHECK(std::string(memory.begin() + 1928, memory.begin() + 1933) == "hello");
        CHECK(ring.consumer.read(room).value().body.text() == "hello");
        CHECK(!ring.producer.is_abandoned());
    }
    auto transmitter = felter::transmitter::make_in(memory.data(), memory.size(), 512).value();
    transmitter.transmit(5, "all").value();
    CHECK(std::string(memory.begin() + 136, memory.begin() + 139) == "all");
    CHECK(felter::counters::make_in(memory.data(), memory.size(), 4).code() == FELTER_BAD_MEMORY);
    CHECK(transmitter.close().value() == 16);
    auto counters = felter::counters::make_in(memory.data(), memory.size(), 4).value();
    counters.set(counters.allocate(0, 1, "", "label").value(), 5).value();
    CHECK(memory[128] == 5);
}

void recovering() {
    alignas(64) static std::array<std::uint8_t, 896 + 2 * 256> memory{};
    static std::array<std::uint8_t, 896 + 2 * 256> room{};
    {
        auto ring = felter::many_to_one_in(memory.data(), memory.size(), 256).value();
        ring.producer.write(6, "read").value();
        ring.producer.write(7, "hello").value();
        ring.producer.write(8, "").value();
        auto claim = ring.producer.claim(9, 3).value();
        CHECK(ring.consumer.read(room).value().body.text() == "read");
        CHECK(felter::recover(memory, room).value().open_claims == 1);
    }
    const auto recovered = felter::recover(memory, room).value();
    CHECK(recovered.open_claims == 0 && recovered.messages.size() == 2 && recovered.records.size() == 16 + 8 + 16);
    std::vector<std::pair<std::int32_t, std::string>> found;
    for (auto it : recovered.messages) found.emplace_back(it.type_id, it.body.text());
    CHECK(found == (std::vector<std::pair<std::int32_t, std::string>>{{7, "hello"}, {8, ""}}));
    CHECK(felter::finding(memory).empty());
    auto ring = felter::one_to_one(256).value();
    const auto written = ring.producer.write_batch(recovered.records);
    CHECK(written.count == 2 && written.why == FELTER_OK);
    CHECK(ring.consumer.read(room).value().body.text() == "hello");
    CHECK(felter::recover(memory, {room.data(), 39}).code() == FELTER_SHORT_BUFFER);
    CHECK(felter::recover({memory.data(), memory.size() - 1}, room).code() == FELTER_NO_IMAGE);
#ifndef FELTER_CHECKED
    CHECK(felter::recover({nullptr, 1}, room).code() == FELTER_NULL_POINTER);
    CHECK(felter::finding({nullptr, 1}) == "a pointer is NULL");
#endif
    memory[128 + 16] = 32 + 4; // (no mark has the kind 4)
    CHECK(felter::recover(memory, room).code() == FELTER_BAD_HEADER_LENGTH);
    CHECK(felter::finding(memory) ==
          "a header has a length that no record has there: byte 16 of the buffer, length 1");
}

} // namespace

int main() {
    rings();
    batches();
    batches_of_temporaries();
    standing();
    ends_that_go();
    records();
    peeks();
    claims();
    claims_that_move();
    threads_and_ends();
    adders();
    boards_and_conductors();
    laps();
    memory_of_the_caller();
    recovering();
    return failed != 0;
}
