// What felter_wait.hpp adds: calls that wait, sleepers, requests and doorbells. No result depends on how fast or how
// busy the machine is.
#include "felter_wait.hpp"

#include "check.hpp"

#include <array>
#include <csignal>
#include <pthread.h>
#include <string>
#include <thread>
#include <vector>

namespace {

using std::chrono::milliseconds;

void waits() {
    auto ring = felter::one_to_one(128).value();
    std::array<std::uint8_t, 64> room{};
    CHECK(felter::read_wait(ring.consumer, room, milliseconds(5)).code() == FELTER_NO_MESSAGE);
    while (ring.producer.write(1, "sixteen bytes...")) continue;
    CHECK(felter::write_wait(ring.producer, 1, "sixteen bytes...", milliseconds(5)) == FELTER_INSUFFICIENT_CAPACITY);
    CHECK(felter::read_wait(ring.consumer, room, felter::for_ever).value().body.text() == "sixteen bytes...");
    felter::write_wait(ring.producer, 2, "more", milliseconds(0)).value();
    // A wait ends at once if the other side is gone.
    while (ring.consumer.read(room)) continue;
    { auto gone = std::move(ring.producer); }
    CHECK(felter::read_wait(ring.consumer, room, felter::for_ever).code() == FELTER_NO_MESSAGE);
    CHECK(ring.consumer.is_abandoned());
    auto full = felter::one_to_one(128).value();
    while (full.producer.write(1, "sixteen bytes...")) continue;
    full.consumer = felter::consumer();
    CHECK(felter::write_wait(full.producer, 1, "sixteen bytes...", felter::for_ever) == FELTER_INSUFFICIENT_CAPACITY);
}

void await_sleeper(felter::sleepers &in) {
    while (__atomic_load_n(&in.raw()->count, __ATOMIC_SEQ_CST) == 0) std::this_thread::sleep_for(milliseconds(1));
}

// A reader that sleeps is woken by each message. It ends when it is woken after the last producer is gone.
void sleeping_readers() {
    auto ring = felter::many_to_one(512).value();
    auto other = ring.producer.split().value();
    felter::sleepers sleepers;
    std::vector<std::string> seen;
    felter::code end;
    CHECK(felter::read_asleep(ring.consumer, sleepers, {}, milliseconds(0)).code() == FELTER_NO_MESSAGE);
    CHECK(felter::read_asleep(ring.consumer, sleepers, {}, milliseconds(5)).code() == FELTER_NO_MESSAGE);
    std::thread thread([&] {
        std::array<std::uint8_t, 64> room{};
        auto found = felter::read_asleep(ring.consumer, sleepers, room, felter::for_ever);
        for (; found; found = felter::read_asleep(ring.consumer, sleepers, room, felter::for_ever))
            seen.emplace_back(found->body.text());
        end = found.code();
    });
    await_sleeper(sleepers);
    ring.producer.write(1, "one").value();
    sleepers.wake();
    await_sleeper(sleepers);
    auto claim = ring.producer.claim(1, 4).value();
    ring.producer.write(1, "two").value();
    sleepers.wake();
    claim.abort().value();
    ring.producer = felter::producer();
    sleepers.wake();
    await_sleeper(sleepers);
    other.write(1, "three").value();
    other = felter::producer();
    sleepers.wake();
    thread.join();
    CHECK(end == FELTER_NO_MESSAGE && seen == (std::vector<std::string>{"one", "two", "three"}));
    CHECK(ring.consumer.is_abandoned() && sleepers.raw()->count == 0);
    // If the producers are gone before, the messages that are left come at once, and so does the end.
    auto left = felter::one_to_one(512).value();
    std::array<std::uint8_t, 64> room{};
    left.producer.write(1, "left").value();
    left.consumer.close(left.producer).value();
    CHECK(felter::read_asleep(left.consumer, sleepers, room, felter::for_ever).value().body.text() == "left");
    CHECK(felter::read_asleep(left.consumer, sleepers, room, felter::for_ever).code() == FELTER_NO_MESSAGE);
}

void sleeping_receivers() {
    auto transmitter = felter::transmitter::make(256).value();
    auto receiver = transmitter.subscribe().value();
    std::array<std::uint8_t, 64> room{};
    felter::sleepers sleepers;
    CHECK(felter::receive_wait(receiver, room, milliseconds(5)).code() == FELTER_NO_MESSAGE);
    CHECK(felter::receive_asleep(receiver, sleepers, room, milliseconds(5)).code() == FELTER_NO_MESSAGE);
    std::thread thread([&] {
        await_sleeper(sleepers);
        transmitter.transmit(4, "woken").value();
        sleepers.wake();
        await_sleeper(sleepers);
        transmitter = felter::transmitter();
        sleepers.wake();
    });
    CHECK(felter::receive_asleep(receiver, sleepers, room, felter::for_ever).value().body.text() == "woken");
    CHECK(felter::receive_asleep(receiver, sleepers, room, felter::for_ever).code() == FELTER_NO_MESSAGE);
    thread.join();
    CHECK(felter::receive_wait(receiver, room, felter::for_ever).code() == FELTER_NO_MESSAGE);
}

void ignore(int) {}

// Neither a signal nor a timeout that is longer than an int ends a wait for a doorbell early.
void doorbells() {
    auto bell = felter::doorbell::make();
    CHECK(bell && !bell->clear() && !bell->wait(milliseconds(0)) && !bell->wait(milliseconds(1)));
    CHECK(bell->ring() && bell->wait(felter::for_ever) && bell->clear() && !bell->clear());
    CHECK(std::signal(SIGUSR1, ignore) != SIG_ERR);
    for (const auto timeout : {felter::for_ever, milliseconds(std::int64_t{1} << 32), milliseconds::max()}) {
        bool was_rung = false;
        std::thread thread([&] { was_rung = bell->wait(timeout); });
        for (int i = 0; i < 20; i++) {
            pthread_kill(thread.native_handle(), SIGUSR1);
            std::this_thread::sleep_for(milliseconds(1));
        }
        CHECK(bell->ring());
        thread.join();
        CHECK(was_rung && bell->clear());
    }
    auto moved = std::move(*bell);
    CHECK(!bell->wait(felter::for_ever) && !bell->ring() && moved.ring());
}

void requests() {
    auto conductor = felter::conductor::make(1024, 4096, 8).value();
    auto client = conductor.client().value();
    auto pending = felter::request_set(client, 0, 1, milliseconds(5));
    CHECK(pending.why == FELTER_NO_MESSAGE && pending.answer.outcome == FELTER_OUTCOME_PENDING);
    std::thread working([&] {
        std::uint64_t taken = 0;
        while (taken < 5) taken += conductor.work(0).value().messages;
    });
    auto made = felter::request_allocate(client, 1, "", "label", felter::for_ever, 7);
    CHECK(made.why && made.answer.kind == FELTER_REPLY_ALLOCATED && made.answer.number == 0);
    CHECK(felter::request_set(client, 0, 9, felter::for_ever).answer.kind == FELTER_REPLY_DONE);
    CHECK(felter::request_close_owner(client, 7, felter::for_ever).answer.number == 1);
    CHECK(felter::request_free(client, 0, felter::for_ever).answer.number == FELTER_NOT_ALLOCATED);
    working.join();
}

// Requests end if the conductor is gone: those that wait for a reply, and those that find the ring full.
void abandoned_requests() {
    auto conductor = felter::conductor::make(1024, 4096, 8).value();
    auto client = conductor.client().value();
    auto other = conductor.client().value();
    felter::requested waited{};
    std::thread waiting([&] { waited = felter::request_set(client, 0, 1, felter::for_ever); });
    while (conductor.work(0).value().messages == 0) std::this_thread::yield();
    waiting.join();
    CHECK(waited.why == FELTER_OK && waited.answer.number == FELTER_NOT_ALLOCATED);
    std::thread leaving([&] { waited = felter::request_set(client, 0, 1, felter::for_ever); });
    // Any moment of the request may be that at which the conductor goes.
    conductor = felter::conductor();
    leaving.join();
    CHECK(waited.why == FELTER_NO_MESSAGE && waited.answer.outcome == FELTER_OUTCOME_PENDING);
    while (other.set(0, 1)) continue;
    const auto refused = felter::request_set(other, 0, 1, felter::for_ever);
    CHECK(refused.why == FELTER_INSUFFICIENT_CAPACITY && refused.answer.outcome == FELTER_OUTCOME_NOT_SENT);
    CHECK(client.is_abandoned() && other.is_abandoned());
}

} // namespace

int main() {
    waits();
    sleeping_readers();
    sleeping_receivers();
    doorbells();
    requests();
    abandoned_requests();
    return failed != 0;
}
