// A thread writes 1,000 messages, and this one reads them.
#include <felter.hpp>

#include <array>
#include <cstdio>
#include <string>
#include <thread>

int main() {
    auto ring = felter::many_to_one(1024).value();
    std::thread thread([producer = std::move(ring.producer)]() mutable {
        for (int i = 0; i < 1000; i++) {
            const auto body = std::to_string(i);
            auto why = producer.write(1, body);
            while (why.is_passing()) why = producer.write(1, body);
            why.value();
        }
    });
    std::array<char, 16> room;
    int next = 0;
    while (next < 1000) {
        auto message = ring.consumer.read(room);
        if (message.code() == FELTER_NO_MESSAGE) continue;
        if (message.value().body.text() != std::to_string(next++)) return 1;
    }
    thread.join();
    std::printf("%d messages, in order\n", next);
}
