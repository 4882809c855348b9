// One message through a ring: c++ -std=c++17 -o hello c/examples/hello.cc -Ic/out c/out/libfelter.a
#include "felter.hpp"

#include <array>
#include <iostream>

int main() {
    auto [producer, consumer] = felter::many_to_one(512).value();
    producer.write(7, "hello").value();
    std::array<char, 64> room;
    if (auto message = consumer.read(room)) {
        std::cout << message->type_id << ' ' << message->body.text() << '\n';
    }
}
