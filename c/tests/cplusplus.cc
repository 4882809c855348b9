// A program in C++ links the library by the header as it is: handles are values there too, and codes are an enum.
#include "felter.h"

#include <cstdio>
#include <cstring>
#include <thread>

namespace {

const uint8_t text[] = {'h', 'e', 'l', 'l', 'o'};

// Frees a handle at its end.
template <class Kind>
struct Owned {
    Kind it = FELTER_EMPTY;
    Owned() = default;
    Owned(const Owned &) = delete;
    Owned &operator=(const Owned &) = delete;
    ~Owned() { felter_free(&it.handle); }
};

bool is(felter_code wanted, int32_t code, const char *what) {
    if (code != wanted) std::fprintf(stderr, "%s: %d and not %d\n", what, static_cast<int>(code), wanted);
    return code == wanted;
}

bool passes() {
    Owned<felter_producer> producer, other;
    Owned<felter_consumer> consumer;
    int32_t type_id = 0, written = FELTER_NO_HANDLE;
    size_t len = 0;
    uint64_t left = 77;
    uint8_t buffer[64];
    if (!is(FELTER_OK, felter_many_to_one_new(512, &producer.it, &consumer.it), "new")) return false;
    if (!is(FELTER_OK, felter_split(&producer.it, &other.it), "split")) return false;
    std::thread thread([&] { written = felter_write(&other.it, 7, text, sizeof text); });
    thread.join();
    if (!is(FELTER_OK, written, "write")) return false;
    if (!is(FELTER_PRODUCERS_OUT, felter_close(&consumer.it, &producer.it), "close")) return false;
    if (!is(FELTER_OK, felter_join(&producer.it, &other.it), "join")) return false;
    if (!is(FELTER_OK, felter_write(&producer.it, 8, nullptr, 0), "write")) return false;
    if (!is(FELTER_OK, felter_close(&consumer.it, &producer.it), "close")) return false;
    if (!is(FELTER_OK, felter_read(&consumer.it, &type_id, &len, buffer, sizeof buffer), "read")) return false;
    if (type_id != 7 || len != sizeof text || std::memcmp(buffer, text, len) != 0) return false;
    return is(FELTER_OK, felter_finish(&consumer.it, &left), "finish") && left == 1;
}

}  // namespace

int main() {
    if (!passes()) return 1;
    std::puts("cplusplus: a message came, and one was left");
    return 0;
}
