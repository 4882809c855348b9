// The workloads of bench/README.md for queues that hold messages of one length, and the line protocol.
#pragma once
#include <algorithm>
#include <atomic>
#include <chrono>
#include <cstdint>
#include <cstdio>
#include <cstdlib>
#include <cstring>
#include <functional>
#include <iostream>
#include <map>
#include <memory>
#include <sched.h>
#include <sstream>
#include <string>
#include <thread>
#include <vector>

constexpr unsigned LIMIT = 64, BATCH = 16, COMMAND = 20, REPLY = 12;

template <unsigned N> struct Body {
    uint8_t bytes[N];
};

[[noreturn]] inline void wrong(const char *what) {
    std::fprintf(stderr, "queues of C++: wrong: %s\n", what);
    std::exit(3);
}

inline uint64_t now_ns() {
    using namespace std::chrono;
    return uint64_t(duration_cast<nanoseconds>(steady_clock::now().time_since_epoch()).count());
}

// 64 pauses, and then the processor is given away.
class Rest {
    int turns = 0;

  public:
    void wait() {
        if (++turns > 64) sched_yield();
#if defined __x86_64__
        else __builtin_ia32_pause();
#endif
    }
    void reset() { turns = 0; }
};

inline size_t slots_for(uint64_t capacity, uint64_t size) {
    size_t slots = 2;
    while (slots * 2 * ((8 + size + 7) & ~uint64_t(7)) <= capacity) slots *= 2;
    return slots;
}

template <unsigned N> void number(Body<N> &body, uint64_t word) { std::memcpy(body.bytes, &word, 8); }

// Looks at the first and the last 8 bytes.
template <unsigned N> uint64_t look(const Body<N> &body) {
    uint64_t first, last;
    std::memcpy(&first, body.bytes, 8);
    std::memcpy(&last, body.bytes + N - 8, 8);
    __asm__ volatile("" : : "r"(last));
    return first;
}

// One thread writes batches and reads them.
template <class Q, unsigned N> uint64_t run_batches(uint64_t capacity, uint64_t times) {
    Q queue(slots_for(capacity, N));
    Body<N> body;
    std::memset(&body, 7, N);
    uint64_t sum = 0, got = 0, batch = std::min<uint64_t>(BATCH, slots_for(capacity, N) / 2);
    uint64_t began = now_ns();
    for (uint64_t written = 0; written < times;) {
        for (uint64_t end = std::min(times, written + batch); written < end; written++) {
            number(body, written);
            if (!queue.push(body)) wrong("a full queue");
        }
        for (int turns = 0; got < written; turns++) {
            got += queue.drain([&](const Body<N> &it) { sum += look(it); });
            if (turns > 1000000) wrong("a lost message");
        }
    }
    uint64_t took = now_ns() - began;
    if (sum != times * (times - 1) / 2) wrong("other messages");
    return took;
}

// Producers and a consumer, each on a thread.
template <class Q, unsigned N> uint64_t run_flow(uint64_t capacity, unsigned producers, uint64_t times) {
    Q queue(slots_for(capacity, N));
    std::atomic<bool> go{false};
    std::vector<std::thread> threads;
    uint64_t share = times / producers + 1, all = share * producers, got = 0;
    for (uint64_t id = 0; id < producers; id++)
        threads.emplace_back([&, id] {
            Body<N> body;
            std::memset(&body, 7, N);
            while (!go) sched_yield();
            for (uint64_t k = 0; k < share; k++) {
                number(body, id << 48 | k);
                for (Rest rest; !queue.push(body);) rest.wait();
            }
        });
    std::vector<uint64_t> next(producers);
    bool is_in_order = true;
    Rest rest;
    uint64_t began = now_ns();
    go = true;
    while (got < all) {
        unsigned came = queue.drain([&](const Body<N> &it) {
            uint64_t word = look(it), id = word >> 48;
            is_in_order = is_in_order && id < producers && next[id]++ == (word & 0xffffffffffff);
        });
        got += came;
        if (came) rest.reset();
        else rest.wait();
    }
    uint64_t took = now_ns() - began;
    for (auto &it : threads) it.join();
    if (!is_in_order) wrong("another order");
    return took * times / all;
}

// A command through one queue, and its reply through another.
template <class Commands, class Replies>
uint64_t run_trips(uint64_t capacity, uint64_t times, std::vector<uint32_t> *trips) {
    Commands commands(slots_for(capacity, COMMAND));
    Replies replies(slots_for(capacity, REPLY));
    std::atomic<bool> stop{false};
    std::atomic<uint64_t> counter{0}, correlations{0};
    std::thread conductor([&] {
        Body<REPLY> reply{};
        for (Rest rest; !stop;) {
            unsigned came = commands.drain([&](const Body<COMMAND> &command) {
                uint64_t value;
                std::memcpy(&value, command.bytes + 12, 8);
                counter.store(value, std::memory_order_release);
                std::memcpy(reply.bytes, command.bytes, 8);
                for (Rest full; !replies.push(reply);) full.wait();
            });
            if (came) rest.reset();
            else rest.wait();
        }
    });
    Body<COMMAND> command{};
    uint64_t began = now_ns(), last = began;
    for (uint64_t value = 0; value < times; value++) {
        uint64_t correlation = correlations.fetch_add(1), heard = ~uint64_t(0);
        number(command, correlation);
        std::memcpy(command.bytes + 12, &value, 8);
        for (Rest rest; !commands.push(command);) rest.wait();
        for (Rest rest; heard != correlation;)
            if (!replies.drain([&](const Body<REPLY> &reply) { std::memcpy(&heard, reply.bytes, 8); })) rest.wait();
        uint64_t now = now_ns();
        if (trips) (*trips)[value] = uint32_t(std::min<uint64_t>(now - last, UINT32_MAX));
        last = now;
    }
    stop = true;
    conductor.join();
    if (counter != times - 1) wrong("another value");
    return last - began;
}

struct Request {
    std::string workload, contender;
    unsigned size = 0;
    uint64_t capacity = 0;
    unsigned threads = 0;
    double ms = 0;
};

using Run = std::function<uint64_t(const Request &, uint64_t times, std::vector<uint32_t> *trips)>;
// By workload and contender, with the length after a slash if it has that alone.
using Table = std::map<std::pair<std::string, std::string>, Run>;

template <class Q, unsigned N> void enter_length(Table &table, const std::string &name, bool is_for_one) {
    std::string sized = name + "/" + std::to_string(N);
    table[{"batches", sized}] = [](const Request &of, uint64_t times, auto) { return run_batches<Q, N>(of.capacity, times); };
    Run flow = [](const Request &of, uint64_t times, auto) { return run_flow<Q, N>(of.capacity, of.threads, times); };
    table[{"pair", sized}] = flow;
    if (!is_for_one) table[{"producers", sized}] = flow;
}

template <template <unsigned> class Q> void enter(Table &table, const std::string &name, bool is_for_one) {
    enter_length<Q<8>, 8>(table, name, is_for_one);
    enter_length<Q<64>, 64>(table, name, is_for_one);
    enter_length<Q<128>, 128>(table, name, is_for_one);
    enter_length<Q<1024>, 1024>(table, name, is_for_one);
    table[{"trips", name}] = [](const Request &of, uint64_t times, std::vector<uint32_t> *trips) {
        return run_trips<Q<COMMAND>, Q<REPLY>>(of.capacity, times, trips);
    };
}

// How often a run fills the time of a request, found once for each line.
inline uint64_t times_for(const std::string &line, const Request &of, const Run &run) {
    static std::map<std::string, uint64_t> known;
    uint64_t &times = known[line];
    if (times) return times;
    uint64_t least = of.workload == "trips" ? 500 : 2000, most = of.workload == "trips" ? 1000000 : 50000000;
    times = least;
    for (int tries = 0; tries < 8; tries++) {
        double growth = of.ms * 1e6 / (double(run(of, times, nullptr)) + 1);
        times = std::clamp(uint64_t(double(times) * std::min(growth, 64.0)), least, most);
        if (growth < 4 || times == most) break;
    }
    return times;
}

inline void answer_run(const Table &table, const std::string &line) {
    std::istringstream words(line);
    std::string verb;
    Request of;
    words >> verb >> of.workload >> of.contender >> of.size >> of.capacity >> of.threads >> of.ms;
    auto found = table.find({of.workload, of.contender});
    if (found == table.end()) found = table.find({of.workload, of.contender + "/" + std::to_string(of.size)});
    if (!words || found == table.end() || of.threads < 1 || of.threads > 64) {
        std::cout << "error no such measurement\n";
        return;
    }
    uint64_t times = times_for(line, of, found->second);
    std::vector<uint32_t> trips(of.workload == "trips" ? times : 0);
    double each = double(found->second(of, times, trips.empty() ? nullptr : &trips)) / double(times);
    std::cout << (trips.empty() ? "ns " : "mean ") << each << '\n';
    std::sort(trips.begin(), trips.end());
    static const std::pair<const char *, size_t> parts[] = {
        {"p50", 5000}, {"p90", 9000}, {"p99", 9900}, {"p999", 9990}, {"p9999", 9999}};
    for (auto &[name, part] : parts)
        if (!trips.empty()) std::cout << name << ' ' << trips[trips.size() * part / 10000] << '\n';
}

inline int answer_requests(const Table &table) {
    for (std::string line; std::getline(std::cin, line) && line != "quit";) {
        if (line == "list")
            for (auto &[key, run] : table) std::cout << "has " << key.first << ' ' << key.second << '\n';
        else if (line.rfind("run ", 0) == 0) answer_run(table, line);
        std::cout << "end" << std::endl;
    }
    return 0;
}
