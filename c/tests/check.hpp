// What the tests in C++ share. A test notes each check that fails, and ends with status 1 after the last check.
#ifndef CHECK_HPP
#define CHECK_HPP

#include <cstdio>

namespace {

int failed = 0;

void check(bool is_so, const char *file, int line, const char *what) {
    if (is_so) return;
    std::fprintf(stderr, "%s:%d: not so: %s\n", file, line, what);
    failed++;
}

} // namespace

#define CHECK(that) check((that), __FILE__, __LINE__, #that)

#endif
