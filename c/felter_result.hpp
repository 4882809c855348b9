// The types that the methods of felter.hpp take and return: codes, results, views of bytes, and handles that free
// themselves.
#ifndef FELTER_RESULT_HPP
#define FELTER_RESULT_HPP

#if __cplusplus < 201703L
#error "felter.hpp needs C++17: compile with -std=c++17 or later (felter.h needs C++11)"
#else

#include "felter.h"

#include <cstddef>
#include <iterator>
#include <optional>
#include <stdexcept>
#include <string>
#include <string_view>
#include <type_traits>
#include <utility>
#if __has_include(<version>)
#include <version>
#endif
#ifdef __cpp_lib_span
#include <span>
#endif

namespace felter {

// A code of enum felter_code, which says why a call did not succeed. A call that returns no value returns its code.
class [[nodiscard]] code {
public:
    constexpr code(std::int32_t number = FELTER_OK) noexcept : number_(number) {}
    constexpr explicit operator bool() const noexcept { return number_ == FELTER_OK; }
    constexpr std::int32_t number() const noexcept { return number_; }
    const char *text() const noexcept { return felter_text(number_); }
    // Returns whether the same call may succeed later. The result is true if the ring was full, another producer was
    // faster, or no message was there.
    constexpr bool is_passing() const noexcept {
        return number_ == FELTER_INSUFFICIENT_CAPACITY || number_ == FELTER_CONTENDED || number_ == FELTER_NO_MESSAGE;
    }
    // Throws felter::error unless the code is FELTER_OK.
    void value() const;
    friend constexpr bool operator==(code one, code two) noexcept { return one.number_ == two.number_; }
    friend constexpr bool operator!=(code one, code two) noexcept { return one.number_ != two.number_; }

private:
    std::int32_t number_;
};

// The exception that value() throws.
class error : public std::runtime_error {
public:
    explicit error(code why) : std::runtime_error(std::to_string(why.number()) + ' ' + why.text()), why_(why) {}
    code why() const noexcept { return why_; }

private:
    code why_;
};

inline void code::value() const {
    if (number_ != FELTER_OK) throw error(*this);
}

// A value, or the code that says why there is none.
template <class T>
class [[nodiscard]] result {
public:
    result(T value) : value_(std::move(value)) {}
    result(felter::code why) noexcept : why_(why) {}
    explicit operator bool() const noexcept { return value_.has_value(); }
    felter::code code() const noexcept { return why_; }
    T &operator*() & noexcept { return *value_; }
    const T &operator*() const & noexcept { return *value_; }
    T *operator->() noexcept { return &*value_; }
    const T *operator->() const noexcept { return &*value_; }
    // Returns the value, or throws felter::error if there is none.
    T &value() & { return why_.value(), *value_; }
    const T &value() const & { return why_.value(), *value_; }
    // A temporary result gives its value away, and returns no reference to it. So a `for` can iterate over the batch of
    // a temporary result: for (auto message : consumer.read_batch(9, room).value()).
    T value() && { return why_.value(), std::move(*value_); }
    T operator*() && noexcept { return std::move(*value_); }

private:
    std::optional<T> value_;
    felter::code why_;
};

// Bytes that another object owns. A view can be made from any text or container of bytes. The parameter Byte is const
// void or void.
template <class Byte>
class view {
    template <class C>
    using element = std::remove_pointer_t<decltype(std::declval<C &>().data())>;
    template <class C>
    using if_bytes = std::enable_if_t<sizeof(element<C>) == 1 && std::is_convertible_v<element<C> *, Byte *>>;

public:
    constexpr view() noexcept = default;
    constexpr view(Byte *data, std::size_t size) noexcept : data_(data), size_(size) {}
    template <class C, class = if_bytes<C>>
    constexpr view(C &&from) noexcept : data_(from.data()), size_(from.size()) {}
    // Makes a view of a string literal, without the 0 at its end.
    template <std::size_t N, class B = Byte, class = std::enable_if_t<std::is_const_v<B>>>
    constexpr view(const char (&text)[N]) noexcept : data_(text), size_(N - 1) {}
    // An array that can be written is not a string literal. To make a view of such an array, pass {array, size}.
    template <std::size_t N, class B = Byte, class = std::enable_if_t<std::is_const_v<B>>>
    view(char (&array)[N]) = delete;

    constexpr Byte *data() const noexcept { return data_; }
    constexpr std::size_t size() const noexcept { return size_; }
    std::string_view text() const noexcept { return {static_cast<const char *>(data_), size_}; }
#ifdef __cpp_lib_span
    using byte = std::conditional_t<std::is_const_v<Byte>, const std::byte, std::byte>;
    operator std::span<byte>() const noexcept { return {static_cast<byte *>(data_), size_}; }
#endif

private:
    Byte *data_ = nullptr;
    std::size_t size_ = 0;
};

using bytes = view<const void>;
using buffer = view<void>;

// A message in a buffer of the caller.
struct message {
    std::int32_t type_id;
    bytes body;
};

// Messages that follow one another in a buffer of the caller.
class batch {
public:
    class iterator {
    public:
        using iterator_category = std::input_iterator_tag;
        using value_type = message;
        using difference_type = std::ptrdiff_t;
        using pointer = void;
        using reference = message;
        iterator() noexcept = default;
        iterator(const char *at, std::uint32_t left) noexcept : at_(at), left_(left) {}
        message operator*() const noexcept {
            const felter_record record = head();
            return {static_cast<std::int32_t>(record.type_id), {at_ + sizeof record, record.len}};
        }
        iterator &operator++() noexcept {
            at_ += FELTER_SPAN(head().len);
            left_--;
            return *this;
        }
        iterator operator++(int) noexcept {
            iterator before = *this;
            ++*this;
            return before;
        }
        bool operator==(const iterator &other) const noexcept { return left_ == other.left_; }
        bool operator!=(const iterator &other) const noexcept { return left_ != other.left_; }

    private:
        felter_record head() const noexcept {
            felter_record record;
            __builtin_memcpy(&record, at_, sizeof record);
            return record;
        }
        const char *at_ = nullptr;
        std::uint32_t left_ = 0;
    };

    batch() noexcept = default;
    batch(const void *at, std::uint32_t count) noexcept : at_(static_cast<const char *>(at)), count_(count) {}
    iterator begin() const noexcept { return {at_, count_}; }
    iterator end() const noexcept { return {nullptr, 0}; }
    std::uint32_t size() const noexcept { return count_; }

private:
    const char *at_ = nullptr;
    std::uint32_t count_ = 0;
};

// A handle whose destructor frees what the handle owns. The handle can be moved, and is empty afterwards.
template <class Raw>
class owner {
public:
    owner() noexcept = default;
    owner(owner &&from) noexcept : raw_(std::exchange(from.raw_, Raw{})) {}
    owner &operator=(owner &&from) noexcept {
        if (this != &from) {
            felter_free(&raw_.handle);
            raw_ = std::exchange(from.raw_, Raw{});
        }
        return *this;
    }
    ~owner() { felter_free(&raw_.handle); }
    // Returns the handle, for a call of felter.h.
    Raw *raw() noexcept { return &raw_; }

private:
    Raw raw_ = FELTER_EMPTY;
};

namespace detail {
template <class T>
result<T> answer(std::int32_t number, T value) {
    if (number != FELTER_OK) return felter::code(number);
    return value;
}

// Returns the value that a call writes through its last argument.
template <class T, class Call>
result<T> out(Call call) {
    T value{};
    const std::int32_t number = call(&value);
    return answer(number, std::move(value));
}

template <class Kind, class Call>
result<Kind> made(Call call) {
    Kind kind;
    const std::int32_t number = call(kind.raw());
    return answer(number, std::move(kind));
}
} // namespace detail

} // namespace felter

#endif // of C++17
#endif
