// Text: a string of one's own with operators, a map of a fixed size, static members, namespaces, a class of algorithms.
#include <array>
#include <cctype>
#include <cstdio>
#include <cstdlib>
#include <cstring>
#include <new>
#include <span>
#include <type_traits>

namespace text {
class String {
  public:
    String() = default;
    String(const char *s) : size_(std::strlen(s)), data_(copy(s, size_)) {}
    String(const String &other) : size_(other.size_), data_(copy(other.data(), other.size_)) {}
    String(String &&other) noexcept : size_(other.size_), data_(other.data_) {
        other.data_ = nullptr;
        other.size_ = 0;
    }
    String &operator=(String other) noexcept {
        std::swap(size_, other.size_);
        std::swap(data_, other.data_);
        return *this;
    }
    ~String() { delete[] data_; }
    String &operator+=(char c) {
        char *more = new char[size_ + 2];
        std::memcpy(more, data(), size_);
        more[size_++] = c;
        more[size_] = 0;
        delete[] data_;
        data_ = more;
        return *this;
    }
    friend String operator+(String a, const String &b) {
        for (std::size_t i = 0; i < b.size(); i++) a += b[i];
        return a;
    }
    friend bool operator==(const String &a, const String &b) { return std::strcmp(a.data(), b.data()) == 0; }
    friend bool operator<(const String &a, const String &b) { return std::strcmp(a.data(), b.data()) < 0; }
    char operator[](std::size_t i) const { return data()[i]; }
    std::size_t size() const { return size_; }
    const char *data() const { return data_ ? data_ : ""; }

  private:
    static char *copy(const char *s, std::size_t n) {
        char *made = new char[n + 1];
        std::memcpy(made, s, n + 1);
        return made;
    }
    std::size_t size_ = 0;
    char *data_ = nullptr;
};
} // namespace text

template <typename K, typename V, std::size_t N> class Map {
    static_assert(N > 0 && std::is_default_constructible_v<V>);

  public:
    V &operator[](const K &key) {
        std::size_t at = 0;
        while (at < used_ && entries_[at].key < key) at++;
        if (at < used_ && entries_[at].key == key) return entries_[at].value;
        if (used_ == N) std::abort();
        for (std::size_t i = used_++; i > at; i--) entries_[i] = std::move(entries_[i - 1]);
        entries_[at] = Entry{key, V{}};
        return entries_[at].value;
    }
    struct Entry {
        K key;
        V value{};
    };
    std::span<const Entry> entries() const { return {entries_.data(), used_}; }

  private:
    std::array<Entry, N> entries_;
    std::size_t used_ = 0;
};

struct Counter {
    virtual ~Counter() = default;
    virtual void take(char c) = 0;
    virtual unsigned result() const = 0;
};
struct Lines : Counter {
    unsigned n = 0;
    void take(char c) override { n += c == '\n'; }
    unsigned result() const override { return n; }
};
struct Vowels : Counter {
    unsigned n = 0;
    void take(char c) override { n += c && std::strchr("aeiouAEIOU", c) != nullptr; }
    unsigned result() const override { return n; }
};

static Map<text::String, unsigned, 64> &words() {
    static Map<text::String, unsigned, 64> map;
    return map;
}

int main() {
    Lines lines;
    Vowels vowels;
    std::array<Counter *, 2> counters{&lines, &vowels};
    text::String word;
    for (int c; (c = std::getchar()) != EOF;) {
        for (Counter *counter : counters) counter->take((char)c);
        if (std::isalpha(c))
            word += (char)std::tolower(c);
        else if (word.size()) {
            words()[word]++;
            word = text::String();
        }
    }
    for (const auto &[key, value] : words().entries()) std::printf("%s %u\n", (key + ":").data(), value);
    std::printf("%u lines, %u vowels\n", lines.result(), vowels.result());
    return words().entries().empty();
}
