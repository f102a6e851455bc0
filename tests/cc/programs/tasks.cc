// A scheduler: templates, operators, move semantics, unique_ptr, vector, string_view, lambdas.
#include <algorithm>
#include <cstdint>
#include <cstdio>
#include <cstring>
#include <functional>
#include <memory>
#include <optional>
#include <string_view>
#include <utility>
#include <vector>

struct Time {
    std::int32_t minutes = 0;
    constexpr Time() = default;
    constexpr explicit Time(std::int32_t m) : minutes(m) {}
    friend constexpr Time operator+(Time a, Time b) { return Time(a.minutes + b.minutes); }
    friend constexpr bool operator<(Time a, Time b) { return a.minutes < b.minutes; }
    void print() const { std::printf("%02d:%02d", (int)(minutes / 60), (int)(minutes % 60)); }
};

class Task {
  public:
    Task(std::string_view name, Time length, int priority) : length_(length), priority_(priority) {
        std::size_t n = std::min(name.size(), sizeof name_ - 1);
        std::memcpy(name_, name.data(), n);
        name_[n] = 0;
        ++made;
    }
    virtual ~Task() { ++ended; }
    virtual Time length() const { return length_; }
    virtual const char *kind() const { return "once"; }
    const char *name() const { return name_; }
    int priority() const { return priority_; }
    static int made, ended;

  protected:
    char name_[16];
    Time length_;
    int priority_;
};
int Task::made = 0, Task::ended = 0;

class Repeated : public Task {
  public:
    Repeated(std::string_view name, Time length, int priority, unsigned times)
        : Task(name, length, priority), times_(times) {}
    Time length() const override { return Time(length_.minutes * (std::int32_t)times_); }
    const char *kind() const override { return "repeated"; }

  private:
    unsigned times_;
};

template <typename T, typename Less = std::less<T>> class Queue {
  public:
    explicit Queue(Less less = Less()) : less_(std::move(less)) {}
    void push(T item) {
        items_.push_back(std::move(item));
        std::push_heap(items_.begin(), items_.end(), less_);
    }
    std::optional<T> pop() {
        if (items_.empty()) return std::nullopt;
        std::pop_heap(items_.begin(), items_.end(), less_);
        T top = std::move(items_.back());
        items_.pop_back();
        return std::optional<T>(std::move(top));
    }
    std::size_t size() const { return items_.size(); }

  private:
    std::vector<T> items_;
    Less less_;
};

using Owned = std::unique_ptr<Task>;

int main() {
    auto by_priority = [](const Owned &a, const Owned &b) {
        return a->priority() != b->priority() ? a->priority() < b->priority() : std::strcmp(a->name(), b->name()) > 0;
    };
    Queue<Owned, decltype(by_priority)> queue(by_priority);
    char name[32];
    int minutes, priority, times, bad = 0;
    while (std::scanf("%31s %d %d %d", name, &minutes, &priority, &times) == 4) {
        if (minutes < 0) {
            bad++;
            continue;
        }
        if (times > 1)
            queue.push(std::make_unique<Repeated>(name, Time(minutes), priority, (unsigned)times));
        else
            queue.push(std::make_unique<Task>(name, Time(minutes), priority));
    }
    std::printf("%u tasks\n", (unsigned)queue.size());
    Time now(8 * 60);
    std::vector<int> lengths;
    while (auto next = queue.pop()) {
        const Task &task = **next;
        now.print();
        std::printf(" %-15s %-8s %d\n", task.name(), task.kind(), task.priority());
        lengths.push_back(task.length().minutes);
        now = now + task.length();
    }
    std::sort(lengths.begin(), lengths.end(), std::greater<int>());
    for (int l : lengths) std::printf("%d ", l);
    auto longest = std::max_element(lengths.begin(), lengths.end());
    std::printf("\nlongest %d, made %d, ended %d\n", longest != lengths.end() ? *longest : 0, Task::made, Task::ended);
    now.print();
    std::puts("");
    return bad;
}
