/* What a compiler of C++ calls of itself: memory, and the ends of a run where elsewhere something would be thrown. */
#include <cstddef>
#include <cstdlib>
#include <new>

static void *taken(std::size_t size) {
    void *block = std::malloc(size);
    if (!block) std::abort(); /* (no std::bad_alloc can be thrown) */
    return block;
}

/* What a program may have of its own. */
#define REPLACEABLE __attribute__((weak))

REPLACEABLE void *operator new(std::size_t size) { return taken(size); }
REPLACEABLE void *operator new[](std::size_t size) { return taken(size); }
REPLACEABLE void *operator new(std::size_t size, const std::nothrow_t &) noexcept { return std::malloc(size); }
REPLACEABLE void *operator new[](std::size_t size, const std::nothrow_t &) noexcept { return std::malloc(size); }
REPLACEABLE void operator delete(void *block) noexcept { std::free(block); }
REPLACEABLE void operator delete[](void *block) noexcept { std::free(block); }
REPLACEABLE void operator delete(void *block, std::size_t) noexcept { std::free(block); }
REPLACEABLE void operator delete[](void *block, std::size_t) noexcept { std::free(block); }
REPLACEABLE void operator delete(void *block, const std::nothrow_t &) noexcept { std::free(block); }
REPLACEABLE void operator delete[](void *block, const std::nothrow_t &) noexcept { std::free(block); }

namespace std {
const nothrow_t nothrow{};

void terminate() noexcept { abort(); }

void __throw_bad_alloc() { abort(); }
void __throw_bad_array_new_length() { abort(); }
void __throw_bad_function_call() { abort(); }
void __throw_bad_optional_access() { abort(); }
void __throw_bad_variant_access(const char *) { abort(); }
void __throw_logic_error(const char *) { abort(); }
void __throw_domain_error(const char *) { abort(); }
void __throw_invalid_argument(const char *) { abort(); }
void __throw_length_error(const char *) { abort(); }
void __throw_out_of_range(const char *) { abort(); }
void __throw_out_of_range_fmt(const char *, ...) { abort(); }
void __throw_runtime_error(const char *) { abort(); }
void __throw_range_error(const char *) { abort(); }
void __throw_overflow_error(const char *) { abort(); }
} // namespace std

extern "C" {
void *__dso_handle;

REPLACEABLE void __cxa_pure_virtual() { std::abort(); }
void __cxa_deleted_virtual() { std::abort(); }
void __cxa_throw_bad_array_new_length() { std::abort(); }

/* (objects that a function makes once: there is one thread) */
int __cxa_guard_acquire(char *guard) { return !*guard; }
void __cxa_guard_release(char *guard) { *guard = 1; }
void __cxa_guard_abort(char *) {}
}
