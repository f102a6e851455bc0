// Functions of the program's own in the place of the library's: what new and delete call, and what stands for a function
// that a class leaves to those that are made of it.
#include <cstdio>
#include <cstdlib>
#include <new>

static int taken, given_back;

void *operator new(std::size_t size) {
    taken++;
    return std::malloc(size);
}

void operator delete(void *block) noexcept {
    given_back += block != nullptr;
    std::free(block);
}

void operator delete(void *block, std::size_t) noexcept { operator delete(block); }

extern "C" void __cxa_pure_virtual() { std::abort(); }

struct Shape {
    virtual ~Shape() = default;
    virtual int area() const = 0;
};

struct Square : Shape {
    explicit Square(int side) : side(side) {}
    int area() const override { return side * side; }
    int side;
};

struct Ring : Shape {
    Ring(int outer, int inner) : outer(outer), inner(inner) {}
    int area() const override { return 3 * (outer * outer - inner * inner); }
    int outer, inner;
};

int main() {
    for (int side; std::scanf("%d", &side) == 1;) {
        Shape *shape = side % 2 ? static_cast<Shape *>(new Square(side)) : new Ring(side, side / 2);
        std::printf("%d\n", shape->area());
        delete shape;
    }
    std::printf("%d taken, %d given back\n", taken, given_back);
    return 0;
}
