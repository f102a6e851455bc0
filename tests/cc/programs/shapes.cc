// Shapes by virtual calls, sorted by area; a static registry whose constructors run before main.
#include <algorithm>
#include <array>
#include <cstdio>
#include <cstdlib>
#include <cstring>
#include <span>

class Shape {
  public:
    explicit Shape(const char *name) : name_(name) { ++alive; }
    virtual ~Shape() { --alive; }
    virtual double area() const = 0;
    virtual double perimeter() const = 0;
    virtual void describe() const { std::printf("%-10s area %8.3f perimeter %8.3f\n", name_, area(), perimeter()); }
    const char *name() const { return name_; }
    static int alive;

  private:
    const char *name_;
};

int Shape::alive = 0;

class Circle : public Shape {
  public:
    explicit Circle(double radius) : Shape("circle"), radius_(radius) {}
    double area() const override { return 3.14159265358979 * radius_ * radius_; }
    double perimeter() const override { return 2 * 3.14159265358979 * radius_; }

  private:
    double radius_;
};

class Rectangle : public Shape {
  public:
    Rectangle(double wide, double high, const char *name = "rectangle") : Shape(name), wide_(wide), high_(high) {}
    double area() const override { return wide_ * high_; }
    double perimeter() const override { return 2 * (wide_ + high_); }

  protected:
    double wide_, high_;
};

class Square final : public Rectangle {
  public:
    explicit Square(double side) : Rectangle(side, side, "square") {}
    void describe() const override {
        std::printf("square of side %g: ", wide_);
        Rectangle::describe();
    }
};

template <typename T, std::size_t N> class Stack {
  public:
    bool push(T value) {
        if (used_ == N) return false;
        items_[used_++] = value;
        return true;
    }
    T pop() { return items_[--used_]; }
    bool empty() const { return used_ == 0; }
    std::span<T> items() { return std::span<T>(items_.data(), used_); }

  private:
    std::array<T, N> items_{};
    std::size_t used_ = 0;
};

struct Factory {
    const char *name;
    Shape *(*make)(double, double);
    Factory *next;
    static Factory *first;
    Factory(const char *name, Shape *(*make)(double, double)) : name(name), make(make), next(first) { first = this; }
};

Factory *Factory::first = nullptr;

static Factory circles("circle", [](double a, double) -> Shape * { return new Circle(a); });
static Factory squares("square", [](double a, double) -> Shape * { return new Square(a); });
static Factory rectangles("rect", [](double a, double b) -> Shape * { return new Rectangle(a, b); });

struct Farewell {
    ~Farewell() { std::printf("alive at the end: %d\n", Shape::alive); }
} farewell;

static Shape *made(const char *kind, double a, double b) {
    for (Factory *at = Factory::first; at; at = at->next)
        if (!std::strcmp(at->name, kind)) return at->make(a, b);
    return nullptr;
}

int main() {
    Stack<Shape *, 32> stack;
    char kind[16];
    double a, b;
    int bad = 0;
    while (std::scanf("%15s %lf %lf", kind, &a, &b) == 3) {
        Shape *shape = made(kind, a, b);
        if (!shape || !stack.push(shape)) ++bad;
    }
    auto items = stack.items();
    std::sort(items.begin(), items.end(), [](const Shape *x, const Shape *y) { return x->area() < y->area(); });
    double total = 0;
    for (const Shape *shape : items) {
        shape->describe();
        total += shape->area();
    }
    std::printf("total %.6f of %zu, %d bad\n", total, items.size(), bad);
    while (!stack.empty()) delete stack.pop();
    return bad ? EXIT_FAILURE : EXIT_SUCCESS;
}
