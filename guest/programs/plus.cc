// Tries C++ without exceptions: constructors and destructors of static objects, new and delete, virtual functions, templates, and the library.
#include <algorithm>
#include <atomic>
#include <cstdio>
#include <iostream>
#include <map>
#include <memory>
#include <new>
#include <sstream>
#include <string>
#include <vector>

namespace {

class Shape {
public:
    virtual ~Shape() { printf("a shape goes\n"); }
    virtual double area() const = 0;
};

class Square : public Shape {
public:
    explicit Square(double side) : side_(side) {}
    double area() const override { return side_ * side_; }

private:
    double side_;
};

class Disc : public Shape {
public:
    explicit Disc(double radius) : radius_(radius) {}
    ~Disc() override { printf("a disc goes\n"); }
    double area() const override { return radius_ * radius_ * 3.14159265358979; }

private:
    double radius_;
};

template <typename T, int most> class Stack {
public:
    ~Stack() {
        while (count_ > 0)
            delete items_[--count_];
    }
    void push(T *item) { items_[count_++] = item; }
    template <typename F> void each(F f) const {
        for (int i = 0; i < count_; i++)
            f(*items_[i]);
    }

private:
    T *items_[most];
    int count_ = 0;
};

struct Greeter {
    const char *name;
    explicit Greeter(const char *of) : name(of) { printf("%s comes\n", name); }
    ~Greeter() { printf("%s goes\n", name); }
};

Greeter first("the first");
Greeter second("the second");

Greeter &local() {
    static Greeter only("the local");
    return only;
}

void try_library() {
    std::map<std::string, int> lengths;
    std::vector<std::string> words{"guest", "a", "house", "in"};
    std::sort(words.begin(), words.end());
    for (const std::string &word : words)
        lengths[word + word] = static_cast<int>(word.size()) * 2;
    for (const auto &pair : lengths)
        std::cout << pair.first << ' ' << pair.second << '\n';
    std::ostringstream text;
    text << 3.25 << ' ' << std::hex << 255 << ' ' << std::stoi("42");
    std::cout << text.str() << std::endl;
    std::unique_ptr<Shape> shape(new Square(2));
    std::cout << (dynamic_cast<Disc *>(shape.get()) == nullptr) << ' ' << (dynamic_cast<Square *>(shape.get()) != nullptr) << std::endl;
}

// of 8 bytes, which the processor has no instructions for
void try_atomics() {
    std::atomic<long long> number(5);
    long long expected = 12;
    number += 7;
    bool swapped = number.compare_exchange_strong(expected, 1LL << 40);
    bool again = number.compare_exchange_strong(expected, 0);
    long long before = number.exchange(-3);
    printf("%d %d %lld %lld %lld %d\n", swapped, again, expected, before, number.fetch_and(0xff00ff), number.is_lock_free());
    printf("%lld %lld\n", number.load(), __sync_add_and_fetch(&expected, -1));
}

}

int main() {
    Stack<Shape, 4> shapes;
    shapes.push(new Square(1.5));
    shapes.push(new Disc(2));
    double total = 0;
    shapes.each([&total](const Shape &shape) { total += shape.area(); });
    printf("%.6f\n", total);
    local();
    local();
    int *numbers = new int[1000]();
    alignas(16) char room[sizeof(Greeter)];
    Greeter *placed = new (room) Greeter("the placed");
    placed->~Greeter();
    printf("%d %d\n", numbers[999], new (std::nothrow) char[static_cast<std::size_t>(-1) / 4] == nullptr);
    delete[] numbers;
    try_atomics();
    std::fflush(stdout);
    try_library();
    return 0;
}
