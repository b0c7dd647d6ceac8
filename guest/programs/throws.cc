// Tries C++ with exceptions, run-time types, and threads of one thread.
#include <any>
#include <condition_variable>
#include <cstdio>
#include <exception>
#include <future>
#include <iostream>
#include <memory>
#include <mutex>
#include <new>
#include <optional>
#include <sstream>
#include <stdexcept>
#include <string>
#include <system_error>
#include <thread>
#include <typeinfo>
#include <variant>
#include <vector>

namespace {

struct Guard {
    const char *name;
    explicit Guard(const char *of) : name(of) {}
    ~Guard() { std::printf("%s goes\n", name); }
};

struct Base {
    virtual ~Base() = default;
};

struct Left : virtual Base {};
struct Right : virtual Base {};
struct Both : Left, Right {};

class Refusal : public std::runtime_error {
public:
    Refusal(const std::string &what, int code) : std::runtime_error(what), code_(code) {}
    int code() const { return code_; }

private:
    int code_;
};

int deep(int depth) {
    Guard guard("a frame");
    if (depth == 0)
        throw Refusal("at the end", 42);
    return deep(depth - 1) + 1;
}

void try_unwinding() {
    try {
        deep(3);
    } catch (const Refusal &refusal) {
        std::printf("%s: %d\n", refusal.what(), refusal.code());
    }
    try {
        try {
            throw std::string("a text");
        } catch (const std::exception &) {
            std::printf("not this one\n");
        }
    } catch (const std::string &text) {
        std::printf("%s\n", text.c_str());
    }
    try {
        try {
            throw 7;
        } catch (...) {
            Guard guard("the handler");
            throw;
        }
    } catch (int number) {
        std::printf("%d\n", number);
    }
}

void try_library() {
    try {
        std::vector<int>(3).at(5);
    } catch (const std::out_of_range &error) {
        std::printf("%s\n", error.what());
    }
    try {
        std::stoi("none");
    } catch (const std::invalid_argument &error) {
        std::printf("%s\n", error.what());
    }
    try {
        std::string(5, 'x').substr(9);
    } catch (const std::out_of_range &error) {
        std::printf("%s\n", error.what());
    }
    try {
        std::istringstream text("word");
        text.exceptions(std::ios::failbit);
        int number;
        text >> number;
    } catch (const std::ios_base::failure &) {
        std::printf("a stream fails\n");
    }
    try {
        std::optional<int>().value();
    } catch (const std::bad_optional_access &error) {
        std::printf("%s\n", error.what());
    }
    try {
        std::get<int>(std::variant<int, double>(2.5));
    } catch (const std::bad_variant_access &error) {
        std::printf("%s\n", error.what());
    }
    try {
        std::any_cast<int>(std::any(2.5));
    } catch (const std::bad_any_cast &error) {
        std::printf("%s\n", error.what());
    }
}

void try_memory() {
    volatile std::size_t much = static_cast<std::size_t>(-1) / 4;
    try {
        std::unique_ptr<char[]> bytes(new char[much]);
        std::printf("%d\n", bytes[0]);
    } catch (const std::bad_alloc &error) {
        std::printf("%s\n", error.what());
    }
    std::printf("%d\n", new (std::nothrow) char[much] == nullptr);
}

void try_types() {
    Both both;
    Base *base = &both;
    Left *left = dynamic_cast<Left *>(base);
    std::printf("%d %d %d\n", dynamic_cast<Right *>(left) != nullptr, typeid(*base) == typeid(Both), typeid(*left) == typeid(Left));
    try {
        Base plain;
        dynamic_cast<Both &>(plain);
    } catch (const std::bad_cast &error) {
        std::printf("%s %s\n", error.what(), "is caught");
    }
}

void try_kept() {
    std::exception_ptr kept;
    try {
        try {
            throw Refusal("inner", 1);
        } catch (...) {
            std::throw_with_nested(std::logic_error("outer"));
        }
    } catch (...) {
        kept = std::current_exception();
    }
    try {
        std::rethrow_exception(kept);
    } catch (const std::logic_error &outer) {
        std::printf("%s\n", outer.what());
        try {
            std::rethrow_if_nested(outer);
        } catch (const Refusal &inner) {
            std::printf("%s\n", inner.what());
        }
    }
    std::promise<int> promise;
    promise.set_exception(kept);
    try {
        promise.get_future().get();
    } catch (const std::logic_error &error) {
        std::printf("by a future: %s\n", error.what());
    }
}

struct Counter {
    int count = 40;
    ~Counter() { std::printf("a thread's variable goes: %d\n", count); }
};

thread_local Counter counter;
thread_local char bytes[64] = "of the thread";

int calls() {
    thread_local int count = 10;
    return ++count;
}

void try_thread_local() {
    static thread_local double number = 2.5;
    counter.count++;
    calls();
    std::printf("%s %d %g %d\n", bytes, calls(), number, bytes[63]);
}

void try_thread() {
    std::mutex mutex;
    std::once_flag once;
    int count = 0;
    for (int i = 0; i < 3; i++) {
        std::lock_guard<std::mutex> lock(mutex);
        std::call_once(once, [&count] { count++; });
    }
    std::condition_variable condition;
    condition.notify_all();
    std::printf("%d %d %d\n", count, mutex.try_lock(), std::this_thread::get_id() != std::thread::id());
    mutex.unlock();
    try {
        std::thread([&count] { count++; }).join();
        std::printf("a thread ran or was refused\n");
    } catch (const std::system_error &error) {
        std::printf(error.code() == std::errc::resource_unavailable_try_again ? "a thread ran or was refused\n" : "another error\n");
    }
    auto later = std::async(std::launch::deferred, [] { return 9; });
    std::printf("%d\n", later.get());
}

int never_throws() noexcept {
    return deep(1);
}

}

int main(int words, char **) {
    Guard guard("main");
    try_unwinding();
    try_library();
    try_memory();
    try_types();
    try_kept();
    try_thread();
    try_thread_local();
    std::fflush(stdout);
    return words > 1 ? never_throws() : 0;
}
