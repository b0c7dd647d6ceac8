// Tries fmt: numbers, text, dates, ranges, and the exceptions of formats that are wrong.
#include <chrono>
#include <fmt/chrono.h>
#include <fmt/core.h>
#include <fmt/format.h>
#include <fmt/ranges.h>
#include <limits>
#include <map>
#include <string>
#include <vector>

int main(int count, char **words) {
    fmt::print("{} {:>8}|{:<8}|{:^8}|{:#x} {:08b} {:+d}\n", 42, "right", "left", "mid", 255, 37, 7);
    for (double value : {0.1, 1.0 / 3, 1e100, 5e-324, 123456789.125, -0.0, std::numeric_limits<double>::infinity()})
        fmt::print("{} {:.3f} {:e} {}\n", value, value, value, static_cast<float>(value));
    fmt::print("{:a} {:a}\n", 1.0 / 3, -255.5);
    fmt::print("{}\n{}\n", std::vector<int>{1, 2, 3}, std::map<std::string, int>{{"one", 1}, {"two", 2}});
    fmt::print("{:%Y-%m-%d %H:%M:%S}\n", fmt::gmtime(1000000000));
    fmt::print("{:%H:%M:%S} {}\n", std::chrono::seconds(3661), std::chrono::milliseconds(1500));
    fmt::print("{}\n", fmt::join(words + 1, words + count, ", "));
    for (const char *format : {"{", "{:d}", "{0} {}", "{:>99999999999}"}) {
        try {
            fmt::print("{}\n", fmt::vformat(format, fmt::make_format_args("text")));
        } catch (const fmt::format_error &error) {
            fmt::print("{}: {}\n", format, error.what());
        }
    }
    return 0;
}
