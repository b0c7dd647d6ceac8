// Packs input by snappy, or with the word -d unpacks it.
#include <iostream>
#include <iterator>
#include <snappy.h>
#include <stdexcept>
#include <string>

static std::string unpacked(const std::string &bytes) {
    std::string into;
    if (!snappy::Uncompress(bytes.data(), bytes.size(), &into))
        throw std::runtime_error("these bytes are not packed");
    return into;
}

static std::string packed(const std::string &bytes) {
    std::string into;
    snappy::Compress(bytes.data(), bytes.size(), &into);
    return into;
}

int main(int count, char **) {
    try {
        std::string bytes((std::istreambuf_iterator<char>(std::cin)), std::istreambuf_iterator<char>());
        std::cout << (count > 1 ? unpacked(bytes) : packed(bytes));
        return 0;
    } catch (const std::exception &error) {
        std::cerr << error.what() << '\n';
        return 1;
    }
}
