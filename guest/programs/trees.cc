// Tries pugixml: a tree of the XML of input, walks, XPath with numbers and texts, changes, encodings, and the exceptions of paths that are wrong.
#include <iostream>
#include <pugixml.hpp>
#include <sstream>
#include <string>

namespace {

struct Counter : pugi::xml_tree_walker {
    int nodes = 0, deepest = 0;
    bool for_each(pugi::xml_node &) override {
        nodes++;
        if (depth() > deepest)
            deepest = depth();
        return true;
    }
};

void say(const char *path, const pugi::xml_document &tree) {
    try {
        pugi::xpath_query query(path);
        std::cout << path << ": ";
        switch (query.return_type()) {
        case pugi::xpath_type_number: std::cout << query.evaluate_number(tree); break;
        case pugi::xpath_type_boolean: std::cout << query.evaluate_boolean(tree); break;
        case pugi::xpath_type_string: std::cout << query.evaluate_string(tree); break;
        default:
            for (const pugi::xpath_node &found : query.evaluate_node_set(tree))
                std::cout << '[' << (found.attribute() ? found.attribute().value() : found.node().child_value()) << ']';
        }
        std::cout << '\n';
    } catch (const pugi::xpath_exception &error) {
        std::cout << path << " at " << error.result().offset << ": " << error.what() << '\n';
    }
}

// The bytes of a tree in an encoding, and whether they are read as the same tree.
void turn(const pugi::xml_document &tree, pugi::xml_encoding encoding) {
    std::ostringstream bytes, again;
    tree.save(bytes, " ", pugi::format_default, encoding);
    pugi::xml_document other;
    std::string text = bytes.str();
    pugi::xml_parse_result result = other.load_buffer(text.data(), text.size());
    other.save(again, " ", pugi::format_default, encoding);
    unsigned sum = 0;
    for (unsigned char byte : text)
        sum = sum * 31 + byte;
    std::cout << text.size() << ' ' << sum << ' ' << result.description() << ' ' << (again.str() == text) << '\n';
}

}

int main() {
    pugi::xml_document tree;
    pugi::xml_parse_result result = tree.load(std::cin);
    std::cout << result.description() << ' ' << result.offset << '\n';
    Counter counter;
    tree.traverse(counter);
    std::cout << counter.nodes << " nodes, " << counter.deepest << " deep\n";
    for (const char *path : {"//item", "//item[@price > 2.5]/@name", "sum(//item/@price)", "sum(//item/@price) div count(//item)",
                             "concat(//item[1], '-', //item[last()])", "boolean(//none)", "//item[contains(@name, 'a')]/following-sibling::*[1]",
                             "translate(normalize-space(//text), 'abc', 'ABC')", "round(-2.5) + 1 div 3", "//item[", "nothing(1)"})
        say(path, tree);
    pugi::xml_node list = tree.first_child().child("list");
    list.prepend_child("item").append_attribute("name").set_value("first & <last>");
    list.last_child().attribute("price").set_value(0.1);
    list.remove_child(list.child("gone"));
    tree.save(std::cout, "  ");
    for (pugi::xml_encoding encoding : {pugi::encoding_utf8, pugi::encoding_utf16_le, pugi::encoding_utf16_be, pugi::encoding_utf32_be})
        turn(tree, encoding);
    return 0;
}
