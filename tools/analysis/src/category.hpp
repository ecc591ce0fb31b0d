// A category file as a tree: what stands at each path, with titles, units and the texts of tables.
#pragma once

#include <array>
#include <cstdint>
#include <memory>
#include <string>
#include <string_view>
#include <utility>
#include <vector>

namespace analysis {

enum class Kind { element, spare, group, parts, repeated, octets, compound };
enum class Content { raw, whole, whole_signed, quantity, table, octal, icao, ascii };

struct Node {
    Kind kind = Kind::element;
    // Empty for an occurrence of a repeated item.
    std::string name;
    // Without numbers of occurrences: 048/250/MBDATA.
    std::string path;
    // Items alone have one.
    std::string title;

    // Of an element and of spare bits.
    Content content = Content::raw;
    unsigned width = 0;
    bool is_signed = false;
    // Of a quantity, as the file has them.
    std::string numerator, denominator, unit;
    // Of a table, as the file has them: the first entry for a number counts.
    std::vector<std::pair<std::string, std::string>> texts;

    // Members of a group and of all parts, subitems of a compound in their order, or the one form of all occurrences.
    std::vector<Node> members;
    // Of an extended or closed item: how many members there are up to the end of each part.
    std::vector<std::size_t> part_ends;
    // Of a repeated item: how many occurrences there may be; 0 if nothing limits them (by FX).
    unsigned most = 0;
};

struct Category {
    unsigned number = 0;
    std::string edition;
    // The items of the UAP, in its order.
    std::vector<Node> items;
};

// By category: the file that was given for it, or nothing.
using Categories = std::array<std::unique_ptr<Category>, 256>;

// The text of a category file isn't as its grammar says. The program names such a file's fault better.
struct Unreadable {
    std::size_t token;
};

// Reads the text of a category file that the program would accept.
std::unique_ptr<Category> category_of(std::string_view text);

}  // namespace analysis
