// The listing of `asterix show`, read along the category files' trees.
#pragma once

#include <cstdint>
#include <string>
#include <string_view>

#include "category.hpp"
#include "lines.hpp"

namespace analysis {

// Where a record is.
struct Place {
    std::uint64_t block = 0;
    std::uint64_t record = 0;
};

// What is done with a listing. Paths are as the listing has them, with the numbers of occurrences.
class Sink {
public:
    virtual ~Sink() = default;
    virtual void opaque(std::uint64_t block, unsigned category, std::string_view hex) = 0;
    virtual void begin_record(const Category &category, const Place &place) = 0;
    virtual void end_record() = 0;
    // Takes back a record that was begun.
    virtual void drop_record() = 0;
    // The number of an element's bits, and the remark without the space before it; empty if there is none.
    virtual void element(const Node &node, std::string_view path, std::string_view number, std::string_view remark) = 0;
    virtual void spare(const Node &node, std::string_view path, std::string_view number) = 0;
    virtual void octets(const Node &node, std::string_view path, std::string_view hex) = 0;
    // A group, the parts of an extended item, the subitems of a compound, or the occurrences of a repeated item. `count` is the listing's;
    // a group has none, and 0 here.
    virtual void begin(const Node &node, std::string_view path, std::uint64_t count) = 0;
    virtual void end(const Node &node) = 0;
    virtual void begin_occurrence(std::uint64_t number) = 0;
    virtual void end_occurrence() = 0;
    // Nothing more is there to be read at the moment.
    virtual void pause() = 0;
};

class Listing {
public:
    // Blocks are numbered from `first_block` on. The buffer is for the lines.
    Listing(int file, std::vector<char> &buffer, const Categories &categories, Sink &sink, std::uint64_t first_block);

    // Reads to the end. The last record stays open: finish() closes it if the listing is whole, or drops it.
    void read();
    void finish(bool is_whole);

private:
    bool advance() { return has_line_ = lines_.next(line_); }
    [[noreturn]] void unlike() const;
    // What stands in the line behind the path and `word`.
    std::string_view behind(std::string_view word) const;
    std::uint64_t count_behind(std::string_view word) const;
    bool is_at(const std::string &name) const;

    void block();
    void records(const Category &category);
    void items(const Category &category);
    void value(const Node &node);
    void member(const Node &node);
    void element(const Node &node);
    void parts(const Node &node);
    void compound(const Node &node);
    void repeated(const Node &node);

    Lines lines_;
    const Categories &categories_;
    Sink &sink_;
    Place place_;
    std::uint64_t first_block_;
    std::string_view line_;
    bool has_line_ = false;
    bool is_in_record_ = false;
    std::string path_;
};

}  // namespace analysis
