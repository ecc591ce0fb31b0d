// The records of a listing as rows of tables: one table for each category, and one for each repeated item.
#pragma once

#include <memory>
#include <string>
#include <unordered_map>
#include <vector>

#include "listing.hpp"

namespace analysis {

enum class Type { integer, real, text };

// What a row has in a column.
struct Cell {
    bool is_there = false;
    std::int64_t integer = 0;
    double real = 0;
    std::string text;
};

struct Column {
    // The path without numbers of occurrences.
    std::string name;
    std::string title;
    // An element, an explicit item, or a repeated item, of which the column has the number of occurrences.
    const Node *node = nullptr;
    Type type = Type::integer;
};

struct Table {
    // A category in three digits, or the path of a repeated item.
    std::string name;
    // The columns block, record, and an occurrence for each repeated item around it.
    std::vector<std::string> keys;
    std::vector<Column> columns;
};

struct TableForm {
    // Columns have the numbers of the bits instead of what they mean.
    bool has_numbers = false;
    // The paths of which columns are wanted, with all below them; all paths if there is none.
    std::vector<std::string> paths;
};

// Where a value goes.
struct Slot {
    std::size_t table, column;
};

// The tables of categories. Those without a wanted column are left out.
struct Tables {
    std::vector<Table> tables;
    std::unordered_map<const Node *, Slot> slots;
    // The table of a category or of a repeated item.
    std::unordered_map<const void *, std::size_t> of;
};

// A path that is wanted and is nowhere throws.
Tables tables_of(const Categories &categories, const TableForm &form);

// Where rows go. There is a writer for each form of file.
class Writer {
public:
    virtual ~Writer() = default;
    // `keys` are in the order of the table's.
    virtual void row(std::size_t table, const std::vector<std::uint64_t> &keys, const std::vector<Cell> &cells) = 0;
    virtual void opaque(std::uint64_t block, unsigned category, std::string_view hex) = 0;
    // Everything is written: the files get their names, which are the result.
    virtual std::vector<std::string> finish() = 0;
};

class TableSink final : public Sink {
public:
    TableSink(const Tables &tables, bool has_numbers, Writer &writer);

    void opaque(std::uint64_t block, unsigned category, std::string_view hex) override { writer_.opaque(block, category, hex); }
    void begin_record(const Category &category, const Place &place) override;
    void end_record() override;
    void drop_record() override {}
    void element(const Node &node, std::string_view path, std::string_view number, std::string_view remark) override;
    void spare(const Node &, std::string_view, std::string_view) override {}
    void octets(const Node &node, std::string_view path, std::string_view hex) override;
    void begin(const Node &node, std::string_view path, std::uint64_t count) override;
    void end(const Node &node) override;
    void begin_occurrence(std::uint64_t number) override;
    void end_occurrence() override;
    void pause() override {}

private:
    Cell *cell_of(const Node &node);
    void begin_row();
    void end_row();

    static constexpr std::size_t no_table = ~std::size_t{0};

    const Tables &tables_;
    bool has_numbers_;
    Writer &writer_;
    // The row of each table that is being filled.
    std::vector<std::vector<Cell>> rows_;
    // The tables that are open, from the category's inwards.
    std::vector<std::size_t> open_;
    // Block, record and the occurrences of the tables that are open.
    std::vector<std::uint64_t> keys_;
};

// As CSV: a file for each table, with "." for "/", and files of the columns, of the texts and of the opaque blocks.
std::unique_ptr<Writer> csv_writer(const Tables &tables, const std::string &name, bool forces);

// As a database of SQLite.
std::unique_ptr<Writer> sqlite_writer(const Tables &tables, const std::string &name, bool forces);

// The words of a category file for what a column has, and "occurrences" and "explicit".
std::string content_of(const Column &column);
const char *name_of(Type type);

}  // namespace analysis
