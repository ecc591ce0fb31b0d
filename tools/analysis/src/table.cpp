#include "table.hpp"

#include <algorithm>
#include <charconv>

#include "decimal.hpp"
#include "fail.hpp"

namespace analysis {

namespace {

Type type_of(const Node &node, bool has_numbers) {
    if (node.kind == Kind::octets) return Type::text;
    if (node.kind == Kind::repeated) return Type::integer;
    if (!has_numbers) {
        if (node.content == Content::quantity) return Type::real;
        if (node.content == Content::whole_signed) return node.width <= 64 ? Type::integer : Type::text;
        if (node.content != Content::raw && node.content != Content::whole) return Type::text;
    }
    // Columns of whole numbers are of 64 bits with a sign.
    return node.width <= 63 ? Type::integer : Type::text;
}

class Builder {
public:
    Builder(const TableForm &form, Tables &tables) : form_(form), tables_(tables), is_used_(form.paths.size(), false) {}

    void category(const Category &category) {
        char digits[] = {static_cast<char>('0' + category.number / 100), static_cast<char>('0' + category.number / 10 % 10),
                         static_cast<char>('0' + category.number % 10), 0};
        const std::size_t table = add_table(digits, {"block", "record"}, &category);
        for (const Node &item : category.items) value(item, item.path, item.title, table);
        drop_if_empty(table, &category);
    }

    void check() const {
        for (std::size_t i = 0; i < is_used_.size(); ++i)
            if (!is_used_[i]) throw Failure{wrong_words, form_.paths[i] + ": no column has this path"};
    }

private:
    std::size_t add_table(const std::string &name, std::vector<std::string> keys, const void *of) {
        tables_.tables.push_back({name, std::move(keys), {}});
        tables_.of[of] = tables_.tables.size() - 1;
        return tables_.tables.size() - 1;
    }

    // Only the last table can be dropped: those inside it were dropped before.
    bool drop_if_empty(std::size_t table, const void *of) {
        if (form_.paths.empty() || table + 1 != tables_.tables.size() || !tables_.tables[table].columns.empty()) return false;
        tables_.tables.pop_back();
        tables_.of.erase(of);
        return true;
    }

    bool is_wanted(const std::string &path) {
        bool wanted = form_.paths.empty();
        for (std::size_t i = 0; i < form_.paths.size(); ++i) {
            const std::string &front = form_.paths[i];
            if (path.compare(0, front.size(), front) != 0 || (path.size() > front.size() && path[front.size()] != '/')) continue;
            wanted = true;
            is_used_[i] = true;
        }
        return wanted;
    }

    void add_column(const Node &node, const std::string &name, const std::string &title, std::size_t table) {
        std::vector<Column> &columns = tables_.tables[table].columns;
        tables_.slots[&node] = {table, columns.size()};
        columns.push_back({name, title, &node, type_of(node, form_.has_numbers)});
    }

    void value(const Node &node, const std::string &name, const std::string &title, std::size_t table) {
        if (node.kind == Kind::spare) return;
        if (node.kind == Kind::repeated) return repeated(node, name, title, table);
        if (node.kind == Kind::element || node.kind == Kind::octets) {
            if (is_wanted(node.path)) add_column(node, name, title, table);
            return;
        }
        for (const Node &each : node.members) value(each, each.path, title, table);
    }

    // The table of the occurrences, and in the table around it their number. Of a repeated item that is an occurrence itself the name
    // has "[]" behind the path.
    void repeated(const Node &node, const std::string &name, const std::string &title, std::size_t around) {
        std::vector<std::string> keys = tables_.tables[around].keys;
        keys.push_back(keys.size() == 2 ? "occurrence" : "occurrence" + std::to_string(keys.size() - 1));
        const std::size_t table = add_table(name, std::move(keys), &node);
        const Node &body = node.members[0];
        value(body, body.kind == Kind::repeated ? name + "[]" : body.path, title, table);
        if (!drop_if_empty(table, &node)) add_column(node, name, title, around);
    }

    const TableForm &form_;
    Tables &tables_;
    std::vector<bool> is_used_;
};

}  // namespace

Tables tables_of(const Categories &categories, const TableForm &form) {
    Tables tables;
    Builder builder(form, tables);
    for (const auto &each : categories)
        if (each != nullptr) builder.category(*each);
    builder.check();
    return tables;
}

std::string content_of(const Column &column) {
    const Node &node = *column.node;
    if (node.kind == Kind::repeated) return "occurrences";
    if (node.kind == Kind::octets) return "explicit";
    const char *sign = node.is_signed ? " signed" : " unsigned";
    switch (node.content) {
        case Content::raw: return "raw";
        case Content::whole:
        case Content::whole_signed: return std::string("integer") + sign;
        case Content::quantity: return std::string("quantity") + sign;
        case Content::table: return "table";
        case Content::octal: return "octal";
        case Content::icao: return "icao";
        case Content::ascii: return "ascii";
    }
    return "";
}

const char *name_of(Type type) { return type == Type::integer ? "INTEGER" : type == Type::real ? "REAL" : "TEXT"; }

TableSink::TableSink(const Tables &tables, bool has_numbers, Writer &writer)
    : tables_(tables), has_numbers_(has_numbers), writer_(writer), rows_(tables.tables.size()) {
    for (std::size_t i = 0; i < rows_.size(); ++i) rows_[i].resize(tables.tables[i].columns.size());
}

void TableSink::begin_record(const Category &category, const Place &place) {
    const auto found = tables_.of.find(&category);
    open_.assign(1, found == tables_.of.end() ? no_table : found->second);
    keys_ = {place.block, place.record};
    begin_row();
}

void TableSink::begin_row() {
    if (open_.back() == no_table) return;
    for (Cell &cell : rows_[open_.back()]) cell.is_there = false;
}

void TableSink::end_row() {
    if (open_.back() != no_table) writer_.row(open_.back(), keys_, rows_[open_.back()]);
}

void TableSink::end_record() { end_row(); }

// The cell of a value that is wanted, which is there from now on.
Cell *TableSink::cell_of(const Node &node) {
    const auto found = tables_.slots.find(&node);
    if (found == tables_.slots.end()) return nullptr;
    Cell &cell = rows_[found->second.table][found->second.column];
    cell.is_there = true;
    return &cell;
}

void TableSink::element(const Node &node, std::string_view, std::string_view number, std::string_view remark) {
    Cell *cell = cell_of(node);
    if (cell == nullptr) return;
    std::string_view value = number;
    if (!has_numbers_ && !remark.empty()) value = remark[0] == '"' ? remark.substr(1, remark.size() - 2) : remark;
    const Type type = type_of(node, has_numbers_);
    if (type == Type::text) cell->text = value;
    else if (type == Type::integer) std::from_chars(value.data(), value.data() + value.size(), cell->integer);
    else {
        Fraction fraction;
        if (!read_fraction(value, fraction)) throw Failure{outside_failed, "the listing has no fraction: " + std::string(value)};
        cell->real = nearest(fraction);
    }
}

void TableSink::octets(const Node &node, std::string_view, std::string_view hex) {
    if (Cell *cell = cell_of(node)) cell->text = hex;
}

void TableSink::begin(const Node &node, std::string_view, std::uint64_t count) {
    if (node.kind != Kind::repeated) return;
    if (Cell *cell = cell_of(node)) cell->integer = static_cast<std::int64_t>(count);
    const auto found = tables_.of.find(&node);
    open_.push_back(found == tables_.of.end() ? no_table : found->second);
}

void TableSink::end(const Node &node) {
    if (node.kind == Kind::repeated) open_.pop_back();
}

void TableSink::begin_occurrence(std::uint64_t number) {
    keys_.push_back(number);
    begin_row();
}

void TableSink::end_occurrence() {
    end_row();
    keys_.pop_back();
}

}  // namespace analysis
