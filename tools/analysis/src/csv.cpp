// Tables as files of CSV.
#include <charconv>

#include "fail.hpp"
#include "octets.hpp"
#include "table.hpp"
#include "unfinished.hpp"

namespace analysis {

namespace {

template <class Number>
void add_number(std::string &out, Number number) {
    char digits[40];
    const auto written = std::to_chars(digits, digits + sizeof digits, number);
    out.append(digits, written.ptr);
}

// In double quotes, so that a text of digits can be told from a number.
void add_text(std::string &out, std::string_view text) {
    out += '"';
    for (const char each : text) {
        if (each == '"') out += '"';
        out += each;
    }
    out += '"';
}

class CsvFile {
public:
    CsvFile(const std::string &name, bool forces) : file_(name, forces) {}

    std::string line;

    void write_if_much() {
        constexpr std::size_t much = std::size_t{1} << 16;
        if (line.size() >= much) write();
    }
    void write() {
        if (!write_fully(file_.file(), line.data(), line.size())) throw system_failure(file_.name());
        line.clear();
    }
    const std::string &finish() {
        file_.finish();
        return file_.name();
    }

private:
    Unfinished file_;
};

class CsvWriter final : public Writer {
public:
    CsvWriter(const Tables &tables, const std::string &name, bool forces) : tables_(tables) {
        const std::string base = name.substr(0, name.size() - 4);
        std::vector<std::string> names;
        for (const Table &table : tables.tables) {
            std::string part = table.name;
            for (char &each : part)
                if (each == '/') each = '.';
            names.push_back(part);
        }
        for (const char *more : {"columns", "texts", "opaque"}) names.emplace_back(more);
        for (const std::string &each : names) keep_what_is_there(base + "." + each + ".csv", forces);
        for (const std::string &each : names) files_.push_back(std::make_unique<CsvFile>(base + "." + each + ".csv", forces));
        heads();
        columns(files_[tables.tables.size()]->line);
        texts(*files_[tables.tables.size() + 1]);
        files_.back()->line = "block,category,octets\n";
    }

    void row(std::size_t table, const std::vector<std::uint64_t> &keys, const std::vector<Cell> &cells) override {
        const std::vector<Column> &columns = tables_.tables[table].columns;
        std::string &line = files_[table]->line;
        for (const std::uint64_t key : keys) {
            add_number(line, key);
            line += ',';
        }
        for (std::size_t i = 0; i < cells.size(); ++i) {
            if (cells[i].is_there) add_cell(line, columns[i].type, cells[i]);
            line += ',';
        }
        line.back() = '\n';
        files_[table]->write_if_much();
    }

    void opaque(std::uint64_t block, unsigned category, std::string_view hex) override {
        CsvFile &file = *files_.back();
        add_number(file.line, block);
        file.line += ',';
        add_number(file.line, category);
        file.line += ',';
        add_text(file.line, hex);
        file.line += '\n';
        file.write_if_much();
    }

    std::vector<std::string> finish() override {
        // All is written before the first file gets its name.
        for (const auto &file : files_) file->write();
        std::vector<std::string> names;
        for (const auto &file : files_) names.push_back(file->finish());
        return names;
    }

private:
    static void add_cell(std::string &line, Type type, const Cell &cell) {
        if (type == Type::integer) add_number(line, cell.integer);
        else if (type == Type::real) add_number(line, cell.real);
        else add_text(line, cell.text);
    }

    void heads() {
        for (std::size_t i = 0; i < tables_.tables.size(); ++i) {
            std::string &line = files_[i]->line;
            for (const std::string &key : tables_.tables[i].keys) line += key + ",";
            for (const Column &column : tables_.tables[i].columns) line += column.name + ",";
            line.back() = '\n';
        }
    }

    void columns(std::string &line) {
        line = "table_name,column_name,type,title,content,bits,numerator,denominator,unit\n";
        for (const Table &table : tables_.tables) {
            for (const Column &column : table.columns) {
                const Node &node = *column.node;
                for (const std::string &text : {table.name, column.name, std::string(name_of(column.type)), column.title, content_of(column)}) {
                    add_text(line, text);
                    line += ',';
                }
                if (node.width > 0) add_number(line, node.width);
                line += "," + node.numerator + "," + node.denominator + ",";
                if (node.content == Content::quantity) add_text(line, node.unit);
                line += '\n';
            }
        }
    }

    void texts(CsvFile &file) {
        file.line = "column_name,number,text\n";
        for (const Table &table : tables_.tables)
            for (const Column &column : table.columns)
                for (const auto &entry : column.node->texts) {
                    add_text(file.line, column.name);
                    file.line += "," + entry.first + ",";
                    add_text(file.line, entry.second);
                    file.line += '\n';
                    file.write_if_much();
                }
    }

    const Tables &tables_;
    // Those of the tables, then columns, texts and opaque.
    std::vector<std::unique_ptr<CsvFile>> files_;
};

}  // namespace

std::unique_ptr<Writer> csv_writer(const Tables &tables, const std::string &name, bool forces) {
    return std::make_unique<CsvWriter>(tables, name, forces);
}

}  // namespace analysis
