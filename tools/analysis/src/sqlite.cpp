// Tables as a database of SQLite.
#include <sqlite3.h>

#include "fail.hpp"
#include "table.hpp"
#include "unfinished.hpp"

namespace analysis {

namespace {

// Names have no double quotes.
std::string quoted(const std::string &name) { return "\"" + name + "\""; }

class SqliteWriter final : public Writer {
public:
    SqliteWriter(const Tables &tables, const std::string &name, bool forces) : tables_(tables), file_(name, forces) {
        if (sqlite3_open(file_.path(), &database_) != SQLITE_OK) fail();
        // The file has its name only when it is whole: there is nothing to roll back to.
        for (const char *each : {"PRAGMA journal_mode=OFF", "PRAGMA synchronous=OFF", "BEGIN"}) run(each);
        for (const Table &table : tables.tables) create(table);
        run("CREATE TABLE columns (table_name TEXT, column_name TEXT, type TEXT, title TEXT, content TEXT, bits INTEGER, numerator INTEGER, "
            "denominator INTEGER, unit TEXT, PRIMARY KEY (table_name, column_name))");
        run("CREATE TABLE texts (column_name TEXT, number INTEGER, text TEXT, PRIMARY KEY (column_name, number))");
        run("CREATE TABLE opaque (block INTEGER PRIMARY KEY, category INTEGER, octets TEXT)");
        opaque_ = prepared("INSERT INTO opaque VALUES (?, ?, ?)");
        describe();
    }

    ~SqliteWriter() override { close(); }

    void row(std::size_t table, const std::vector<std::uint64_t> &keys, const std::vector<Cell> &cells) override {
        sqlite3_stmt *insert = inserts_[table];
        const std::vector<Column> &columns = tables_.tables[table].columns;
        int at = 0;
        for (const std::uint64_t key : keys) sqlite3_bind_int64(insert, ++at, static_cast<sqlite3_int64>(key));
        for (std::size_t i = 0; i < cells.size(); ++i) {
            const Cell &cell = cells[i];
            ++at;
            if (!cell.is_there) sqlite3_bind_null(insert, at);
            else if (columns[i].type == Type::integer) sqlite3_bind_int64(insert, at, cell.integer);
            else if (columns[i].type == Type::real) sqlite3_bind_double(insert, at, cell.real);
            else bind(insert, at, cell.text);
        }
        step(insert);
    }

    void opaque(std::uint64_t block, unsigned category, std::string_view hex) override {
        sqlite3_bind_int64(opaque_, 1, static_cast<sqlite3_int64>(block));
        sqlite3_bind_int(opaque_, 2, static_cast<int>(category));
        bind(opaque_, 3, hex);
        step(opaque_);
    }

    std::vector<std::string> finish() override {
        run("COMMIT");
        close();
        file_.finish();
        return {file_.name()};
    }

private:
    [[noreturn]] void fail() { throw Failure{outside_failed, file_.name() + ": " + sqlite3_errmsg(database_)}; }

    void run(const std::string &words) {
        if (sqlite3_exec(database_, words.c_str(), nullptr, nullptr, nullptr) != SQLITE_OK) fail();
    }

    sqlite3_stmt *prepared(const std::string &words) {
        sqlite3_stmt *statement = nullptr;
        if (sqlite3_prepare_v2(database_, words.c_str(), -1, &statement, nullptr) != SQLITE_OK) fail();
        statements_.push_back(statement);
        return statement;
    }

    // The text has to last until the step.
    static void bind(sqlite3_stmt *statement, int at, std::string_view text) {
        sqlite3_bind_text(statement, at, text.data(), static_cast<int>(text.size()), SQLITE_STATIC);
    }

    void step(sqlite3_stmt *statement) {
        if (sqlite3_step(statement) != SQLITE_DONE || sqlite3_reset(statement) != SQLITE_OK) fail();
    }

    void create(const Table &table) {
        const std::size_t count = table.keys.size() + table.columns.size();
        if (count > static_cast<std::size_t>(sqlite3_limit(database_, SQLITE_LIMIT_COLUMN, -1)))
            throw Failure{outside_failed, "table " + table.name + " would have " + std::to_string(count) +
                                              " columns, which SQLite doesn't take; --path chooses some"};
        std::string words = "CREATE TABLE " + quoted(table.name) + " (", keys, marks;
        for (const std::string &key : table.keys) {
            words += key + " INTEGER, ";
            keys += (keys.empty() ? "" : ", ") + key;
        }
        for (const Column &column : table.columns) words += quoted(column.name) + " " + name_of(column.type) + ", ";
        words += "PRIMARY KEY (" + keys + ")";
        if (table.keys.size() > 2) words += ", FOREIGN KEY (block, record) REFERENCES " + quoted(table.name.substr(0, 3));
        run(words + ") WITHOUT ROWID");
        for (std::size_t i = 0; i < count; ++i) marks += i == 0 ? "?" : ", ?";
        inserts_.push_back(prepared("INSERT INTO " + quoted(table.name) + " VALUES (" + marks + ")"));
    }

    void describe() {
        sqlite3_stmt *column = prepared("INSERT INTO columns VALUES (?, ?, ?, ?, ?, ?, ?, ?, ?)");
        sqlite3_stmt *text = prepared("INSERT OR IGNORE INTO texts VALUES (?, ?, ?)");
        for (const Table &table : tables_.tables)
            for (const Column &each : table.columns) {
                describe(column, table, each);
                for (const auto &entry : each.node->texts) {
                    bind(text, 1, each.name);
                    bind(text, 2, entry.first);
                    bind(text, 3, entry.second);
                    step(text);
                }
            }
    }

    // What a column doesn't have is NULL.
    void describe(sqlite3_stmt *insert, const Table &table, const Column &column) {
        const Node &node = *column.node;
        const std::string content = content_of(column);
        sqlite3_clear_bindings(insert);
        bind(insert, 1, table.name);
        bind(insert, 2, column.name);
        bind(insert, 3, name_of(column.type));
        bind(insert, 4, column.title);
        bind(insert, 5, content);
        if (node.width > 0) sqlite3_bind_int64(insert, 6, node.width);
        if (node.content == Content::quantity) {
            bind(insert, 7, node.numerator);
            bind(insert, 8, node.denominator);
            bind(insert, 9, node.unit);
        }
        step(insert);
    }

    void close() {
        for (sqlite3_stmt *each : statements_) sqlite3_finalize(each);
        statements_.clear();
        sqlite3_close(database_);
        database_ = nullptr;
    }

    const Tables &tables_;
    Unfinished file_;
    sqlite3 *database_ = nullptr;
    std::vector<sqlite3_stmt *> statements_;
    // In the order of the tables.
    std::vector<sqlite3_stmt *> inserts_;
    sqlite3_stmt *opaque_ = nullptr;
};

}  // namespace

std::unique_ptr<Writer> sqlite_writer(const Tables &tables, const std::string &name, bool forces) {
    return std::make_unique<SqliteWriter>(tables, name, forces);
}

}  // namespace analysis
