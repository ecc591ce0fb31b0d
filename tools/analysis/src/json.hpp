// The records of a listing as lines of JSON.
#pragma once

#include <string>
#include <string_view>
#include <vector>

#include "decimal.hpp"
#include "listing.hpp"

namespace analysis {

struct JsonForm {
    bool is_exact = false;
    bool is_flat = false;
};

// Takes whole lines. It may keep them: what it leaves in the text comes again, in front of more.
class Delivery {
public:
    virtual ~Delivery() = default;
    virtual void take(std::string &text) = 0;
};

// Writes a text as a JSON string. In the texts of listings and category files a backslash alone has to be written otherwise.
void add_string(std::string &out, std::string_view text);

class JsonSink final : public Sink {
public:
    // `out` is where lines are made, and is empty at first. It may serve one sink after another.
    JsonSink(JsonForm form, Delivery &delivery, std::string &out) : form_(form), delivery_(delivery), out_(out) {}

    void opaque(std::uint64_t block, unsigned category, std::string_view hex) override;
    void begin_record(const Category &category, const Place &place) override;
    void end_record() override;
    void drop_record() override { out_.resize(record_begin_); }
    void element(const Node &node, std::string_view path, std::string_view number, std::string_view remark) override;
    void spare(const Node &node, std::string_view path, std::string_view number) override;
    void octets(const Node &node, std::string_view path, std::string_view hex) override;
    void begin(const Node &node, std::string_view path, std::uint64_t count) override;
    void end(const Node &node) override;
    void begin_occurrence(std::uint64_t) override {}
    void end_occurrence() override {}
    void pause() override { deliver_whole(); }

private:
    void key(const Node &node, std::string_view path);
    void open(char brace);
    void close(char brace);
    void close_spares();
    void exact(const Node &node, std::string_view number, std::string_view remark);
    void plain(const Node &node, std::string_view number, std::string_view remark);
    void decimal(std::string_view remark);
    void deliver_whole();
    const std::string &head_of(const Category &category);

    // The spare bits of an object, which are written at its end.
    struct Spares {
        std::string key;
        std::string numbers;
    };

    JsonForm form_;
    Delivery &delivery_;
    std::string &out_;
    std::size_t record_begin_ = 0;
    bool is_in_record_ = false;
    // One for each object that is open; of the first `depth_` alone.
    std::vector<Spares> spares_;
    std::size_t depth_ = 0;
    std::array<std::string, 256> heads_;
};

}  // namespace analysis
