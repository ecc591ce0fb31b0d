#include "listing.hpp"

#include <charconv>

#include "fail.hpp"

namespace analysis {

namespace {

bool begins(std::string_view text, std::string_view with) {
    return text.size() >= with.size() && std::memcmp(text.data(), with.data(), with.size()) == 0;
}

// The number at the front of a text. What is left of the text is behind it.
bool read_number(std::string_view &text, std::uint64_t &number) {
    const auto read = std::from_chars(text.data(), text.data() + text.size(), number);
    text.remove_prefix(static_cast<std::size_t>(read.ptr - text.data()));
    return read.ec == std::errc();
}

}  // namespace

Listing::Listing(int file, std::vector<char> &buffer, const Categories &categories, Sink &sink, std::uint64_t first_block)
    : lines_(file, buffer, [](void *self) { static_cast<Sink *>(self)->pause(); }, &sink),
      categories_(categories),
      sink_(sink),
      first_block_(first_block) {}

void Listing::unlike() const {
    throw Failure{outside_failed, "the listing isn't as the category files say, at block " + std::to_string(place_.block) + " record " +
                                      std::to_string(place_.record) + ": " + std::string(line_.substr(0, 200))};
}

std::string_view Listing::behind(std::string_view word) const {
    if (!begins(line_, path_) || !begins(line_.substr(path_.size()), word)) unlike();
    return line_.substr(path_.size() + word.size());
}

std::uint64_t Listing::count_behind(std::string_view word) const {
    std::string_view text = behind(word);
    std::uint64_t count = 0;
    if (!read_number(text, count) || !text.empty()) unlike();
    return count;
}

// Whether the line is of what has this name under the path.
bool Listing::is_at(const std::string &name) const {
    const std::size_t end = path_.size() + 1 + name.size();
    if (line_.size() <= end || !begins(line_, path_) || line_[path_.size()] != '/') return false;
    if (std::memcmp(line_.data() + path_.size() + 1, name.data(), name.size()) != 0) return false;
    return line_[end] == ' ' || line_[end] == '/' || line_[end] == '[';
}

void Listing::read() {
    advance();
    while (has_line_) block();
}

void Listing::finish(bool is_whole) {
    if (!is_in_record_) return;
    is_in_record_ = false;
    if (is_whole) sink_.end_record();
    else sink_.drop_record();
}

// block B category CCC octets N records R, or .. opaque HEX
void Listing::block() {
    path_ = "block ";
    std::string_view text = behind("");
    std::uint64_t block = 0, category = 0, octets = 0;
    const auto reads = [&](std::string_view word, std::uint64_t &number) {
        if (!begins(text, word)) return false;
        text.remove_prefix(word.size());
        return read_number(text, number);
    };
    if (!reads("", block) || !reads(" category ", category) || category > 255 || !reads(" octets ", octets)) unlike();
    place_ = {first_block_ + block, 0};
    constexpr std::string_view opaque = " opaque \"";
    if (begins(text, opaque) && text.back() == '"') {
        sink_.opaque(place_.block, static_cast<unsigned>(category), text.substr(opaque.size(), text.size() - opaque.size() - 1));
        advance();
        return;
    }
    if (!begins(text, " records ") || categories_[category] == nullptr) unlike();
    advance();
    records(*categories_[category]);
}

void Listing::records(const Category &category) {
    while (has_line_ && begins(line_, "record ")) {
        std::string_view text = line_.substr(7);
        if (!read_number(text, place_.record)) unlike();
        sink_.begin_record(category, place_);
        is_in_record_ = true;
        advance();
        items(category);
        // At the end of the listing finish() says whether the record is whole.
        if (!has_line_) return;
        is_in_record_ = false;
        sink_.end_record();
    }
}

void Listing::items(const Category &category) {
    for (const Node &item : category.items) {
        if (!has_line_) return;
        path_.assign(item.path, 0, 3);
        if (is_at(item.name)) member(item);
    }
}

// What has a name, under the path.
void Listing::member(const Node &node) {
    const std::size_t length = path_.size();
    path_ += '/';
    path_ += node.name;
    value(node);
    path_.resize(length);
}

void Listing::value(const Node &node) {
    if (!has_line_) return;
    switch (node.kind) {
        case Kind::element:
        case Kind::spare: return element(node);
        case Kind::parts: return parts(node);
        case Kind::compound: return compound(node);
        case Kind::repeated: return repeated(node);
        case Kind::group:
            sink_.begin(node, path_, 0);
            for (const Node &each : node.members) member(each);
            return sink_.end(node);
        case Kind::octets: {
            const std::string_view hex = behind(" octets \"");
            if (hex.empty()) unlike();
            sink_.octets(node, path_, hex.substr(0, hex.size() - 1));
            advance();
        }
    }
}

void Listing::element(const Node &node) {
    const std::string_view text = behind(" = ");
    const void *space = std::memchr(text.data(), ' ', text.size());
    const std::size_t digits = space == nullptr ? text.size() : static_cast<std::size_t>(static_cast<const char *>(space) - text.data());
    if (digits == 0) unlike();
    const std::string_view number = text.substr(0, digits);
    if (node.kind == Kind::spare) sink_.spare(node, path_, number);
    else sink_.element(node, path_, number, space == nullptr ? std::string_view() : text.substr(digits + 1));
    advance();
}

void Listing::parts(const Node &node) {
    const std::uint64_t count = count_behind(" parts ");
    if (count == 0 || count > node.part_ends.size()) unlike();
    sink_.begin(node, path_, count);
    advance();
    for (std::size_t i = 0; i < node.part_ends[count - 1]; ++i) member(node.members[i]);
    sink_.end(node);
}

void Listing::compound(const Node &node) {
    std::uint64_t left = count_behind(" subitems ");
    sink_.begin(node, path_, left);
    advance();
    for (const Node &each : node.members) {
        if (left == 0 || !has_line_) break;
        if (!is_at(each.name)) continue;
        member(each);
        --left;
    }
    if (left != 0 && has_line_) unlike();
    sink_.end(node);
}

void Listing::repeated(const Node &node) {
    const std::uint64_t count = count_behind(" occurrences ");
    const std::size_t length = path_.size();
    sink_.begin(node, path_, count);
    advance();
    for (std::uint64_t i = 0; i < count; ++i) {
        char digits[24];
        const auto written = std::to_chars(digits, digits + sizeof digits, i);
        path_ += '[';
        path_.append(digits, written.ptr);
        path_ += ']';
        sink_.begin_occurrence(i);
        value(node.members[0]);
        sink_.end_occurrence();
        path_.resize(length);
    }
    sink_.end(node);
}

}  // namespace analysis
