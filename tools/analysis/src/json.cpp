#include "json.hpp"

#include <charconv>

#include "fail.hpp"

namespace analysis {

namespace {

// Lines are handed on when there are so many octets of them.
constexpr std::size_t handful = std::size_t{1} << 18;

void add_number(std::string &out, std::uint64_t number) {
    char digits[24];
    const auto written = std::to_chars(digits, digits + sizeof digits, number);
    out.append(digits, written.ptr);
}

Fraction fraction_of(std::string_view remark) {
    Fraction fraction;
    if (!read_fraction(remark, fraction)) throw Failure{outside_failed, "the listing has no fraction: " + std::string(remark)};
    return fraction;
}

}  // namespace

void add_string(std::string &out, std::string_view text) {
    out += '"';
    while (!text.empty()) {
        const std::size_t at = std::min(text.find('\\'), text.size());
        out.append(text.data(), at);
        if (at == text.size()) break;
        out += "\\\\";
        text.remove_prefix(at + 1);
    }
    out += '"';
}

void JsonSink::deliver_whole() {
    if (is_in_record_) {
        std::string open = out_.substr(record_begin_);
        out_.resize(record_begin_);
        if (!out_.empty()) delivery_.take(out_);
        record_begin_ = out_.size();
        out_ += open;
    } else if (!out_.empty()) delivery_.take(out_);
}

void JsonSink::opaque(std::uint64_t block, unsigned category, std::string_view hex) {
    out_ += "{\"block\":";
    add_number(out_, block);
    out_ += ",\"category\":";
    add_number(out_, category);
    out_ += ",\"opaque\":\"";
    out_ += hex;
    out_ += "\"}\n";
    if (out_.size() >= handful) deliver_whole();
}

// What stands behind the numbers of block and record.
const std::string &JsonSink::head_of(const Category &category) {
    std::string &head = heads_[category.number];
    if (!head.empty()) return head;
    head = ",\"category\":";
    add_number(head, category.number);
    head += ",\"edition\":";
    add_string(head, category.edition);
    head += form_.is_flat ? "," : ",\"items\":{";
    return head;
}

void JsonSink::begin_record(const Category &category, const Place &place) {
    record_begin_ = out_.size();
    is_in_record_ = true;
    out_ += "{\"block\":";
    add_number(out_, place.block);
    out_ += ",\"record\":";
    add_number(out_, place.record);
    out_ += head_of(category);
    depth_ = 0;
}

void JsonSink::end_record() {
    if (!form_.is_flat) close('}');
    close('}');
    out_.back() = '\n';
    is_in_record_ = false;
    if (out_.size() >= handful) deliver_whole();
}

void JsonSink::key(const Node &node, std::string_view path) {
    if (form_.is_flat) {
        out_ += '"';
        out_ += path;
        out_ += "\":";
    } else if (!node.name.empty()) {
        out_ += '"';
        out_ += node.name;
        out_ += "\":";
    }
}

void JsonSink::open(char brace) { out_ += brace; }

// Each value has a comma behind it: the last one gives way to the brace.
void JsonSink::close(char brace) {
    if (out_.back() == ',') out_.back() = brace;
    else out_ += brace;
    out_ += ',';
}

void JsonSink::begin(const Node &node, std::string_view path, std::uint64_t count) {
    const bool is_array = node.kind == Kind::repeated;
    if (!form_.is_flat) {
        key(node, path);
        open(is_array ? '[' : '{');
    } else if (count == 0 && node.kind != Kind::group) {
        key(node, path);
        out_ += is_array ? "[]," : "{},";
    }
    if (is_array) return;
    if (spares_.size() == depth_) spares_.emplace_back();
    spares_[depth_].numbers.clear();
    ++depth_;
}

void JsonSink::end(const Node &node) {
    if (node.kind != Kind::repeated) {
        --depth_;
        if (!spares_[depth_].numbers.empty()) close_spares();
    }
    if (!form_.is_flat) close(node.kind == Kind::repeated ? ']' : '}');
}

// All spare bits of an object are one array, so that no key is there twice.
void JsonSink::close_spares() {
    Spares &spares = spares_[depth_];
    out_ += '"';
    out_ += spares.key;
    out_ += "\":[";
    out_ += spares.numbers;
    close(']');
}

void JsonSink::spare(const Node &, std::string_view path, std::string_view number) {
    Spares &spares = spares_[depth_ - 1];
    if (spares.numbers.empty()) spares.key = form_.is_flat ? path : "spare";
    spares.numbers += number;
    spares.numbers += ',';
}

void JsonSink::octets(const Node &node, std::string_view path, std::string_view hex) {
    key(node, path);
    out_ += '"';
    out_ += hex;
    out_ += "\",";
}

void JsonSink::element(const Node &node, std::string_view path, std::string_view number, std::string_view remark) {
    key(node, path);
    if (form_.is_exact) exact(node, number, remark);
    else plain(node, number, remark);
    out_ += ',';
}

void JsonSink::plain(const Node &node, std::string_view number, std::string_view remark) {
    if (remark.empty()) out_ += number;
    else if (node.content == Content::quantity) decimal(remark);
    else if (node.content == Content::whole_signed) out_ += remark;
    else add_string(out_, remark.substr(1, remark.size() - 2));
}

void JsonSink::decimal(std::string_view remark) {
    char digits[32];
    const auto written = std::to_chars(digits, digits + sizeof digits, nearest(fraction_of(remark)));
    out_.append(digits, written.ptr);
}

// The number of the bits, and what it means without rounding. What has no content but its number is a number here too.
void JsonSink::exact(const Node &node, std::string_view number, std::string_view remark) {
    if (node.content == Content::raw || node.content == Content::whole) {
        out_ += number;
        return;
    }
    out_ += "{\"bits\":";
    out_ += number;
    if (node.content == Content::quantity) {
        const Fraction fraction = fraction_of(remark);
        out_ += ",\"numerator\":";
        out_ += fraction.numerator_text;
        out_ += ",\"denominator\":";
        out_ += fraction.denominator_text;
    } else if (node.content == Content::whole_signed) {
        out_ += ",\"value\":";
        out_ += remark;
    } else if (!remark.empty()) {
        out_ += ",\"text\":";
        add_string(out_, remark.substr(1, remark.size() - 2));
    }
    out_ += '}';
}

}  // namespace analysis
