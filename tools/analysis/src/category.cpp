#include "category.hpp"

#include <charconv>

namespace analysis {

namespace {

bool is_space(char octet) { return octet == ' ' || octet == '\t' || octet == '\n' || octet == '\r'; }

// The tokens of a text: words, braces, and texts with the double quote in front.
std::vector<std::string_view> tokens_of(std::string_view text) {
    std::vector<std::string_view> tokens;
    std::size_t at = 0;
    while (at < text.size()) {
        const char first = text[at];
        std::size_t end = at + 1;
        if (first == '#') {
            at = std::min(text.find('\n', at), text.size());
        } else if (first == '"') {
            end = std::min(text.find('"', end), text.size());
            tokens.push_back(text.substr(at, end - at));
            at = end + 1;
        } else {
            if (!is_space(first) && first != '{' && first != '}') end = std::min(text.find_first_of(" \t\r\n\"{}#", at), text.size());
            if (!is_space(first)) tokens.push_back(text.substr(at, end - at));
            at = end;
        }
    }
    return tokens;
}

class Reader {
public:
    explicit Reader(std::string_view text) : tokens_(tokens_of(text)) {}

    std::unique_ptr<Category> category();

private:
    std::string_view peek() const {
        if (at_ == tokens_.size()) throw Unreadable{at_};
        return tokens_[at_];
    }
    std::string_view next() {
        const std::string_view token = peek();
        ++at_;
        return token;
    }
    void want(std::string_view word) {
        if (next() != word) throw Unreadable{at_ - 1};
    }
    bool closes() {
        if (peek() != "}") return false;
        ++at_;
        return true;
    }
    std::string text() {
        const std::string_view token = next();
        if (token[0] != '"') throw Unreadable{at_ - 1};
        return std::string(token.substr(1));
    }
    unsigned number() {
        const std::string_view token = next();
        unsigned value = 0;
        const auto read = std::from_chars(token.data(), token.data() + token.size(), value);
        if (read.ec != std::errc() || read.ptr != token.data() + token.size()) throw Unreadable{at_ - 1};
        return value;
    }

    Node item(const std::string &category);
    void kind(Node &node);
    void fixed(Node &node, std::string_view word);
    void content(Node &node);
    void table(Node &node);
    void members(Node &node);
    void parts(Node &node);
    void slots(Node &node);
    void repeated(Node &node, std::string_view word);

    std::vector<std::string_view> tokens_;
    std::size_t at_ = 0;
};

std::unique_ptr<Category> Reader::category() {
    auto read = std::make_unique<Category>();
    want("category");
    const std::string digits(peek());
    read->number = number();
    if (digits.size() != 3 || read->number > 255) throw Unreadable{at_ - 1};
    want("edition");
    read->edition = text();
    want("items");
    want("{");
    std::vector<Node> items;
    while (!closes()) items.push_back(item(digits));
    want("uap");
    want("{");
    while (!closes()) {
        const std::string_view name = next();
        for (Node &each : items)
            if (each.name == name) read->items.push_back(std::move(each));
    }
    if (at_ != tokens_.size()) throw Unreadable{at_};
    return read;
}

Node Reader::item(const std::string &category) {
    Node node;
    want("item");
    node.name = next();
    node.path = category + "/" + node.name;
    node.title = text();
    kind(node);
    return node;
}

void Reader::kind(Node &node) {
    const std::string_view word = next();
    if (word == "extended" || word == "closed") return parts(node);
    if (word == "counted" || word == "wide" || word == "byfx") return repeated(node, word);
    if (word == "compound") return slots(node);
    if (word == "explicit") node.kind = Kind::octets;
    else fixed(node, word);
}

void Reader::fixed(Node &node, std::string_view word) {
    if (word == "group") {
        node.kind = Kind::group;
        want("{");
        return members(node);
    }
    if (word != "element") throw Unreadable{at_ - 1};
    node.width = number();
    content(node);
}

void Reader::content(Node &node) {
    const std::string_view word = next();
    if (word == "raw") return;
    if (word == "table") return table(node);
    if (word == "octal") node.content = Content::octal;
    else if (word == "icao") node.content = Content::icao;
    else if (word == "ascii") node.content = Content::ascii;
    else if (word == "integer" || word == "quantity") {
        node.is_signed = next() == "signed";
        node.content = node.is_signed ? Content::whole_signed : Content::whole;
        if (word == "integer") return;
        node.content = Content::quantity;
        node.numerator = next();
        node.denominator = next();
        node.unit = text();
    } else throw Unreadable{at_ - 1};
}

void Reader::table(Node &node) {
    node.content = Content::table;
    want("{");
    while (!closes()) {
        std::string entry(next());
        node.texts.emplace_back(std::move(entry), text());
    }
}

// What follows the brace of a group or a part, up to its end.
void Reader::members(Node &node) {
    while (!closes()) {
        Node member;
        member.name = next();
        member.path = node.path + "/" + member.name;
        if (member.name == "spare") {
            member.kind = Kind::spare;
            member.width = number();
        } else fixed(member, next());
        node.members.push_back(std::move(member));
    }
}

void Reader::parts(Node &node) {
    node.kind = Kind::parts;
    want("{");
    while (!closes()) {
        want("part");
        want("{");
        members(node);
        node.part_ends.push_back(node.members.size());
    }
}

void Reader::slots(Node &node) {
    node.kind = Kind::compound;
    want("{");
    while (!closes()) {
        Node slot;
        slot.name = next();
        if (slot.name == "-") continue;
        slot.path = node.path + "/" + slot.name;
        kind(slot);
        node.members.push_back(std::move(slot));
    }
}

void Reader::repeated(Node &node, std::string_view word) {
    node.kind = Kind::repeated;
    node.most = word == "counted" ? 255 : word == "wide" ? 65535 : 0;
    Node body;
    body.path = node.path;
    if (word == "byfx") fixed(body, next());
    else {
        want("{");
        kind(body);
        want("}");
    }
    node.members.push_back(std::move(body));
}

}  // namespace

std::unique_ptr<Category> category_of(std::string_view text) { return Reader(text).category(); }

}  // namespace analysis
