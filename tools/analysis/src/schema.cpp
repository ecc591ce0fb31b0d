#include "schema.hpp"

#include <algorithm>

namespace analysis {

namespace {

std::string digits_of(Wide number) {
    std::string digits;
    for (; number != 0 || digits.empty(); number /= 10) digits += static_cast<char>('0' + static_cast<int>(number % 10));
    std::reverse(digits.begin(), digits.end());
    return digits;
}

// "name":"text",
void add_text(std::string &out, const char *name, std::string_view text) {
    out += '"';
    out += name;
    out += "\":";
    add_string(out, text);
    out += ',';
}

// A comma at the end gives way to what closes.
void close(std::string &out, const char *closing) {
    if (out.back() == ',') out.pop_back();
    out += closing;
}

// The schema of what one value can be. `out` holds the members of an object, each with a comma behind it.
class Leaf {
public:
    Leaf(const Node &node, bool is_exact) : node_(node), is_exact_(is_exact) {}

    void add(std::string &out) const {
        if (!node_.title.empty()) add_text(out, "title", node_.title);
        if (node_.kind == Kind::spare) out += "\"type\":\"array\",\"items\":{\"type\":\"integer\"},";
        else if (node_.kind == Kind::octets) out += "\"type\":\"string\",\"pattern\":\"^([0-9a-f]{2})*$\",";
        else if (node_.content == Content::raw || node_.content == Content::whole) bits(out);
        else if (is_exact_) exact(out);
        else plain(out);
        notes(out);
    }

private:
    void bits(std::string &out) const {
        const Wide most = node_.width == 128 ? ~Wide{0} : (Wide{1} << node_.width) - 1;
        out += "\"type\":\"integer\",\"minimum\":0,\"maximum\":" + digits_of(most) + ",";
    }

    void meaning(std::string &out) const {
        if (node_.content == Content::quantity) out += "\"type\":\"number\",";
        else if (node_.content == Content::whole_signed) {
            const Wide half = Wide{1} << (node_.width - 1);
            out += "\"type\":\"integer\",\"minimum\":-" + digits_of(half) + ",\"maximum\":" + digits_of(half - 1) + ",";
        } else text(out);
    }

    void text(std::string &out) const {
        if (node_.content == Content::table) {
            out += "\"type\":\"string\",\"enum\":[";
            std::vector<std::string_view> seen;
            for (const auto &entry : node_.texts) {
                if (std::find(seen.begin(), seen.end(), entry.second) != seen.end()) continue;
                seen.push_back(entry.second);
                add_string(out, entry.second);
                out += ',';
            }
            close(out, "],");
            return;
        }
        const unsigned width = node_.content == Content::octal ? 3 : node_.content == Content::icao ? 6 : 8;
        const std::string length = std::to_string(node_.width / width);
        out += "\"type\":\"string\",\"minLength\":" + length + ",\"maxLength\":" + length + ",";
        if (node_.content == Content::octal) add_text(out, "pattern", "^[0-7]*$");
    }

    // A number of a table may have no text: then the number stands there.
    void plain(std::string &out) const {
        if (node_.content != Content::table) return meaning(out);
        out += "\"anyOf\":[";
        if (!node_.texts.empty()) {
            out += '{';
            text(out);
            close(out, "},");
        }
        out += '{';
        bits(out);
        close(out, "}");
        out += "],";
    }

    void exact(std::string &out) const {
        const bool is_fraction = node_.content == Content::quantity;
        out += "\"type\":\"object\",\"properties\":{\"bits\":{";
        bits(out);
        close(out, "},");
        if (is_fraction) out += "\"numerator\":{\"type\":\"integer\"},\"denominator\":{\"type\":\"integer\",\"minimum\":1}";
        else if (node_.content != Content::table || !node_.texts.empty()) {
            out += node_.content == Content::whole_signed ? "\"value\":{" : "\"text\":{";
            meaning(out);
            close(out, "}");
        }
        close(out, "},\"required\":[\"bits\"");
        if (is_fraction) out += ",\"numerator\",\"denominator\"";
        else if (node_.content == Content::whole_signed) out += ",\"value\"";
        else if (node_.content != Content::table) out += ",\"text\"";
        out += "],\"additionalProperties\":false,";
    }

    // What JSON Schema has no word for: the unit, the scale, and which number has which text.
    void notes(std::string &out) const {
        if (node_.content == Content::quantity) {
            add_text(out, "unit", node_.unit);
            out += "\"scale\":[" + node_.numerator + "," + node_.denominator + "],";
        }
        if (node_.content != Content::table) return;
        out += "\"table\":[";
        for (const auto &entry : node_.texts) {
            out += "[" + entry.first + ",";
            add_string(out, entry.second);
            out += "],";
        }
        close(out, "],");
    }

    const Node &node_;
    bool is_exact_;
};

// Values nested as the paths are.
class Nested {
public:
    Nested(std::string &out, bool is_exact) : out_(out), is_exact_(is_exact) {}

    // `required` members always come; the first part of an extended item does.
    void object(const std::vector<Node> &members, std::size_t required) {
        out_ += "\"type\":\"object\",\"properties\":{";
        bool has_spare = false;
        for (const Node &each : members) {
            if (each.kind == Kind::spare && has_spare) continue;
            has_spare = has_spare || each.kind == Kind::spare;
            out_ += "\"" + each.name + "\":{";
            value(each);
            close(out_, "},");
        }
        close(out_, "},\"required\":[");
        bool is_spare_required = false;
        for (std::size_t i = 0; i < required; ++i) {
            if (members[i].kind == Kind::spare && is_spare_required) continue;
            is_spare_required = is_spare_required || members[i].kind == Kind::spare;
            out_ += "\"" + members[i].name + "\",";
        }
        close(out_, "],\"additionalProperties\":false,");
    }

private:
    void value(const Node &node) {
        if (node.kind == Kind::element || node.kind == Kind::spare || node.kind == Kind::octets) return Leaf(node, is_exact_).add(out_);
        if (!node.title.empty()) add_text(out_, "title", node.title);
        if (node.kind == Kind::group) return object(node.members, node.members.size());
        if (node.kind == Kind::parts) return object(node.members, node.part_ends[0]);
        if (node.kind == Kind::compound) return object(node.members, 0);
        out_ += "\"type\":\"array\",";
        if (node.most != 0) out_ += "\"maxItems\":" + std::to_string(node.most) + ",";
        out_ += "\"items\":{";
        value(node.members[0]);
        close(out_, "},");
    }

    std::string &out_;
    bool is_exact_;
};

// Values by their paths. Those inside a repeated item have a pattern for the numbers of occurrences.
class Flat {
public:
    explicit Flat(bool is_exact) : is_exact_(is_exact) {}

    void value(const Node &node, const std::string &path, bool is_pattern, const std::string &title) {
        const std::string &own_title = node.title.empty() ? title : node.title;
        if (node.kind == Kind::element || node.kind == Kind::spare || node.kind == Kind::octets) {
            Node titled = node;
            titled.title = own_title;
            std::string leaf;
            Leaf(titled, is_exact_).add(leaf);
            return add(path, is_pattern, leaf);
        }
        if (node.kind == Kind::repeated) {
            add(path, is_pattern, "\"type\":\"array\",\"maxItems\":0");
            const std::string front = is_pattern ? path : escaped(path);
            return value(node.members[0], front + "\\\\[[0-9]+\\\\]", true, own_title);
        }
        if (node.kind == Kind::compound) add(path, is_pattern, "\"type\":\"object\",\"maxProperties\":0");
        bool has_spare = false;
        for (const Node &each : node.members) {
            if (each.kind == Kind::spare && has_spare) continue;
            has_spare = has_spare || each.kind == Kind::spare;
            value(each, path + "/" + each.name, is_pattern, own_title);
        }
    }

    std::string fixed, patterns;

private:
    // The paths' own characters have no meaning in a pattern.
    static std::string escaped(const std::string &path) { return path; }

    void add(const std::string &path, bool is_pattern, std::string schema) {
        if (!schema.empty() && schema.back() == ',') schema.pop_back();
        std::string &out = is_pattern ? patterns : fixed;
        out += is_pattern ? "\"^" + path + "$\":{" : "\"" + path + "\":{";
        out += schema + "},";
    }

    bool is_exact_;
};

// The members of a record before its items.
void add_head(std::string &out, const Category &category) {
    out += "\"block\":{\"type\":\"integer\",\"minimum\":0},\"record\":{\"type\":\"integer\",\"minimum\":0},\"category\":{\"const\":" +
           std::to_string(category.number) + "},\"edition\":{\"const\":";
    add_string(out, category.edition);
    out += "},";
}

void add_category(std::string &out, const Category &category, JsonForm form) {
    out += "{\"type\":\"object\",\"properties\":{";
    add_head(out, category);
    if (form.is_flat) {
        Flat flat(form.is_exact);
        for (const Node &item : category.items) flat.value(item, item.path, false, "");
        out += flat.fixed;
        close(out, "},\"patternProperties\":{");
        out += flat.patterns;
        close(out, "},\"required\":[\"block\",\"record\",\"category\",\"edition\"]");
    } else {
        out += "\"items\":{";
        Nested(out, form.is_exact).object(category.items, 0);
        close(out, "}},\"required\":[\"block\",\"record\",\"category\",\"edition\",\"items\"]");
    }
    out += ",\"additionalProperties\":false}";
}

constexpr char opaque_schema[] =
    "{\"type\":\"object\",\"properties\":{\"block\":{\"type\":\"integer\",\"minimum\":0},"
    "\"category\":{\"type\":\"integer\",\"minimum\":0,\"maximum\":255},\"opaque\":{\"type\":\"string\",\"pattern\":\"^([0-9a-f]{2})+$\"}},"
    "\"required\":[\"block\",\"category\",\"opaque\"],\"additionalProperties\":false}";

}  // namespace

std::string schema_of(const Categories &categories, JsonForm form) {
    std::string out = "{\"$schema\":\"https://json-schema.org/draft/2020-12/schema\",\"anyOf\":[";
    for (const auto &category : categories) {
        if (category == nullptr) continue;
        add_category(out, *category, form);
        out += ',';
    }
    out += opaque_schema;
    out += "]}\n";
    return out;
}

}  // namespace analysis
