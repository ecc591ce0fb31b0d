// asterix-cut: pieces of a recording, each of whole data blocks.
#include <cstdio>
#include <string>
#include <vector>

#include "recording.hpp"
#include "unfinished.hpp"
#include "wide.hpp"
#include "words.hpp"

using namespace analysis;

namespace {

const char usage[] =
    "asterix-cut RECORDING -n K [--list] [--force]\n"
    "asterix-cut RECORDING --octets N [--list] [--force]\n"
    "Writes pieces of whole data blocks in the current folder, RECORDING.000.ast and so on, and prints their names.\n"
    "RECORDING - is standard input.\n"
    "  -n K            make so many pieces, of about as many octets each\n"
    "      --octets N  make pieces of at most so many octets\n"
    "      --list      write no pieces, but the offset, the octets and the first block of each\n"
    "      --force     write over files that are there\n"
    "      --help      write this\n";

struct Asked {
    std::string recording;
    std::uint64_t pieces = 0;
    std::uint64_t octets = 0;
    bool lists = false;
    bool forces = false;
};

struct Piece {
    std::uint64_t offset, length, first_block;
};

struct Plan {
    std::vector<Piece> pieces;
    Fault fault;
};

Asked asked_by(Words &words) {
    constexpr std::uint64_t most_pieces = 1000000;
    Asked asked;
    while (words.has_more()) {
        if (!words.next_is_option()) {
            if (!words.has_more()) break;
            const std::string word = words.next();
            if (!asked.recording.empty()) throw Failure{wrong_words, word + ": one recording at a time"};
            asked.recording = word;
            continue;
        }
        const std::string option = words.option();
        if (option == "-n") asked.pieces = words.number_of(option, most_pieces);
        else if (option == "--octets") asked.octets = words.number_of(option, std::uint64_t{1} << 62);
        else if (option == "--list") asked.lists = true;
        else if (option == "--force") asked.forces = true;
        else throw Failure{wrong_words, option + ": there is no such option"};
    }
    if (asked.recording.empty()) throw Failure{wrong_words, "which recording? (- is standard input)"};
    if ((asked.pieces == 0) == (asked.octets == 0)) throw Failure{wrong_words, "one of -n and --octets is needed"};
    return asked;
}

// Adds a block to the last piece, or to a new one.
void add(std::vector<Piece> &pieces, bool is_new, std::uint64_t offset, std::size_t length, std::uint64_t number) {
    if (is_new) pieces.push_back({offset, 0, number});
    pieces.back().length += length;
}

// Pieces of at most so many octets; a block that is longer is a piece by itself.
Plan plan_by_octets(const Recording &recording, std::uint64_t most) {
    Plan plan;
    plan.fault = walk(recording, recording.size(), [&](std::uint64_t offset, std::size_t length, std::uint64_t number) {
        add(plan.pieces, plan.pieces.empty() || plan.pieces.back().length + length > most, offset, length, number);
    });
    return plan;
}

// `count` pieces, or one for each block where there are fewer. A piece ends at the first end of a block at or behind its equal share,
// and earlier where each piece after it would lack a block.
Plan plan_by_count(const Recording &recording, std::uint64_t count) {
    Plan plan;
    std::uint64_t blocks = 0;
    plan.fault = walk(recording, recording.size(), [&](std::uint64_t, std::size_t, std::uint64_t) { ++blocks; });
    const std::uint64_t end = plan.fault.is_there ? plan.fault.offset : recording.size();
    walk(recording, end, [&](std::uint64_t offset, std::size_t length, std::uint64_t number) {
        const std::uint64_t begun = plan.pieces.size();
        const bool has_share = Wide{offset} * count >= Wide{end} * begun;
        add(plan.pieces, begun < count && (has_share || blocks - number <= count - begun), offset, length, number);
    });
    return plan;
}

// RECORDING.000.ast: the recording's own name without its folder and an ending ".ast".
std::vector<std::string> names_of(const Asked &asked, std::size_t count) {
    std::string base = asked.recording == "-" ? "recording" : asked.recording.substr(asked.recording.rfind('/') + 1);
    if (base.size() > 4 && base.compare(base.size() - 4, 4, ".ast") == 0) base.resize(base.size() - 4);
    const int digits = std::max<int>(3, static_cast<int>(std::to_string(count == 0 ? 0 : count - 1).size()));
    std::vector<std::string> names;
    for (std::size_t i = 0; i < count; ++i) {
        const std::string number = std::to_string(i);
        names.push_back(base + "." + std::string(static_cast<std::size_t>(digits) - number.size(), '0') + number + ".ast");
    }
    return names;
}

// Writes a piece, which gets its name when it is whole.
void write_piece(const Recording &recording, const Piece &piece, const std::string &name, bool forces, std::vector<char> &buffer) {
    Unfinished file(name, forces);
    std::uint64_t done = 0;
    while (done < piece.length) {
        const std::size_t wanted = static_cast<std::size_t>(std::min<std::uint64_t>(buffer.size(), piece.length - done));
        const std::size_t got = recording.read(buffer.data(), wanted, piece.offset + done);
        if (got < wanted) throw Failure{outside_failed, "the recording has become shorter"};
        if (!write_fully(file.file(), buffer.data(), got)) throw system_failure(name);
        done += got;
    }
    file.finish();
}

// All names are looked at before the first piece is written.
void write_pieces(const Recording &recording, const Asked &asked, const Plan &plan) {
    const std::vector<std::string> names = names_of(asked, plan.pieces.size());
    for (const std::string &name : names) keep_what_is_there(name, asked.forces);
    std::vector<char> buffer(std::size_t{1} << 20);
    for (std::size_t i = 0; i < names.size(); ++i) {
        write_piece(recording, plan.pieces[i], names[i], asked.forces, buffer);
        std::printf("%s\n", names[i].c_str());
    }
}

void list(const Plan &plan) {
    for (const Piece &piece : plan.pieces)
        std::printf("%llu %llu %llu\n", static_cast<unsigned long long>(piece.offset), static_cast<unsigned long long>(piece.length),
                    static_cast<unsigned long long>(piece.first_block));
}

// What a user might not expect of a run that did all it could.
void tell(const Asked &asked, const Plan &plan) {
    if (plan.pieces.empty() && !plan.fault.is_there) std::fputs("asterix-cut: the recording is empty: there is no piece\n", stderr);
    else if (plan.pieces.size() < asked.pieces)
        std::fprintf(stderr, "asterix-cut: %zu blocks: %zu pieces, not %llu\n", plan.pieces.size(), plan.pieces.size(),
                     static_cast<unsigned long long>(asked.pieces));
    if (plan.fault.is_there)
        std::fprintf(stderr, "%s\n  | block %llu begins at octet %llu of the recording; the pieces have the blocks before it\n",
                     plan.fault.line().c_str(), static_cast<unsigned long long>(plan.fault.block),
                     static_cast<unsigned long long>(plan.fault.offset));
}

int run(Words &words) {
    const Asked asked = asked_by(words);
    const Recording recording(asked.recording);
    const Plan plan = asked.pieces > 0 ? plan_by_count(recording, asked.pieces) : plan_by_octets(recording, asked.octets);
    if (asked.lists) list(plan);
    else write_pieces(recording, asked, plan);
    if (std::fflush(stdout) != 0) throw system_failure("standard output");
    tell(asked, plan);
    return plan.fault.is_there ? refused : all_well;
}

}  // namespace

int main(int count, char **words) { return run_companion("asterix-cut", usage, count, words, run); }
