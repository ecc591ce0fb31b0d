#include "jobs.hpp"

#include <unistd.h>

#include <algorithm>
#include <charconv>
#include <thread>

#include "fail.hpp"
#include "pieces.hpp"

namespace analysis {

namespace {

// A piece that has to wait for its turn keeps up to so many octets, and then its run of the program waits too.
constexpr std::size_t most_kept = std::size_t{6} << 20;

class AtOnce final : public Delivery {
public:
    void take(std::string &text) override { write_out(text); }
};

class InTurn final : public Delivery {
public:
    InTurn(Turns &turns, std::uint64_t index) : turns_(turns), index_(index) {}
    void take(std::string &text) override {
        if (!turns_.is_turn_of(index_)) {
            if (text.size() < most_kept) return;
            turns_.wait_for(index_);
        }
        write_out(text);
    }

private:
    Turns &turns_;
    std::uint64_t index_;
};

// What the program says, with the number of the block in the whole recording.
std::string renumbered(std::string said, std::uint64_t first_block) {
    constexpr std::string_view front = "refused block ";
    std::size_t at = said.compare(0, front.size(), front) == 0 ? 0 : said.find("\nrefused block ");
    if (at != std::string::npos && first_block > 0) {
        at += front.size() + (at == 0 ? 0 : 1);
        std::uint64_t block = 0;
        const auto read = std::from_chars(said.data() + at, said.data() + said.size(), block);
        said.replace(at, static_cast<std::size_t>(read.ptr - said.data()) - at, std::to_string(block + first_block));
    }
    return said;
}

// What runs, on which files and to which form; and a buffer that serves one run after another.
class Converter {
public:
    Converter(const std::string &program, const Files &files, JsonForm form) : program_(program), files_(files), form_(form) {}

    // One run over a file. Lines are made in `text`, which is empty at first, and are the result as far as they weren't delivered.
    Result convert(int file, std::uint64_t first_block, Delivery &delivery, std::string text) {
        Run run(program_, "show", files_.names(), file);
        JsonSink sink(form_, delivery, text);
        Listing listing(run.output(), buffer_, files_.categories(), sink, first_block);
        listing.read();
        const int status = run.wait();
        listing.finish(status == all_well || status == refused);
        return {std::move(text), renumbered(run.said(), first_block), status};
    }

private:
    const std::string &program_;
    const Files &files_;
    JsonForm form_;
    std::vector<char> buffer_;
};

struct Job {
    Converter converter;
    Pieces &pieces;
    Turns &turns;

    void piece(const Piece &piece) {
        turns.begin(piece.index);
        InTurn delivery(turns, piece.index);
        turns.finish(piece.index, converter.convert(piece.file, piece.first_block, delivery, turns.spare_text()));
    }

    // Takes pieces until there are no more. A failure counts in its turn: what comes before it is written.
    void operator()() {
        Piece next;
        try {
            while (!turns.has_stopped() && pieces.next(next)) {
                try {
                    piece(next);
                } catch (const Failure &) {
                    turns.wait_for(next.index);
                    throw;
                }
                ::close(next.file);
            }
        } catch (const Turns::Stopped &) {
        } catch (...) {
            turns.fail(std::current_exception());
        }
    }
};

}  // namespace

int convert(const std::string &program, const Files &files, JsonForm form) {
    AtOnce delivery;
    Result result = Converter(program, files, form).convert(STDIN_FILENO, 0, delivery, {});
    write_out(result.text);
    pass_on(result.said);
    return result.status;
}

int convert_in_jobs(const std::string &program, const Files &files, JsonForm form, unsigned jobs) {
    Pieces pieces(STDIN_FILENO);
    // Where a piece takes longer than those behind it, these are kept until it is written.
    Turns turns(2 * std::uint64_t{jobs});
    const Job job{Converter(program, files, form), pieces, turns};
    std::vector<std::thread> threads;
    for (unsigned i = 0; i < jobs; ++i) threads.emplace_back(job);
    for (std::thread &thread : threads) thread.join();
    if (turns.failure()) std::rethrow_exception(turns.failure());
    return turns.status();
}

}  // namespace analysis
