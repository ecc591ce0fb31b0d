// A recording in pieces of whole data blocks, for several jobs, and the order in which their results are written.
#pragma once

#include <sys/types.h>

#include <condition_variable>
#include <cstdint>
#include <exception>
#include <map>
#include <mutex>
#include <string>
#include <vector>

namespace analysis {

struct Piece {
    std::uint64_t index = 0;
    std::uint64_t first_block = 0;
    // A file in memory with the octets of the piece, which whoever has the piece closes.
    int file = -1;
};

// Hands out the pieces of standard input, a file, in their order. Behind a fault of framing there is none: the piece of the fault has as
// many octets as the program needs to name it. Of an empty recording there is one piece, without an octet.
class Pieces {
public:
    explicit Pieces(int file);
    // The next piece; false if there is none.
    bool next(Piece &piece);

private:
    std::size_t whole_blocks(std::size_t there, bool is_last);

    std::mutex mutex_;
    int file_;
    std::vector<char> buffer_;
    off_t offset_;
    std::uint64_t index_ = 0, block_ = 0;
    bool has_ended_ = false;
};

// What a piece ends with: what is left to be written on standard output and on standard error, and the program's status.
struct Result {
    std::string text;
    std::string said;
    int status = 0;
};

// The turns of the pieces: results are written in their order. Whose turn it is may write by itself before it finishes.
class Turns {
public:
    // Thrown where the run has ended at an earlier piece.
    struct Stopped {};

    // At most `most` pieces are begun and not yet written.
    explicit Turns(std::uint64_t most) : most_(most) {}

    // Waits until there is room for the results of this piece.
    void begin(std::uint64_t index);
    bool is_turn_of(std::uint64_t index);
    void wait_for(std::uint64_t index);
    // Writes the result when its turn comes. After a status other than 0 nothing more is written.
    void finish(std::uint64_t index, Result result);
    void fail(std::exception_ptr failure);
    // An empty text, whose memory served before.
    std::string spare_text();

    bool has_stopped();
    int status() const { return status_; }
    std::exception_ptr failure() const { return failure_; }

private:
    void write_finished();
    void write(Result &result);
    template <class Holds>
    void wait(Holds holds);

    std::mutex mutex_;
    std::condition_variable changed_;
    std::uint64_t most_;
    std::uint64_t turn_ = 0;
    std::map<std::uint64_t, Result> finished_;
    std::vector<std::string> spare_;
    bool has_stopped_ = false;
    int status_ = 0;
    std::exception_ptr failure_;
};

// Writes a text on standard output, and empties it.
void write_out(std::string &text);

}  // namespace analysis
