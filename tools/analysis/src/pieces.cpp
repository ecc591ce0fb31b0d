#include "pieces.hpp"

#include <unistd.h>

#include "frames.hpp"
#include "octets.hpp"
#include "program.hpp"

namespace analysis {

namespace {

// A piece has about so many octets. The JSON of a piece may have to be kept until its turn comes.
constexpr std::size_t piece_size = std::size_t{1} << 18;

}  // namespace

Pieces::Pieces(int file) : file_(file), buffer_(piece_size + largest_block), offset_(::lseek(file, 0, SEEK_CUR)) {}

// How many octets of the buffer are whole blocks, which are counted, or belong to a block with a fault of framing.
std::size_t Pieces::whole_blocks(std::size_t there, bool is_last) {
    std::size_t at = 0;
    while (at < there && (is_last || at < piece_size)) {
        const Frame frame = frame_at(reinterpret_cast<const unsigned char *>(buffer_.data()) + at, there - at);
        if (frame.cause != nullptr) {
            has_ended_ = true;
            return there;
        }
        at += frame.length;
        ++block_;
    }
    return at;
}

bool Pieces::next(Piece &piece) {
    const std::lock_guard<std::mutex> lock(mutex_);
    if (has_ended_) return false;
    const std::size_t there = read_at(file_, buffer_.data(), buffer_.size(), offset_, "standard input");
    const bool is_last = there < buffer_.size();
    if (there == 0 && index_ > 0) return false;
    piece.index = index_++;
    piece.first_block = block_;
    const std::size_t length = whole_blocks(there, is_last);
    has_ended_ = has_ended_ || is_last;
    offset_ += static_cast<off_t>(length);
    piece.file = memory_file();
    if (!write_fully(piece.file, buffer_.data(), length) || ::lseek(piece.file, 0, SEEK_SET) != 0)
        throw system_failure("memory for a piece of the recording");
    return true;
}

void write_out(std::string &text) {
    if (!write_fully(STDOUT_FILENO, text.data(), text.size())) throw system_failure("standard output");
    text.clear();
}

template <class Holds>
void Turns::wait(Holds holds) {
    std::unique_lock<std::mutex> lock(mutex_);
    changed_.wait(lock, [&] { return has_stopped_ || holds(); });
    if (has_stopped_) throw Stopped{};
}

void Turns::begin(std::uint64_t index) {
    wait([&] { return index < turn_ + most_; });
}

void Turns::wait_for(std::uint64_t index) {
    wait([&] { return turn_ == index; });
}

bool Turns::is_turn_of(std::uint64_t index) {
    const std::lock_guard<std::mutex> lock(mutex_);
    if (has_stopped_) throw Stopped{};
    return turn_ == index;
}

void Turns::write(Result &result) {
    write_out(result.text);
    pass_on(result.said);
    spare_.push_back(std::move(result.text));
    status_ = result.status;
    has_stopped_ = result.status != 0;
}

void Turns::finish(std::uint64_t index, Result result) {
    const std::lock_guard<std::mutex> lock(mutex_);
    finished_[index] = std::move(result);
    try {
        write_finished();
    } catch (...) {
        failure_ = std::current_exception();
        has_stopped_ = true;
    }
    changed_.notify_all();
}

void Turns::write_finished() {
    for (auto first = finished_.begin(); !has_stopped_ && first != finished_.end() && first->first == turn_; first = finished_.begin()) {
        write(first->second);
        finished_.erase(first);
        ++turn_;
    }
}

std::string Turns::spare_text() {
    const std::lock_guard<std::mutex> lock(mutex_);
    if (spare_.empty()) return {};
    std::string text = std::move(spare_.back());
    spare_.pop_back();
    return text;
}

void Turns::fail(std::exception_ptr failure) {
    const std::lock_guard<std::mutex> lock(mutex_);
    failure_ = failure;
    has_stopped_ = true;
    changed_.notify_all();
}

bool Turns::has_stopped() {
    const std::lock_guard<std::mutex> lock(mutex_);
    return has_stopped_;
}

}  // namespace analysis
