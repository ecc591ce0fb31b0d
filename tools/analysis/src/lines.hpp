// The lines of a pipe, without copying them.
#pragma once

#include <cstddef>
#include <cstring>
#include <string_view>
#include <vector>

namespace analysis {

class Lines {
public:
    // `waits(self)` is called before a read that would have to wait. The buffer's octets don't matter; it may serve one reader after another.
    Lines(int file, std::vector<char> &buffer, void (*waits)(void *), void *self) : file_(file), waits_(waits), self_(self), buffer_(buffer) {
        buffer_.resize(room);
    }

    // The next line without its line feed, which holds until the next call. False at the end; what has no line feed there is dropped.
    bool next(std::string_view &line) {
        const char *begin = buffer_.data() + at_;
        const void *feed = std::memchr(begin, '\n', end_ - at_);
        if (feed == nullptr) return fill(line);
        const std::size_t length = static_cast<std::size_t>(static_cast<const char *>(feed) - begin);
        line = std::string_view(begin, length);
        at_ += length + 1;
        return true;
    }

private:
    // The longest line is that of an opaque block, of about 131,100 octets.
    static constexpr std::size_t room = std::size_t{1} << 19;

    bool fill(std::string_view &line);

    int file_;
    void (*waits_)(void *);
    void *self_;
    std::vector<char> &buffer_;
    std::size_t at_ = 0, end_ = 0;
};

}  // namespace analysis
