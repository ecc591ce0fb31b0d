#include "lines.hpp"

#include <poll.h>
#include <unistd.h>

#include <cerrno>

#include "fail.hpp"

namespace analysis {

bool Lines::fill(std::string_view &line) {
    std::memmove(buffer_.data(), buffer_.data() + at_, end_ - at_);
    end_ -= at_;
    at_ = 0;
    const std::size_t had = end_;
    for (;;) {
        if (end_ == room) throw Failure{outside_failed, "a line of the listing is too long"};
        pollfd waiting{file_, POLLIN, 0};
        if (::poll(&waiting, 1, 0) == 0) waits_(self_);
        const ssize_t got = ::read(file_, buffer_.data() + end_, room - end_);
        if (got < 0 && errno == EINTR) continue;
        if (got < 0) throw system_failure("the listing");
        if (got == 0) return false;
        end_ += static_cast<std::size_t>(got);
        if (std::memchr(buffer_.data() + had, '\n', end_ - had) != nullptr) return next(line);
    }
}

}  // namespace analysis
