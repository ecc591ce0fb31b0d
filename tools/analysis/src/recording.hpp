// A recording that can be read at any place, and a walk over the frames of its data blocks.
#pragma once

#include <algorithm>
#include <cstdint>
#include <string>
#include <vector>

#include "frames.hpp"
#include "octets.hpp"

namespace analysis {

// A file, or standard input as "-". What comes by a pipe is copied to a file without a name first, in $TMPDIR or /var/tmp.
class Recording {
public:
    explicit Recording(const std::string &name);
    ~Recording() { ::close(file_); }
    Recording(const Recording &) = delete;
    Recording &operator=(const Recording &) = delete;

    // Octets at an offset of the recording: fewer than `count` only at its end.
    std::size_t read(char *into, std::size_t count, std::uint64_t offset) const {
        return read_at(file_, into, count, static_cast<off_t>(begin_ + offset), name_);
    }
    std::uint64_t size() const { return size_; }

private:
    void spool();

    std::string name_;
    int file_ = -1;
    // Standard input may stand behind the file's first octet.
    std::uint64_t begin_ = 0;
    std::uint64_t size_ = 0;
};

// Calls take(offset, length, number) for each block before `end`. The result is the fault at which the walk ended, if there is one.
template <class Take>
Fault walk(const Recording &recording, std::uint64_t end, Take take) {
    constexpr std::size_t room = std::size_t{1} << 20;
    std::vector<char> buffer(room);
    Fault fault;
    std::uint64_t offset = 0, number = 0;
    while (offset < end) {
        const std::size_t there = recording.read(buffer.data(), static_cast<std::size_t>(std::min<std::uint64_t>(room, end - offset)), offset);
        const bool is_last = there < room;
        std::size_t at = 0;
        // A block that may go on behind the buffer is looked at again, at the buffer's start.
        while (at < there && (is_last || at + largest_block <= there)) {
            const Frame frame = frame_at(reinterpret_cast<const unsigned char *>(buffer.data()) + at, there - at);
            if (frame.cause != nullptr) return Fault{true, frame, number, offset + at};
            take(offset + at, frame.length, number++);
            at += frame.length;
        }
        offset += at;
        if (is_last) break;
    }
    return fault;
}

}  // namespace analysis
