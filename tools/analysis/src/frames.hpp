// Where data blocks begin and end, by LEN alone, and the faults of framing as the program names them.
#pragma once

#include <cstddef>
#include <cstdint>
#include <string>

namespace analysis {

constexpr std::size_t largest_block = 65535;

// What stands at the start of a block. A sound block has `length` octets; a fault has a cause and its bit.
struct Frame {
    std::size_t length = 0;
    const char *cause = nullptr;
    std::uint64_t bit = 0;
};

// Judges the frame at `octets`, of which `left` are there before the input ends (at most `largest_block` are looked at). `left` isn't 0.
inline Frame frame_at(const unsigned char *octets, std::size_t left) {
    Frame frame;
    if (left < 3) {
        frame.cause = "EndsInHeader";
        frame.bit = 8 * left;
        return frame;
    }
    frame.length = static_cast<std::size_t>(octets[1]) << 8 | octets[2];
    if (frame.length < 4) {
        frame.cause = "BadLen";
        frame.bit = 8;
    } else if (frame.length > left) {
        frame.cause = "EndsInBlock";
        frame.bit = 8 * left;
    }
    return frame;
}

// A fault of framing in a recording: the block's number, and its offset in octets from the start.
struct Fault {
    bool is_there = false;
    Frame frame;
    std::uint64_t block = 0;
    std::uint64_t offset = 0;

    // As the program tells it.
    std::string line() const {
        return "refused block " + std::to_string(block) + " bit " + std::to_string(frame.bit) + " " + frame.cause;
    }
};

}  // namespace analysis
