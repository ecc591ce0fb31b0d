// How a companion ends: a line on standard error, and the exit status of docs/ENDINGS.md.
#pragma once

#include <cerrno>
#include <cstring>
#include <string>

namespace analysis {

enum Status : int { all_well = 0, wrong_words = 1, bad_files = 2, refused = 3, outside_failed = 4, no_memory = 5 };

// Ends the program. `line` is written on standard error; an empty one stands for lines that were written before.
struct Failure {
    Status status;
    std::string line;
};

// A call of the system failed on something that has a name: "NAME: No such file or directory".
inline Failure system_failure(const std::string &name, int error = errno) {
    return {outside_failed, name + ": " + std::strerror(error)};
}

}  // namespace analysis
