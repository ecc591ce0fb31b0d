// Reading and writing whole strings of octets by file descriptors.
#pragma once

#include <unistd.h>

#include <cerrno>
#include <cstddef>
#include <string>

#include "fail.hpp"

namespace analysis {

// Up to `count` octets: fewer only where the input ends. A read that fails throws.
inline std::size_t read_fully(int file, char *into, std::size_t count, const std::string &name) {
    std::size_t done = 0;
    while (done < count) {
        const ssize_t got = ::read(file, into + done, count - done);
        if (got < 0 && errno == EINTR) continue;
        if (got < 0) throw system_failure(name);
        if (got == 0) break;
        done += static_cast<std::size_t>(got);
    }
    return done;
}

// The same at a place of a file that can be read anywhere; where the file stands isn't changed.
inline std::size_t read_at(int file, char *into, std::size_t count, off_t at, const std::string &name) {
    std::size_t done = 0;
    while (done < count) {
        const ssize_t got = ::pread(file, into + done, count - done, at + static_cast<off_t>(done));
        if (got < 0 && errno == EINTR) continue;
        if (got < 0) throw system_failure(name);
        if (got == 0) break;
        done += static_cast<std::size_t>(got);
    }
    return done;
}

// Whether all octets were written; errno says why not.
inline bool write_fully(int file, const char *from, std::size_t count) {
    while (count > 0) {
        const ssize_t put = ::write(file, from, count);
        if (put < 0 && errno == EINTR) continue;
        if (put < 0) return false;
        from += put;
        count -= static_cast<std::size_t>(put);
    }
    return true;
}

}  // namespace analysis
