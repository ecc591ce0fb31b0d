#include "recording.hpp"

#include <fcntl.h>
#include <sys/stat.h>

#include <cstdlib>

namespace analysis {

Recording::Recording(const std::string &name) : name_(name == "-" ? "standard input" : name) {
    file_ = name == "-" ? ::dup(STDIN_FILENO) : ::open(name.c_str(), O_RDONLY | O_CLOEXEC);
    if (file_ < 0) throw system_failure(name_);
    struct stat about;
    if (::fstat(file_, &about) != 0) throw system_failure(name_);
    if (S_ISDIR(about.st_mode)) throw Failure{outside_failed, name_ + ": this is a folder"};
    if (!S_ISREG(about.st_mode)) {
        spool();
        return;
    }
    if (name == "-") begin_ = static_cast<std::uint64_t>(::lseek(file_, 0, SEEK_CUR));
    const std::uint64_t whole = static_cast<std::uint64_t>(about.st_size);
    size_ = whole > begin_ ? whole - begin_ : 0;
}

void Recording::spool() {
    const char *folder = std::getenv("TMPDIR");
    std::string path = std::string(folder != nullptr && *folder != 0 ? folder : "/var/tmp") + "/asterix-cut-XXXXXX";
    const int copy = ::mkstemp(path.data());
    if (copy < 0) throw system_failure(path);
    ::unlink(path.c_str());
    std::vector<char> buffer(std::size_t{1} << 20);
    for (;;) {
        const std::size_t got = read_fully(file_, buffer.data(), buffer.size(), name_);
        if (!write_fully(copy, buffer.data(), got)) throw system_failure(path);
        size_ += got;
        if (got < buffer.size()) break;
    }
    ::close(file_);
    file_ = copy;
}

}  // namespace analysis
