#include "unfinished.hpp"

#include <fcntl.h>
#include <sys/stat.h>
#include <unistd.h>

#include <csignal>
#include <cstdio>

#include "fail.hpp"

namespace analysis {

namespace {

constexpr int ending_signals[] = {SIGINT, SIGTERM, SIGHUP};

// While the list of files changes no signal is taken.
class Quiet {
public:
    Quiet() {
        sigset_t blocked;
        sigemptyset(&blocked);
        for (const int number : ending_signals) sigaddset(&blocked, number);
        ::sigprocmask(SIG_BLOCK, &blocked, &before_);
    }
    ~Quiet() { ::sigprocmask(SIG_SETMASK, &before_, nullptr); }

private:
    sigset_t before_;
};

}  // namespace

Unfinished *Unfinished::first_ = nullptr;

void keep_what_is_there(const std::string &name, bool forces) {
    struct stat about;
    if (!forces && ::lstat(name.c_str(), &about) == 0)
        throw Failure{outside_failed, name + " is there already, and nothing was written; --force replaces it"};
}

void Unfinished::on_signal(int number) {
    for (const Unfinished *each = first_; each != nullptr; each = each->next_) ::unlink(each->path_);
    std::signal(number, SIG_DFL);
    std::raise(number);
}

Unfinished::Unfinished(const std::string &name, bool forces) : name_(name), forces_(forces) {
    keep_what_is_there(name, forces);
    const std::size_t folder = name.rfind('/') + 1;
    const std::string path = name.substr(0, folder) + "." + name.substr(folder) + "." + std::to_string(::getpid());
    if (path.size() >= sizeof path_) throw Failure{outside_failed, name + ": the name is too long"};
    path_[path.copy(path_, path.size())] = 0;
    const Quiet quiet;
    for (const int number : ending_signals) std::signal(number, on_signal);
    file_ = ::open(path_, O_RDWR | O_CREAT | O_EXCL | O_CLOEXEC, 0666);
    if (file_ < 0) throw system_failure(name);
    next_ = first_;
    first_ = this;
}

void Unfinished::forget() {
    Unfinished **place = &first_;
    while (*place != this) place = &(*place)->next_;
    *place = next_;
}

Unfinished::~Unfinished() {
    const Quiet quiet;
    if (file_ < 0) return;
    ::unlink(path_);
    ::close(file_);
    forget();
}

void Unfinished::finish() {
    const Quiet quiet;
    const int closed = ::close(file_);
    file_ = -1;
    forget();
    if (closed == 0 && ::renameat2(AT_FDCWD, path_, AT_FDCWD, name_.c_str(), forces_ ? 0 : RENAME_NOREPLACE) == 0) return;
    const int error = errno;
    ::unlink(path_);
    throw system_failure(name_, error);
}

}  // namespace analysis
