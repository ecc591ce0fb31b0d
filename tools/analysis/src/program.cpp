#include "program.hpp"

#include <fcntl.h>
#include <limits.h>
#include <sys/mman.h>
#include <sys/prctl.h>
#include <sys/stat.h>
#include <sys/wait.h>
#include <unistd.h>

#include <csignal>
#include <cstdlib>

#include "fail.hpp"
#include "octets.hpp"

namespace analysis {

namespace {

bool is_program(const std::string &path) {
    struct stat about;
    return ::stat(path.c_str(), &about) == 0 && S_ISREG(about.st_mode) && ::access(path.c_str(), X_OK) == 0;
}

std::string own_folder() {
    char path[PATH_MAX];
    const ssize_t length = ::readlink("/proc/self/exe", path, sizeof path);
    const std::string own(path, length > 0 ? static_cast<std::size_t>(length) : 0);
    return own.substr(0, own.rfind('/'));
}

std::string on_the_path() {
    const char *given = std::getenv("PATH");
    std::string_view path = given != nullptr ? given : "/usr/local/bin:/usr/bin:/bin";
    while (!path.empty()) {
        const std::size_t end = std::min(path.find(':'), path.size());
        const std::string candidate = std::string(path.substr(0, end)) + "/asterix";
        if (end > 0 && is_program(candidate)) return candidate;
        path.remove_prefix(std::min(end + 1, path.size()));
    }
    throw Failure{outside_failed, "the program asterix is neither beside this one nor on the PATH; $ASTERIX may name it"};
}

// The file of a clone builds the program where that isn't built. Then it isn't needed for each run: it looks at all sources each time.
std::string built_by(const std::string &top) {
    const int nothing = ::open("/dev/null", O_RDONLY | O_CLOEXEC);
    Run version(top + "/asterix", "--version", {}, nothing, false);
    ::close(nothing);
    char some[256];
    while (read_fully(version.output(), some, sizeof some, "asterix") > 0) {
    }
    if (version.wait() != 0) throw Failure{outside_failed, "the program asterix isn't built"};
    return top + "/crates/asterix/out/asterix";
}

// What the child does before it becomes the program. It has its parent's memory until then, and changes nothing in it.
[[noreturn]] void become(const std::vector<char *> &words, int input, int output, int said, pid_t parent) {
    ::prctl(PR_SET_PDEATHSIG, SIGKILL);
    if (::getppid() != parent) ::_exit(127);
    std::signal(SIGPIPE, SIG_DFL);
    if (::dup2(input, 0) >= 0 && ::dup2(output, 1) >= 0 && ::dup2(said, 2) >= 0) ::execv(words[0], words.data());
    ::_exit(127);
}

}  // namespace

std::string find_program() {
    const char *given = std::getenv("ASTERIX");
    if (given != nullptr && *given != 0) return given;
    const std::string folder = own_folder();
    if (is_program(folder + "/asterix")) return folder + "/asterix";
    // A clone: tools/analysis/out is three folders below its top.
    const std::string top = folder + "/../../..";
    if (is_program(top + "/asterix") && is_program(top + "/tools/analysis/launch")) return built_by(top);
    return on_the_path();
}

int memory_file() {
    const int file = ::memfd_create("asterix", MFD_CLOEXEC);
    if (file < 0) throw system_failure("memory for a file");
    return file;
}

Files::Files(const std::vector<std::string> &names) {
    for (const std::string &name : names) load(name);
}

Files::~Files() {
    for (const int file : kept_) ::close(file);
}

void Files::load(const std::string &name) {
    // One octet more than the program takes.
    constexpr std::size_t most = (std::size_t{1} << 20) + 1;
    const int file = ::open(name.c_str(), O_RDONLY | O_CLOEXEC);
    struct stat about;
    const bool is_file = file >= 0 && ::fstat(file, &about) == 0;
    names_.push_back(name);
    if (!is_file || S_ISDIR(about.st_mode)) {
        if (file >= 0) ::close(file);
        is_readable_ = false;
        return;
    }
    std::string text(most, '\0');
    text.resize(read_fully(file, text.data(), most, name));
    ::close(file);
    if (!S_ISREG(about.st_mode)) {
        const int kept = memory_file();
        kept_.push_back(kept);
        // The program inherits it, and opens it again.
        if (::fcntl(kept, F_SETFD, 0) != 0 || !write_fully(kept, text.data(), text.size())) throw system_failure(name);
        names_.back() = "/proc/self/fd/" + std::to_string(kept);
    }
    try {
        std::unique_ptr<Category> category = category_of(text);
        const unsigned number = category->number;
        categories_[number] = std::move(category);
    } catch (const Unreadable &) {
        is_readable_ = false;
    }
}

Run::Run(const std::string &program, const char *command, const std::vector<std::string> &files, int input, bool keeps_said) {
    std::vector<std::string> words{program, command};
    words.insert(words.end(), files.begin(), files.end());
    std::vector<char *> pointers;
    for (std::string &word : words) pointers.push_back(word.data());
    pointers.push_back(nullptr);
    int ends[2];
    if (::pipe2(ends, O_CLOEXEC) != 0) throw system_failure("a pipe");
    output_ = ends[0];
    // More room in the pipe lets the two go on for longer before they wait for each other; the default does too.
    ::fcntl(output_, F_SETPIPE_SZ, 1 << 20);
    if (keeps_said) said_ = memory_file();
    const pid_t parent = ::getpid();
    // Unlike fork(), this leaves the memory of this process and its threads as it is, page by page: nothing has to be copied again.
    child_ = ::vfork();
    if (child_ == 0) become(pointers, input, ends[1], keeps_said ? said_ : STDERR_FILENO, parent);
    const int error = errno;
    ::close(ends[1]);
    if (child_ < 0) throw system_failure(program, error);
}

Run::~Run() {
    if (child_ > 0) {
        ::kill(child_, SIGKILL);
        while (::waitpid(child_, nullptr, 0) < 0 && errno == EINTR) {
        }
    }
    if (output_ >= 0) ::close(output_);
    if (said_ >= 0) ::close(said_);
}

int Run::wait() {
    int ended = 0;
    while (::waitpid(child_, &ended, 0) < 0)
        if (errno != EINTR) throw system_failure("asterix");
    child_ = -1;
    if (!WIFEXITED(ended)) throw Failure{outside_failed, "asterix was ended by signal " + std::to_string(WTERMSIG(ended))};
    if (WEXITSTATUS(ended) == 127) throw Failure{outside_failed, "asterix can't be run"};
    return WEXITSTATUS(ended);
}

std::string Run::said() const {
    std::string text;
    char some[4096];
    off_t at = 0;
    for (;;) {
        const std::size_t got = read_at(said_, some, sizeof some, at, "standard error");
        text.append(some, got);
        at += static_cast<off_t>(got);
        if (got < sizeof some) return text;
    }
}

void pass_on(const std::string &said) { write_fully(STDERR_FILENO, said.data(), said.size()); }

int judge(const std::string &program, const Files &files) {
    const int nothing = ::open("/dev/null", O_RDONLY | O_CLOEXEC);
    Run run(program, "show", files.names(), nothing);
    ::close(nothing);
    const int status = run.wait();
    pass_on(run.said());
    if (status == all_well && !files.is_readable()) throw Failure{outside_failed, "a category file can't be read"};
    return status;
}

}  // namespace analysis
