// A file that gets its name only when it is whole: what was there before stays till then, and a run that ends early leaves nothing.
#pragma once

#include <limits.h>

#include <string>

namespace analysis {

class Unfinished {
public:
    // A new file beside `name`, for writing. Where `name` is there already and `forces` is false, this throws.
    Unfinished(const std::string &name, bool forces);
    // Takes the file away if finish() wasn't called.
    ~Unfinished();
    Unfinished(const Unfinished &) = delete;
    Unfinished &operator=(const Unfinished &) = delete;

    int file() const { return file_; }
    // Where the file is until it is finished.
    const char *path() const { return path_; }
    const std::string &name() const { return name_; }
    // Closes the file, and gives it its name.
    void finish();

private:
    static void on_signal(int number);
    void forget();

    // All that there are: a signal that ends the run takes their files away.
    static Unfinished *first_;
    Unfinished *next_ = nullptr;
    std::string name_;
    bool forces_;
    int file_ = -1;
    char path_[PATH_MAX];
};

// Throws if a file of this name is there and `forces` is false.
void keep_what_is_there(const std::string &name, bool forces);

}  // namespace analysis
