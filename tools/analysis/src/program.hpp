// The program `asterix`: where it is, and a run of it as a child.
#pragma once

#include <sys/types.h>

#include <string>
#include <vector>

#include "category.hpp"

namespace analysis {

// $ASTERIX, or else `asterix` beside this companion, in the clone of which this is a part, or on the PATH.
std::string find_program();

// Category files as they are given to the program. A file that can be read only once, such as a pipe, is kept for all runs.
class Files {
public:
    explicit Files(const std::vector<std::string> &names);
    ~Files();
    Files(const Files &) = delete;
    Files &operator=(const Files &) = delete;

    const std::vector<std::string> &names() const { return names_; }
    // By category. Where a file can't be read here, `is_readable` is false: the program says why.
    const Categories &categories() const { return categories_; }
    bool is_readable() const { return is_readable_; }

private:
    void load(const std::string &name);

    std::vector<std::string> names_;
    std::vector<int> kept_;
    Categories categories_;
    bool is_readable_ = true;
};

// A file without a name, in memory.
int memory_file();

// A run of the program. If this object goes before the run has ended, the run is ended.
class Run {
public:
    // `input` is the child's standard input. Its standard error is kept for said(), or is this companion's own.
    Run(const std::string &program, const char *command, const std::vector<std::string> &files, int input, bool keeps_said = true);
    ~Run();
    Run(const Run &) = delete;
    Run &operator=(const Run &) = delete;

    // What it writes on standard output.
    int output() const { return output_; }
    // Waits for the end. The exit status; a run that a signal ended throws.
    int wait();
    // What it wrote on standard error, after wait().
    std::string said() const;

private:
    pid_t child_ = -1;
    int output_ = -1;
    int said_ = -1;
};

// Writes what the program said on standard error.
void pass_on(const std::string &said);

// The program judges the files, with an empty input, and what it says is passed on. The result is its status.
int judge(const std::string &program, const Files &files);

}  // namespace analysis
