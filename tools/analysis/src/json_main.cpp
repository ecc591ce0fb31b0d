// asterix-json: a recording as lines of JSON.
#include <sys/stat.h>
#include <unistd.h>

#include <cstdio>

#include "jobs.hpp"
#include "octets.hpp"
#include "schema.hpp"
#include "words.hpp"

using namespace analysis;

namespace {

const char usage[] =
    "asterix-json [--exact] [--flat] [--jobs K] SPEC... < RECORDING\n"
    "asterix-json --schema [--exact] [--flat] SPEC...\n"
    "Writes a line of JSON for each record, or a JSON Schema of them.\n"
    "      --exact   write the number of the bits of each element, and what it means exactly\n"
    "      --flat    write the values of a record under their paths\n"
    "      --jobs K  read a recording with so many processors\n"
    "      --schema  write a JSON Schema of the category files, and read no recording\n"
    "      --help    write this\n";

struct Asked {
    std::vector<std::string> files;
    JsonForm form;
    unsigned jobs = 1;
    bool wants_schema = false;
};

Asked asked_by(Words &words) {
    constexpr std::uint64_t most_jobs = 256;
    Asked asked;
    while (words.has_more()) {
        if (!words.next_is_option()) {
            if (words.has_more()) asked.files.push_back(words.next());
            continue;
        }
        const std::string option = words.option();
        if (option == "--exact") asked.form.is_exact = true;
        else if (option == "--flat") asked.form.is_flat = true;
        else if (option == "--schema") asked.wants_schema = true;
        else if (option == "--jobs") asked.jobs = static_cast<unsigned>(words.number_of(option, most_jobs));
        else throw Failure{wrong_words, option + ": there is no such option"};
    }
    if (asked.files.empty()) throw Failure{wrong_words, "which category files?"};
    return asked;
}

bool is_file(int file) {
    struct stat about;
    return ::fstat(file, &about) == 0 && S_ISREG(about.st_mode);
}

int run(Words &words) {
    const Asked asked = asked_by(words);
    const Files files(asked.files);
    const std::string program = find_program();
    if (asked.wants_schema || !files.is_readable()) {
        const int status = judge(program, files);
        if (status != all_well) return status;
        const std::string schema = schema_of(files.categories(), asked.form);
        if (!write_fully(STDOUT_FILENO, schema.data(), schema.size())) throw system_failure("standard output");
        return all_well;
    }
    if (asked.jobs > 1 && is_file(STDIN_FILENO)) return convert_in_jobs(program, files, asked.form, asked.jobs);
    if (asked.jobs > 1) std::fputs("asterix-json: standard input is no file: it is read by one job\n", stderr);
    return convert(program, files, asked.form);
}

}  // namespace

int main(int count, char **words) { return run_companion("asterix-json", usage, count, words, run); }
