// asterix-table: a recording as typed tables.
#include <unistd.h>

#include <cstdio>

#include "fail.hpp"
#include "program.hpp"
#include "table.hpp"
#include "words.hpp"

using namespace analysis;

namespace {

const char usage[] =
    "asterix-table SPEC... [--path PATH...] [--numbers] [--force] -o FILE < RECORDING\n"
    "Writes tables of the records: FILE.sqlite as one file, FILE.csv as FILE.048.csv and so on.\n"
    "      --path PATH  write what stands at this path or below it; several may follow\n"
    "      --numbers    write the numbers of the bits\n"
    "      --force      write over files that are there\n"
    "  -o FILE          write to FILE.sqlite, or to FILE.csv as a file a table\n"
    "      --help       write this\n";

struct Asked {
    std::vector<std::string> files;
    TableForm form;
    std::string output;
    bool forces = false;
};

bool ends_in(const std::string &name, const std::string &ending) {
    return name.size() > ending.size() && name.compare(name.size() - ending.size(), ending.size(), ending) == 0;
}

// All words behind --path up to the next option are paths.
void read_paths(Words &words, const std::string &option, std::vector<std::string> &paths) {
    paths.push_back(words.value_of(option));
    while (words.has_more() && !words.next_is_option())
        if (words.has_more()) paths.push_back(words.next());
}

Asked asked_by(Words &words) {
    Asked asked;
    while (words.has_more()) {
        if (!words.next_is_option()) {
            if (words.has_more()) asked.files.push_back(words.next());
            continue;
        }
        const std::string option = words.option();
        if (option == "--path") read_paths(words, option, asked.form.paths);
        else if (option == "--numbers") asked.form.has_numbers = true;
        else if (option == "--force") asked.forces = true;
        else if (option == "-o") asked.output = words.value_of(option);
        else throw Failure{wrong_words, option + ": there is no such option"};
    }
    if (asked.files.empty()) throw Failure{wrong_words, "which category files?"};
    if (asked.output.empty()) throw Failure{wrong_words, "-o names the file to be written"};
    if (!ends_in(asked.output, ".csv") && !ends_in(asked.output, ".sqlite"))
        throw Failure{wrong_words, "-o " + asked.output + ": the name has to end in .csv or .sqlite"};
    return asked;
}

int run(Words &words) {
    const Asked asked = asked_by(words);
    const Files files(asked.files);
    const std::string program = find_program();
    // A file with a flaw has no tables.
    if (const int status = judge(program, files)) return status;
    const Tables tables = tables_of(files.categories(), asked.form);
    const auto make = ends_in(asked.output, ".csv") ? csv_writer : sqlite_writer;
    const std::unique_ptr<Writer> writer = make(tables, asked.output, asked.forces);
    Run show(program, "show", files.names(), STDIN_FILENO);
    TableSink sink(tables, asked.form.has_numbers, *writer);
    std::vector<char> buffer;
    Listing listing(show.output(), buffer, files.categories(), sink, 0);
    listing.read();
    const int status = show.wait();
    // What stands before a fault of the recording is written; after any other end nothing is.
    const bool is_whole = status == all_well || status == refused;
    listing.finish(is_whole);
    if (is_whole)
        for (const std::string &name : writer->finish()) std::printf("%s\n", name.c_str());
    if (std::fflush(stdout) != 0) throw system_failure("standard output");
    pass_on(show.said());
    return status;
}

}  // namespace

int main(int count, char **words) { return run_companion("asterix-table", usage, count, words, run); }
