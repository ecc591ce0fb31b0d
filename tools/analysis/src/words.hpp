// The words after the name of a companion: options, and the words that aren't options.
#pragma once

#include <cstdint>
#include <string>
#include <string_view>
#include <vector>

namespace analysis {

// Reads the words one after another. Each wrong word throws Failure with status 1.
class Words {
public:
    Words(int count, char **words) : words_(words + 1, words + count) {}

    bool has_more() const { return at_ < words_.size(); }
    // The next word, whatever it is.
    const std::string &next() { return words_[at_++]; }
    // Whether the next word is an option: it begins with "-" and isn't "-" alone, and no "--" came before.
    bool next_is_option();
    // The value of an option: what follows "=", or the next word.
    std::string value_of(const std::string &option);
    // The value of an option as a number, from 1 to `most`.
    std::uint64_t number_of(const std::string &option, std::uint64_t most);

    // Splits "--octets=5" and "-n5" into the option and its value, which value_of gives then.
    std::string option();

private:
    std::vector<std::string> words_;
    std::size_t at_ = 0;
    bool only_words_ = false;
    bool has_joined_ = false;
    std::string joined_;
};

// Runs a companion: prints its usage for --help, and the line of a failure. The result is the exit status.
int run_companion(const char *name, const char *usage, int count, char **words, int (*run)(Words &));

}  // namespace analysis
