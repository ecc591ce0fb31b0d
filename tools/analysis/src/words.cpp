#include "words.hpp"

#include <charconv>
#include <csignal>
#include <cstdio>
#include <new>

#include "fail.hpp"

namespace analysis {

bool Words::next_is_option() {
    if (!only_words_ && has_more() && words_[at_] == "--") {
        only_words_ = true;
        ++at_;
    }
    return !only_words_ && has_more() && words_[at_].size() > 1 && words_[at_][0] == '-';
}

std::string Words::option() {
    std::string word = next();
    const std::size_t equals = word.find('=');
    has_joined_ = true;
    if (word[1] != '-' && word.size() > 2) {
        joined_ = word.substr(2);
        return word.substr(0, 2);
    }
    if (equals != std::string::npos) {
        joined_ = word.substr(equals + 1);
        return word.substr(0, equals);
    }
    has_joined_ = false;
    return word;
}

std::string Words::value_of(const std::string &option) {
    if (has_joined_) {
        has_joined_ = false;
        return joined_;
    }
    if (!has_more()) throw Failure{wrong_words, option + " needs a value"};
    return next();
}

std::uint64_t Words::number_of(const std::string &option, std::uint64_t most) {
    const std::string value = value_of(option);
    std::uint64_t number = 0;
    const char *end = value.data() + value.size();
    const auto read = std::from_chars(value.data(), end, number);
    if (read.ec != std::errc() || read.ptr != end || number == 0 || number > most)
        throw Failure{wrong_words, option + " " + value + ": a whole number from 1 to " + std::to_string(most) + " is needed"};
    return number;
}

int run_companion(const char *name, const char *usage, int count, char **words, int (*run)(Words &)) {
    // A pipe that is closed shows as a write that fails.
    std::signal(SIGPIPE, SIG_IGN);
    for (int i = 1; i < count; ++i) {
        const std::string_view word = words[i];
        if (word == "--") break;
        if (word != "--help" && word != "-h") continue;
        std::fputs(usage, stdout);
        return std::fflush(stdout) == 0 ? all_well : outside_failed;
    }
    try {
        Words given(count, words);
        return run(given);
    } catch (const Failure &failure) {
        if (!failure.line.empty()) std::fprintf(stderr, "%s: %s\n", name, failure.line.c_str());
        if (failure.status == wrong_words) std::fputs(usage, stderr);
        return failure.status;
    } catch (const std::bad_alloc &) {
        std::fprintf(stderr, "%s: there is no memory left\n", name);
        return no_memory;
    }
}

}  // namespace analysis
