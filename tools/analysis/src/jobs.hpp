// A recording's listing as JSON, by one run of the program or by several over pieces of the recording.
#pragma once

#include <string>

#include "json.hpp"
#include "program.hpp"

namespace analysis {

// Converts standard input to standard output, and passes on what the program says. The result is the program's exit status.
int convert(const std::string &program, const Files &files, JsonForm form);

// The same by so many jobs at a time. Standard input is a file.
int convert_in_jobs(const std::string &program, const Files &files, JsonForm form, unsigned jobs);

}  // namespace analysis
