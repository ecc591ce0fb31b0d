// JSON Schema of what asterix-json writes of a category.
#pragma once

#include <string>

#include "json.hpp"

namespace analysis {

// The schema of the records of each category that is given, and of opaque blocks, as one line.
std::string schema_of(const Categories &categories, JsonForm form);

}  // namespace analysis
