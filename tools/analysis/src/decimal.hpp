// Fractions as the nearest doubles.
#pragma once

#include <cstdint>
#include <string_view>

#include "wide.hpp"

namespace analysis {

// A fraction as the listing has it, and what stands behind it.
struct Fraction {
    bool is_negative = false;
    Wide numerator = 0;
    std::uint64_t denominator = 1;
    // The digits as they stand, with the sign.
    std::string_view numerator_text, denominator_text;
};

// Reads N/D. False if the text doesn't begin so.
bool read_fraction(std::string_view text, Fraction &fraction);

// The double nearest to the fraction; of two that are equally near, the one whose last bit is 0.
double nearest(const Fraction &fraction);

}  // namespace analysis
