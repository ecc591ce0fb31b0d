#include "decimal.hpp"

#include <cmath>

namespace analysis {

namespace {

constexpr std::uint64_t exact_below = std::uint64_t{1} << 53;

int bits_of(Wide number) {
    const std::uint64_t high = static_cast<std::uint64_t>(number >> 64), low = static_cast<std::uint64_t>(number);
    return high != 0 ? 128 - __builtin_clzll(high) : low != 0 ? 64 - __builtin_clzll(low) : 0;
}

// A quotient of at least 55 bits, and whether something is left, decide how it is rounded to 53 bits. No value is too small or too large
// for a double: the numerator is below 2^124, and the denominator below 2^60.
double divided(Wide numerator, std::uint64_t denominator) {
    int shift = 55 + bits_of(denominator) - bits_of(numerator);
    if (shift < 0) shift = 0;
    const Wide scaled = numerator << shift;
    Wide quotient = scaled / denominator;
    const bool has_rest = scaled % denominator != 0;
    const int dropped = bits_of(quotient) - 53;
    const Wide half = Wide{1} << (dropped - 1), rest = quotient & ((half << 1) - 1);
    quotient >>= dropped;
    if (rest > half || (rest == half && (has_rest || (quotient & 1) != 0))) ++quotient;
    return std::ldexp(static_cast<double>(static_cast<std::uint64_t>(quotient)), dropped - shift);
}

// The digits at the front of a text, as a number; what is left of the text is behind them. At most 38 digits are read.
std::size_t read_digits(std::string_view text, Wide &number) {
    std::size_t at = 0;
    std::uint64_t small = 0;
    const auto is_digit = [&] { return at < text.size() && text[at] >= '0' && text[at] <= '9'; };
    for (; at < 18 && is_digit(); ++at) small = small * 10 + static_cast<unsigned>(text[at] - '0');
    number = small;
    for (; at < 38 && is_digit(); ++at) number = number * 10 + static_cast<unsigned>(text[at] - '0');
    return at;
}

}  // namespace

bool read_fraction(std::string_view text, Fraction &fraction) {
    fraction.is_negative = !text.empty() && text[0] == '-';
    const std::size_t sign = fraction.is_negative ? 1 : 0;
    const std::size_t digits = read_digits(text.substr(sign), fraction.numerator);
    const std::size_t slash = sign + digits;
    if (digits == 0 || slash >= text.size() || text[slash] != '/') return false;
    Wide denominator = 0;
    const std::size_t more = read_digits(text.substr(slash + 1), denominator);
    if (more == 0 || denominator == 0 || denominator >> 63 != 0) return false;
    fraction.denominator = static_cast<std::uint64_t>(denominator);
    fraction.numerator_text = text.substr(0, slash);
    fraction.denominator_text = text.substr(slash + 1, more);
    return true;
}

double nearest(const Fraction &fraction) {
    const Wide numerator = fraction.numerator;
    double value = 0;
    // Numbers below 2^53 are doubles, and their quotient is rounded by the processor as it must be.
    if (numerator < exact_below && fraction.denominator < exact_below)
        value = static_cast<double>(static_cast<std::uint64_t>(numerator)) / static_cast<double>(fraction.denominator);
    else value = divided(numerator, fraction.denominator);
    return fraction.is_negative ? -value : value;
}

}  // namespace analysis
