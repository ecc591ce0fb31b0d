// Whole numbers of 128 bits.
#pragma once

namespace analysis {

__extension__ typedef unsigned __int128 Wide;

}  // namespace analysis
