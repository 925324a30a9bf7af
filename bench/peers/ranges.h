// The workload of ranges: a map of N pairs, then workers side by side, which make the ranges of a script so many times over and keep the pairs.
#pragma once

#include <cstdint>
#include <string>

#include "workers.h"

// How many ranges were made, the pairs that they have in all, and the sums of these pairs' keys and of their values (without what passes 64 bits).
struct Ranged {
  uint64_t ranges = 0, pairs = 0, keys = 0, sum = 0;
  // From the start of all workers to the end of the last one.
  double seconds = 0;
};

Ranged make_ranges(Store& store, const Work& work, const std::string& script, unsigned times);
