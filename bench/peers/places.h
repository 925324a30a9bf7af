// The keys of the workload: place i, for i from 1 on, is the i-th value of a generator that meets each 64-bit value once before it comes round.
#pragma once

#include <cstdint>
#include <vector>

class Places {
 public:
  Places(uint64_t seed, uint64_t count) : values_(count) {
    uint64_t value = seed;
    for (auto& place : values_) {
      place = value;
      value = 6364136223846793005u * value + 1442695040888963407u;
    }
  }
  uint64_t at(uint64_t place) const { return values_[place - 1]; }

 private:
  std::vector<uint64_t> values_;
};
