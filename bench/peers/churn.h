// The churn workload: a map of N pairs, then workers side by side, which for each of their places get it, put another and drop every second one.
#pragma once

#include <cstdint>

#include "workers.h"

// What the calls were answered, and the rows of the last map with the sum of their values.
struct Summary {
  uint64_t calls = 0, some = 0, fresh = 0, gone = 0, rows = 0, sum = 0;
};

struct Churned {
  Summary summary;
  // From the start of all workers to the end of the last one.
  double seconds;
};

Churned churn(Store& store, const Work& work);
