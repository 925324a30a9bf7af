// What the workloads share: the map that they begin with, and workers side by side whose time is taken.
#pragma once

#include <cstdint>
#include <functional>

#include "places.h"
#include "store.h"

struct Work {
  uint64_t pairs;
  uint64_t seed;
  unsigned workers;
};

// Puts the pairs that the workload begins with, of each place its number as the value.
void build(Store& store, const Work& work, const Places& places);

// The calls of one worker: by its session, and its number from 0 on.
using Calls = std::function<void(Session&, unsigned)>;

// Starts all workers at one point, and gives the seconds from there to the end of the last one.
double run_workers(Store& store, unsigned workers, const Calls& calls);

// What a worker does from that point on. It holds the worker's session.
using Task = std::function<void()>;

// The same of any tasks. Each is made, by the worker's number, and dropped in the worker's thread, and what that takes does not count.
double run_tasks(unsigned workers, const std::function<Task(unsigned)>& task_of);
