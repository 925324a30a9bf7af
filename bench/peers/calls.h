// The workload of calls: workers side by side, which make the gets, puts and dels of a script on a map of N pairs.
#pragma once

#include <cstdint>
#include <optional>
#include <string>
#include <vector>

#include "workers.h"

enum class Verb { get, put, del };

struct Call {
  Verb verb;
  uint64_t key;
  // Of a put.
  uint64_t value;
};

// Of each worker its calls.
using Lists = std::vector<std::vector<Call>>;

// How many gets found a value, with the sum of these values, how many puts were of a new key and how many dels of one that was there. Sums are without what
// passes 64 bits.
struct Answers {
  uint64_t calls = 0, some = 0, read = 0, fresh = 0, gone = 0;
  // From the start of all workers to the end of the last one.
  double seconds = 0;
};

// What all workers were answered, but for the seconds.
Answers sum_of(const std::vector<Answers>& answers);

// The rows of a map with the sums of their keys and of their values.
struct Rows {
  uint64_t count = 0, keys = 0, sum = 0;
};

struct Called {
  Answers answers;
  Rows rows;
  // The bytes of pages before the calls and behind them, where the store tells them.
  std::optional<uint64_t> bytes_before, bytes_after;
};

// The calls of lines `WORKER get KEY`, `WORKER put KEY VALUE` and `WORKER del KEY`.
Lists lists_in(const std::string& script, unsigned workers);

uint64_t puts_in(const Lists& lists);

// Each worker's calls, all of them in one transaction, or each in its own.
Answers answers_of(Store& store, const Lists& lists, bool is_one_transaction);

// The rows, found by a get of each key that ever was in the map.
Rows rows_in(Store& store, const Work& work, const Lists& lists);

Called make_calls(Store& store, const Work& work, const Lists& lists);
