// The workload on files that stay: one process fills them, one makes the calls of a script on them, and one reads the rows that it left.
#pragma once

#include "calls.h"

// How the calls of a script are made.
struct Mode {
  Files files;
  bool is_one_transaction;
  // Whether what was written is made to last at the end, and not before.
  bool syncs_last;
};

// `call-each`, `call-last` and `call-never`: a transaction a call, and when they are made to last; `all-last` and `all-never`: one for all of a worker's calls.
Mode mode_of(const std::string& word);

void fill(Store& store, const Work& work);

Answers serve(Store& store, const Lists& lists, const Mode& mode);
