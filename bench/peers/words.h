// The workload of words: byte strings as keys, and a map that is empty at first. Workers side by side, no two of which share a word, put each of their words with
// its number, then get each, and then delete every second one.
#pragma once

#include <cstdint>
#include <string>
#include <vector>

#include "calls.h"

// A line of the file of words, and its number from 1 on.
struct Word {
  std::string bytes;
  uint64_t number;
};

// Of each worker its words, in the order of their lines.
using Dealt = std::vector<std::vector<Word>>;

// What the calls were answered, and the pairs of the last map with the sum of their values.
struct Worded {
  Answers answers;
  uint64_t rows = 0, sum = 0;
};

// The words of a file, dealt to the workers by twos: so half of the words are deleted, and the same ones by any number of workers.
Dealt dealt_from(const std::string& file, unsigned workers);

uint64_t words_in(const Dealt& dealt);

// On a store that was opened for words.
Worded make_words(Store& store, const Dealt& dealt);
