// Runs a workload on the one peer that this program is linked with: churn, or with a script its calls, or with times too its ranges; or the calls of a file of
// words; or a step on files that stay: `fill`, `serve` or `rows`. Prints a summary, of churn in the words of `vmcache churn`, and the seconds of the workers.
#include <charconv>
#include <cstdio>
#include <cstring>
#include <exception>
#include <stdexcept>

#include "calls.h"
#include "churn.h"
#include "ranges.h"
#include "served.h"
#include "words.h"

namespace {

constexpr int WORDS_WORDS = 5, CHURN_WORDS = 6, CALLS_WORDS = 7, RANGES_WORDS = 8, SERVED_WORDS = 8;

uint64_t number_of(const char* word, uint64_t least, uint64_t most) {
  uint64_t number = 0;
  const char* end = word + std::strlen(word);
  const auto read = std::from_chars(word, end, number);
  if (read.ec != std::errc() || read.ptr != end || number < least || number > most) throw std::invalid_argument(std::string("no number in range: ") + word);
  return number;
}

void run_churn(Store& store, const Work& work) {
  const Churned churned = churn(store, work);
  const Summary& is = churned.summary;
  std::printf("churn %lu calls %lu some %lu new %lu gone %lu rows %lu sum %lu\n", work.pairs, is.calls, is.some, is.fresh, is.gone, is.rows, is.sum);
  std::printf("seconds %.9f\n", churned.seconds);
}

void print_answers(const Answers& is) {
  std::printf("calls %lu some %lu read %lu new %lu gone %lu\n", is.calls, is.some, is.read, is.fresh, is.gone);
}

void print_rows(const Rows& are) { std::printf("rows %lu keys %lu sum %lu\n", are.count, are.keys, are.sum); }

void run_calls(Store& store, const Work& work, const Lists& lists) {
  const Called is = make_calls(store, work, lists);
  print_answers(is.answers);
  print_rows(is.rows);
  if (is.bytes_before && is.bytes_after) std::printf("bytes %lu %lu\n", *is.bytes_before, *is.bytes_after);
  std::printf("seconds %.9f\n", is.answers.seconds);
}

void run_ranges(Store& store, const Work& work, const char* script, unsigned times) {
  const Ranged is = make_ranges(store, work, script, times);
  std::printf("ranges %lu pairs %lu keys %lu sum %lu\n", is.ranges, is.pairs, is.keys, is.sum);
  std::printf("seconds %.9f\n", is.seconds);
}

unsigned workers_of(const char* word) { return unsigned(number_of(word, 1, 64)); }

// The words of all workloads but that of words: PAIRS SEED WORKERS.
Work work_of(char** words) { return {number_of(words[0], 1, 10'000'000), number_of(words[1], 0, UINT64_MAX), workers_of(words[2])}; }

// What the writes were answered is told only where it says something.
void run_words(char** words) {
  const Dealt dealt = dealt_from(words[4], workers_of(words[2]));
  const auto store = open_store({.folder = words[3], .puts = words_in(dealt), .cache_bytes = 0, .keys = Keys::words});
  const Worded is = make_words(*store, dealt);
  std::printf("calls %lu some %lu read %lu rows %lu sum %lu\n", is.answers.calls, is.answers.some, is.answers.read, is.rows, is.sum);
  if (store->answers_writes()) std::printf("new %lu gone %lu\n", is.answers.fresh, is.answers.gone);
  std::printf("seconds %.9f\n", is.answers.seconds);
}

bool is_step(const std::string& word) { return word == "fill" || word == "serve" || word == "rows"; }

void run_step(char** words) {
  const std::string step = words[1];
  const Work work = work_of(words + 2);
  const Mode mode = mode_of(words[7]);
  const Lists lists = step == "fill" ? Lists() : lists_in(words[6], work.workers);
  const auto store = open_store({words[5], work.pairs + puts_in(lists), 0, step == "serve" ? mode.files : Files::unsynced});
  if (step == "fill") {
    fill(*store, work);
  } else if (step == "serve") {
    print_answers(serve(*store, lists, mode));
  } else {
    print_rows(rows_in(*store, work, lists));
  }
}

void run(int count, char** words) {
  const Work work = work_of(words + 1);
  const Lists lists = count == CALLS_WORDS ? lists_in(words[6], work.workers) : Lists();
  const uint64_t puts = count == CALLS_WORDS ? work.pairs + puts_in(lists) : 2 * work.pairs;
  const auto store = open_store({words[4], puts, number_of(words[5], 0, uint64_t(1) << 40)});
  if (count == CHURN_WORDS) {
    run_churn(*store, work);
  } else if (count == CALLS_WORDS) {
    run_calls(*store, work, lists);
  } else {
    run_ranges(*store, work, words[6], unsigned(number_of(words[7], 1, 1'000)));
  }
}

}  // namespace

int main(int count, char** words) {
  const bool has_words = count == WORDS_WORDS && std::string(words[1]) == "words";
  if (!has_words && count != CHURN_WORDS && count != CALLS_WORDS && count != RANGES_WORDS) {
    std::fprintf(stderr, "usage: %s PAIRS SEED WORKERS FOLDER CACHE_BYTES [SCRIPT [TIMES]]\n", words[0]);
    std::fprintf(stderr, "       %s words WORKERS FOLDER FILE\n", words[0]);
    std::fprintf(stderr, "       %s fill|serve|rows PAIRS SEED WORKERS FOLDER SCRIPT MODE\n", words[0]);
    return 2;
  }
  try {
    if (has_words) {
      run_words(words);
    } else if (count == SERVED_WORDS && is_step(words[1])) {
      run_step(words);
    } else {
      run(count, words);
    }
  } catch (const std::exception& failure) {
    std::fprintf(stderr, "%s\n", failure.what());
    return 1;
  }
  return 0;
}
