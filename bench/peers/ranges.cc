#include "ranges.h"

#include <fstream>
#include <vector>

namespace {

// The ranges of each worker, from lines `WORKER range LOW BOUND` where the bound is a number or `end`.
std::vector<std::vector<Span>> spans_in(const std::string& script, unsigned workers) {
  std::vector<std::vector<Span>> spans(workers);
  std::ifstream lines(script);
  unsigned worker;
  std::string verb, bound;
  Span span;
  while (lines >> worker >> verb >> span.low >> bound) {
    require(worker < workers && verb == "range", "a line of the script");
    span.bound.reset();
    if (bound != "end") span.bound = std::stoull(bound);
    spans[worker].push_back(span);
  }
  require(lines.eof(), "the script");
  return spans;
}

void make_all(Session& session, const std::vector<Span>& spans, Pairs& found) {
  for (const Span& span : spans) session.range(span, found);
}

// Room for what each worker keeps. The ranges are made once for it, so the pages are in memory before the clock starts.
std::vector<Pairs> room_for(Store& store, const std::vector<std::vector<Span>>& spans, unsigned times) {
  const auto session = store.session();
  std::vector<Pairs> found(spans.size());
  for (size_t worker = 0; worker < spans.size(); worker++) {
    Pairs once;
    make_all(*session, spans[worker], once);
    found[worker].reserve(times * once.size());
  }
  return found;
}

}  // namespace

Ranged make_ranges(Store& store, const Work& work, const std::string& script, unsigned times) {
  build(store, work, Places(work.seed, work.pairs));
  store.settle();
  const auto spans = spans_in(script, work.workers);
  auto found = room_for(store, spans, times);
  Ranged ranged;
  ranged.seconds = run_workers(store, work.workers, [&](Session& session, unsigned worker) {
    for (unsigned time = 0; time < times; time++) make_all(session, spans[worker], found[worker]);
  });
  for (unsigned worker = 0; worker < work.workers; worker++) {
    ranged.ranges += times * spans[worker].size();
    ranged.pairs += found[worker].size();
    for (const auto& [key, value] : found[worker]) {
      ranged.keys += key;
      ranged.sum += value;
    }
  }
  return ranged;
}
