#include "churn.h"

#include <vector>

namespace {

// The calls of one worker: no two workers share a key, so each answer is fixed.
Summary call(Session& session, const Work& work, const Places& places, unsigned worker) {
  Summary seen;
  for (uint64_t i = worker + 1; i <= work.pairs; i += work.workers) {
    const auto value = session.get(places.at(i));
    require(!value || *value == i, "a get with another value");
    seen.some += value.has_value();
    seen.fresh += session.put(places.at(work.pairs + i), i);
    seen.calls += 2;
    if (i % 2 == 0) {
      seen.gone += session.del(places.at(i));
      seen.calls += 1;
    }
  }
  return seen;
}

// What the writes of an engine that does not answer them would have been answered. Each key is written once, so the map before the calls tells it.
Summary foretell_writes(Store& store, const Work& work, const Places& places) {
  const auto session = store.session();
  Summary seen;
  for (uint64_t i = 1; i <= work.pairs; i++) {
    seen.fresh += !session->get(places.at(work.pairs + i));
    seen.gone += i % 2 == 0 && session->get(places.at(i));
  }
  return seen;
}

void read_rows(Store& store, const Work& work, const Places& places, Summary& summary) {
  const auto session = store.session();
  for (uint64_t i = 1; i <= 2 * work.pairs; i++) {
    if (const auto value = session->get(places.at(i))) {
      summary.rows += 1;
      summary.sum += *value;
    }
  }
}

}  // namespace

Churned churn(Store& store, const Work& work) {
  const Places places(work.seed, 2 * work.pairs);
  build(store, work, places);
  Summary foretold;
  if (!store.answers_writes()) foretold = foretell_writes(store, work, places);
  std::vector<Summary> seen(work.workers);
  Churned churned;
  churned.seconds = run_workers(store, work.workers, [&](Session& session, unsigned worker) { seen[worker] = call(session, work, places, worker); });
  Summary& summary = churned.summary;
  for (const auto& by_worker : seen) {
    summary.calls += by_worker.calls;
    summary.some += by_worker.some;
    summary.fresh += by_worker.fresh;
    summary.gone += by_worker.gone;
  }
  if (!store.answers_writes()) {
    summary.fresh = foretold.fresh;
    summary.gone = foretold.gone;
  }
  read_rows(store, work, places, summary);
  return churned;
}
