#include "calls.h"

#include <fstream>
#include <map>
#include <unordered_set>

namespace {

void call(Session& session, const Call& made, Answers& seen) {
  seen.calls += 1;
  switch (made.verb) {
    case Verb::get:
      if (const auto value = session.get(made.key)) {
        seen.some += 1;
        seen.read += *value;
      }
      break;
    case Verb::put:
      seen.fresh += session.put(made.key, made.value);
      break;
    case Verb::del:
      seen.gone += session.del(made.key);
      break;
  }
}

Verb verb_of(const std::string& word) {
  static const std::map<std::string, Verb> verbs = {{"get", Verb::get}, {"put", Verb::put}, {"del", Verb::del}};
  const auto found = verbs.find(word);
  require(found != verbs.end(), "a verb of the script");
  return found->second;
}

}  // namespace

Lists lists_in(const std::string& script, unsigned workers) {
  Lists lists(workers);
  std::ifstream lines(script);
  unsigned worker;
  std::string word;
  uint64_t key, value;
  while (lines >> worker >> word >> key) {
    require(worker < workers, "a line of the script");
    const Verb verb = verb_of(word);
    value = 0;
    if (verb == Verb::put) require(bool(lines >> value), "a put of the script");
    lists[worker].push_back({verb, key, value});
  }
  require(lines.eof(), "the script");
  return lists;
}

uint64_t puts_in(const Lists& lists) {
  uint64_t puts = 0;
  for (const auto& list : lists) {
    for (const Call& made : list) puts += made.verb == Verb::put;
  }
  return puts;
}

Answers sum_of(const std::vector<Answers>& answers) {
  Answers all;
  for (const auto& by_worker : answers) {
    all.calls += by_worker.calls;
    all.some += by_worker.some;
    all.read += by_worker.read;
    all.fresh += by_worker.fresh;
    all.gone += by_worker.gone;
  }
  return all;
}

Answers answers_of(Store& store, const Lists& lists, bool is_one_transaction) {
  std::vector<Answers> seen(lists.size());
  const double seconds = run_workers(store, unsigned(lists.size()), [&](Session& session, unsigned worker) {
    if (is_one_transaction) session.begin();
    Answers own;
    for (const Call& made : lists[worker]) call(session, made, own);
    if (is_one_transaction) session.commit();
    seen[worker] = own;
  });
  Answers all = sum_of(seen);
  all.seconds = seconds;
  return all;
}

Rows rows_in(Store& store, const Work& work, const Lists& lists) {
  const auto session = store.session();
  const Places places(work.seed, work.pairs);
  std::unordered_set<uint64_t> keys;
  for (uint64_t i = 1; i <= work.pairs; i++) keys.insert(places.at(i));
  for (const auto& list : lists) {
    for (const Call& made : list) keys.insert(made.key);
  }
  Rows rows;
  for (const uint64_t key : keys) {
    if (const auto value = session->get(key)) {
      rows.count += 1;
      rows.keys += key;
      rows.sum += *value;
    }
  }
  return rows;
}

Called make_calls(Store& store, const Work& work, const Lists& lists) {
  build(store, work, Places(work.seed, work.pairs));
  Called called;
  called.bytes_before = store.bytes_of_pages();
  called.answers = answers_of(store, lists, false);
  called.bytes_after = store.bytes_of_pages();
  called.rows = rows_in(store, work, lists);
  return called;
}
