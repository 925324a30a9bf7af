#include "served.h"

#include <map>

Mode mode_of(const std::string& word) {
  static const std::map<std::string, Mode> modes = {
      {"call-each", {Files::synced, false, false}},  {"call-last", {Files::unsynced, false, true}}, {"call-never", {Files::unsynced, false, false}},
      {"all-last", {Files::synced, true, false}},    {"all-never", {Files::unsynced, true, false}},
  };
  const auto found = modes.find(word);
  require(found != modes.end(), "a mode");
  return found->second;
}

void fill(Store& store, const Work& work) {
  build(store, work, Places(work.seed, work.pairs));
  store.sync();
}

Answers serve(Store& store, const Lists& lists, const Mode& mode) {
  const Answers answers = answers_of(store, lists, mode.is_one_transaction);
  if (mode.syncs_last) store.sync();
  return answers;
}
