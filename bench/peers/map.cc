// std::map with one mutex round it: the plainest store that many threads can share.
#include <map>
#include <mutex>

#include "store.h"

namespace {

struct LockedMap {
  std::mutex lock;
  std::map<uint64_t, uint64_t> pairs;
};

class MapSession : public Session {
 public:
  explicit MapSession(LockedMap& map) : map_(map) {}

  std::optional<uint64_t> get(uint64_t key) override {
    const std::lock_guard held(map_.lock);
    const auto found = map_.pairs.find(key);
    if (found == map_.pairs.end()) return std::nullopt;
    return found->second;
  }

  bool put(uint64_t key, uint64_t value) override {
    const std::lock_guard held(map_.lock);
    return map_.pairs.insert_or_assign(key, value).second;
  }

  bool del(uint64_t key) override {
    const std::lock_guard held(map_.lock);
    return map_.pairs.erase(key) == 1;
  }

  void range(const Span& span, Pairs& found) override {
    const std::lock_guard held(map_.lock);
    for (auto pair = map_.pairs.lower_bound(span.low); pair != map_.pairs.end() && !span.ends_at(pair->first); ++pair) found.push_back(*pair);
  }

 private:
  LockedMap& map_;
};

class MapStore : public Store {
 public:
  std::unique_ptr<Session> session() override { return std::make_unique<MapSession>(map_); }

 private:
  LockedMap map_;
};

}  // namespace

std::unique_ptr<Store> open_store(const Settings&) { return std::make_unique<MapStore>(); }
