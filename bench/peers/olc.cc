// The tree of olc_tree.h as a store.
#include "olc_tree.h"
#include "store.h"

namespace {

class OlcSession : public Session {
 public:
  explicit OlcSession(OlcTree& tree) : tree_(tree) {}
  std::optional<uint64_t> get(uint64_t key) override { return tree_.get(key); }
  bool put(uint64_t key, uint64_t value) override { return tree_.put(key, value); }
  bool del(uint64_t key) override { return tree_.del(key); }

 private:
  OlcTree& tree_;
};

class OlcStore : public Store {
 public:
  // A node gets 14 pairs by a split and is split at 28, so there is at most one node for each 14 puts and, above them, one for each 14 nodes.
  explicit OlcStore(uint64_t puts) : tree_(puts / 12 + 64) {}
  std::unique_ptr<Session> session() override { return std::make_unique<OlcSession>(tree_); }
  std::optional<uint64_t> bytes_of_pages() override { return tree_.bytes_of_nodes(); }

 private:
  OlcTree tree_;
};

}  // namespace

std::unique_ptr<Store> open_store(const Settings& settings) { return std::make_unique<OlcStore>(settings.puts); }
