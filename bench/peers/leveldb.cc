// LevelDB without sync. Its log cannot be left out.
#include <leveldb/cache.h>
#include <leveldb/db.h>

#include "log_store.h"

namespace {

using LevelSession = LogSession<leveldb::DB, leveldb::Slice, leveldb::ReadOptions, leveldb::WriteOptions>;
using LevelWords = LogCalls<WordSession, leveldb::DB, leveldb::Slice, leveldb::ReadOptions, leveldb::WriteOptions>;

class LevelStore : public Store {
 public:
  LevelStore(const std::string& folder, uint64_t cache_bytes) : cache_(leveldb::NewLRUCache(read_bytes(cache_bytes))) {
    leveldb::Options options;
    options.create_if_missing = true;
    options.compression = leveldb::kNoCompression;
    options.write_buffer_size = write_bytes(cache_bytes);
    options.block_cache = cache_.get();
    leveldb::DB* engine = nullptr;
    require(leveldb::DB::Open(options, folder, &engine).ok(), "open");
    engine_.reset(engine);
  }
  std::unique_ptr<Session> session() override { return std::make_unique<LevelSession>(*engine_, leveldb::WriteOptions()); }
  std::unique_ptr<WordSession> word_session() override { return std::make_unique<LevelWords>(*engine_, leveldb::WriteOptions()); }
  void settle() override { engine_->CompactRange(nullptr, nullptr); }
  bool answers_writes() const override { return false; }

 private:
  std::unique_ptr<leveldb::Cache> cache_;
  std::unique_ptr<leveldb::DB> engine_;
};

}  // namespace

std::unique_ptr<Store> open_store(const Settings& settings) { return std::make_unique<LevelStore>(settings.folder, settings.cache_bytes); }
