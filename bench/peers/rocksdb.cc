// RocksDB without its log.
#include <rocksdb/cache.h>
#include <rocksdb/db.h>
#include <rocksdb/table.h>

#include "log_store.h"

namespace {

using RocksSession = LogSession<rocksdb::DB, rocksdb::Slice, rocksdb::ReadOptions, rocksdb::WriteOptions>;

rocksdb::Options options_for(uint64_t cache_bytes) {
  rocksdb::BlockBasedTableOptions table;
  table.block_cache = rocksdb::NewLRUCache(read_bytes(cache_bytes));
  rocksdb::Options options;
  options.create_if_missing = true;
  options.compression = rocksdb::kNoCompression;
  options.write_buffer_size = write_bytes(cache_bytes);
  options.table_factory.reset(rocksdb::NewBlockBasedTableFactory(table));
  return options;
}

class RocksStore : public Store {
 public:
  RocksStore(const std::string& folder, uint64_t cache_bytes) {
    writing_.disableWAL = true;
    rocksdb::DB* engine = nullptr;
    require(rocksdb::DB::Open(options_for(cache_bytes), folder, &engine).ok(), "open");
    engine_.reset(engine);
  }
  std::unique_ptr<Session> session() override { return std::make_unique<RocksSession>(*engine_, writing_); }
  void settle() override { require(engine_->CompactRange(rocksdb::CompactRangeOptions(), nullptr, nullptr).ok(), "settle"); }
  bool answers_writes() const override { return false; }

 private:
  rocksdb::WriteOptions writing_;
  std::unique_ptr<rocksdb::DB> engine_;
};

}  // namespace

std::unique_ptr<Store> open_store(const Settings& settings) { return std::make_unique<RocksStore>(settings.folder, settings.cache_bytes); }
