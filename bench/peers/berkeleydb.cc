// Berkeley DB: a B-tree with its lock for many readers or one writer ("concurrent data store"), without log and transactions.
#include <db.h>

#include <cstdlib>

#include "byte_key.h"
#include "store.h"

namespace {

constexpr uint64_t AMPLE_CACHE = uint64_t(256) << 20;

void must(int status) {
  if (status != 0) throw std::runtime_error(db_strerror(status));
}

DBT bytes_at(void* data, size_t size) {
  DBT bytes{};
  bytes.data = data;
  bytes.size = bytes.ulen = u_int32_t(size);
  bytes.flags = DB_DBT_USERMEM;
  return bytes;
}

class BerkeleySession : public Session {
 public:
  explicit BerkeleySession(DB* table) : table_(table) {}

  std::optional<uint64_t> get(uint64_t key) override {
    ByteKey words = byte_key(key);
    uint64_t value;
    DBT key_bytes = bytes_at(words.data(), words.size()), value_bytes = bytes_at(&value, sizeof value);
    const int status = table_->get(table_, nullptr, &key_bytes, &value_bytes, 0);
    if (status == DB_NOTFOUND) return std::nullopt;
    must(status);
    return value;
  }

  bool put(uint64_t key, uint64_t value) override {
    ByteKey words = byte_key(key);
    DBT key_bytes = bytes_at(words.data(), words.size()), value_bytes = bytes_at(&value, sizeof value);
    const int status = table_->put(table_, nullptr, &key_bytes, &value_bytes, DB_NOOVERWRITE);
    if (status == DB_KEYEXIST) {
      must(table_->put(table_, nullptr, &key_bytes, &value_bytes, 0));
    } else {
      must(status);
    }
    return status == 0;
  }

  bool del(uint64_t key) override {
    ByteKey words = byte_key(key);
    DBT key_bytes = bytes_at(words.data(), words.size());
    const int status = table_->del(table_, nullptr, &key_bytes, 0);
    if (status != DB_NOTFOUND) must(status);
    return status == 0;
  }

  // While the cursor is open no writer gets in.
  void range(const Span& span, Pairs& found) override {
    DBC* cursor;
    must(table_->cursor(table_, nullptr, &cursor, 0));
    ByteKey words = byte_key(span.low);
    uint64_t value;
    DBT key_bytes = bytes_at(words.data(), words.size()), value_bytes = bytes_at(&value, sizeof value);
    int status = cursor->get(cursor, &key_bytes, &value_bytes, DB_SET_RANGE);
    for (; status == 0; status = cursor->get(cursor, &key_bytes, &value_bytes, DB_NEXT)) {
      const uint64_t key = number_of(words.data());
      if (span.ends_at(key)) break;
      found.emplace_back(key, value);
    }
    cursor->close(cursor);
    if (status != DB_NOTFOUND) must(status);
  }

 private:
  DB* table_;
};

class BerkeleyStore : public Store {
 public:
  BerkeleyStore(const std::string& folder, uint64_t cache_bytes) {
    must(db_env_create(&env_, 0));
    must(env_->set_cachesize(env_, 0, u_int32_t(cache_bytes == 0 ? AMPLE_CACHE : cache_bytes), 1));
    must(env_->open(env_, folder.c_str(), DB_CREATE | DB_INIT_MPOOL | DB_INIT_CDB | DB_PRIVATE | DB_THREAD, 0));
    must(db_create(&table_, env_, 0));
    must(table_->open(table_, nullptr, "pairs", nullptr, DB_BTREE, DB_CREATE | DB_THREAD, 0644));
  }
  ~BerkeleyStore() override {
    table_->close(table_, DB_NOSYNC);
    env_->close(env_, 0);
  }
  std::unique_ptr<Session> session() override { return std::make_unique<BerkeleySession>(table_); }

  // Without the free pages and the one that describes the table.
  std::optional<uint64_t> bytes_of_pages() override {
    DB_BTREE_STAT* pages;
    must(table_->stat(table_, nullptr, &pages, 0));
    const uint64_t bytes = uint64_t(pages->bt_int_pg + pages->bt_leaf_pg + pages->bt_over_pg) * pages->bt_pagesize;
    std::free(pages);
    return bytes;
  }

 private:
  DB_ENV* env_ = nullptr;
  DB* table_ = nullptr;
};

}  // namespace

std::unique_ptr<Store> open_store(const Settings& settings) { return std::make_unique<BerkeleyStore>(settings.folder, settings.cache_bytes); }
