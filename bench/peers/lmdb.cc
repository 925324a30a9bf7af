// LMDB: a transaction for each call, with a sync or without. A reader's transaction and its cursor are kept and renewed, as the engine's guide has it.
#include <lmdb.h>

#include <cstring>

#include "store.h"

namespace {

MDB_val bytes_of(uint64_t& number) { return {sizeof number, &number}; }

// The engine writes into no key.
MDB_val bytes_of(std::string_view word) { return {word.size(), const_cast<char*>(word.data())}; }

uint64_t number_in(const MDB_val& bytes) {
  uint64_t number;
  std::memcpy(&number, bytes.mv_data, sizeof number);
  return number;
}

void must(int status) {
  if (status != MDB_SUCCESS) throw std::runtime_error(mdb_strerror(status));
}

// The calls by the keys of a kind of session.
template <typename Base>
class LmdbCalls : public Base {
 public:
  using Key = typename Base::Key;

  LmdbCalls(MDB_env* env, MDB_dbi table) : env_(env), table_(table) {}
  ~LmdbCalls() override {
    if (reader_) mdb_txn_abort(reader_);
  }

  std::optional<uint64_t> get(Key key) override {
    begin_reading();
    MDB_val key_bytes = bytes_of(key), found;
    const int status = mdb_get(reader_, table_, &key_bytes, &found);
    std::optional<uint64_t> value;
    if (status != MDB_NOTFOUND) {
      must(status);
      value = number_in(found);
    }
    mdb_txn_reset(reader_);
    return value;
  }

  bool put(Key key, uint64_t value) override {
    MDB_txn* const writer = begin_writing();
    MDB_val key_bytes = bytes_of(key), value_bytes = bytes_of(value);
    const int status = mdb_put(writer, table_, &key_bytes, &value_bytes, MDB_NOOVERWRITE);
    if (status == MDB_KEYEXIST) {
      value_bytes = bytes_of(value);
      must(mdb_put(writer, table_, &key_bytes, &value_bytes, 0));
    } else {
      must(status);
    }
    must(mdb_txn_commit(writer));
    return status == MDB_SUCCESS;
  }

  bool del(Key key) override {
    MDB_txn* const writer = begin_writing();
    MDB_val key_bytes = bytes_of(key);
    const int status = mdb_del(writer, table_, &key_bytes, nullptr);
    if (status != MDB_NOTFOUND) must(status);
    must(mdb_txn_commit(writer));
    return status == MDB_SUCCESS;
  }

 protected:
  void begin_reading() { must(reader_ ? mdb_txn_renew(reader_) : mdb_txn_begin(env_, nullptr, MDB_RDONLY, &reader_)); }

  MDB_env* env_;
  MDB_dbi table_;
  MDB_txn* reader_ = nullptr;

 private:
  MDB_txn* begin_writing() {
    MDB_txn* writer;
    must(mdb_txn_begin(env_, nullptr, 0, &writer));
    return writer;
  }
};

// The session by numbers, which has ranges too.
class LmdbSession : public LmdbCalls<Session> {
 public:
  using LmdbCalls::LmdbCalls;
  ~LmdbSession() override {
    if (cursor_) mdb_cursor_close(cursor_);
  }

  void range(const Span& span, Pairs& found) override {
    begin_reading();
    must(cursor_ ? mdb_cursor_renew(reader_, cursor_) : mdb_cursor_open(reader_, table_, &cursor_));
    uint64_t low = span.low;
    MDB_val key_bytes = bytes_of(low), value_bytes;
    int status = mdb_cursor_get(cursor_, &key_bytes, &value_bytes, MDB_SET_RANGE);
    for (; status == MDB_SUCCESS; status = mdb_cursor_get(cursor_, &key_bytes, &value_bytes, MDB_NEXT)) {
      const uint64_t key = number_in(key_bytes);
      if (span.ends_at(key)) break;
      found.emplace_back(key, number_in(value_bytes));
    }
    if (status != MDB_NOTFOUND) must(status);
    mdb_txn_reset(reader_);
  }

 private:
  MDB_cursor* cursor_ = nullptr;
};

unsigned flags_for(Files files) {
  if (files == Files::scratch) return MDB_NOSYNC | MDB_NOMETASYNC | MDB_WRITEMAP;
  return files == Files::unsynced ? MDB_NOSYNC : 0;
}

class LmdbStore : public Store {
 public:
  LmdbStore(const std::string& folder, Files files, Keys keys) {
    must(mdb_env_create(&env_));
    must(mdb_env_set_mapsize(env_, size_t(4) << 30));
    must(mdb_env_open(env_, folder.c_str(), flags_for(files), 0644));
    MDB_txn* writer;
    must(mdb_txn_begin(env_, nullptr, 0, &writer));
    must(mdb_dbi_open(writer, nullptr, keys == Keys::numbers ? MDB_INTEGERKEY : 0, &table_));
    must(mdb_txn_commit(writer));
  }
  ~LmdbStore() override { mdb_env_close(env_); }
  std::unique_ptr<Session> session() override { return std::make_unique<LmdbSession>(env_, table_); }
  std::unique_ptr<WordSession> word_session() override { return std::make_unique<LmdbCalls<WordSession>>(env_, table_); }
  void sync() override { must(mdb_env_sync(env_, 1)); }

  // As the tool mdb_stat counts them: without the free pages and the two that name the roots.
  std::optional<uint64_t> bytes_of_pages() override {
    MDB_txn* reader;
    must(mdb_txn_begin(env_, nullptr, MDB_RDONLY, &reader));
    MDB_stat pages;
    must(mdb_stat(reader, table_, &pages));
    mdb_txn_abort(reader);
    return (pages.ms_branch_pages + pages.ms_leaf_pages + pages.ms_overflow_pages) * pages.ms_psize;
  }

 private:
  MDB_env* env_ = nullptr;
  MDB_dbi table_ = 0;
};

}  // namespace

std::unique_ptr<Store> open_store(const Settings& settings) { return std::make_unique<LmdbStore>(settings.folder, settings.files, settings.keys); }
