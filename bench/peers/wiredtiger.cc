// WiredTiger: a table whose keys are numbers or bytes and whose values are numbers, with no log and no transaction beyond the call's own; of a range it is a
// snapshot.
#include <wiredtiger.h>

#include <algorithm>

#include "store.h"

namespace {

constexpr uint64_t AMPLE_CACHE = uint64_t(1) << 30;
constexpr uint64_t LEAST_CACHE = uint64_t(1) << 20;

void must(int status) {
  if (status != 0) throw std::runtime_error(wiredtiger_strerror(status));
}

void set_key(WT_CURSOR* cursor, uint64_t key) { cursor->set_key(cursor, key); }

// The cursor keeps the place of the bytes up to the call behind.
void set_key(WT_CURSOR* cursor, std::string_view word) {
  WT_ITEM bytes{};
  bytes.data = word.data();
  bytes.size = word.size();
  cursor->set_key(cursor, &bytes);
}

// The calls by the keys of a kind of session.
template <typename Base>
class WiredTigerCalls : public Base {
 public:
  using Key = typename Base::Key;

  explicit WiredTigerCalls(WT_CONNECTION* connection) {
    must(connection->open_session(connection, nullptr, nullptr, &session_));
    must(session_->open_cursor(session_, "table:pairs", nullptr, "overwrite=false", &cursor_));
  }
  ~WiredTigerCalls() override { session_->close(session_, nullptr); }

  std::optional<uint64_t> get(Key key) override {
    set_key(cursor_, key);
    const int status = cursor_->search(cursor_);
    std::optional<uint64_t> value;
    if (status != WT_NOTFOUND) {
      must(status);
      must(cursor_->get_value(cursor_, &value.emplace()));
    }
    must(cursor_->reset(cursor_));
    return value;
  }

  bool put(Key key, uint64_t value) override {
    const int status = again([&] {
      set_key(cursor_, key);
      cursor_->set_value(cursor_, value);
      return cursor_->insert(cursor_);
    });
    if (status != WT_DUPLICATE_KEY) {
      must(status);
      return true;
    }
    must(again([&] {
      set_key(cursor_, key);
      cursor_->set_value(cursor_, value);
      return cursor_->update(cursor_);
    }));
    must(cursor_->reset(cursor_));
    return false;
  }

  bool del(Key key) override {
    const int status = again([&] {
      set_key(cursor_, key);
      return cursor_->remove(cursor_);
    });
    if (status != WT_NOTFOUND) must(status);
    must(cursor_->reset(cursor_));
    return status == 0;
  }

 protected:
  WT_SESSION* session_ = nullptr;
  WT_CURSOR* cursor_ = nullptr;

 private:
  // Makes a call until no other writer's change is in its way.
  template <typename Call>
  static int again(Call call) {
    for (;;) {
      const int status = call();
      if (status != WT_ROLLBACK) return status;
    }
  }
};

// The session by numbers, which has ranges too.
class WiredTigerSession : public WiredTigerCalls<Session> {
 public:
  using WiredTigerCalls::WiredTigerCalls;

  void range(const Span& span, Pairs& found) override {
    must(session_->begin_transaction(session_, "isolation=snapshot"));
    cursor_->set_key(cursor_, span.low);
    int side;
    int status = cursor_->search_near(cursor_, &side);
    if (status == 0 && side < 0) status = cursor_->next(cursor_);
    for (; status == 0; status = cursor_->next(cursor_)) {
      uint64_t key, value;
      must(cursor_->get_key(cursor_, &key));
      if (span.ends_at(key)) break;
      must(cursor_->get_value(cursor_, &value));
      found.emplace_back(key, value);
    }
    if (status != WT_NOTFOUND) must(status);
    must(cursor_->reset(cursor_));
    must(session_->commit_transaction(session_, nullptr));
  }
};

class WiredTigerStore : public Store {
 public:
  WiredTigerStore(const std::string& folder, uint64_t cache_bytes, Keys keys) : folder_(folder) {
    const uint64_t cache = cache_bytes == 0 ? AMPLE_CACHE : std::max(cache_bytes, LEAST_CACHE);
    // With a small cache a page must be small too, or a few of them fill it.
    const std::string pages = cache_bytes == 0 ? "" : ",leaf_page_max=4KB,internal_page_max=4KB,memory_page_max=32KB";
    options_ = "create,log=(enabled=false),session_max=100,cache_size=" + std::to_string(cache);
    open();
    WT_SESSION* session;
    must(connection_->open_session(connection_, nullptr, nullptr, &session));
    const std::string formats = keys == Keys::numbers ? "key_format=Q,value_format=Q" : "key_format=u,value_format=Q";
    must(session->create(session, "table:pairs", (formats + pages).c_str()));
    must(session->close(session, nullptr));
  }
  ~WiredTigerStore() override { connection_->close(connection_, nullptr); }
  std::unique_ptr<Session> session() override { return std::make_unique<WiredTigerSession>(connection_); }
  std::unique_ptr<WordSession> word_session() override { return std::make_unique<WiredTigerCalls<WordSession>>(connection_); }
  // Until its table is closed, what was put stands beside its pages, in lists.
  void settle() override {
    must(connection_->close(connection_, nullptr));
    open();
  }

 private:
  void open() { must(wiredtiger_open(folder_.c_str(), nullptr, options_.c_str(), &connection_)); }

  std::string folder_, options_;
  WT_CONNECTION* connection_ = nullptr;
};

}  // namespace

std::unique_ptr<Store> open_store(const Settings& settings) { return std::make_unique<WiredTigerStore>(settings.folder, settings.cache_bytes, settings.keys); }
