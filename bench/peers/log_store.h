// LevelDB and RocksDB have one face: a tree of sorted files under a table in memory. Both write without looking, so their writes are not answered.
#pragma once

#include <cstring>

#include "byte_key.h"
#include "store.h"

// How much is written in memory before it goes to a file. With no bound all of a run stays in memory; a bound is shared with the cache of what is read.
inline uint64_t write_bytes(uint64_t cache_bytes) {
  constexpr uint64_t AMPLE = uint64_t(256) << 20, LEAST = uint64_t(64) << 10;
  if (cache_bytes == 0) return AMPLE;
  return cache_bytes / 2 < LEAST ? LEAST : cache_bytes / 2;
}

inline uint64_t read_bytes(uint64_t cache_bytes) { return cache_bytes == 0 ? write_bytes(0) : cache_bytes / 2; }

// The calls Get, Put and Delete of an engine, over slices, by the keys of a kind of session.
template <typename Base, typename Engine, typename Slice, typename Reading, typename Writing>
class LogCalls : public Base {
 public:
  using Key = typename Base::Key;

  LogCalls(Engine& engine, const Writing& writing) : engine_(engine), writing_(writing) {}

  std::optional<uint64_t> get(Key key) override {
    const auto bytes = byte_key(key);
    const auto status = engine_.Get(Reading(), Slice(bytes.data(), bytes.size()), &found_);
    if (status.IsNotFound()) return std::nullopt;
    require(status.ok() && found_.size() == sizeof(uint64_t), "get");
    return value_in(found_.data());
  }

  bool put(Key key, uint64_t value) override {
    const auto bytes = byte_key(key);
    const Slice words(reinterpret_cast<const char*>(&value), sizeof value);
    require(engine_.Put(writing_, Slice(bytes.data(), bytes.size()), words).ok(), "put");
    return true;
  }

  bool del(Key key) override {
    const auto bytes = byte_key(key);
    require(engine_.Delete(writing_, Slice(bytes.data(), bytes.size())).ok(), "del");
    return true;
  }

 protected:
  static uint64_t value_in(const char* bytes) {
    uint64_t value;
    std::memcpy(&value, bytes, sizeof value);
    return value;
  }

  Engine& engine_;

 private:
  Writing writing_;
  std::string found_;
};

// The session by numbers, which has ranges too.
template <typename Engine, typename Slice, typename Reading, typename Writing>
class LogSession : public LogCalls<Session, Engine, Slice, Reading, Writing> {
  using Calls = LogCalls<Session, Engine, Slice, Reading, Writing>;

 public:
  using Calls::Calls;

  // An iterator sees the pairs as they were when it was made.
  void range(const Span& span, Pairs& found) override {
    const ByteKey low = byte_key(span.low);
    const auto rows = iterator();
    for (rows->Seek(Slice(low.data(), low.size())); rows->Valid(); rows->Next()) {
      const uint64_t key = number_of(rows->key().data());
      if (span.ends_at(key)) break;
      found.emplace_back(key, Calls::value_in(rows->value().data()));
    }
    require(rows->status().ok(), "range");
  }

 private:
  auto iterator() {
    auto* const rows = this->engine_.NewIterator(Reading());
    return std::unique_ptr<std::remove_pointer_t<decltype(rows)>>(rows);
  }
};
