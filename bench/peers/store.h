// What the workloads need of an engine: a store of pairs, and for each worker a session on it. Each peer is one file that implements open_store.
#pragma once

#include <cstdint>
#include <memory>
#include <optional>
#include <stdexcept>
#include <string>
#include <string_view>
#include <utility>
#include <vector>

using Pairs = std::vector<std::pair<uint64_t, uint64_t>>;

// The keys from `low` on, below the bound where there is one.
struct Span {
  uint64_t low;
  std::optional<uint64_t> bound;
  bool ends_at(uint64_t key) const { return bound && *bound <= key; }
};

// An answer of an engine that no call of a workload may get.
inline void require(bool is_right, const char* call) {
  if (!is_right) throw std::runtime_error(std::string("refused: ") + call);
}

// The calls of one thread, by keys of one type. A session is made and dropped in the thread that uses it, since some engines tie it to that thread.
template <typename KeyType>
class SessionOf {
 public:
  using Key = KeyType;
  virtual ~SessionOf() = default;
  virtual std::optional<uint64_t> get(Key key) = 0;
  // Whether the key was new.
  virtual bool put(Key key, uint64_t value) = 0;
  // Whether the key was there.
  virtual bool del(Key key) = 0;
};

// Byte strings as keys, none of them empty.
using WordSession = SessionOf<std::string_view>;

// Numbers as keys.
class Session : public SessionOf<uint64_t> {
 public:
  // Appends the pairs of a span as they were at one moment, by rising key. An engine that has no such call refuses it.
  virtual void range(const Span&, Pairs&) { require(false, "range"); }
  // What is called between the two is one transaction, of an engine that can have several calls in one.
  virtual void begin() { require(false, "begin"); }
  virtual void commit() { require(false, "commit"); }
};

class Store {
 public:
  virtual ~Store() = default;
  virtual std::unique_ptr<Session> session() = 0;
  // On a store that was opened for words. An engine that is asked for numbers alone refuses it.
  virtual std::unique_ptr<WordSession> word_session() {
    require(false, "word_session");
    return nullptr;
  }
  // Brings what was put into the form in which the engine keeps it for long. There is no session meanwhile.
  virtual void settle() {}
  // Makes all that was written last, of an engine whose files stay. There is no session meanwhile.
  virtual void sync() { require(false, "sync"); }
  // How many bytes the pages have that hold the pairs, where the engine counts them. There is no call meanwhile.
  virtual std::optional<uint64_t> bytes_of_pages() { return std::nullopt; }
  // False for an engine that writes without looking: what its `put` and `del` return then says nothing.
  virtual bool answers_writes() const { return true; }
};

// What becomes of the files: nobody opens them again; they stay, but no call waits until the disk has them; or each transaction does.
enum class Files { scratch, unsynced, synced };

enum class Keys { numbers, words };

struct Settings {
  // A folder of its own, which is there, and empty but where files stayed.
  std::string folder;
  // How many puts it will be given in all.
  uint64_t puts;
  // How many bytes of pages it may keep in memory; 0 where all shall fit.
  uint64_t cache_bytes;
  Files files = Files::scratch;
  Keys keys = Keys::numbers;
};

std::unique_ptr<Store> open_store(const Settings& settings);
