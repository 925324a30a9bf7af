// This repository's library, in the process of the workload as the other engines are: a hand for each session, and calls that yield where their rounds are used up.
#define BRF_LOOPS
#include "../../examples/c/burnetroof.h"

#include <algorithm>
#include <array>
#include <mutex>

#include "store.h"

namespace {

constexpr size_t PAGE = 512, MOST_PAGES = 65536, LEAST_FRAMES = 64;
// A leaf of a tree that only grows has at least half of its 28 pairs.
constexpr size_t PAIRS_A_PAGE = 12;

void put_word(std::vector<uint8_t>& bytes, size_t place, uint64_t word) {
  for (int i = 0; i < 8; i++) bytes[8 * place + i] = uint8_t(word >> (56 - 8 * i));
}

// The bytes of a page file of so many pages: page 0 names the root on page 1, a leaf without a pair and without a high fence.
std::vector<uint8_t> empty_image(size_t pages) {
  std::vector<uint8_t> bytes(pages * PAGE);
  put_word(bytes, 0, 0x564D434143484531);
  put_word(bytes, 1, 1);
  put_word(bytes, PAGE / 8, 2);
  put_word(bytes, PAGE / 8 + 4, 1);
  return bytes;
}

struct Opened {
  std::mutex hands;  // one thread at a time gives a hand out
  brf_store store = BRF_NOTHING;
};

class HandSession : public Session {
 public:
  explicit HandSession(Opened& opened) : opened_(opened) {
    const std::lock_guard held(opened_.hands);
    require(brf_hand_out(&opened_.store, &hand_) == BRF_OK, "hand out");
  }

  ~HandSession() override { brf_hand_back(&hand_); }

  std::optional<uint64_t> get(uint64_t key) override {
    brf_told told;
    require(brf_get_yielding(&hand_, key, &told) == BRF_OK, "get");
    if (!told.had) return std::nullopt;
    return told.value;
  }

  bool put(uint64_t key, uint64_t value) override {
    brf_told told;
    require(brf_put_yielding(&hand_, key, value, &told) == BRF_OK, "put");
    return !told.had;
  }

  bool del(uint64_t key) override {
    brf_told told;
    require(brf_del_yielding(&hand_, key, &told) == BRF_OK, "del");
    return told.had;
  }

  void range(const Span& span, Pairs& found) override {
    brf_told told;
    brf_shown shown;
    require(brf_range_yielding(&hand_, span.low, span.bound.value_or(0), !span.bound, pairs_.data(), pairs_.size(), &shown, &told) == BRF_OK, "range");
    for (uint32_t i = 0; i < shown.count; i++) found.emplace_back(pairs_[i].key, pairs_[i].value);
  }

 private:
  Opened& opened_;
  brf_hand hand_ = BRF_NOTHING;
  std::array<brf_pair, BRF_RANGE_ROOM> pairs_;
};

class TreeStore : public Store {
 public:
  TreeStore(size_t pages, size_t frames) : image_(empty_image(pages)) {
    brf_told told;
    require(brf_open(image_.data(), image_.size(), uint32_t(frames), &opened_.store, &told) == BRF_OK, "open");
  }

  ~TreeStore() override {
    brf_counts counts;
    brf_close(&opened_.store, image_.data(), image_.size(), &counts);
  }

  std::unique_ptr<Session> session() override { return std::make_unique<HandSession>(opened_); }

 private:
  std::vector<uint8_t> image_;
  Opened opened_;
};

}  // namespace

std::unique_ptr<Store> open_store(const Settings& settings) {
  const size_t pages = std::clamp(settings.puts / PAIRS_A_PAGE + 64, size_t(64), MOST_PAGES);
  const size_t frames = settings.cache_bytes ? std::max(settings.cache_bytes / PAGE, LEAST_FRAMES) : std::max(pages, LEAST_FRAMES);
  return std::make_unique<TreeStore>(pages, std::min(frames, MOST_PAGES));
}
