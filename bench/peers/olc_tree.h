// A B+-tree under optimistic lock coupling with no buffer manager below it: the proved program's design in plain C++, and so the speed that it can hope for.
//
// A node is a state word and 64 words with room for 28 pairs, as a page of the program. Its words are atomic, so a reader that meets a writer has no data race;
// it reads them with no lock, and takes what it read only where the state word has not changed. Nothing is merged, and no node is freed.
#pragma once

#include <atomic>
#include <cstdint>
#include <memory>
#include <optional>

class OlcTree {
 public:
  // An empty tree with room for so many nodes.
  explicit OlcTree(uint64_t room);

  std::optional<uint64_t> get(uint64_t key) const;
  // Whether the key was new.
  bool put(uint64_t key, uint64_t value);
  // Whether the key was there.
  bool del(uint64_t key);
  // How many bytes the words of all nodes have, also of those that are empty.
  uint64_t bytes_of_nodes() const { return next_.load() * sizeof(Node::words); }

 private:
  struct alignas(64) Node {
    // Twice the version, and one more while a writer holds the node.
    std::atomic<uint64_t> state{0};
    std::atomic<uint64_t> words[64]{};
  };
  // A node and its state when it was met unlocked.
  struct Seen {
    uint64_t node;
    uint64_t state;
  };

  uint64_t word(uint64_t node, unsigned at) const { return nodes_[node].words[at].load(std::memory_order_acquire); }
  void set_word(uint64_t node, unsigned at, uint64_t word) { nodes_[node].words[at].store(word, std::memory_order_release); }

  uint64_t level(uint64_t node) const { return word(node, 0); }
  unsigned count(uint64_t node) const { return unsigned(word(node, 1)); }
  uint64_t key(uint64_t node, unsigned place) const { return word(node, 8 + 2 * place); }
  // A leaf's value, or the number of an inner node's child.
  uint64_t value(uint64_t node, unsigned place) const { return word(node, 9 + 2 * place); }
  void set_value(uint64_t node, unsigned place, uint64_t value) { set_word(node, 9 + 2 * place, value); }
  void set_pair(uint64_t node, unsigned place, uint64_t key, uint64_t value);

  unsigned first_not_below(uint64_t node, uint64_t key) const;
  bool is_at(uint64_t node, unsigned place, uint64_t key) const;
  void insert(uint64_t node, unsigned place, uint64_t key, uint64_t value);
  void remove(uint64_t node, unsigned place);

  Seen look(uint64_t node) const;
  bool is_unchanged(Seen seen) const { return nodes_[seen.node].state.load(std::memory_order_acquire) == seen.state; }
  bool lock(Seen seen);
  void unlock(uint64_t node) { nodes_[node].state.fetch_add(1, std::memory_order_release); }

  std::optional<Seen> step_down(Seen from, uint64_t key) const;
  std::optional<Seen> leaf_for(uint64_t key) const;
  void make_room(uint64_t key);
  void split(uint64_t parent, uint64_t node);
  uint64_t new_node(uint64_t level);

  uint64_t room_;
  std::unique_ptr<Node[]> nodes_;
  std::atomic<uint64_t> next_{0};
};
