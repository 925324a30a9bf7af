#include "olc_tree.h"

#include <stdexcept>
#include <thread>

namespace {

constexpr unsigned CAPACITY = 28;
// Node 0 is above the root: an inner node whose only child is the root. So the root is reached, locked and replaced as any child.
constexpr uint64_t HEAD = 0;
constexpr uint64_t HEAD_LEVEL = UINT64_MAX;

}  // namespace

OlcTree::OlcTree(uint64_t room) : room_(room), nodes_(new Node[room]) {
  new_node(HEAD_LEVEL);
  insert(HEAD, 0, 0, new_node(0));
}

std::optional<uint64_t> OlcTree::get(uint64_t key) const {
  for (;;) {
    const auto leaf = leaf_for(key);
    if (!leaf) continue;
    const unsigned place = first_not_below(leaf->node, key);
    std::optional<uint64_t> found;
    if (is_at(leaf->node, place, key)) found = value(leaf->node, place);
    if (is_unchanged(*leaf)) return found;
  }
}

bool OlcTree::put(uint64_t key, uint64_t value) {
  for (;;) {
    const auto leaf = leaf_for(key);
    if (!leaf) continue;
    const unsigned place = first_not_below(leaf->node, key);
    const bool is_there = is_at(leaf->node, place, key);
    if (!is_there && count(leaf->node) == CAPACITY) {
      make_room(key);
      continue;
    }
    // The lock is had only where the state is the one seen, so what was read above still holds.
    if (!lock(*leaf)) continue;
    if (is_there) {
      set_value(leaf->node, place, value);
    } else {
      insert(leaf->node, place, key, value);
    }
    unlock(leaf->node);
    return !is_there;
  }
}

bool OlcTree::del(uint64_t key) {
  for (;;) {
    const auto leaf = leaf_for(key);
    if (!leaf) continue;
    const unsigned place = first_not_below(leaf->node, key);
    if (!is_at(leaf->node, place, key)) {
      if (is_unchanged(*leaf)) return false;
      continue;
    }
    if (!lock(*leaf)) continue;
    remove(leaf->node, place);
    unlock(leaf->node);
    return true;
  }
}

void OlcTree::set_pair(uint64_t node, unsigned place, uint64_t key, uint64_t value) {
  set_word(node, 8 + 2 * place, key);
  set_value(node, place, value);
}

// The first place whose key is not below this one, by halves.
unsigned OlcTree::first_not_below(uint64_t node, uint64_t sought) const {
  unsigned low = 0, high = count(node);
  while (low < high) {
    const unsigned middle = (low + high) / 2;
    if (key(node, middle) < sought) {
      low = middle + 1;
    } else {
      high = middle;
    }
  }
  return low;
}

bool OlcTree::is_at(uint64_t node, unsigned place, uint64_t sought) const { return place < count(node) && key(node, place) == sought; }

void OlcTree::insert(uint64_t node, unsigned place, uint64_t new_key, uint64_t new_value) {
  const unsigned pairs = count(node);
  for (unsigned i = pairs; i > place; i--) set_pair(node, i, key(node, i - 1), value(node, i - 1));
  set_pair(node, place, new_key, new_value);
  set_word(node, 1, pairs + 1);
}

void OlcTree::remove(uint64_t node, unsigned place) {
  const unsigned pairs = count(node);
  for (unsigned i = place; i + 1 < pairs; i++) set_pair(node, i, key(node, i + 1), value(node, i + 1));
  set_word(node, 1, pairs - 1);
}

// Waits until no writer holds the node.
OlcTree::Seen OlcTree::look(uint64_t node) const {
  for (;;) {
    const uint64_t state = nodes_[node].state.load(std::memory_order_acquire);
    if (state % 2 == 0) return {node, state};
    std::this_thread::yield();
  }
}

bool OlcTree::lock(Seen seen) { return nodes_[seen.node].state.compare_exchange_strong(seen.state, seen.state + 1, std::memory_order_acq_rel); }

// The child that covers the key; nothing where the node changed before the child was met. The first test is for the child's number, which may be that of
// another moment; the second couples the two nodes.
std::optional<OlcTree::Seen> OlcTree::step_down(Seen from, uint64_t sought) const {
  const unsigned place = first_not_below(from.node, sought);
  const uint64_t child = value(from.node, is_at(from.node, place, sought) ? place : place - 1);
  if (!is_unchanged(from)) return std::nullopt;
  const Seen below = look(child);
  if (!is_unchanged(from)) return std::nullopt;
  return below;
}

std::optional<OlcTree::Seen> OlcTree::leaf_for(uint64_t sought) const {
  Seen at = look(HEAD);
  do {
    const auto below = step_down(at, sought);
    if (!below) return std::nullopt;
    at = *below;
  } while (level(at.node) != 0);
  return at;
}

// Splits the highest full node on the way to the key, whose parent then has room for one child more. The caller tries again, whether this came through or not.
void OlcTree::make_room(uint64_t sought) {
  Seen parent = look(HEAD);
  do {
    const auto node = step_down(parent, sought);
    if (!node) return;
    if (count(node->node) == CAPACITY) {
      if (!lock(parent)) return;
      if (lock(*node)) {
        split(parent.node, node->node);
        unlock(node->node);
      }
      unlock(parent.node);
      return;
    }
    parent = *node;
  } while (level(parent.node) != 0);
}

// The upper half goes to a new node. Parent and node are locked, so nobody meets the new one before it is whole.
void OlcTree::split(uint64_t parent, uint64_t node) {
  const uint64_t right = new_node(level(node));
  for (unsigned i = CAPACITY / 2; i < CAPACITY; i++) insert(right, i - CAPACITY / 2, key(node, i), value(node, i));
  const uint64_t fence = key(right, 0);
  set_word(node, 1, CAPACITY / 2);
  if (parent != HEAD) {
    insert(parent, first_not_below(parent, fence), fence, right);
    return;
  }
  const uint64_t root = new_node(level(node) + 1);
  insert(root, 0, 0, node);
  insert(root, 1, fence, right);
  set_value(HEAD, 0, root);
}

uint64_t OlcTree::new_node(uint64_t level) {
  const uint64_t node = next_.fetch_add(1);
  if (node >= room_) throw std::length_error("no room for another node");
  set_word(node, 0, level);
  return node;
}
