// A key as bytes. A number has eight, highest first, so that engines that compare bytes keep keys in the order of their numbers; a word is its own.
#pragma once

#include <array>
#include <cstdint>
#include <string_view>

using ByteKey = std::array<char, 8>;

inline ByteKey byte_key(uint64_t key) {
  ByteKey bytes;
  for (int i = 0; i < 8; i++) bytes[i] = char(key >> (56 - 8 * i));
  return bytes;
}

inline std::string_view byte_key(std::string_view word) { return word; }

inline uint64_t number_of(const char* bytes) {
  uint64_t key = 0;
  for (int i = 0; i < 8; i++) key = key << 8 | uint8_t(bytes[i]);
  return key;
}
