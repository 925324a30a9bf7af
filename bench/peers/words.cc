#include "words.h"

#include <fstream>

namespace {

Answers call(WordSession& session, const std::vector<Word>& words) {
  Answers seen;
  for (const Word& word : words) seen.fresh += session.put(word.bytes, word.number);
  for (const Word& word : words) {
    if (const auto value = session.get(word.bytes)) {
      seen.some += 1;
      seen.read += *value;
    }
  }
  for (size_t place = 1; place < words.size(); place += 2) seen.gone += session.del(words[place].bytes);
  seen.calls = 2 * words.size() + words.size() / 2;
  return seen;
}

// The rows, found by a get of each word.
void read_rows(Store& store, const Dealt& dealt, Worded& worded) {
  const auto session = store.word_session();
  for (const auto& words : dealt) {
    for (const Word& word : words) {
      if (const auto value = session->get(word.bytes)) {
        worded.rows += 1;
        worded.sum += *value;
      }
    }
  }
}

}  // namespace

Dealt dealt_from(const std::string& file, unsigned workers) {
  Dealt dealt(workers);
  std::ifstream lines(file);
  std::string line;
  for (uint64_t place = 0; std::getline(lines, line); place++) dealt[place / 2 % workers].push_back({line, place + 1});
  require(lines.eof(), "the words");
  return dealt;
}

uint64_t words_in(const Dealt& dealt) {
  uint64_t count = 0;
  for (const auto& words : dealt) count += words.size();
  return count;
}

Worded make_words(Store& store, const Dealt& dealt) {
  std::vector<Answers> seen(dealt.size());
  const double seconds = run_tasks(unsigned(dealt.size()), [&](unsigned worker) -> Task {
    const std::shared_ptr<WordSession> session = store.word_session();
    return [&, session, worker] { seen[worker] = call(*session, dealt[worker]); };
  });
  Worded worded{sum_of(seen)};
  worded.answers.seconds = seconds;
  read_rows(store, dealt, worded);
  return worded;
}
