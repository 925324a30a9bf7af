// A stopwatch for a program that has no clock: loaded before it (LD_PRELOAD), it writes into the file that BENCH_WATCH names how many seconds lie between the
// making of the program's first thread and the end of its last join. The program is not changed, and between the two nothing here runs but at other joins.
#include <dlfcn.h>
#include <pthread.h>

#include <atomic>
#include <chrono>
#include <cstdio>
#include <cstdlib>

namespace {

using Nanoseconds = std::chrono::nanoseconds;

std::atomic<Nanoseconds::rep> first_made{0};

Nanoseconds::rep now() { return std::chrono::duration_cast<Nanoseconds>(std::chrono::steady_clock::now().time_since_epoch()).count(); }

template <typename Function>
Function* next(const char* name) {
  return reinterpret_cast<Function*>(dlsym(RTLD_NEXT, name));
}

// Each join writes anew: which one is the last is not known, since a program may end with no call of its exit handlers.
void write_span() {
  const double seconds = double(now() - first_made.load()) / 1e9;
  const char* const name = std::getenv("BENCH_WATCH");
  if (!name) return;
  if (std::FILE* const file = std::fopen(name, "w")) {
    std::fprintf(file, "%.9f\n", seconds);
    std::fclose(file);
  }
}

}  // namespace

extern "C" int pthread_create(pthread_t* thread, const pthread_attr_t* attributes, void* (*start)(void*), void* argument) {
  static const auto real = next<decltype(pthread_create)>("pthread_create");
  Nanoseconds::rep none = 0;
  first_made.compare_exchange_strong(none, now());
  return real(thread, attributes, start, argument);
}

extern "C" int pthread_join(pthread_t thread, void** result) {
  static const auto real = next<decltype(pthread_join)>("pthread_join");
  const int status = real(thread, result);
  write_span();
  return status;
}
