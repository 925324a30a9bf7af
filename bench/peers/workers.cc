#include "workers.h"

#include <algorithm>
#include <chrono>
#include <exception>
#include <latch>
#include <thread>
#include <vector>

namespace {

using Clock = std::chrono::steady_clock;

struct Worker {
  Clock::time_point end;
  std::exception_ptr failure;
};

// One worker's thread. It is counted as ready once it has a task, and also where it could not get one: the others wait for it.
void run_worker(const std::function<Task(unsigned)>& task_of, unsigned number, std::latch& ready, std::latch& go, Worker& worker) {
  Task task;
  try {
    task = task_of(number);
  } catch (...) {
    worker.failure = std::current_exception();
  }
  ready.count_down();
  go.wait();
  if (!task) return;
  try {
    task();
  } catch (...) {
    worker.failure = std::current_exception();
  }
  worker.end = Clock::now();
}

}  // namespace

void build(Store& store, const Work& work, const Places& places) {
  const auto session = store.session();
  for (uint64_t i = 1; i <= work.pairs; i++) session->put(places.at(i), i);
}

double run_workers(Store& store, unsigned workers, const Calls& calls) {
  return run_tasks(workers, [&](unsigned number) -> Task {
    const std::shared_ptr<Session> session = store.session();
    return [&calls, session, number] { calls(*session, number); };
  });
}

double run_tasks(unsigned workers, const std::function<Task(unsigned)>& task_of) {
  std::vector<Worker> all(workers);
  std::latch ready(workers), go(1);
  std::vector<std::thread> threads;
  for (unsigned number = 0; number < workers; number++) {
    threads.emplace_back([&, number] { run_worker(task_of, number, ready, go, all[number]); });
  }
  ready.wait();
  const auto start = Clock::now();
  go.count_down();
  for (auto& thread : threads) thread.join();
  auto end = start;
  for (const auto& worker : all) {
    if (worker.failure) std::rethrow_exception(worker.failure);
    end = std::max(end, worker.end);
  }
  return std::chrono::duration<double>(end - start).count();
}
