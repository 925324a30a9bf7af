/* Threads on one store, each with keys of its own, of which it keeps a model, and with keys that all share. Each answer is compared with the model; each thread hands its
 * hand back itself, while the store is flushed and gives further hands; the store is closed, and its image opened again and compared once more.
 * usage: stress IMAGE THREADS FRAMES CALLS */
#define BRF_LOOPS
#include "burnetroof.h"
#include <pthread.h>
#include <stdio.h>
#include <stdlib.h>

enum { KEYS = 600, SHARED = 8, MOST_THREADS = 64, MOST_IMAGE = 65536 * 512 };

struct task {
    brf_hand hand;
    uint64_t number, random, calls;
    uint64_t value[KEYS];
    uint32_t has[KEYS];
    pthread_t thread;
    const char *wrong;
    brf_answer back;
};

static uint64_t threads;
static uint8_t image[MOST_IMAGE];
static struct task tasks[MOST_THREADS];

static uint64_t next(struct task *task) {
    task->random ^= task->random << 13;
    task->random ^= task->random >> 7;
    return task->random ^= task->random << 17;
}

/* A key that all threads share: what is answered is not known. */
static brf_answer call_shared(struct task *task, uint64_t number) {
    struct brf_told told;
    uint64_t key = (1ull << 40) + number % SHARED;
    if (number & 1024) return brf_put_yielding(&task->hand, key, number, &told);
    return brf_get_yielding(&task->hand, key, &told);
}

/* A key of the thread's own: the model knows what is answered. */
static brf_answer call_own(struct task *task, uint64_t number) {
    struct brf_told told;
    int k = number % KEYS;
    uint64_t key = k * threads + task->number, what = (number >> 20) % 10, value = number >> 3;
    brf_answer answer = what < 6   ? brf_get_yielding(&task->hand, key, &told)
                        : what < 9 ? brf_put_yielding(&task->hand, key, value, &told)
                                   : brf_del_yielding(&task->hand, key, &told);
    if (answer == BRF_OK && (told.had != task->has[k] || (told.had && told.value != task->value[k]))) task->wrong = "another answer than the model's";
    if (what >= 6) task->has[k] = what < 9;
    if (what >= 6 && what < 9) task->value[k] = value;
    return answer;
}

static void *work(void *given) {
    struct task *task = given;
    for (uint64_t c = 0; c < task->calls && !task->wrong; c++) {
        uint64_t number = next(task);
        brf_answer answer = (number >> 40) % 16 == 0 ? call_shared(task, number) : call_own(task, number);
        if (answer != BRF_OK) task->wrong = "a call was not answered";
    }
    task->back = brf_hand_back(&task->hand);
    return NULL;
}

/* While the threads work, and hands go back: flushes, and hands that are given and go back at once. */
static brf_answer disturb(brf_store *store) {
    struct brf_flushed flushed;
    brf_answer answer = BRF_OK;
    for (int turn = 0; turn < 20 && answer == BRF_OK; turn++) {
        brf_hand hand = BRF_NOTHING;
        answer = brf_flush(store, &flushed);
        if (answer == BRF_OK && brf_hand_out(store, &hand) == BRF_OK) answer = brf_hand_back(&hand);
    }
    return answer;
}

static int failed(const char *what, brf_answer answer) {
    printf("stress: %s: %u\n", what, (unsigned)answer);
    return 1;
}

/* Whether the image has each thread's own keys as its model has them. */
static brf_answer compare(size_t size, uint32_t frames) {
    brf_store store = BRF_NOTHING;
    brf_hand hand = BRF_NOTHING;
    struct brf_told told;
    struct brf_counts counts;
    brf_answer answer = brf_open(image, size, frames, &store, &told);
    if (answer == BRF_OK) answer = brf_hand_out(&store, &hand);
    for (uint64_t t = 0; t < threads && answer == BRF_OK; t++)
        for (int k = 0; k < KEYS && answer == BRF_OK; k++) {
            answer = brf_get_yielding(&hand, k * threads + t, &told);
            if (told.had != tasks[t].has[k] || (told.had && told.value != tasks[t].value[k])) return BRF_OTHER;
        }
    if (answer == BRF_OK) answer = brf_hand_back(&hand);
    return answer == BRF_OK ? brf_close(&store, image, size, &counts) : answer;
}

int main(int argc, char **argv) {
    if (argc != 5) return failed("usage: stress IMAGE THREADS FRAMES CALLS", 0);
    FILE *file = fopen(argv[1], "rb");
    if (!file) return failed(argv[1], 0);
    size_t size = fread(image, 1, sizeof image, file);
    fclose(file);
    threads = strtoull(argv[2], NULL, 10);
    uint32_t frames = (uint32_t)strtoul(argv[3], NULL, 10);
    brf_store store = BRF_NOTHING;
    struct brf_told told;
    struct brf_counts counts;
    brf_answer answer = brf_open(image, size, frames, &store, &told);
    if (answer != BRF_OK) return failed("open", answer);
    for (uint64_t t = 0; t < threads; t++) {
        tasks[t].number = t;
        tasks[t].random = 88172645463325252ull + 77 * t;
        tasks[t].calls = strtoull(argv[4], NULL, 10) / threads;
        if ((answer = brf_hand_out(&store, &tasks[t].hand)) != BRF_OK) return failed("hand", answer);
    }
    if ((answer = brf_close(&store, image, size, &counts)) != BRF_HANDS) return failed("closed with hands out", answer);
    for (uint64_t t = 0; t < threads; t++)
        if (pthread_create(&tasks[t].thread, NULL, work, &tasks[t])) return failed("thread", 0);
    if ((answer = disturb(&store)) != BRF_OK) return failed("flush", answer);
    for (uint64_t t = 0; t < threads; t++) pthread_join(tasks[t].thread, NULL);
    for (uint64_t t = 0; t < threads; t++) {
        if (tasks[t].wrong) return failed(tasks[t].wrong, 0);
        if (tasks[t].back != BRF_OK) return failed("hand back", tasks[t].back);
    }
    if ((answer = brf_close(&store, image, size, &counts)) != BRF_OK || counts.unwritten) return failed("close", answer);
    printf("%llu threads, %u frames: reads %llu, writes %llu\n", (unsigned long long)threads, frames, (unsigned long long)counts.reads, (unsigned long long)counts.writes);
    if ((answer = compare(size, frames)) != BRF_OK) return failed("the image is another one", answer);
    return 0;
}
