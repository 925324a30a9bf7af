/* Counts the words of a text, by their first eight letters, with four threads on one store.
 * usage: words IMAGE < TEXT > COUNTED
 * IMAGE is a page file; COUNTED is the page file with each word's count, which `vmcache check` and `vmcache run` read. A last line on standard error says how many
 * words and how many different ones there were. */
#define BRF_LOOPS
#include "burnetroof.h"
#include <ctype.h>
#include <pthread.h>
#include <stdio.h>
#include <stdlib.h>

enum { THREADS = 4, FRAMES = 256, MOST_IMAGE = 65536 * 512, MOST_TEXT = 1 << 24 };

struct task {
    brf_hand hand;
    const char *at, *end;
    uint64_t words;
    brf_answer failed;
};

/* The next word as a number, or 0 at the end. */
static uint64_t next_word(const char **at, const char *end) {
    uint64_t word = 0;
    while (*at < end && !isalpha((unsigned char)**at)) ++*at;
    for (int letters = 0; *at < end && isalpha((unsigned char)**at); ++*at)
        if (letters++ < 8) word = word << 8 | (unsigned char)tolower((unsigned char)**at);
    return word;
}

/* Adds one to each word's count. A swap that finds another count was late: it is told that count, and tries with it. */
static void *count(void *given) {
    struct task *task = given;
    uint64_t word;
    while ((word = next_word(&task->at, task->end))) {
        struct brf_told told;
        brf_answer answer = brf_get_yielding(&task->hand, word, &told);
        if (answer == BRF_OK)
            do answer = brf_swap_yielding(&task->hand, word, told.value, told.value + 1, &told);
            while (answer == BRF_OTHER && told.had);
        if (answer != BRF_OK) {
            task->failed = answer;
            return NULL;
        }
        task->words++;
    }
    return NULL;
}

/* Puts each word with the count 0, and counts the different ones. */
static brf_answer put_all(brf_hand *hand, const char *at, const char *end, uint64_t *different) {
    uint64_t word;
    while ((word = next_word(&at, end))) {
        struct brf_told told;
        brf_answer answer = brf_put_yielding(hand, word, 0, &told);
        if (answer != BRF_OK) return answer;
        *different += !told.had;
    }
    return BRF_OK;
}

static int failed(const char *what, brf_answer answer) {
    fprintf(stderr, "%s: answer %u\n", what, (unsigned)answer);
    return 1;
}

int main(int argc, char **argv) {
    static uint8_t image[MOST_IMAGE];
    static char text[MOST_TEXT];
    FILE *file = argc == 2 ? fopen(argv[1], "rb") : NULL;
    if (!file) return failed("usage: words IMAGE < TEXT > COUNTED", 0);
    size_t size = fread(image, 1, sizeof image, file);
    fclose(file);
    size_t length = fread(text, 1, sizeof text, stdin);

    brf_store store = BRF_NOTHING;
    struct brf_told told;
    brf_answer answer = brf_open(image, size, FRAMES, &store, &told);
    if (answer != BRF_OK) return failed("open", answer);

    struct task tasks[THREADS];
    pthread_t threads[THREADS];
    uint64_t words = 0, different = 0;
    const char *from = text, *end = text + length;
    for (int t = 0; t < THREADS; t++) {
        const char *to = t == THREADS - 1 ? end : text + length * (t + 1) / THREADS;
        while (to < end && isalpha((unsigned char)*to)) to++;
        tasks[t] = (struct task){BRF_NOTHING, from, to, 0, BRF_OK};
        from = to;
        if ((answer = brf_hand_out(&store, &tasks[t].hand)) != BRF_OK) return failed("hand", answer);
    }
    if ((answer = put_all(&tasks[0].hand, text, end, &different)) != BRF_OK) return failed("put", answer);
    for (int t = 0; t < THREADS; t++)
        if (pthread_create(&threads[t], NULL, count, &tasks[t])) return failed("thread", 0);
    for (int t = 0; t < THREADS; t++) {
        pthread_join(threads[t], NULL);
        if (tasks[t].failed != BRF_OK) return failed("count", tasks[t].failed);
        words += tasks[t].words;
        if ((answer = brf_hand_back(&tasks[t].hand)) != BRF_OK) return failed("hand back", answer);
    }

    struct brf_counts counts;
    answer = brf_close(&store, image, size, &counts);
    if (answer != BRF_OK || counts.unwritten) return failed("close", answer);
    fwrite(image, 1, size, stdout);
    fprintf(stderr, "%llu words, %llu different\n", (unsigned long long)words, (unsigned long long)different);
    return 0;
}
