/* The command `run` of the program, over the C library: the calls of a script, made by as many threads as it has workers, on the tree of a page file. What is
 * said is what `vmcache run` says of replies and rows, so that `tests/overlaps --program` looks at this program's runs as at that one's.
 * usage: run run IMAGE SCRIPT --workers W --frames F --keep FILE */
#define BRF_LOOPS
#include "burnetroof.h"
#include <inttypes.h>
#include <pthread.h>
#include <stdarg.h>
#include <stdio.h>
#include <stdlib.h>
#include <string.h>

enum { MOST_WORKERS = 64, MOST_IMAGE = 65536 * 512, MOST_CALLS = 1000000 };

enum kind { GET, PUT, DEL, SWAP, SCAN, RANGE };
static const char *const KINDS[] = {"get", "put", "del", "swap", "scan", "range"};

struct call {
    enum kind kind;
    uint64_t numbers[3];
    int to_end; /* of a range */
    unsigned worker, place; /* the place among its worker's calls */
    char *reply;
};

struct worker {
    brf_hand hand;
    unsigned number;
    pthread_t thread;
};

static struct call calls[MOST_CALLS];
static size_t count;
static uint8_t image[MOST_IMAGE];

static void refuse(const char *what, unsigned answer) {
    fprintf(stderr, "run: %s: %u\n", what, answer);
    exit(1);
}

/* A text of its own. */
static char *text_of(const char *form, ...) {
    char *text = NULL;
    va_list words;
    va_start(words, form);
    int length = vsnprintf(NULL, 0, form, words);
    va_end(words);
    text = malloc(length + 1);
    if (!text) refuse("memory", 0);
    va_start(words, form);
    vsnprintf(text, length + 1, form, words);
    va_end(words);
    return text;
}

/* ` key=value` for each pair behind the front, which is freed. */
static char *with_pairs(char *front, const struct brf_pair *pairs, size_t many) {
    size_t room = strlen(front) + 43 * many + 1, at = strlen(front);
    char *text = realloc(front, room);
    if (!text) refuse("memory", 0);
    for (size_t i = 0; i < many; i++) at += snprintf(text + at, room - at, " %" PRIu64 "=%" PRIu64, pairs[i].key, pairs[i].value);
    return text;
}

static char *value_or(const char *word, const char *none, const struct brf_told *told) {
    return told->had ? text_of("%s %" PRIu64, word, told->value) : text_of("%s", none);
}

/* The reply to a call that was answered so. */
static char *reply_to(const struct call *call, brf_answer answer, const struct brf_told *told, const struct brf_pair *pairs, const struct brf_shown *shown) {
    if (answer == BRF_FULL) return text_of("full");
    if (answer == BRF_WIDE) return text_of("wide %" PRIu64, told->value);
    if (answer == BRF_OTHER) return value_or("kept", "none", told);
    if (answer != BRF_OK) refuse("a call was not answered", answer);
    switch (call->kind) {
    case GET: return value_or("some", "none", told);
    case PUT: return value_or("was", "new", told);
    case DEL: return value_or("gone", "none", told);
    case SWAP: return text_of("swapped");
    case RANGE: return with_pairs(text_of("range %u", (unsigned)shown->count), pairs, shown->count);
    default: break;
    }
    char *front = shown->ends ? text_of("window %" PRIu64 " end", call->numbers[0]) : text_of("window %" PRIu64 " %" PRIu64, call->numbers[0], shown->bound);
    return with_pairs(front, pairs, shown->count);
}

static void make(brf_hand *hand, struct call *call) {
    struct brf_told told = {0};
    struct brf_pair pairs[BRF_RANGE_ROOM];
    struct brf_shown shown = {0};
    const uint64_t *of = call->numbers;
    brf_answer answer = BRF_NONE;
    switch (call->kind) {
    case GET: answer = brf_get_yielding(hand, of[0], &told); break;
    case PUT: answer = brf_put_yielding(hand, of[0], of[1], &told); break;
    case DEL: answer = brf_del_yielding(hand, of[0], &told); break;
    case SWAP: answer = brf_swap_yielding(hand, of[0], of[1], of[2], &told); break;
    case SCAN: answer = brf_window_yielding(hand, of[0], (uint32_t)of[1], pairs, BRF_RANGE_ROOM, &shown, &told); break;
    case RANGE: answer = brf_range_yielding(hand, of[0], of[1], call->to_end, pairs, BRF_RANGE_ROOM, &shown, &told); break;
    }
    call->reply = reply_to(call, answer, &told, pairs, &shown);
}

static void *work(void *given) {
    struct worker *worker = given;
    for (size_t i = 0; i < count; i++)
        if (calls[i].worker == worker->number) make(&worker->hand, &calls[i]);
    return NULL;
}

/* Reads a line `WORKER KIND NUMBER..`, whose last number may be `end`. */
static void read_call(char *line, unsigned *places) {
    struct call *call = &calls[count++];
    char *word = strtok(line, " \n");
    call->worker = (unsigned)strtoul(word, NULL, 10);
    call->place = ++places[call->worker];
    word = strtok(NULL, " \n");
    while (strcmp(word, KINDS[call->kind])) call->kind++;
    for (int i = 0; (word = strtok(NULL, " \n")); i++) {
        call->to_end = !strcmp(word, "end");
        call->numbers[i] = strtoull(word, NULL, 10);
    }
}

static size_t read_file(const char *name, uint8_t *to, size_t room) {
    FILE *file = fopen(name, "rb");
    if (!file) refuse(name, 0);
    size_t size = fread(to, 1, room, file);
    fclose(file);
    return size;
}

/* A line for each pair of the map. */
static void say_rows(brf_hand *hand) {
    struct brf_pair pairs[BRF_RANGE_ROOM];
    struct brf_shown shown = {.bound = 0};
    struct brf_told told;
    do {
        brf_answer answer = brf_window_yielding(hand, shown.bound, 28, pairs, BRF_RANGE_ROOM, &shown, &told);
        if (answer != BRF_OK) refuse("rows", answer);
        for (uint32_t i = 0; i < shown.count; i++) printf("row %" PRIu64 " %" PRIu64 "\n", pairs[i].key, pairs[i].value);
    } while (!shown.ends);
}

int main(int argc, char **argv) {
    if (argc != 10) refuse("usage: run run IMAGE SCRIPT --workers W --frames F --keep FILE", 0);
    unsigned workers = (unsigned)atoi(argv[5]), frames = (unsigned)atoi(argv[7]), places[MOST_WORKERS] = {0};
    size_t size = read_file(argv[2], image, sizeof image);
    FILE *script = fopen(argv[3], "r");
    char line[256];
    while (script && fgets(line, sizeof line, script)) read_call(line, places);

    static struct worker all[MOST_WORKERS];
    brf_store store = BRF_NOTHING;
    struct brf_told told;
    brf_answer answer = brf_open(image, size, frames, &store, &told);
    if (answer != BRF_OK) refuse("open", answer);
    for (unsigned w = 0; w < workers; w++) {
        all[w].number = w;
        if ((answer = brf_hand_out(&store, &all[w].hand)) != BRF_OK) refuse("hand", answer);
    }
    for (unsigned w = 0; w < workers; w++)
        if (pthread_create(&all[w].thread, NULL, work, &all[w])) refuse("thread", 0);
    for (unsigned w = 0; w < workers; w++) pthread_join(all[w].thread, NULL);
    for (unsigned w = 0; w < workers; w++)
        for (size_t i = 0; i < count; i++)
            if (calls[i].worker == w) printf("%u %u %s\n", w, calls[i].place, calls[i].reply);
    say_rows(&all[0].hand);
    for (unsigned w = 0; w < workers; w++)
        if ((answer = brf_hand_back(&all[w].hand)) != BRF_OK) refuse("hand back", answer);

    struct brf_counts counts;
    answer = brf_close(&store, image, size, &counts);
    if (answer != BRF_OK || counts.unwritten) refuse("close", answer);
    FILE *kept = fopen(argv[9], "wb");
    if (!kept || fwrite(image, 1, size, kept) != size || fclose(kept)) refuse("keep", 0);
    return 0;
}
