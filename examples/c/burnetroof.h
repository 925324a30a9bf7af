/* burnetroof.h: the tree of a Burnetroof page file, for C and C++.
 *
 * A store is opened from the bytes of a page file and closed into such bytes. Between, hands make calls on its tree. All calls of all hands are one
 * history: each call takes effect at one moment between its start and its end.
 *
 * HANDLES. A handle is a struct of one pointer, which C begins with BRF_NOTHING and gives to calls by its address. It holds a store or a hand, or
 * nothing: before it was opened, and after it was closed or went back. A call that finds nothing in a handle answers BRF_NONE, and one that would put
 * something where there is something answers BRF_TAKEN; nothing has happened then. C never writes into a handle, and a copy of one is not used: only one
 * of the two would know what was closed.
 *
 * THREADS. The library starts no thread, takes no lock, does not sleep and does not yield. It uses atomic operations, all sequentially consistent.
 *   - A handle is used by one call at a time. It may go to another thread, by anything that orders the two: a thread's start or join, a mutex, a
 *     sequentially consistent atomic. Hands of one store are used by as many threads at the same time as there are hands.
 *   - brf_hand_out, brf_flush and brf_close use the store's handle: one of them at a time. They may run while hands work, but brf_close
 *     answers BRF_HANDS until each hand is back.
 *   - A hand knows its store: brf_hand_back takes the hand alone, at any time, on its own thread.
 *   - No call from a signal handler, nor from the forked child of a process with threads.
 *
 * Three mistakes of a caller no answer can tell: an address that is none, a handle that two threads use at once or that is a copy, and one that is used after
 * the memory it lies in is gone. With BRF_DEBUG defined before this header is included, each call looks for the first, and for a handle that is empty.
 *
 * MEMORY. The library calls malloc, realloc and free, and nothing else of the system. What C passes beside handles (bytes, image, told, counts) stays C's and
 * is used during the call alone, and no two of these may overlap.
 */
#ifndef BURNETROOF_H
#define BURNETROOF_H
#include <stddef.h>
#include <stdint.h>
#ifdef __cplusplus
extern "C" {
#endif

typedef struct { void *at; } brf_store;
typedef struct { void *at; } brf_hand;
#define BRF_NOTHING {0}

/* An answer. Each function names those that it gives. */
typedef uint32_t brf_answer;
enum {
    BRF_OK = 0,
    BRF_BUSY = 1,    /* the rounds were used up: no effect on the map; call again, after a pause of your own. Of brf_close: never, as C uses it */
    BRF_DEVICE = 2,  /* the device of page told.page failed; no effect */
    BRF_FULL = 3,    /* a put: no page is left for a split, of told.page pages; no effect */
    BRF_WORN = 4,    /* page told.page is at its last version; no effect */
    BRF_DAMAGED = 5, /* page told.page is not what the way to it says; no effect, and never on pages in memory */
    BRF_OTHER = 6,   /* a swap: the key has the value told.value, which is another one, or none (told.had is 0) */
    BRF_LENGTH = 7,  /* not 2 to 65536 pages of 512 bytes, or the image is not as long as the store's pages */
    BRF_FRAMES = 8,  /* frames not from 64 to 65536 */
    BRF_NO_TREE = 9, /* the bytes are no tree: told.page is at fault, told.value is the number of the reason, 1 to 9 */
    BRF_MEMORY = 10, /* no memory; brf_close then has ended the store, without an image */
    BRF_HANDS = 11,  /* brf_hand_out: as many hands are out as may be; brf_close: hands are out, the store stays open */
    BRF_NONE = 12,   /* a handle holds nothing */
    BRF_TAKEN = 13,  /* a handle holds something */
    BRF_ROOM = 14,   /* a window of no pair, or too little room for the pairs; nothing has happened */
    BRF_WIDE = 15    /* a range over more than sixteen leaves, which reach to the key told.value: no pair is shown */
};

struct brf_pair {
    uint64_t key, value;
};

/* What a window or a range shows: `count` pairs, all that there are from the key asked for on and below the bound; or, where `ends` is 1, all from it on. */
struct brf_shown {
    uint64_t bound;
    uint32_t count, ends;
};

/* Room for the pairs of any window, and of any range. */
#define BRF_WINDOW_ROOM 28
#define BRF_RANGE_ROOM 448

struct brf_told {
    uint64_t value; /* get: the value; put, del: the value that was there; 0 where there was none */
    uint32_t page;
    uint32_t had;   /* 1 where there is such a value, 0 where not */
};

struct brf_counts {
    uint64_t reads, writes, faults; /* of all pages' blocks; each stops at 2^64 - 1 */
    uint64_t unwritten;             /* pages whose last words did not reach the image */
};

/* Opens the tree in bytes[0..len]: OK, TAKEN, LENGTH, FRAMES, NO_TREE, MEMORY. */
brf_answer brf_open(const uint8_t *bytes, size_t len, uint32_t frames, brf_store *store, struct brf_told *told);

/* A hand for one thread: OK, NONE, TAKEN, HANDS (64 are out, each would have fewer than eight frames, or the store has given 2^32 - 1 in its life), MEMORY. */
brf_answer brf_hand_out(brf_store *store, brf_hand *hand);

/* One call each, in at most so many rounds (0 is BUSY): OK, NONE, BUSY, DEVICE, WORN, DAMAGED; put also FULL, swap also OTHER. A round is one try, with a
 * page brought in or a node split where it needs that. Where the answer is OK or OTHER the call is in the history, else it has no effect on the map. */
brf_answer brf_get(brf_hand *hand, uint64_t key, uint32_t rounds, struct brf_told *told);
brf_answer brf_put(brf_hand *hand, uint64_t key, uint64_t value, uint32_t rounds, struct brf_told *told);
brf_answer brf_del(brf_hand *hand, uint64_t key, uint32_t rounds, struct brf_told *told);
brf_answer brf_swap(brf_hand *hand, uint64_t key, uint64_t want, uint64_t value, uint32_t rounds, struct brf_told *told);

/* The first pairs from `start` on, at most `most` of them: those of one leaf, so there may be fewer. Needs room for as many as are asked for, or 28. OK, ROOM, NONE, BUSY,
 * DEVICE, WORN, DAMAGED. */
brf_answer brf_window(brf_hand *hand, uint64_t start, uint32_t most, uint32_t rounds, struct brf_pair *pairs, size_t room, struct brf_shown *shown,
                      struct brf_told *told);

/* All pairs from `low` on and below `high`, or to the last where `to_end` is not 0, as they were at one moment. Needs room for 448. OK, WIDE, ROOM, MEMORY, NONE, BUSY,
 * DEVICE, WORN, DAMAGED. */
brf_answer brf_range(brf_hand *hand, uint64_t low, uint64_t high, uint32_t to_end, uint32_t rounds, struct brf_pair *pairs, size_t room, struct brf_shown *shown,
                     struct brf_told *told);

/* Ends a hand: it goes back to the store that gave it. OK, NONE. */
brf_answer brf_hand_back(brf_hand *hand);

struct brf_flushed {
    uint32_t written; /* pages */
    uint32_t failed;  /* pages whose write failed: they stay dirty. Never on pages in memory */
    uint32_t busy;    /* pages that a hand had locked */
};

/* Writes the dirty pages that no hand has locked, so that brf_close finds fewer: OK, NONE. Hands may work meanwhile. */
brf_answer brf_flush(brf_store *store, struct brf_flushed *flushed);

/* Writes what is dirty, ends the store, and writes its pages to image[0..len], len = the len of brf_open: OK, NONE, HANDS, BUSY, LENGTH, MEMORY. After
 * HANDS, BUSY and LENGTH the store stays open. */
brf_answer brf_close(brf_store *store, uint8_t *image, size_t len, struct brf_counts *counts);

#ifdef __cplusplus
}
#endif

#ifdef BRF_DEBUG
/* Each call stops the program where it is given no address, or a handle in which nothing is: one that was closed, or went back. */
#include <assert.h>
static inline brf_store *brf_held_store(brf_store *store) {
    assert(store && store->at);
    return store;
}
static inline brf_hand *brf_held_hand(brf_hand *hand) {
    assert(hand && hand->at);
    return hand;
}
static inline brf_store *brf_empty_store(brf_store *store) {
    assert(store && !store->at);
    return store;
}
static inline brf_hand *brf_empty_hand(brf_hand *hand) {
    assert(hand && !hand->at);
    return hand;
}
static inline struct brf_told *brf_told_at(struct brf_told *told) {
    assert(told);
    return told;
}
#define brf_open(bytes, len, frames, store, told) (brf_open)(bytes, len, frames, brf_empty_store(store), brf_told_at(told))
#define brf_hand_out(store, hand) (brf_hand_out)(brf_held_store(store), brf_empty_hand(hand))
#define brf_get(hand, key, rounds, told) (brf_get)(brf_held_hand(hand), key, rounds, brf_told_at(told))
#define brf_put(hand, key, value, rounds, told) (brf_put)(brf_held_hand(hand), key, value, rounds, brf_told_at(told))
#define brf_del(hand, key, rounds, told) (brf_del)(brf_held_hand(hand), key, rounds, brf_told_at(told))
#define brf_swap(hand, key, want, value, rounds, told) (brf_swap)(brf_held_hand(hand), key, want, value, rounds, brf_told_at(told))
#define brf_window(hand, start, most, rounds, pairs, room, shown, told) \
    (brf_window)(brf_held_hand(hand), start, most, rounds, pairs, room, shown, brf_told_at(told))
#define brf_range(hand, low, high, to_end, rounds, pairs, room, shown, told) \
    (brf_range)(brf_held_hand(hand), low, high, to_end, rounds, pairs, room, shown, brf_told_at(told))
#define brf_hand_back(hand) (brf_hand_back)(brf_held_hand(hand))
#define brf_flush(store, flushed) (brf_flush)(brf_held_store(store), flushed)
#define brf_close(store, image, len, counts) (brf_close)(brf_held_store(store), image, len, counts)
#endif

#ifdef BRF_LOOPS
/* The calls again and again until they are answered, with sched_yield between. */
#include <sched.h>
#define BRF_ROUNDS 1000
static inline brf_answer brf_get_yielding(brf_hand *hand, uint64_t key, struct brf_told *told) {
    brf_answer answer;
    while ((answer = brf_get(hand, key, BRF_ROUNDS, told)) == BRF_BUSY) sched_yield();
    return answer;
}
static inline brf_answer brf_put_yielding(brf_hand *hand, uint64_t key, uint64_t value, struct brf_told *told) {
    brf_answer answer;
    while ((answer = brf_put(hand, key, value, BRF_ROUNDS, told)) == BRF_BUSY) sched_yield();
    return answer;
}
static inline brf_answer brf_del_yielding(brf_hand *hand, uint64_t key, struct brf_told *told) {
    brf_answer answer;
    while ((answer = brf_del(hand, key, BRF_ROUNDS, told)) == BRF_BUSY) sched_yield();
    return answer;
}
static inline brf_answer brf_swap_yielding(brf_hand *hand, uint64_t key, uint64_t want, uint64_t value, struct brf_told *told) {
    brf_answer answer;
    while ((answer = brf_swap(hand, key, want, value, BRF_ROUNDS, told)) == BRF_BUSY) sched_yield();
    return answer;
}
static inline brf_answer brf_window_yielding(brf_hand *hand, uint64_t start, uint32_t most, struct brf_pair *pairs, size_t room, struct brf_shown *shown, struct brf_told *told) {
    brf_answer answer;
    while ((answer = brf_window(hand, start, most, BRF_ROUNDS, pairs, room, shown, told)) == BRF_BUSY) sched_yield();
    return answer;
}
static inline brf_answer brf_range_yielding(brf_hand *hand, uint64_t low, uint64_t high, uint32_t to_end, struct brf_pair *pairs, size_t room, struct brf_shown *shown, struct brf_told *told) {
    brf_answer answer;
    while ((answer = brf_range(hand, low, high, to_end, BRF_ROUNDS, pairs, room, shown, told)) == BRF_BUSY) sched_yield();
    return answer;
}
#endif
#endif
