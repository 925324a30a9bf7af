/* A store on a page file: a pair is put, the dirty pages are written while the store is open, and the file has the pair at the end.
 * usage: file FILE */
#define BRF_LOOPS
#define BRF_DEBUG
#include "burnetroof_file.h"

int main(int argc, char **argv) {
    brf_store store = BRF_NOTHING;
    brf_hand hand = BRF_NOTHING;
    struct brf_file file;
    struct brf_told told;
    struct brf_flushed flushed;
    struct brf_counts counts;
    if (argc != 2 || brf_open_file(argv[1], 64, &store, &file, &told) != BRF_OK) return 2;
    if (brf_hand_out(&store, &hand) != BRF_OK || brf_put_yielding(&hand, 7, 70, &told) != BRF_OK) return 1;
    if (brf_hand_back(&hand) != BRF_OK) return 1;
    if (brf_flush(&store, &flushed) != BRF_OK || flushed.written != 1 || flushed.failed || flushed.busy) return 1;
    if (brf_close_file(argv[1], &store, &file, &counts) != BRF_OK) return 1;
    printf("written %u\n", (unsigned)flushed.written);
    return 0;
}
