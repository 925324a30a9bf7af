/* A store is opened on the bytes of a page file, a hand of it puts a pair and gets it, and the store is closed into the same bytes. */
#define BRF_LOOPS
#include "burnetroof.h"
#include <stdio.h>

int main(int argc, char **argv) {
    static uint8_t image[1 << 20];
    FILE *file = argc == 2 ? fopen(argv[1], "rb") : NULL;
    if (!file) return 2;
    size_t size = fread(image, 1, sizeof image, file);
    fclose(file);

    brf_store store = BRF_NOTHING;
    brf_hand hand = BRF_NOTHING; /* one for each thread */
    struct brf_told told;
    struct brf_counts counts;
    if (brf_open(image, size, 64, &store, &told) != BRF_OK || brf_hand_out(&store, &hand) != BRF_OK) return 1;
    if (brf_put_yielding(&hand, 7, 70, &told) != BRF_OK) return 1;
    if (brf_get_yielding(&hand, 7, &told) == BRF_OK && told.had) printf("7 has %llu\n", (unsigned long long)told.value);
    if (brf_hand_back(&hand) != BRF_OK || brf_close(&store, image, size, &counts) != BRF_OK) return 1;
    return counts.unwritten ? 1 : 0; /* with none unwritten, `image` is a page file with all pairs */
}
