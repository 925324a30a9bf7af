// A store in C++: a hand that goes back by itself, and each kind of call.
// usage: tour IMAGE
#define BRF_LOOPS
#include "burnetroof.h"
#include <cstdio>
#include <fstream>
#include <iterator>
#include <vector>

class Hand {
public:
    explicit Hand(brf_store &store) { opened_ = brf_hand_out(&store, &hand_) == BRF_OK; }
    Hand(const Hand &) = delete;
    ~Hand() { brf_hand_back(&hand_); }
    explicit operator bool() const { return opened_; }
    brf_hand *get() { return &hand_; }

private:
    brf_hand hand_ = BRF_NOTHING;
    bool opened_;
};

static int failed(int at) {
    std::printf("failed at %d\n", at);
    return at;
}

int main(int argc, char **argv) {
    if (argc != 2) return failed(1);
    std::ifstream file(argv[1], std::ios::binary);
    std::vector<uint8_t> image{std::istreambuf_iterator<char>(file), {}};
    brf_store store = BRF_NOTHING;
    brf_told told;
    brf_counts counts;
    if (brf_close(&store, image.data(), image.size(), &counts) != BRF_NONE) return failed(2);
    if (brf_open(image.data(), image.size(), 64, &store, &told) != BRF_OK) return failed(3);
    if (brf_open(image.data(), image.size(), 64, &store, &told) != BRF_TAKEN) return failed(4);
    {
        Hand hand(store);
        if (!hand) return failed(5);
        if (brf_put_yielding(hand.get(), 7, 70, &told) != BRF_OK || told.had) return failed(6);
        if (brf_swap_yielding(hand.get(), 7, 71, 72, &told) != BRF_OTHER || told.value != 70) return failed(7);
        if (brf_swap_yielding(hand.get(), 7, 70, 72, &told) != BRF_OK) return failed(8);
        if (brf_get_yielding(hand.get(), 7, &told) != BRF_OK || told.value != 72) return failed(9);
        if (brf_get(hand.get(), 7, 0, &told) != BRF_BUSY) return failed(10);
        if (brf_close(&store, image.data(), image.size(), &counts) != BRF_HANDS) return failed(11);
        if (brf_del_yielding(hand.get(), 7, &told) != BRF_OK || told.value != 72) return failed(12);
        if (brf_get_yielding(hand.get(), 7, &told) != BRF_OK || told.had) return failed(13);
    }
    brf_flushed flushed;
    if (brf_flush(&store, &flushed) != BRF_OK || flushed.written != 1 || flushed.failed || flushed.busy) return failed(17);
    if (brf_close(&store, image.data(), image.size() - 1, &counts) != BRF_LENGTH) return failed(14);
    if (brf_close(&store, image.data(), image.size(), &counts) != BRF_OK || counts.unwritten) return failed(15);
    if (brf_close(&store, image.data(), image.size(), &counts) != BRF_NONE) return failed(16);
    std::puts("ok");
    return 0;
}
