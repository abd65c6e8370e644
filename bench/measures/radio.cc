// Times GNU Radio's Viterbi algorithm on the trellis blocks of blocks.rt.txt. A step's metric of each of the 16 nibbles is the
// number of bits in which it differs from the nibble received; a path has 49 steps, from state 0 to state 0. The block of GNU
// Radio is called by itself, without a flow graph, so that nothing but its work is timed.
#include <gnuradio/block_detail.h>
#include <gnuradio/trellis/viterbi.h>

#include <algorithm>
#include <chrono>
#include <cstdint>
#include <cstdio>
#include <vector>

namespace {

constexpr int rounds = 400;
constexpr int blocks = 64;
constexpr int steps = 49;
constexpr int points = 16;

const int nibbles[points] = {0x2, 0xA, 0x7, 0xF, 0xE, 0x6, 0xB, 0x3, 0xD, 0x5, 0x8, 0x0, 0x1, 0x9, 0x4, 0xC};

const std::vector<int> half = {0, 15, 12, 3, 4, 11, 8, 7, 13, 2, 1, 14, 9, 6, 5, 10};

const std::vector<int> three_quarter = {
    0, 8, 4, 12, 2, 10, 6, 14, 4, 12, 2, 10, 6, 14, 0, 8, 1, 9, 5, 13, 3, 11, 7, 15, 5, 13, 3, 11, 7, 15, 1, 9,
    3, 11, 7, 15, 1, 9, 5, 13, 7, 15, 1, 9, 5, 13, 3, 11, 2, 10, 6, 14, 0, 8, 4, 12, 6, 14, 0, 8, 4, 12, 2, 10};

std::uint64_t state = 0x9E3779B97F4A7C15u;

std::uint64_t next() {
    state ^= state << 13;
    state ^= state >> 7;
    state ^= state << 17;
    return state >> 20;
}

// Returns the machine of a rate: the state after a symbol is that symbol, and a step sends the nibble of its point.
gr::trellis::fsm machine(int states, const std::vector<int> &table) {
    std::vector<int> after;
    std::vector<int> sent;
    for (int i = 0; i < states * states; i++) {
        after.push_back(i % states);
        sent.push_back(nibbles[table[i]]);
    }
    return gr::trellis::fsm(states, states, points, after, sent);
}

// A block: the symbols of a path, and its received nibbles.
struct block {
    std::vector<unsigned char> path;
    std::vector<int> received;
};

// Returns a random path, and its transmitted nibbles.
block random_block(const gr::trellis::fsm &code) {
    block made;
    int from = 0;
    for (int step = 0; step < steps; step++) {
        int symbol = step + 1 < steps ? static_cast<int>(next() % code.I()) : 0;
        made.path.push_back(static_cast<unsigned char>(symbol));
        made.received.push_back(code.OS()[from * code.I() + symbol]);
        from = symbol;
    }
    return made;
}

// Inverts a number of bits of nibbles.
void damage(std::vector<int> &nibbles_sent, int wrong) {
    std::vector<bool> changed(4 * steps);
    while (wrong > 0) {
        unsigned place = static_cast<unsigned>(next() % (4 * steps));
        if (!changed[place]) {
            changed[place] = true;
            nibbles_sent[place / 4] ^= 1 << place % 4;
            wrong--;
        }
    }
}

// A decoder of blocks: GNU Radio's, and its input.
struct reader {
    explicit reader(const gr::trellis::fsm &code) : inner(gr::trellis::viterbi<unsigned char>::make(code, steps, 0, 0)) {
        // The decoder returns how many items it took, which nothing needs here.
        inner->set_detail(gr::make_block_detail(0, 0));
        for (int i = 0; i < points * points; i++) {
            apart[i / points][i % points] = static_cast<float>(__builtin_popcount(i / points ^ i % points));
        }
    }

    // Fills the metrics of a block and finds the nearest path. Returns whether it is the one transmitted.
    bool read(const block &one) {
        for (int step = 0; step < steps; step++) {
            const float *row = apart[one.received[step]];
            std::copy(row, row + points, metrics.begin() + points * step);
        }
        inner->general_work(steps, counts, inputs, outputs);
        return symbols == one.path;
    }

    gr::trellis::viterbi<unsigned char>::sptr inner;
    float apart[points][points];
    std::vector<float> metrics = std::vector<float>(points * steps);
    std::vector<unsigned char> symbols = std::vector<unsigned char>(steps);
    std::vector<int> counts = {points * steps};
    std::vector<const void *> inputs = {metrics.data()};
    std::vector<void *> outputs = {symbols.data()};
};

// Prints the least time of a block with a number of bit errors, and how many blocks decoded correctly.
void time_blocks(const char *name, const char *label, const gr::trellis::fsm &code, int wrong) {
    std::vector<block> made;
    for (int i = 0; i < blocks; i++) {
        made.push_back(random_block(code));
        damage(made.back().received, wrong);
    }
    reader blocks_reader(code);
    auto least = std::chrono::nanoseconds::max();
    unsigned found = 0;
    for (int round = 0; round < rounds; round++) {
        auto start = std::chrono::steady_clock::now();
        for (const block &one : made) {
            found += blocks_reader.read(one) ? 1 : 0;
        }
        auto time = std::chrono::steady_clock::now() - start;
        least = std::min(least, std::chrono::duration_cast<std::chrono::nanoseconds>(time));
    }
    std::printf("%s|%s|%lld|%u\n", name, label, static_cast<long long>(least.count()) * 10 / blocks, found);
}

} // namespace

int main() {
    gr::trellis::fsm slow = machine(4, half);
    gr::trellis::fsm fast = machine(8, three_quarter);
    time_blocks("half-rate block", "0", slow, 0);
    time_blocks("half-rate block", "1", slow, 1);
    time_blocks("half-rate block", "2, the radius", slow, 2);
    time_blocks("half-rate block", "8", slow, 8);
    time_blocks("three-quarter-rate block", "0", fast, 0);
    time_blocks("three-quarter-rate block", "1, the radius", fast, 1);
    time_blocks("three-quarter-rate block", "8", fast, 8);
    return 0;
}
