// A leaderboard in C++20: players by their points, the best first. A key is points and player, each
// with its first byte first, so that keys are in the order of the numbers.
#include "sweep_bptree.h"
#include <array>
#include <cstdio>
#include <new>
#include <utility>

using Key = std::array<uint8_t, 12>;

static Key key_of(uint64_t points, uint32_t player) {
    Key key{};
    for (int i = 0; i < 8; i++) key[i] = static_cast<uint8_t>(points >> (56 - 8 * i));
    for (int i = 0; i < 4; i++) key[8 + i] = static_cast<uint8_t>(player >> (24 - 8 * i));
    return key;
}

static uint64_t points_of(const Key &key) {
    uint64_t points = 0;
    for (int i = 0; i < 8; i++) points = points << 8 | key[i];
    return points;
}

// A board that is freed at the end of its scope. A copy would have two owners.
class Board {
public:
    Board() {
        if (!bptree_dict_new(&players)) throw std::bad_alloc();
    }
    Board(const Board &) = delete;
    Board &operator=(const Board &) = delete;
    ~Board() { bptree_dict_free(&players); }

    size_t len() const { return bptree_dict_len(&players); }
    void remove(uint32_t player) {
        Key key = key_of(points[player], player);
        if (bptree_dict_del(&players, key.data(), key.size(), &old) == BPTREE_NO_MEMORY) throw std::bad_alloc();
    }
    void score(uint32_t player, uint64_t more) {
        remove(player);
        Key key = key_of(points[player] += more, player);
        if (bptree_dict_put(&players, key.data(), key.size(), player, &old) == BPTREE_NO_MEMORY) throw std::bad_alloc();
    }
    size_t between(uint64_t least, uint64_t below) const {
        Key from = key_of(least, 0), to = key_of(below, 0);
        return bptree_dict_range_len(&players, from.data(), from.size(), to.data(), to.size());
    }
    void show(uint32_t player) const {
        size_t smaller, length;
        uint64_t best;
        Key found, own = key_of(points[player], player);
        for (size_t i = 1; i <= 3 && bptree_dict_at(&players, len() - i, found.data(), found.size(), &length, &best); i++)
            std::printf("%zu. player %llu: %llu\n", i, static_cast<unsigned long long>(best), static_cast<unsigned long long>(points_of(found)));
        bptree_dict_rank(&players, own.data(), own.size(), &smaller);
        std::printf("player %lu is number %zu of %zu\n", static_cast<unsigned long>(player), len() - smaller, len());
    }

private:
    bptree_dict players{};
    std::array<uint64_t, 7> points{};
    uint64_t old = 0;
};

int main() {
    using Score = std::pair<uint32_t, uint64_t>;
    Board board;
    for (auto [player, more] : {Score{1, 120}, {2, 90}, {3, 250}, {4, 60}, {5, 310}, {6, 250}, {4, 200}}) board.score(player, more);
    board.show(3);
    std::printf("%zu players have 100 to 250 points\n", board.between(100, 251));
    board.remove(5);
    board.show(3);
}
