/* A leaderboard: players by their points, the best first. A key is points and player, each with its
   first byte first, so that keys are in the order of the numbers and equal points are neighbours. */
#include "sweep_bptree.h"
#include <stdio.h>

enum { KEY = 12 };

static uint64_t points[7], old;

typedef struct key {
    uint8_t bytes[KEY];
} key;

static key key_of(uint64_t of, uint32_t player) {
    key made;
    for (int i = 0; i < 8; i++) made.bytes[i] = (uint8_t)(of >> (56 - 8 * i));
    for (int i = 0; i < 4; i++) made.bytes[8 + i] = (uint8_t)(player >> (24 - 8 * i));
    return made;
}

static uint64_t points_of(const uint8_t *bytes) {
    uint64_t of = 0;
    for (int i = 0; i < 8; i++) of = of << 8 | bytes[i];
    return of;
}

/* Adds points. False: an allocation failed, and then the player may have left the board. */
static bool score(bptree_dict *board, uint32_t player, uint64_t more) {
    key before = key_of(points[player], player), after = key_of(points[player] + more, player);
    if (bptree_dict_del(board, before.bytes, KEY, &old) == BPTREE_NO_MEMORY) return false;
    points[player] += more;
    return bptree_dict_put(board, after.bytes, KEY, player, &old) != BPTREE_NO_MEMORY;
}

static void show(bptree_dict *board, uint32_t player) {
    size_t len = bptree_dict_len(board), smaller, length;
    uint64_t best;
    key found, own = key_of(points[player], player);
    for (size_t i = 1; i <= 3 && bptree_dict_at(board, len - i, found.bytes, KEY, &length, &best); i++)
        printf("%zu. player %llu: %llu\n", i, (unsigned long long)best, (unsigned long long)points_of(found.bytes));
    bptree_dict_rank(board, own.bytes, KEY, &smaller);
    printf("player %lu is number %zu of %zu\n", (unsigned long)player, len - smaller, len);
}

int main(void) {
    uint32_t scores[][2] = {{1, 120}, {2, 90}, {3, 250}, {4, 60}, {5, 310}, {6, 250}, {4, 200}};
    bptree_dict board = {0};
    if (!bptree_dict_new(&board)) return 1;
    for (size_t i = 0; i < sizeof scores / sizeof *scores; i++)
        if (!score(&board, scores[i][0], scores[i][1])) return 1;
    show(&board, 3);
    key from = key_of(100, 0), to = key_of(251, 0), leaves = key_of(points[5], 5);
    printf("%zu players have 100 to 250 points\n", bptree_dict_range_len(&board, from.bytes, KEY, to.bytes, KEY));
    if (bptree_dict_del(&board, leaves.bytes, KEY, &old) == BPTREE_NO_MEMORY) return 1;
    show(&board, 3);
    bptree_dict_free(&board);
    return 0;
}
