/* What changed and what can be seen, beside a slow reading of what the header says, cell by cell. */
#include "voxdag.h"
#include <stdio.h>
#include <stdlib.h>

enum { SIDE = 16, VERSIONS = 40 };

static bool cells[VERSIONS + 1][SIDE][SIDE][SIDE]; /* by version, z, y and x, asked one by one */

static uint32_t drawn(uint32_t end)
{
    static uint64_t seed = 11;
    seed = seed * 6364136223846793005u + 1442695040888963407u;
    return (uint32_t)(seed >> 33) % end;
}

static voxdag_box box(uint32_t most)
{
    voxdag_box b;
    b.size.x = 1 + drawn(most); b.size.y = 1 + drawn(most); b.size.z = 1 + drawn(most);
    b.at.x = drawn(SIDE + 1 - b.size.x); b.at.y = drawn(SIDE + 1 - b.size.y); b.at.z = drawn(SIDE + 1 - b.size.z);
    return b;
}

/* 1 where the cell is unset, or lies outside; what is before 0 wraps round and does. */
static unsigned clear(uint32_t version, uint32_t x, uint32_t y, uint32_t z)
{
    return x >= SIDE || y >= SIDE || z >= SIDE || !cells[version][z][y][x];
}

/* Whether the library lists these cells of the box, and in this order. */
static bool shows(voxdag_world *w, uint32_t version, const voxdag_box *b)
{
    static voxdag_shown seen[SIDE * SIDE * SIDE];
    size_t needed = 0, k = 0;
    if (voxdag_surface(w, version, b, seen, sizeof seen / sizeof *seen, &needed)) return false;
    for (uint32_t z = 0; z < b->size.z; z++)
        for (uint32_t y = 0; y < b->size.y; y++)
            for (uint32_t x = 0; x < b->size.x; x++) {
                uint32_t i = b->at.x + x, j = b->at.y + y, l = b->at.z + z;
                unsigned sides = clear(version, i - 1, j, l) | clear(version, i + 1, j, l) << 1 | clear(version, i, j - 1, l) << 2 |
                                 clear(version, i, j + 1, l) << 3 | clear(version, i, j, l - 1) << 4 | clear(version, i, j, l + 1) << 5;
                if (clear(version, i, j, l) || !sides) continue;
                if (k == needed || seen[k].x != x || seen[k].y != y || seen[k].z != z || seen[k].tint != 1 || seen[k].sides != sides) return false;
                k++;
            }
    return k == needed;
}

/* Whether the library tells the least box of the cells in which the two differ. */
static bool differ(voxdag_world *w, uint32_t a, uint32_t b)
{
    uint32_t low[3] = {SIDE, SIDE, SIDE}, high[3] = {0, 0, 0};
    bool is = false, some = false;
    voxdag_box least = {{0, 0, 0}, {0, 0, 0}};
    for (uint32_t z = 0; z < SIDE; z++)
        for (uint32_t y = 0; y < SIDE; y++)
            for (uint32_t x = 0; x < SIDE; x++) {
                uint32_t at[3] = {x, y, z};
                if (cells[a][z][y][x] == cells[b][z][y][x]) continue;
                is = true;
                for (int d = 0; d < 3; d++) {
                    if (at[d] < low[d]) low[d] = at[d];
                    if (at[d] >= high[d]) high[d] = at[d] + 1;
                }
            }
    if (voxdag_changes(w, a, b, &some, &least) || some != is) return false;
    return !is || (least.at.x == low[0] && least.at.y == low[1] && least.at.z == low[2] && least.size.x == high[0] - low[0] &&
                   least.size.y == high[1] - low[1] && least.size.z == high[2] - low[2]);
}

int main(void)
{
    voxdag_world w = VOXDAG_CLOSED;
    if (voxdag_open(&w, SIDE)) return 1;
    for (uint32_t v = 1; v <= VERSIONS; v++) {
        voxdag_box b = box(v % 5 ? 9 : SIDE);
        voxdag_place centre = {drawn(SIDE), drawn(SIDE), drawn(SIDE)};
        uint32_t way = drawn(4);
        if (way == 0 ? voxdag_erase(&w, &b) : way == 1 ? voxdag_ball(&w, &centre, drawn(7)) : way == 2 ? voxdag_carve(&w, &centre, drawn(5)) : voxdag_fill(&w, &b)) return 1;
        for (uint32_t z = 0; z < SIDE; z++)
            for (uint32_t y = 0; y < SIDE; y++)
                for (uint32_t x = 0; x < SIDE; x++) {
                    voxdag_place p = {x, y, z};
                    if (voxdag_get(&w, v, &p, &cells[v][z][y][x])) return 1;
                }
    }
    for (unsigned k = 0; k < 4000; k++) {
        voxdag_box b = box(k % 3 ? 7 : SIDE);
        uint32_t v = drawn(VERSIONS + 1), other = drawn(VERSIONS + 1);
        if (!shows(&w, v, &b) || !differ(&w, v, other)) {
            printf("versions %u and %u differ elsewhere, or other cells can be seen\n", v, other);
            return 1;
        }
    }
    if (voxdag_close(&w)) return 1;
    puts("seen: 4000 boxes and pairs of versions, all as they should be");
    return 0;
}
