#include "voxdag.h"
#include <stdio.h>

int main(void)
{
    voxdag_world w = VOXDAG_CLOSED;
    voxdag_box cube = {{0, 0, 0}, {16, 16, 16}}, all = {{0, 0, 0}, {64, 64, 64}};
    voxdag_place corner = {15, 15, 15};
    uint64_t before = 0, now = 0;
    if (voxdag_open(&w, 64) != VOXDAG_OK) return 1;
    if (voxdag_fill(&w, &cube) || voxdag_carve(&w, &corner, 10)) return 1; /* versions 1 and 2 */
    if (voxdag_count(&w, 1, &all, &before) || voxdag_count(&w, 2, &all, &now)) return 1;
    printf("%llu cells, and then %llu\n", (unsigned long long)before, (unsigned long long)now);
    return voxdag_close(&w) == VOXDAG_OK ? 0 : 1;
}
