/* Small fills and gets through the library, timed: calls SCRIPT FILLS GETS. Without a script's name it works; with one it
 * writes the same fills as a script there, for the program. Prints the processor's nanoseconds for the opening, a fill and a
 * get, and how many of each were done. */
#define _POSIX_C_SOURCE 200809L
#include "voxdag.h"
#include <stdio.h>
#include <stdlib.h>
#include <string.h>
#include <time.h>

#define SIDE 256u
static uint64_t state = 1;

static uint32_t draw(uint32_t end)
{
    state = state * 6364136223846793005u + 1442695040888963407u;
    return (uint32_t)(state >> 33) % end;
}

static voxdag_box small(void)
{
    voxdag_box b;
    b.at.x = draw(SIDE - 4); b.at.y = draw(SIDE - 4); b.at.z = draw(SIDE - 4);
    b.size.x = 1 + draw(4); b.size.y = 1 + draw(4); b.size.z = 1 + draw(4);
    return b;
}

static double now(void)
{
    struct timespec t;
    clock_gettime(CLOCK_PROCESS_CPUTIME_ID, &t);
    return (double)t.tv_sec * 1e9 + (double)t.tv_nsec;
}

int main(int argc, char **argv)
{
    if (argc != 4) return 2;
    uint32_t fills = (uint32_t)atol(argv[2]), gets = (uint32_t)atol(argv[3]), done = 0, set = 0;
    if (strcmp(argv[1], "-")) {
        FILE *out = fopen(argv[1], "w");
        if (!out) return 2;
        for (uint32_t i = 0; i < fills; i++) {
            voxdag_box b = small();
            fprintf(out, "fill %u %u %u %u %u %u\n", b.at.x, b.at.y, b.at.z, b.size.x, b.size.y, b.size.z);
        }
        return fclose(out) != 0;
    }
    voxdag_world w = VOXDAG_CLOSED;
    double begun = now();
    if (voxdag_open(&w, SIDE)) return 1;
    double opened = now();
    for (uint32_t i = 0; i < fills; i++) {
        voxdag_box b = small();
        done += voxdag_fill(&w, &b) == VOXDAG_OK;
    }
    double filled = now();
    uint32_t version;
    if (voxdag_newest(&w, &version)) return 1;
    for (uint32_t i = 0; i < gets; i++) {
        voxdag_place p;
        bool is = false;
        p.x = draw(SIDE); p.y = draw(SIDE); p.z = draw(SIDE);
        if (voxdag_get(&w, version, &p, &is)) return 1;
        set += is;
    }
    double asked = now();
    printf("open %.0f fill %.0f done %u get %.1f set %u total %.0f\n", opened - begun, fills ? (filled - opened) / fills : 0, done,
           gets ? (asked - filled) / gets : 0, set, filled - begun);
    return voxdag_close(&w) != VOXDAG_OK;
}
