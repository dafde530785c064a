/* The surface of a box of 256 cells each way, timed: surface KIND CALLS, where KIND is full, ball or ground (columns of two
 * cells by two, 120 to 136 high). Prints how many cells are listed, the processor's milliseconds that `faces` and `surface`
 * take, and a sum of all that was told. */
#define _POSIX_C_SOURCE 200809L
#include "voxdag.h"
#include <stdio.h>
#include <stdlib.h>
#include <string.h>
#include <time.h>

#define SIDE 256u
#define ROOM (1u << 19)
static const voxdag_box whole = {{0, 0, 0}, {SIDE, SIDE, SIDE}};
static uint64_t state = 1;

static uint32_t draw(uint32_t end)
{
    state = state * 6364136223846793005u + 1442695040888963407u;
    return (uint32_t)(state >> 33) % end;
}

static double now(void)
{
    struct timespec t;
    clock_gettime(CLOCK_PROCESS_CPUTIME_ID, &t);
    return (double)t.tv_sec * 1e3 + (double)t.tv_nsec * 1e-6;
}

static voxdag_status ground(voxdag_world *w)
{
    for (uint32_t x = 0; x < SIDE; x += 2)
        for (uint32_t y = 0; y < SIDE; y += 2) {
            voxdag_box column = {{x, y, 0}, {2, 2, 120 + draw(17)}};
            voxdag_status s = voxdag_fill(w, &column);
            if (s) return s;
        }
    return VOXDAG_OK;
}

static voxdag_status make(voxdag_world *w, const char *kind)
{
    const voxdag_place middle = {SIDE / 2, SIDE / 2, SIDE / 2};
    if (!strcmp(kind, "full")) return voxdag_fill(w, &whole);
    return strcmp(kind, "ball") ? ground(w) : voxdag_ball(w, &middle, SIDE / 2 - 1);
}

int main(int argc, char **argv)
{
    const voxdag_plan plan = {SIDE, 256, 0, 0};
    voxdag_world w = VOXDAG_CLOSED;
    voxdag_shown *shown = malloc(ROOM * sizeof *shown);
    uint32_t newest = 0, sum = 0;
    uint64_t faces = 0;
    size_t listed = 0;
    if (argc != 3 || !shown) return 2;
    long calls = atol(argv[2]);
    if (voxdag_open_as(&w, &plan, NULL, 0) || make(&w, argv[1]) || voxdag_newest(&w, &newest)) return 1;
    double begun = now();
    for (long i = 0; i < calls; i++)
        if (voxdag_faces(&w, newest, &whole, &faces)) return 1;
    double counted = now();
    for (long i = 0; i < calls; i++)
        if (voxdag_surface(&w, newest, &whole, shown, ROOM, &listed)) return 1;
    double told = now();
    for (size_t i = 0; i < listed; i++) sum = sum * 31 + shown[i].x + 7u * shown[i].y + 11u * shown[i].z + 13u * shown[i].sides;
    printf("listed %zu faces %.3f surface %.3f sum %u\n", listed, (counted - begun) / (double)calls, (told - counted) / (double)calls, sum);
    free(shown);
    return voxdag_close(&w) != VOXDAG_OK;
}
