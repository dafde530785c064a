/* A world that is gone on with, timed: journal FILE CHANGES writes the journal of so many changes, which fill one of 2,000
 * small boxes and erase it again; journal FILE opens it and gives it again, and prints the processor's milliseconds for both,
 * how many versions there are, and whether the bytes are the file's. */
#define _POSIX_C_SOURCE 200809L
#include "voxdag.h"
#include <stdio.h>
#include <stdlib.h>
#include <string.h>
#include <time.h>

#define SIDE 256u
#define ROOM (1u << 24)
static const voxdag_plan plan = {SIDE, 256, 0, 0};
static double now(void)
{
    struct timespec t;
    clock_gettime(CLOCK_PROCESS_CPUTIME_ID, &t);
    return (double)t.tv_sec * 1e3 + (double)t.tv_nsec * 1e-6;
}

/* Makes so many changes of a new world, and writes their journal. */
static int write_journal(const char *name, uint32_t changes, uint8_t *text)
{
    voxdag_world w = VOXDAG_CLOSED;
    size_t length = 0;
    FILE *out = fopen(name, "wb");
    if (!out || voxdag_open_as(&w, &plan, NULL, 0)) return 1;
    for (uint32_t i = 0; i < changes; i++) {
        voxdag_box b;
        uint32_t n = i / 2 % 2000;
        b.at.x = 7 * n % (SIDE - 4); b.at.y = 31 * n % (SIDE - 4); b.at.z = 113 * n % (SIDE - 4);
        b.size.x = 1 + n % 4; b.size.y = 1 + n / 4 % 4; b.size.z = 1 + n / 16 % 4;
        if (i % 2 ? voxdag_erase(&w, &b) : voxdag_fill(&w, &b)) return 1;
    }
    if (voxdag_journal(&w, text, ROOM, &length)) return 1;
    return fwrite(text, 1, length, out) != length || fclose(out) != 0 || voxdag_close(&w) != VOXDAG_OK;
}

static int open_journal(const char *name, uint8_t *text, uint8_t *again)
{
    voxdag_world w = VOXDAG_CLOSED;
    uint32_t line = 0, newest = 0;
    size_t given = 0;
    FILE *in = fopen(name, "rb");
    if (!in) return 1;
    size_t length = fread(text, 1, ROOM, in);
    fclose(in);
    double begun = now();
    if (voxdag_open_journal(&w, &plan, NULL, 0, text, length, &line)) return 1;
    double opened = now();
    if (voxdag_newest(&w, &newest) || voxdag_journal(&w, again, ROOM, &given)) return 1;
    double told = now();
    printf("open %.1f journal %.1f newest %u same %d\n", opened - begun, told - opened, newest, given == length && !memcmp(text, again, length));
    return voxdag_close(&w) != VOXDAG_OK;
}

int main(int argc, char **argv)
{
    uint8_t *text = malloc(ROOM), *again = malloc(ROOM);
    if (argc < 2 || argc > 3 || !text || !again) return 2;
    int failed = argc == 3 ? write_journal(argv[1], (uint32_t)atol(argv[2]), text) : open_journal(argv[1], text, again);
    free(text);
    free(again);
    return failed;
}
