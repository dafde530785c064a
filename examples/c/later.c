/* A world that is saved, and gone on with another day: later JOURNAL. The journal is all that is kept of it. */
#include "voxdag.h"
#include <stdio.h>
#include <stdlib.h>

/* The first day: a cube, a ball cut out of it, and an undo. */
static int begin(const char *name)
{
    voxdag_world w = VOXDAG_CLOSED;
    voxdag_box cube = {{0, 0, 0}, {16, 16, 16}};
    voxdag_place corner = {15, 15, 15};
    size_t size = 0;
    if (voxdag_open(&w, 64) || voxdag_fill(&w, &cube) || voxdag_carve(&w, &corner, 10) || voxdag_undo(&w)) return 1;
    if (voxdag_journal(&w, NULL, 0, &size) != VOXDAG_TOO_SMALL) return 1;
    uint8_t *text = malloc(size);
    FILE *file = fopen(name, "wb");
    if (!text || !file || voxdag_journal(&w, text, size, &size)) return 1;
    int short_of = fwrite(text, 1, size, file) != size;
    free(text);
    return fclose(file) || short_of || voxdag_close(&w);
}

/* Another day: what was undone is redone, and the versions of the first day are there. */
static int go_on(const char *name)
{
    voxdag_world w = VOXDAG_CLOSED;
    const voxdag_plan usual = {0, 0, 0, 0};
    voxdag_box all = {{0, 0, 0}, {64, 64, 64}};
    uint64_t cells = 0;
    uint32_t newest = 0, line = 0;
    static uint8_t text[4096];
    FILE *file = fopen(name, "rb");
    if (!file) return 1;
    size_t length = fread(text, 1, sizeof text, file);
    if (fclose(file)) return 1;
    voxdag_status status = voxdag_open_journal(&w, &usual, NULL, 0, text, length, &line);
    if (status != VOXDAG_OK) {
        printf("status %u, line %u\n", (unsigned)status, (unsigned)line);
        return 1;
    }
    if (voxdag_redo(&w) || voxdag_newest(&w, &newest)) return 1;
    for (uint32_t v = 0; v <= newest; v++) {
        if (voxdag_count(&w, v, &all, &cells)) return 1;
        printf("version %u has %llu cells\n", (unsigned)v, (unsigned long long)cells);
    }
    return voxdag_close(&w) != VOXDAG_OK;
}

int main(int argc, char **argv)
{
    if (argc != 2) return 2;
    return begin(argv[1]) || go_on(argv[1]);
}
