// Writes a script of 100,000 lines, each a command on a small box of a world of side 256.
//
//     make_script below FILE     six of ten commands are edits, so that they stay below a log's 65,535 records
//     make_script over FILE      eight of ten, so that the log becomes full
//
// The edits are fills, erases and stamps of model 0, which must be a single cell; the other commands are counts. The
// boxes have sizes from 1 to 8 and stand where the work of the moment is: in a cube of side 32, which moves after each
// 1,000 lines. The same bytes each time.

#include <stdio.h>
#include <string.h>

#include "draw.h"

#define SEED 20240609
#define SIDE 256
#define LINES 100000
#define CUBE 32
#define STAY 1000
#define LARGEST 8

static void put_box(FILE *file, const char *name, const uint32_t cube[3], uint64_t *state)
{
    uint32_t at[3], size[3];
    for (int axis = 0; axis < 3; axis++) {
        size[axis] = 1 + draw(state, LARGEST);
        at[axis] = cube[axis] + draw(state, CUBE + 1 - size[axis]);
    }
    fprintf(file, "%s %u %u %u %u %u %u\n", name, at[0], at[1], at[2], size[0], size[1], size[2]);
}

static void put_stamp(FILE *file, const uint32_t cube[3], uint64_t *state)
{
    fprintf(file, "stamp 0");
    for (int axis = 0; axis < 3; axis++)
        fprintf(file, " %u", cube[axis] + draw(state, CUBE));
    fprintf(file, "\n");
}

static void put_script(FILE *file, uint32_t edits_of_ten)
{
    uint64_t state = SEED;
    uint32_t cube[3];
    for (int line = 0; line < LINES; line++) {
        if (line % STAY == 0)
            for (int axis = 0; axis < 3; axis++)
                cube[axis] = draw(&state, SIDE - CUBE + 1);
        uint32_t edit = draw(&state, 3);
        if (draw(&state, 10) >= edits_of_ten)
            put_box(file, "count", cube, &state);
        else if (edit == 2)
            put_stamp(file, cube, &state);
        else
            put_box(file, edit ? "erase" : "fill", cube, &state);
    }
}

int main(int argc, char **argv)
{
    int is_over = argc == 3 && strcmp(argv[1], "over") == 0;
    if (argc != 3 || (!is_over && strcmp(argv[1], "below") != 0)) {
        fprintf(stderr, "usage: make_script below|over FILE\n");
        return 2;
    }
    FILE *file = fopen(argv[2], "wb");
    if (!file) {
        perror(argv[2]);
        return 1;
    }
    put_script(file, is_over ? 8 : 6);
    if (fclose(file)) {
        perror(argv[2]);
        return 1;
    }
    return 0;
}
