// Writes a VOX file of some 64 MiB with the chunks that an editor writes around its models: nTRN and nSHP for each, and
// at the end LAYR, MATL and RGBA. What these chunks hold is zeros, since a reader passes over them.
//
//     make_models large FILE     one model of 256 x 256 x 256, each place once, x fastest, no colour 0
//     make_models many FILE      1,000 models of 64 x 64 x 64 with 16,777 voxels each, places in a pseudo-random order
//                                with repeats, a quarter of colour 0
//
// The same bytes each time.

#include <string.h>

#include "draw.h"
#include "put.h"

#define SEED 20240608
#define MATERIALS 256

// The numbers of content bytes of the passed chunks.
#define NTRN 60
#define NSHP 24
#define LAYR 26
#define MATL 110
#define RGBA 1024

struct shape {
    uint32_t models, side, voxels;
};

static const struct shape large = {1, 256, 256 * 256 * 256};
static const struct shape many = {1000, 64, 16777};

static void put_passed(FILE *file, const char *name, uint32_t content)
{
    static const uint8_t zeros[RGBA];
    put_head(file, name, content, 0);
    put(file, zeros, content);
}

static void put_model(FILE *file, const struct shape *shape, uint64_t *state)
{
    uint32_t side = shape->side, places = side * side * side;
    put_head(file, "SIZE", 12, 0);
    for (int axis = 0; axis < 3; axis++)
        put_number(file, side);
    put_head(file, "XYZI", 4 + 4 * shape->voxels, 0);
    put_number(file, shape->voxels);
    for (uint32_t i = 0; i < shape->voxels; i++) {
        uint32_t place = i, colour = 1 + i % 255;
        if (shape == &many) {
            place = draw(state, places);
            colour = draw(state, 4) ? 1 + draw(state, 255) : 0;
        }
        uint8_t group[4] = {place % side, place / side % side, place / (side * side), colour};
        put(file, group, 4);
    }
}

static void put_file(FILE *file, const struct shape *shape)
{
    uint64_t state = SEED;
    uint32_t each = 24 + 16 + 4 * shape->voxels + 12 + NTRN + 12 + NSHP;
    put(file, "VOX ", 4);
    put_number(file, 200);
    put_head(file, "MAIN", 0, shape->models * each + 12 + LAYR + MATERIALS * (12 + MATL) + 12 + RGBA);
    for (uint32_t i = 0; i < shape->models; i++)
        put_model(file, shape, &state);
    for (uint32_t i = 0; i < shape->models; i++) {
        put_passed(file, "nTRN", NTRN);
        put_passed(file, "nSHP", NSHP);
    }
    put_passed(file, "LAYR", LAYR);
    for (int i = 0; i < MATERIALS; i++)
        put_passed(file, "MATL", MATL);
    put_passed(file, "RGBA", RGBA);
}

int main(int argc, char **argv)
{
    int is_many = argc == 3 && strcmp(argv[1], "many") == 0;
    if (argc != 3 || (!is_many && strcmp(argv[1], "large") != 0)) {
        fprintf(stderr, "usage: make_models large|many FILE\n");
        return 2;
    }
    FILE *file = fopen(argv[2], "wb");
    if (!file) {
        perror(argv[2]);
        return 1;
    }
    put_file(file, is_many ? &many : &large);
    if (fclose(file)) {
        perror(argv[2]);
        return 1;
    }
    return 0;
}
