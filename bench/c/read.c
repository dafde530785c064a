// The peer of `voxdag count` on files of any kind: prints the sum of the numbers of cells of a VOX file's models, or the
// file's first fault.
//
//     read count FILE
//
// It does the work in the same steps: the whole file is read into memory, its chunks are walked and every rule is
// checked, the groups of each model become a list of voxels, the file's bytes are given back, and then the voxels of
// each model are marked in order in a set of bits, one for each place.

#include "vox.h"

#define LONGEST_FILE ((size_t)256 << 20)

static uint64_t count_cells(const struct model *model)
{
    size_t words;
    uint64_t *cells = cells_of(model, &words);
    uint64_t count = 0;
    for (size_t i = 0; i < words; i++)
        count += (uint64_t)__builtin_popcountll(cells[i]);
    free(cells);
    return count;
}

int main(int argc, char **argv)
{
    if (argc != 3 || strcmp(argv[1], "count") != 0) {
        fprintf(stderr, "usage: read count FILE\n");
        return 1;
    }
    static struct models models;
    size_t length;
    uint8_t *bytes = read_whole(argv[2], LONGEST_FILE, &length);
    read_models(bytes, length, &models);
    free(bytes);
    uint64_t count = 0;
    for (size_t i = 0; i < models.count; i++) {
        count += count_cells(&models.list[i]);
        free(models.list[i].voxels);
    }
    printf("%llu\n", (unsigned long long)count);
    return 0;
}
