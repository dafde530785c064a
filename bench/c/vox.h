// Reads VOX files for the peers in this folder, by every rule of the format, as a plain C program does.
//
// A fault of the file ends the program in the product's way: the line `voxdag: vox KIND AT`, and status 4. What else
// goes wrong is said on standard error, with status 125.

#include <errno.h>
#include <stdbool.h>
#include <stdint.h>
#include <stdio.h>
#include <stdlib.h>
#include <string.h>

#define MOST_MODELS 1024

enum kind {
    NOT_VOX = 1,
    VERSION,
    NO_MAIN,
    TRUNCATED,
    SHORT_SIZE,
    SIZE_RANGE,
    XYZI_WITHOUT_SIZE,
    SHORT_XYZI,
    VOXEL_OUTSIDE,
    TOO_MANY_MODELS,
};

struct voxel {
    uint8_t x, y, z, colour;
};

struct model {
    uint32_t size[3];
    size_t length;
    struct voxel *voxels;
};

struct models {
    size_t count;
    struct model list[MOST_MODELS];
};

_Noreturn static void fail(const char *name, const char *why)
{
    fprintf(stderr, "%s: %s\n", name, why);
    exit(125);
}

_Noreturn static void refuse(enum kind kind, size_t at)
{
    printf("voxdag: vox %d %zu\n", kind, at);
    exit(4);
}

static void *take(size_t bytes)
{
    // malloc(0) may give a null pointer.
    void *memory = malloc(bytes ? bytes : 1);
    if (!memory)
        fail("memory", strerror(ENOMEM));
    return memory;
}

static uint8_t *read_whole(const char *file, size_t most, size_t *length)
{
    FILE *stream = fopen(file, "rb");
    if (!stream || fseek(stream, 0, SEEK_END))
        fail(file, strerror(errno));
    long end = ftell(stream);
    if (end < 0 || (size_t)end > most)
        fail(file, "too long");
    rewind(stream);
    uint8_t *bytes = take((size_t)end);
    if (fread(bytes, 1, (size_t)end, stream) != (size_t)end)
        fail(file, "cannot read it whole");
    fclose(stream);
    *length = (size_t)end;
    return bytes;
}

static uint32_t number_at(const uint8_t *bytes)
{
    return bytes[0] | (uint32_t)bytes[1] << 8 | (uint32_t)bytes[2] << 16 | (uint32_t)bytes[3] << 24;
}

static bool is_name(const uint8_t *bytes, const char *name)
{
    return memcmp(bytes, name, 4) == 0;
}

// Where MAIN's children begin, and in `end` where they end.
static size_t read_header(const uint8_t *bytes, size_t length, size_t *end)
{
    if (length < 4 || !is_name(bytes, "VOX "))
        refuse(NOT_VOX, 0);
    if (length < 8)
        refuse(TRUNCATED, 4);
    uint32_t version = number_at(bytes + 4);
    if (version != 150 && version != 200)
        refuse(VERSION, 4);
    if (length < 20)
        refuse(TRUNCATED, 8);
    if (!is_name(bytes + 8, "MAIN"))
        refuse(NO_MAIN, 8);
    uint64_t content = number_at(bytes + 12), children = number_at(bytes + 16);
    if (content + children > length - 20)
        refuse(TRUNCATED, 8);
    *end = 20 + content + children;
    return 20 + content;
}

static void read_size(const uint8_t *bytes, size_t at, uint32_t size[3])
{
    if (number_at(bytes + at + 4) < 12)
        refuse(SHORT_SIZE, at);
    for (int axis = 0; axis < 3; axis++) {
        size[axis] = number_at(bytes + at + 12 + 4 * axis);
        if (size[axis] < 1 || size[axis] > 256)
            refuse(SIZE_RANGE, at);
    }
}

static struct model read_model(const uint8_t *bytes, size_t at, const uint32_t size[3])
{
    uint64_t length = number_at(bytes + at + 4);
    if (length < 4)
        refuse(SHORT_XYZI, at);
    uint64_t count = number_at(bytes + at + 12);
    if (4 + 4 * count > length)
        refuse(SHORT_XYZI, at);
    struct model model = {{size[0], size[1], size[2]}, count, take(count * sizeof *model.voxels)};
    const uint8_t *group = bytes + at + 16;
    for (size_t i = 0; i < count; i++, group += 4) {
        struct voxel voxel = {group[0], group[1], group[2], group[3]};
        if (voxel.x >= size[0] || voxel.y >= size[1] || voxel.z >= size[2])
            refuse(VOXEL_OUTSIDE, at);
        model.voxels[i] = voxel;
    }
    return model;
}

static void read_models(const uint8_t *bytes, size_t length, struct models *models)
{
    size_t end;
    uint32_t size[3];
    bool waits = false;
    models->count = 0;
    size_t at = read_header(bytes, length, &end);
    while (at < end) {
        if (end - at < 12)
            refuse(TRUNCATED, at);
        uint64_t inside = (uint64_t)number_at(bytes + at + 4) + number_at(bytes + at + 8);
        if (inside > end - at - 12)
            refuse(TRUNCATED, at);
        if (is_name(bytes + at, "SIZE")) {
            read_size(bytes, at, size);
            waits = true;
        } else if (is_name(bytes + at, "XYZI")) {
            if (!waits)
                refuse(XYZI_WITHOUT_SIZE, at);
            if (models->count == MOST_MODELS)
                refuse(TOO_MANY_MODELS, at);
            models->list[models->count++] = read_model(bytes, at, size);
            waits = false;
        }
        at += 12 + inside;
    }
}

// One bit for each place of the model, x fastest: set where the last voxel there has a colour.
static uint64_t *cells_of(const struct model *model, size_t *words)
{
    *words = ((size_t)model->size[0] * model->size[1] * model->size[2] + 63) / 64;
    uint64_t *cells = calloc(*words, sizeof *cells);
    if (!cells)
        fail("memory", strerror(ENOMEM));
    for (size_t i = 0; i < model->length; i++) {
        struct voxel voxel = model->voxels[i];
        size_t place = voxel.x + model->size[0] * (voxel.y + (size_t)model->size[1] * voxel.z);
        uint64_t bit = (uint64_t)1 << place % 64;
        if (voxel.colour)
            cells[place / 64] |= bit;
        else
            cells[place / 64] &= ~bit;
    }
    return cells;
}
