/* Loads a model, edits, undoes, asks an old version and saves. Usage: tour MODEL.vox OUT.vox */
#include "voxdag.h"
#include <inttypes.h>
#include <stdio.h>
#include <stdlib.h>

/* Says which call was refused, and ends. */
static void must(const char *what, voxdag_status status)
{
    if (status == VOXDAG_OK) return;
    fprintf(stderr, "tour: %s: status %" PRIu32 "\n", what, status);
    exit(1);
}

static uint8_t *read_all(const char *name, size_t *size)
{
    FILE *f = fopen(name, "rb");
    uint8_t *bytes = NULL;
    size_t room = 0;
    *size = 0;
    if (!f) { perror(name); exit(2); }
    for (;;) {
        if (*size == room) {
            room = room ? 2 * room : 4096;
            bytes = realloc(bytes, room);
            if (!bytes) { fputs("tour: out of memory\n", stderr); exit(2); }
        }
        size_t got = fread(bytes + *size, 1, room - *size, f);
        if (got == 0) break;
        *size += got;
    }
    fclose(f);
    return bytes;
}

int main(int argc, char **argv)
{
    voxdag_world w = VOXDAG_CLOSED;
    if (argc != 3) { fputs("usage: tour MODEL.vox OUT.vox\n", stderr); return 2; }

    /* The models are read here; the bytes are ours again afterwards. */
    size_t size;
    uint8_t *file = read_all(argv[1], &size);
    must("open", voxdag_open_with(&w, 64, 0, file, size));
    free(file);

    /* Versions 1 to 3. */
    voxdag_place extent, at = {0, 0, 0}, centre = {32, 32, 8};
    must("model_size", voxdag_model_size(&w, 0, &extent));
    printf("model 0 has %" PRIu32 " x %" PRIu32 " x %" PRIu32 " places\n", extent.x, extent.y, extent.z);
    must("stamp", voxdag_stamp(&w, 0, &at));
    must("ball", voxdag_ball(&w, &centre, 6));
    must("carve", voxdag_carve(&w, &centre, 3));

    /* Undoing makes version 4, which has the cells of version 2. */
    bool same;
    uint32_t newest;
    must("undo", voxdag_undo(&w));
    must("newest", voxdag_newest(&w, &newest));
    must("same", voxdag_same(&w, 2, newest, &same));
    printf("version %" PRIu32 " is %s version 2\n", newest, same ? "the same as" : "another than");

    /* Every version can still be asked. */
    const voxdag_box all = {{0, 0, 0}, {64, 64, 64}};
    for (uint32_t version = 0; version <= newest; version++) {
        uint64_t cells, faces;
        must("count", voxdag_count(&w, version, &all, &cells));
        must("faces", voxdag_faces(&w, version, &all, &faces));
        printf("version %" PRIu32 ": %" PRIu64 " cells, %" PRIu64 " faces\n", version, cells, faces);
    }

    /* The box that has all set cells, as a VOX file: first how large it is, then its bytes. */
    bool some;
    voxdag_box least;
    size_t needed, again;
    must("bounds", voxdag_bounds(&w, newest, &some, &least));
    if (some) {
        if (voxdag_save(&w, newest, &least, NULL, 0, &needed) != VOXDAG_TOO_SMALL) return 1;
        uint8_t *bytes = malloc(needed);
        if (!bytes) return 1;
        must("save", voxdag_save(&w, newest, &least, bytes, needed, &again));
        FILE *out = fopen(argv[2], "wb");
        if (!out || fwrite(bytes, 1, needed, out) != needed || fclose(out)) { perror(argv[2]); return 2; }
        free(bytes);
        printf("saved %" PRIu32 " x %" PRIu32 " x %" PRIu32 "\n", least.size.x, least.size.y, least.size.z);
    }
    must("close", voxdag_close(&w));
    return 0;
}
