/* Runs a script's lines through the library, and prints the transcript that `voxdag run` writes for it.
 * Usage: replay SIDE [MODELS.vox] < SCRIPT. It knows all commands but `try` and `save`, one line each, with no comments:
 * it is what the library is compared with the program by. */
#include "voxdag.h"
#include <inttypes.h>
#include <stdio.h>
#include <stdlib.h>
#include <string.h>

static uint8_t file[1 << 24];

/* The words of a refusal; `named` is the version that the line names. */
static void refusal(char *text, size_t room, voxdag_status status, uint32_t named)
{
    switch (status) {
    case VOXDAG_OK: snprintf(text, room, "ok"); break;
    case VOXDAG_NO_VERSION: snprintf(text, room, "no version %" PRIu32, named); break;
    case VOXDAG_FORGOTTEN: snprintf(text, room, "forgotten %" PRIu32, named); break;
    case VOXDAG_NOTHING_TO_UNDO: snprintf(text, room, "nothing to undo"); break;
    case VOXDAG_NOTHING_TO_REDO: snprintf(text, room, "nothing to redo"); break;
    case VOXDAG_HISTORY_FULL: snprintf(text, room, "log full"); break;
    case VOXDAG_STORE_FULL: snprintf(text, room, "full"); break;
    case VOXDAG_IS_NEWEST: snprintf(text, room, "is head"); break;
    default: snprintf(text, room, "status %" PRIu32, status); break;
    }
}

/* Which version `same a b` fails at: the first that can't be read. */
static uint32_t unread(voxdag_world *w, uint32_t a, uint32_t b)
{
    bool is;
    return voxdag_same(w, a, a, &is) != VOXDAG_OK ? a : b;
}

int main(int argc, char **argv)
{
    voxdag_world w = VOXDAG_CLOSED;
    char line[256], text[96];
    size_t size = 0;
    unsigned number = 0;
    if (argc < 2) return 2;
    if (argc > 2) {
        FILE *f = fopen(argv[2], "rb");
        if (!f) { perror(argv[2]); return 2; }
        size = fread(file, 1, sizeof file, f);
        fclose(f);
    }
    if (voxdag_open_with(&w, (uint32_t)atoi(argv[1]), 0, file, size) != VOXDAG_OK) return 1;
    while (fgets(line, sizeof line, stdin)) {
        char name[16] = "", *words = line;
        long n[9] = {0};
        uint32_t at = 0, now = 0;
        bool is_at = strncmp(words, "at ", 3) == 0, is = false, some = false;
        if (is_at) { at = (uint32_t)strtoul(words + 3, &words, 10); words++; }
        char *to = strstr(words, " to ");
        if (to) memcpy(to, "    ", 4);
        sscanf(words, "%15s %ld %ld %ld %ld %ld %ld %ld %ld %ld", name, n, n + 1, n + 2, n + 3, n + 4, n + 5, n + 6, n + 7, n + 8);
        voxdag_place a = {(uint32_t)n[0], (uint32_t)n[1], (uint32_t)n[2]}, b = {(uint32_t)n[3], (uint32_t)n[4], (uint32_t)n[5]};
        voxdag_place c = {(uint32_t)n[6], (uint32_t)n[7], (uint32_t)n[8]}, model_at = {(uint32_t)n[1], (uint32_t)n[2], (uint32_t)n[3]};
        voxdag_box box = {a, b}, least;
        voxdag_place hit;
        uint64_t cells = 0;
        voxdag_status r = 99;
        number++;
        voxdag_newest(&w, &now);
        if (!is_at) at = now;
        text[0] = 0;
        if (!strcmp(name, "fill")) r = voxdag_fill(&w, &box);
        else if (!strcmp(name, "erase")) r = voxdag_erase(&w, &box);
        else if (!strcmp(name, "ball")) r = voxdag_ball(&w, &a, b.x);
        else if (!strcmp(name, "carve")) r = voxdag_carve(&w, &a, b.x);
        else if (!strcmp(name, "copy")) r = voxdag_copy(&w, &box, &c);
        else if (!strcmp(name, "stamp")) r = voxdag_stamp(&w, a.x, &model_at);
        else if (!strcmp(name, "undo")) r = voxdag_undo(&w);
        else if (!strcmp(name, "redo")) r = voxdag_redo(&w);
        else if (!strcmp(name, "forget")) {
            at = a.x;
            r = voxdag_forget(&w, at);
            if (!r) snprintf(text, sizeof text, "forgot %" PRIu32, at);
        } else if (!strcmp(name, "get")) {
            r = voxdag_get(&w, at, &a, &is);
            if (!r) snprintf(text, sizeof text, "%s", is ? "set" : "clear");
        } else if (!strcmp(name, "count")) {
            r = voxdag_count(&w, at, &box, &cells);
            if (!r) snprintf(text, sizeof text, "count %" PRIu64, cells);
        } else if (!strcmp(name, "faces")) {
            r = voxdag_faces(&w, at, &box, &cells);
            if (!r) snprintf(text, sizeof text, "faces %" PRIu64, cells);
        } else if (!strcmp(name, "bounds")) {
            r = voxdag_bounds(&w, at, &some, &least);
            if (!r && some) snprintf(text, sizeof text, "bounds %u %u %u %u %u %u", least.at.x, least.at.y, least.at.z, least.size.x, least.size.y, least.size.z);
            if (!r && !some) snprintf(text, sizeof text, "bounds none");
        } else if (!strcmp(name, "ray")) {
            r = voxdag_ray(&w, at, &a, (int32_t)n[3], (int32_t)n[4], (int32_t)n[5], &some, &hit);
            if (!r && some) snprintf(text, sizeof text, "hit %u %u %u", hit.x, hit.y, hit.z);
            if (!r && !some) snprintf(text, sizeof text, "miss");
        } else if (!strcmp(name, "same")) {
            r = voxdag_same(&w, a.x, a.y, &is);
            at = r ? unread(&w, a.x, a.y) : at;
            if (!r) snprintf(text, sizeof text, "%s", is ? "same" : "different");
        } else if (!strcmp(name, "head")) {
            r = VOXDAG_OK;
            snprintf(text, sizeof text, "head");
        }
        if (!text[0]) refusal(text, sizeof text, r, at);
        voxdag_newest(&w, &now);
        printf("%u @%" PRIu32 " %s\n", number, now, text);
    }
    return voxdag_close(&w) == VOXDAG_OK ? 0 : 1;
}
