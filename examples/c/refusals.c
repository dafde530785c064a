/* Every refusal that can be had at will, every bad argument, and that outputs and worlds stay what they were. Prints the
 * first line that is wrong, and exits with 1. */
#include "voxdag.h"
#include <stdio.h>
#include <stdlib.h>
#include <string.h>

#define SAYS(want, call)                                                                                    \
    do {                                                                                                    \
        unsigned got_ = (call);                                                                             \
        if (got_ != (unsigned)(want)) {                                                                     \
            printf("line %d: %u, not %u\n", __LINE__, got_, (unsigned)(want));                              \
            return 1;                                                                                       \
        }                                                                                                   \
    } while (0)
#define IS(what)                                                                                            \
    do {                                                                                                    \
        if (!(what)) {                                                                                      \
            printf("line %d: not so: %s\n", __LINE__, #what);                                               \
            return 1;                                                                                       \
        }                                                                                                   \
    } while (0)

static const voxdag_place in = {1, 2, 3}, far[] = {{64, 0, 0}, {0, 64, 0}, {0, 0, 64}, {65536, 0, 0}, {0, 65537, 0}, {0, 0, UINT32_MAX}, {UINT32_MAX, UINT32_MAX, UINT32_MAX}};
static const voxdag_box good = {{0, 0, 0}, {8, 8, 8}};
/* Boxes that leave the world, wrap round or have no cells. */
static const voxdag_box bad[] = {
    {{60, 0, 0}, {5, 1, 1}}, {{0, 60, 0}, {1, 5, 1}}, {{0, 0, 60}, {1, 1, 5}}, {{0, 0, 0}, {0, 1, 1}}, {{0, 0, 0}, {1, 0, 1}},
    {{0, 0, 0}, {1, 1, 0}}, {{65535, 0, 0}, {1, 1, 1}}, {{65536, 0, 0}, {1, 1, 1}}, {{0, 0, 0}, {65537, 1, 1}},
    {{UINT32_MAX, 0, 0}, {1, 1, 1}}, {{UINT32_MAX, 0, 0}, {2, 1, 1}}, {{1, 1, 1}, {UINT32_MAX, UINT32_MAX, UINT32_MAX}},
};
#define NUMBER(list) (sizeof(list) / sizeof *(list))

/* Nothing may be null. */
static int nulls(voxdag_world *w)
{
    bool is = true;
    uint32_t v = 7;
    uint64_t n = 7;
    size_t needed = 7;
    uint8_t out[8] = {0};
    voxdag_shown seen[2] = {{7, 7, 7, 7, 7}, {7, 7, 7, 7, 7}};
    voxdag_plan plan = {7, 7, 7, 7};
    voxdag_place p = in;
    voxdag_box b = good;
    SAYS(VOXDAG_NULL, voxdag_open(NULL, 64));
    SAYS(VOXDAG_NULL, voxdag_open_with(w, 64, 0, NULL, 1));
    SAYS(VOXDAG_NULL, voxdag_close(NULL));
    SAYS(VOXDAG_NULL, voxdag_fill(NULL, &b)); SAYS(VOXDAG_NULL, voxdag_fill(w, NULL));
    SAYS(VOXDAG_NULL, voxdag_erase(NULL, &b)); SAYS(VOXDAG_NULL, voxdag_erase(w, NULL));
    SAYS(VOXDAG_NULL, voxdag_ball(NULL, &p, 1)); SAYS(VOXDAG_NULL, voxdag_ball(w, NULL, 1));
    SAYS(VOXDAG_NULL, voxdag_carve(NULL, &p, 1)); SAYS(VOXDAG_NULL, voxdag_carve(w, NULL, 1));
    SAYS(VOXDAG_NULL, voxdag_copy(NULL, &b, &p)); SAYS(VOXDAG_NULL, voxdag_copy(w, NULL, &p)); SAYS(VOXDAG_NULL, voxdag_copy(w, &b, NULL));
    SAYS(VOXDAG_NULL, voxdag_stamp(NULL, 0, &p)); SAYS(VOXDAG_NULL, voxdag_stamp(w, 0, NULL));
    SAYS(VOXDAG_NULL, voxdag_undo(NULL)); SAYS(VOXDAG_NULL, voxdag_redo(NULL)); SAYS(VOXDAG_NULL, voxdag_forget(NULL, 0));
    SAYS(VOXDAG_NULL, voxdag_newest(NULL, &v)); SAYS(VOXDAG_NULL, voxdag_newest(w, NULL));
    SAYS(VOXDAG_NULL, voxdag_model_size(NULL, 0, &p)); SAYS(VOXDAG_NULL, voxdag_model_size(w, 0, NULL));
    SAYS(VOXDAG_NULL, voxdag_get(NULL, 0, &p, &is)); SAYS(VOXDAG_NULL, voxdag_get(w, 0, NULL, &is)); SAYS(VOXDAG_NULL, voxdag_get(w, 0, &p, NULL));
    SAYS(VOXDAG_NULL, voxdag_count(NULL, 0, &b, &n)); SAYS(VOXDAG_NULL, voxdag_count(w, 0, NULL, &n)); SAYS(VOXDAG_NULL, voxdag_count(w, 0, &b, NULL));
    SAYS(VOXDAG_NULL, voxdag_faces(NULL, 0, &b, &n)); SAYS(VOXDAG_NULL, voxdag_faces(w, 0, NULL, &n)); SAYS(VOXDAG_NULL, voxdag_faces(w, 0, &b, NULL));
    SAYS(VOXDAG_NULL, voxdag_bounds(NULL, 0, &is, &b)); SAYS(VOXDAG_NULL, voxdag_bounds(w, 0, NULL, &b)); SAYS(VOXDAG_NULL, voxdag_bounds(w, 0, &is, NULL));
    SAYS(VOXDAG_NULL, voxdag_ray(NULL, 0, &p, 1, 0, 0, &is, &p)); SAYS(VOXDAG_NULL, voxdag_ray(w, 0, NULL, 1, 0, 0, &is, &p));
    SAYS(VOXDAG_NULL, voxdag_ray(w, 0, &in, 1, 0, 0, NULL, &p)); SAYS(VOXDAG_NULL, voxdag_ray(w, 0, &in, 1, 0, 0, &is, NULL));
    SAYS(VOXDAG_NULL, voxdag_same(NULL, 0, 0, &is)); SAYS(VOXDAG_NULL, voxdag_same(w, 0, 0, NULL));
    SAYS(VOXDAG_NULL, voxdag_save(NULL, 0, &b, out, 8, &needed)); SAYS(VOXDAG_NULL, voxdag_save(w, 0, NULL, out, 8, &needed));
    SAYS(VOXDAG_NULL, voxdag_save(w, 0, &b, NULL, 8, &needed)); SAYS(VOXDAG_NULL, voxdag_save(w, 0, &b, out, 8, NULL));
    SAYS(VOXDAG_NULL, voxdag_changes(NULL, 0, 0, &is, &b)); SAYS(VOXDAG_NULL, voxdag_changes(w, 0, 0, NULL, &b)); SAYS(VOXDAG_NULL, voxdag_changes(w, 0, 0, &is, NULL));
    SAYS(VOXDAG_NULL, voxdag_surface(NULL, 0, &b, seen, 2, &needed)); SAYS(VOXDAG_NULL, voxdag_surface(w, 0, NULL, seen, 2, &needed));
    SAYS(VOXDAG_NULL, voxdag_surface(w, 0, &b, NULL, 2, &needed)); SAYS(VOXDAG_NULL, voxdag_surface(w, 0, &b, seen, 2, NULL));
    SAYS(VOXDAG_NULL, voxdag_flood(NULL, 0, &b, &p, &n, out, 8, &needed)); SAYS(VOXDAG_NULL, voxdag_flood(w, 0, NULL, &p, &n, out, 8, &needed));
    SAYS(VOXDAG_NULL, voxdag_flood(w, 0, &b, NULL, &n, out, 8, &needed)); SAYS(VOXDAG_NULL, voxdag_flood(w, 0, &b, &p, NULL, out, 8, &needed));
    SAYS(VOXDAG_NULL, voxdag_flood(w, 0, &b, &p, &n, NULL, 8, &needed)); SAYS(VOXDAG_NULL, voxdag_flood(w, 0, &b, &p, &n, out, 8, NULL));
    SAYS(VOXDAG_NULL, voxdag_dag(NULL, out, 8, &needed)); SAYS(VOXDAG_NULL, voxdag_dag(w, NULL, 8, &needed)); SAYS(VOXDAG_NULL, voxdag_dag(w, out, 8, NULL));
    SAYS(VOXDAG_NULL, voxdag_about(NULL, &plan)); SAYS(VOXDAG_NULL, voxdag_about(w, NULL)); IS(plan.side == 7);
    SAYS(VOXDAG_NULL, voxdag_journal(NULL, out, 8, &needed)); SAYS(VOXDAG_NULL, voxdag_journal(w, NULL, 8, &needed)); SAYS(VOXDAG_NULL, voxdag_journal(w, out, 8, NULL));
    IS(is && v == 7 && n == 7 && needed == 7 && b.size.x == 8 && seen[0].x == 7);
    return 0;
}

/* Every call on a world of which none is open. */
static int closed(voxdag_world *w)
{
    bool is = true;
    uint32_t v = 7;
    uint64_t n = 7;
    size_t needed = 7;
    uint8_t out[8] = {0};
    voxdag_shown seen[2] = {{7, 7, 7, 7, 7}, {7, 7, 7, 7, 7}};
    voxdag_plan plan = {7, 7, 7, 7};
    voxdag_place p = in, hit = in;
    voxdag_box b = good;
    SAYS(VOXDAG_IS_CLOSED, voxdag_close(w)); SAYS(VOXDAG_IS_CLOSED, voxdag_fill(w, &b)); SAYS(VOXDAG_IS_CLOSED, voxdag_erase(w, &b));
    SAYS(VOXDAG_IS_CLOSED, voxdag_ball(w, &p, 1)); SAYS(VOXDAG_IS_CLOSED, voxdag_carve(w, &p, 1)); SAYS(VOXDAG_IS_CLOSED, voxdag_copy(w, &b, &p));
    SAYS(VOXDAG_IS_CLOSED, voxdag_stamp(w, 0, &p)); SAYS(VOXDAG_IS_CLOSED, voxdag_undo(w)); SAYS(VOXDAG_IS_CLOSED, voxdag_redo(w));
    SAYS(VOXDAG_IS_CLOSED, voxdag_forget(w, 0)); SAYS(VOXDAG_IS_CLOSED, voxdag_newest(w, &v)); SAYS(VOXDAG_IS_CLOSED, voxdag_model_size(w, 0, &p));
    SAYS(VOXDAG_IS_CLOSED, voxdag_get(w, 0, &p, &is)); SAYS(VOXDAG_IS_CLOSED, voxdag_count(w, 0, &b, &n)); SAYS(VOXDAG_IS_CLOSED, voxdag_faces(w, 0, &b, &n));
    SAYS(VOXDAG_IS_CLOSED, voxdag_bounds(w, 0, &is, &b)); SAYS(VOXDAG_IS_CLOSED, voxdag_ray(w, 0, &p, 1, 0, 0, &is, &hit));
    SAYS(VOXDAG_IS_CLOSED, voxdag_same(w, 0, 0, &is)); SAYS(VOXDAG_IS_CLOSED, voxdag_save(w, 0, &b, out, 8, &needed));
    SAYS(VOXDAG_IS_CLOSED, voxdag_journal(w, out, 8, &needed)); SAYS(VOXDAG_IS_CLOSED, voxdag_dag(w, out, 8, &needed));
    SAYS(VOXDAG_IS_CLOSED, voxdag_about(w, &plan)); IS(plan.side == 7 && plan.cap == 7 && plan.keep == 7 && plan.tints == 7);
    SAYS(VOXDAG_IS_CLOSED, voxdag_changes(w, 0, 0, &is, &b)); SAYS(VOXDAG_IS_CLOSED, voxdag_surface(w, 0, &b, seen, 2, &needed));
    SAYS(VOXDAG_IS_CLOSED, voxdag_flood(w, 0, &b, &p, &n, out, 8, &needed));
    IS(seen[0].x == 7 && seen[1].sides == 7);
    IS(is && v == 7 && n == 7 && needed == 7 && hit.x == 1 && hit.z == 3 && b.size.x == 8 && p.x == 1 && !out[0]);
    return 0;
}

/* Places, boxes, balls, steps, models and versions that aren't there; the world has version 0 alone. */
static int outside(voxdag_world *w)
{
    bool is = true;
    uint64_t n = 7;
    size_t needed = 7;
    uint8_t out[8] = {9, 9, 9, 9, 9, 9, 9, 9};
    voxdag_shown seen[2] = {{7, 7, 7, 7, 7}, {7, 7, 7, 7, 7}};
    voxdag_place hit = in;
    voxdag_box least = good;
    for (size_t k = 0; k < NUMBER(bad); k++) {
        const voxdag_box *b = &bad[k];
        SAYS(VOXDAG_OUTSIDE, voxdag_fill(w, b)); SAYS(VOXDAG_OUTSIDE, voxdag_erase(w, b)); SAYS(VOXDAG_OUTSIDE, voxdag_copy(w, b, &in));
        SAYS(VOXDAG_OUTSIDE, voxdag_surface(w, 0, b, seen, 2, &needed)); SAYS(VOXDAG_OUTSIDE, voxdag_surface(w, 7, b, seen, 2, &needed));
        SAYS(VOXDAG_OUTSIDE, voxdag_flood(w, 0, b, &in, &n, out, 8, &needed));
        SAYS(VOXDAG_OUTSIDE, voxdag_count(w, 0, b, &n)); SAYS(VOXDAG_OUTSIDE, voxdag_faces(w, 0, b, &n)); SAYS(VOXDAG_OUTSIDE, voxdag_save(w, 0, b, out, 8, &needed));
    }
    for (size_t k = 0; k < NUMBER(far); k++) {
        const voxdag_place *p = &far[k];
        SAYS(VOXDAG_OUTSIDE, voxdag_ball(w, p, 3)); SAYS(VOXDAG_OUTSIDE, voxdag_carve(w, p, 3)); SAYS(VOXDAG_OUTSIDE, voxdag_copy(w, &good, p));
        SAYS(VOXDAG_OUTSIDE, voxdag_flood(w, 0, &good, p, &n, out, 8, &needed));
        SAYS(VOXDAG_OUTSIDE, voxdag_get(w, 0, p, &is)); SAYS(VOXDAG_OUTSIDE, voxdag_ray(w, 0, p, 1, 0, 0, &is, &hit));
        /* Of several causes the first is answered. */
        SAYS(VOXDAG_OUTSIDE, voxdag_get(w, 7, p, &is)); SAYS(VOXDAG_OUTSIDE, voxdag_ray(w, 7, p, 0, 0, 0, &is, &hit));
    }
    const uint32_t radii[] = {4096, 65536, 65537, UINT32_MAX};
    for (size_t k = 0; k < NUMBER(radii); k++) { SAYS(VOXDAG_OUTSIDE, voxdag_ball(w, &in, radii[k])); SAYS(VOXDAG_OUTSIDE, voxdag_carve(w, &in, radii[k])); }
    const int32_t ways[][3] = {{0, 0, 0}, {1025, 0, 0}, {0, -1025, 0}, {0, 0, 32768}, {-32769, 0, 0}, {0, 65536, 0}, {65537, 0, 0}, {0, 0, INT32_MIN}, {INT32_MAX, 1, 1}};
    for (size_t k = 0; k < NUMBER(ways); k++) {
        SAYS(VOXDAG_BAD_WAY, voxdag_ray(w, 0, &in, ways[k][0], ways[k][1], ways[k][2], &is, &hit));
        SAYS(VOXDAG_BAD_WAY, voxdag_ray(w, 7, &in, ways[k][0], ways[k][1], ways[k][2], &is, &hit));
    }
    const uint32_t models[] = {0, 1024, 65535, 65536, UINT32_MAX};
    for (size_t k = 0; k < NUMBER(models); k++) { SAYS(VOXDAG_NO_MODEL, voxdag_stamp(w, models[k], &in)); SAYS(VOXDAG_NO_MODEL, voxdag_model_size(w, models[k], &hit)); }
    const uint32_t versions[] = {1, 65535, 65536, UINT32_MAX};
    for (size_t k = 0; k < NUMBER(versions); k++) {
        uint32_t v = versions[k];
        SAYS(VOXDAG_NO_VERSION, voxdag_get(w, v, &in, &is)); SAYS(VOXDAG_NO_VERSION, voxdag_count(w, v, &good, &n)); SAYS(VOXDAG_NO_VERSION, voxdag_faces(w, v, &good, &n));
        SAYS(VOXDAG_NO_VERSION, voxdag_same(w, 0, v, &is)); SAYS(VOXDAG_NO_VERSION, voxdag_same(w, v, 0, &is)); SAYS(VOXDAG_NO_VERSION, voxdag_forget(w, v));
        SAYS(VOXDAG_NO_VERSION, voxdag_changes(w, 0, v, &is, &least)); SAYS(VOXDAG_NO_VERSION, voxdag_changes(w, v, 0, &is, &least));
        SAYS(VOXDAG_NO_VERSION, voxdag_flood(w, v, &good, &in, &n, out, 8, &needed));
        SAYS(VOXDAG_NO_VERSION, voxdag_surface(w, v, &good, seen, 2, &needed));
        SAYS(VOXDAG_NO_VERSION, voxdag_save(w, v, &good, out, 8, &needed)); SAYS(VOXDAG_NO_VERSION, voxdag_ray(w, v, &in, 1, 0, 0, &is, &hit));
    }
    SAYS(VOXDAG_NOTHING_TO_UNDO, voxdag_undo(w)); SAYS(VOXDAG_NOTHING_TO_REDO, voxdag_redo(w)); SAYS(VOXDAG_IS_NEWEST, voxdag_forget(w, 0));
    IS(is && n == 7 && needed == 7 && out[0] == 9 && out[7] == 9 && hit.x == 1 && hit.z == 3 && least.size.x == 8 && seen[1].sides == 7);
    return 0;
}

/* Outputs that nobody set before: a bool of any bits, and a hit that stays where nothing is met. */
static int outputs(voxdag_world *w)
{
    bool is, some;
    voxdag_place hit = in;
    voxdag_box least = good;
    memset(&is, 0xa5, sizeof is);
    memset(&some, 0xa5, sizeof some);
    SAYS(VOXDAG_OK, voxdag_get(w, 0, &in, &is)); IS(!is);
    memset(&is, 0xa5, sizeof is);
    SAYS(VOXDAG_OK, voxdag_same(w, 0, 0, &is)); IS(is);
    SAYS(VOXDAG_OK, voxdag_bounds(w, 0, &some, &least)); IS(!some && least.size.x == 8);
    memset(&some, 0xa5, sizeof some);
    SAYS(VOXDAG_OK, voxdag_changes(w, 0, 0, &some, &least)); IS(!some && least.size.x == 8);
    memset(&some, 0xa5, sizeof some);
    SAYS(VOXDAG_OK, voxdag_ray(w, 0, &in, 1, 0, 0, &some, &hit)); IS(!some && hit.x == 1 && hit.y == 2 && hit.z == 3);
    return 0;
}

/* Cells that can be seen, with too little room and with more than enough: of a cube of 8 cells, 296 have a bare side. */
static int cells(voxdag_world *w, uint32_t version)
{
    static voxdag_shown seen[300];
    size_t needed = 0, again = 0;
    voxdag_box wide = {{0, 0, 0}, {64, 64, 64}}, least = {{9, 9, 9}, {9, 9, 9}};
    bool some = false;
    memset(seen, 7, sizeof seen);
    SAYS(VOXDAG_TOO_SMALL, voxdag_surface(w, version, &good, NULL, 0, &needed)); IS(needed == 296);
    SAYS(VOXDAG_TOO_SMALL, voxdag_surface(w, version, &good, seen, 295, &again)); IS(again == 296 && seen[0].tint == 7);
    SAYS(VOXDAG_OK, voxdag_surface(w, version, &wide, seen, 300, &again)); IS(again == 296);
    for (size_t k = 296; k < 300; k++) IS(seen[k].x == 7 && seen[k].tint == 7 && seen[k].sides == 7);
    IS(!seen[0].x && !seen[0].y && !seen[0].z && seen[0].tint == 1 && seen[0].sides == 21);
    IS(seen[295].x == 7 && seen[295].y == 7 && seen[295].z == 7 && seen[295].tint == 1 && seen[295].sides == 42);
    SAYS(VOXDAG_OK, voxdag_changes(w, 0, version, &some, &least));
    IS(some && !least.at.x && !least.at.y && !least.at.z && least.size.x == 8 && least.size.y == 8 && least.size.z == 8);
    return 0;
}

/* A region: of a box of 10 cells a side, the 488 clear cells round a set cube of 8 in its corner; none from a set cell. */
static int region(voxdag_world *w, uint32_t version)
{
    static uint8_t out[4096];
    voxdag_box wide = {{0, 0, 0}, {10, 10, 10}};
    voxdag_place clear = {9, 9, 9}, beside = {10, 0, 0};
    size_t needed = 0, again = 0;
    uint64_t n = 7;
    SAYS(VOXDAG_OUTSIDE, voxdag_flood(w, version, &wide, &beside, &n, out, sizeof out, &needed)); IS(n == 7 && !needed);
    SAYS(VOXDAG_TOO_SMALL, voxdag_flood(w, version, &wide, &clear, &n, NULL, 0, &needed)); IS(n == 488 && needed == 60 + 4 * 488);
    SAYS(VOXDAG_OK, voxdag_flood(w, version, &wide, &clear, &n, out, sizeof out, &again)); IS(n == 488 && again == needed && !memcmp(out, "VOX ", 4));
    SAYS(VOXDAG_OK, voxdag_flood(w, version, &wide, &in, &n, out, sizeof out, &again)); IS(n == 0 && again < needed);
    return 0;
}

static int bytes(voxdag_world *w, uint32_t version)
{
    size_t needed = 0, again = 0;
    SAYS(VOXDAG_TOO_SMALL, voxdag_save(w, version, &good, NULL, 0, &needed));
    uint8_t *out = malloc(needed + 8);
    IS(out && needed > 20);
    memset(out, 9, needed + 8);
    SAYS(VOXDAG_TOO_SMALL, voxdag_save(w, version, &good, out, needed - 1, &again)); IS(again == needed && out[0] == 9);
    SAYS(VOXDAG_OK, voxdag_save(w, version, &good, out, needed + 8, &again)); IS(again == needed && !memcmp(out, "VOX ", 4));
    for (size_t k = needed; k < needed + 8; k++) IS(out[k] == 9);
    /* What was saved is a file whose model is stamped again. */
    voxdag_world copy = VOXDAG_CLOSED;
    voxdag_place size, origin = {0, 0, 0}, out_of = {57, 0, 0};
    uint64_t cells = 0;
    SAYS(VOXDAG_OK, voxdag_open_with(&copy, 64, 0, out, needed));
    free(out);
    SAYS(VOXDAG_OK, voxdag_model_size(&copy, 0, &size)); IS(size.x == 8 && size.y == 8 && size.z == 8);
    SAYS(VOXDAG_OUTSIDE, voxdag_stamp(&copy, 0, &out_of)); SAYS(VOXDAG_NO_MODEL, voxdag_stamp(&copy, 1, &origin));
    SAYS(VOXDAG_OK, voxdag_stamp(&copy, 0, &origin)); SAYS(VOXDAG_OK, voxdag_count(&copy, 1, &good, &cells)); IS(cells == 512);
    SAYS(VOXDAG_OK, voxdag_close(&copy));
    SAYS(VOXDAG_TOO_SMALL, voxdag_journal(w, NULL, 0, &needed));
    out = malloc(needed);
    IS(out);
    SAYS(VOXDAG_OK, voxdag_journal(w, out, needed, &again)); IS(!memcmp(out, "voxdag journal 1\n", 17));
    free(out);
    return 0;
}

/* Nothing of a file of versions may be null, and without one nothing is answered. */
static int no_file(voxdag_versions *v, const uint8_t *file, size_t size)
{
    bool is = true;
    uint32_t n = 7;
    uint64_t at = 7;
    size_t needed = 7;
    uint8_t out[8] = {0};
    voxdag_shown seen[2] = {{7, 7, 7, 7, 7}, {7, 7, 7, 7, 7}};
    voxdag_place p = in, hit = in;
    voxdag_box b = good;
    SAYS(VOXDAG_NULL, voxdag_versions_open(NULL, file, size, &at)); SAYS(VOXDAG_NULL, voxdag_versions_open(v, NULL, 1, &at)); SAYS(VOXDAG_NULL, voxdag_versions_open(v, file, size, NULL));
    SAYS(VOXDAG_NULL, voxdag_versions_close(NULL)); SAYS(VOXDAG_NULL, voxdag_versions_side(NULL, &n)); SAYS(VOXDAG_NULL, voxdag_versions_side(v, NULL));
    SAYS(VOXDAG_NULL, voxdag_versions_newest(NULL, &n)); SAYS(VOXDAG_NULL, voxdag_versions_newest(v, NULL));
    SAYS(VOXDAG_NULL, voxdag_versions_get(NULL, 0, &p, &is)); SAYS(VOXDAG_NULL, voxdag_versions_get(v, 0, NULL, &is)); SAYS(VOXDAG_NULL, voxdag_versions_get(v, 0, &p, NULL));
    SAYS(VOXDAG_NULL, voxdag_versions_count(NULL, 0, &b, &at)); SAYS(VOXDAG_NULL, voxdag_versions_count(v, 0, NULL, &at)); SAYS(VOXDAG_NULL, voxdag_versions_count(v, 0, &b, NULL));
    SAYS(VOXDAG_NULL, voxdag_versions_faces(NULL, 0, &b, &at)); SAYS(VOXDAG_NULL, voxdag_versions_faces(v, 0, NULL, &at)); SAYS(VOXDAG_NULL, voxdag_versions_faces(v, 0, &b, NULL));
    SAYS(VOXDAG_NULL, voxdag_versions_bounds(NULL, 0, &is, &b)); SAYS(VOXDAG_NULL, voxdag_versions_bounds(v, 0, NULL, &b)); SAYS(VOXDAG_NULL, voxdag_versions_bounds(v, 0, &is, NULL));
    SAYS(VOXDAG_NULL, voxdag_versions_ray(NULL, 0, &p, 1, 0, 0, &is, &hit)); SAYS(VOXDAG_NULL, voxdag_versions_ray(v, 0, NULL, 1, 0, 0, &is, &hit));
    SAYS(VOXDAG_NULL, voxdag_versions_ray(v, 0, &p, 1, 0, 0, NULL, &hit)); SAYS(VOXDAG_NULL, voxdag_versions_ray(v, 0, &p, 1, 0, 0, &is, NULL));
    SAYS(VOXDAG_NULL, voxdag_versions_same(NULL, 0, 0, &is)); SAYS(VOXDAG_NULL, voxdag_versions_same(v, 0, 0, NULL));
    SAYS(VOXDAG_NULL, voxdag_versions_changes(NULL, 0, 0, &is, &b)); SAYS(VOXDAG_NULL, voxdag_versions_changes(v, 0, 0, NULL, &b)); SAYS(VOXDAG_NULL, voxdag_versions_changes(v, 0, 0, &is, NULL));
    SAYS(VOXDAG_NULL, voxdag_versions_save(NULL, 0, &b, out, 8, &needed)); SAYS(VOXDAG_NULL, voxdag_versions_save(v, 0, NULL, out, 8, &needed));
    SAYS(VOXDAG_NULL, voxdag_versions_save(v, 0, &b, NULL, 8, &needed)); SAYS(VOXDAG_NULL, voxdag_versions_save(v, 0, &b, out, 8, NULL));
    SAYS(VOXDAG_NULL, voxdag_versions_surface(NULL, 0, &b, seen, 2, &needed)); SAYS(VOXDAG_NULL, voxdag_versions_surface(v, 0, NULL, seen, 2, &needed));
    SAYS(VOXDAG_NULL, voxdag_versions_surface(v, 0, &b, NULL, 2, &needed)); SAYS(VOXDAG_NULL, voxdag_versions_surface(v, 0, &b, seen, 2, NULL));
    SAYS(VOXDAG_NULL, voxdag_versions_flood(NULL, 0, &b, &p, &at, out, 8, &needed)); SAYS(VOXDAG_NULL, voxdag_versions_flood(v, 0, NULL, &p, &at, out, 8, &needed));
    SAYS(VOXDAG_NULL, voxdag_versions_flood(v, 0, &b, NULL, &at, out, 8, &needed)); SAYS(VOXDAG_NULL, voxdag_versions_flood(v, 0, &b, &p, NULL, out, 8, &needed));
    SAYS(VOXDAG_NULL, voxdag_versions_flood(v, 0, &b, &p, &at, NULL, 8, &needed)); SAYS(VOXDAG_NULL, voxdag_versions_flood(v, 0, &b, &p, &at, out, 8, NULL));
    SAYS(VOXDAG_IS_CLOSED, voxdag_versions_same(v, 0, 0, &is)); SAYS(VOXDAG_IS_CLOSED, voxdag_versions_changes(v, 0, 0, &is, &b)); SAYS(VOXDAG_IS_CLOSED, voxdag_versions_save(v, 0, &b, out, 8, &needed));
    SAYS(VOXDAG_IS_CLOSED, voxdag_versions_surface(v, 0, &b, seen, 2, &needed)); SAYS(VOXDAG_IS_CLOSED, voxdag_versions_flood(v, 0, &b, &p, &at, out, 8, &needed));
    SAYS(VOXDAG_IS_CLOSED, voxdag_versions_close(v)); SAYS(VOXDAG_IS_CLOSED, voxdag_versions_side(v, &n)); SAYS(VOXDAG_IS_CLOSED, voxdag_versions_newest(v, &n));
    SAYS(VOXDAG_IS_CLOSED, voxdag_versions_get(v, 0, &p, &is)); SAYS(VOXDAG_IS_CLOSED, voxdag_versions_count(v, 0, &b, &at)); SAYS(VOXDAG_IS_CLOSED, voxdag_versions_faces(v, 0, &b, &at));
    SAYS(VOXDAG_IS_CLOSED, voxdag_versions_bounds(v, 0, &is, &b)); SAYS(VOXDAG_IS_CLOSED, voxdag_versions_ray(v, 0, &p, 1, 0, 0, &is, &hit));
    IS(is && n == 7 && at == 7 && needed == 7 && hit.x == 1 && b.size.x == 8 && !out[0] && seen[1].sides == 7);
    return 0;
}

/* A file of versions 0 and 2 of side 8, which has the cells 0 and 1 of a row in version 2: what is asked and refused, and
 * the place of each first fault. */
static int held(const uint8_t *file, size_t size)
{
    static const struct { size_t at; uint8_t byte; uint64_t fault; } rows[] = {
        {0, 'W', 0}, {4, 2, 4}, {8, 5, 8}, {14, 2, 12}, {19, 2, 16}, {24, 0, 24}, {32, 2, 32}, {36, 2, 32}, {66, 1, 64}, {72, 0, 72}, {76, 2, 76}, {76, 0, 32},
    };
    voxdag_versions v = VOXDAG_NO_VERSIONS;
    const voxdag_box all = {{0, 0, 0}, {8, 8, 8}}, wide = {{7, 0, 0}, {2, 1, 1}}, four = {{0, 0, 0}, {4, 1, 1}};
    const voxdag_place out_of = {8, 0, 0}, end = {7, 0, 0};
    voxdag_box least = good;
    voxdag_place hit = in;
    uint8_t other[81], out[80];
    voxdag_shown seen[3];
    size_t needed = 7;
    uint32_t n = 7;
    uint64_t cells = 7, at = 7;
    bool is;
    memset(&is, 0xa5, sizeof is);
    if (no_file(&v, file, size)) return 1;
    memcpy(other, file, size);
    SAYS(VOXDAG_OK, voxdag_versions_open(&v, other, size, &at)); SAYS(VOXDAG_IS_OPEN, voxdag_versions_open(&v, other, size, &at)); IS(at == 7);
    memset(other, 9, sizeof other); /* a copy is kept */
    SAYS(VOXDAG_OK, voxdag_versions_side(&v, &n)); IS(n == 8);
    SAYS(VOXDAG_OK, voxdag_versions_newest(&v, &n)); IS(n == 2);
    SAYS(VOXDAG_OK, voxdag_versions_get(&v, 0, &good.at, &is)); IS(!is);
    SAYS(VOXDAG_OK, voxdag_versions_get(&v, 2, &good.at, &is)); IS(is);
    SAYS(VOXDAG_OK, voxdag_versions_count(&v, 2, &all, &cells)); IS(cells == 2);
    SAYS(VOXDAG_OK, voxdag_versions_faces(&v, 2, &all, &cells)); IS(cells == 10);
    SAYS(VOXDAG_OK, voxdag_versions_bounds(&v, 0, &is, &least)); IS(!is && least.size.x == 8);
    SAYS(VOXDAG_OK, voxdag_versions_bounds(&v, 2, &is, &least)); IS(is && !least.at.x && least.size.x == 2 && least.size.y == 1 && least.size.z == 1);
    SAYS(VOXDAG_OK, voxdag_versions_ray(&v, 0, &end, -1, 0, 0, &is, &hit)); IS(!is && hit.x == 1);
    SAYS(VOXDAG_OK, voxdag_versions_ray(&v, 2, &end, -1, 0, 0, &is, &hit)); IS(is && hit.x == 1 && !hit.y && !hit.z);
    SAYS(VOXDAG_OK, voxdag_versions_same(&v, 0, 2, &is)); IS(!is); SAYS(VOXDAG_OK, voxdag_versions_same(&v, 2, 2, &is)); IS(is);
    SAYS(VOXDAG_OK, voxdag_versions_changes(&v, 2, 2, &is, &least)); IS(!is && least.size.x == 2); least = good;
    SAYS(VOXDAG_OK, voxdag_versions_changes(&v, 2, 0, &is, &least)); IS(is && !least.at.x && least.size.x == 2 && least.size.y == 1 && least.size.z == 1);
    memset(seen, 7, sizeof seen);
    SAYS(VOXDAG_TOO_SMALL, voxdag_versions_surface(&v, 2, &all, seen, 1, &needed)); IS(needed == 2 && seen[0].x == 7);
    SAYS(VOXDAG_OK, voxdag_versions_surface(&v, 2, &all, seen, 3, &needed)); IS(needed == 2 && seen[2].x == 7);
    IS(!seen[0].x && seen[0].tint == 1 && seen[0].sides == 61 && seen[1].x == 1 && !seen[1].z && seen[1].tint == 1 && seen[1].sides == 62);
    SAYS(VOXDAG_TOO_SMALL, voxdag_versions_save(&v, 2, &four, NULL, 0, &needed)); IS(needed == 68);
    SAYS(VOXDAG_OK, voxdag_versions_save(&v, 2, &four, out, sizeof out, &needed)); IS(needed == 68 && !memcmp(out, "VOX ", 4) && out[64] == 1 && out[67] == 1);
    SAYS(VOXDAG_OK, voxdag_versions_flood(&v, 2, &four, &four.at, &cells, out, sizeof out, &needed)); IS(cells == 0 && needed == 60);
    SAYS(VOXDAG_OK, voxdag_versions_flood(&v, 0, &four, &four.at, &cells, out, sizeof out, &needed)); IS(cells == 4 && needed == 76 && out[72] == 3);
    cells = 10; needed = 7;
    SAYS(VOXDAG_OUTSIDE, voxdag_versions_save(&v, 1, &wide, out, sizeof out, &needed)); SAYS(VOXDAG_OUTSIDE, voxdag_versions_surface(&v, 1, &wide, seen, 3, &needed));
    SAYS(VOXDAG_OUTSIDE, voxdag_versions_flood(&v, 1, &wide, &end, &cells, out, sizeof out, &needed)); SAYS(VOXDAG_OUTSIDE, voxdag_versions_flood(&v, 1, &four, &end, &cells, out, sizeof out, &needed));
    SAYS(VOXDAG_OUTSIDE, voxdag_versions_get(&v, 1, &out_of, &is)); SAYS(VOXDAG_OUTSIDE, voxdag_versions_count(&v, 1, &wide, &cells));
    SAYS(VOXDAG_OUTSIDE, voxdag_versions_faces(&v, 1, &wide, &cells)); SAYS(VOXDAG_OUTSIDE, voxdag_versions_ray(&v, 1, &out_of, 0, 0, 0, &is, &hit));
    SAYS(VOXDAG_BAD_WAY, voxdag_versions_ray(&v, 1, &end, 1025, 0, 0, &is, &hit)); SAYS(VOXDAG_BAD_WAY, voxdag_versions_ray(&v, 2, &end, 0, 0, INT32_MIN, &is, &hit));
    const uint32_t none[] = {1, 3, 65536, 65538, UINT32_MAX};
    for (size_t k = 0; k < NUMBER(none); k++) {
        SAYS(VOXDAG_NO_VERSION, voxdag_versions_get(&v, none[k], &end, &is)); SAYS(VOXDAG_NO_VERSION, voxdag_versions_count(&v, none[k], &all, &cells));
        SAYS(VOXDAG_NO_VERSION, voxdag_versions_faces(&v, none[k], &all, &cells)); SAYS(VOXDAG_NO_VERSION, voxdag_versions_bounds(&v, none[k], &is, &least));
        SAYS(VOXDAG_NO_VERSION, voxdag_versions_ray(&v, none[k], &end, 1, 0, 0, &is, &hit));
        SAYS(VOXDAG_NO_VERSION, voxdag_versions_same(&v, none[k], 2, &is)); SAYS(VOXDAG_NO_VERSION, voxdag_versions_same(&v, 2, none[k], &is));
        SAYS(VOXDAG_NO_VERSION, voxdag_versions_changes(&v, none[k], 0, &is, &least)); SAYS(VOXDAG_NO_VERSION, voxdag_versions_changes(&v, 0, none[k], &is, &least));
        SAYS(VOXDAG_NO_VERSION, voxdag_versions_save(&v, none[k], &all, out, sizeof out, &needed)); SAYS(VOXDAG_NO_VERSION, voxdag_versions_surface(&v, none[k], &all, seen, 3, &needed));
        SAYS(VOXDAG_NO_VERSION, voxdag_versions_flood(&v, none[k], &all, &end, &cells, out, sizeof out, &needed));
    }
    IS(is && cells == 10 && needed == 7 && least.size.x == 2 && hit.x == 1);
    SAYS(VOXDAG_OK, voxdag_versions_close(&v)); SAYS(VOXDAG_IS_CLOSED, voxdag_versions_newest(&v, &n)); IS(n == 2);
    for (size_t k = 0; k < NUMBER(rows); k++) {
        memcpy(other, file, size);
        other[rows[k].at] = rows[k].byte;
        SAYS(VOXDAG_BAD_DAG, voxdag_versions_open(&v, other, size, &at)); IS(at == rows[k].fault && !v.is_open);
    }
    memcpy(other, file, size);
    other[size] = 0;
    SAYS(VOXDAG_BAD_DAG, voxdag_versions_open(&v, other, size + 1, &at)); IS(at == size);
    SAYS(VOXDAG_BAD_DAG, voxdag_versions_open(&v, other, 75, &at)); IS(at == 72);
    SAYS(VOXDAG_BAD_DAG, voxdag_versions_open(&v, NULL, 0, &at)); IS(at == 0);
    /* A file without versions, levels and entries of none. */
    memset(other, 0, sizeof other);
    memcpy(other, file, 12);
    SAYS(VOXDAG_OK, voxdag_versions_open(&v, other, 24, &at)); IS(at == 0);
    SAYS(VOXDAG_NO_VERSION, voxdag_versions_newest(&v, &n)); IS(n == 2); SAYS(VOXDAG_OK, voxdag_versions_side(&v, &n)); IS(n == 8);
    SAYS(VOXDAG_NO_VERSION, voxdag_versions_count(&v, 0, &all, &cells)); SAYS(VOXDAG_OK, voxdag_versions_close(&v));
    return 0;
}

/* The file of versions 0 and 2 of a world of side 8, where version 1 is forgotten, by its bytes; and what the world is. */
static int versions(void)
{
    static const uint8_t file[] = {
        'V', 'D', 'A', 'G', 1, 0, 0, 0, 8, 0, 0, 0, 2, 0, 0, 0, 1, 0, 0, 0, 1, 0, 0, 0, /* side 8, two versions, one leaf, one node */
        3, 0, 0, 0, 0, 0, 0, 0, /* the leaf of the cells 0 and 1 of a row */
        1, 0, 0, 0, 0, 0, 0, 0, 0, 0, 0, 0, 0, 0, 0, 0, 0, 0, 0, 0, 0, 0, 0, 0, 0, 0, 0, 0, 0, 0, 0, 0, /* it alone, in the first octant */
        0, 0, 0, 0, 0, 0, 0, 0, 2, 0, 0, 0, 1, 0, 0, 0, /* version 0 has nothing, version 2 the node */
    };
    const voxdag_plan by = {8, 5, 3, 0};
    voxdag_plan plan = {7, 7, 7, 7};
    voxdag_world w = VOXDAG_CLOSED;
    const voxdag_box one = {{0, 0, 0}, {1, 1, 1}}, two = {{0, 0, 0}, {2, 1, 1}};
    uint8_t out[96];
    size_t needed = 0, again = 0;
    memset(out, 9, sizeof out);
    SAYS(VOXDAG_OK, voxdag_open_as(&w, &by, NULL, 0)); SAYS(VOXDAG_OK, voxdag_about(&w, &plan));
    IS(plan.side == 8 && plan.cap == 5 && plan.keep == 3 && plan.tints == 0);
    SAYS(VOXDAG_OK, voxdag_fill(&w, &one)); SAYS(VOXDAG_OK, voxdag_fill(&w, &two)); SAYS(VOXDAG_OK, voxdag_forget(&w, 1));
    SAYS(VOXDAG_TOO_SMALL, voxdag_dag(&w, NULL, 0, &needed)); IS(needed == sizeof file);
    SAYS(VOXDAG_TOO_SMALL, voxdag_dag(&w, out, sizeof file - 1, &again)); IS(again == sizeof file && out[0] == 9);
    SAYS(VOXDAG_OK, voxdag_dag(&w, out, sizeof out, &again)); IS(again == sizeof file && !memcmp(out, file, sizeof file));
    for (size_t k = sizeof file; k < sizeof out; k++) IS(out[k] == 9);
    /* The world goes on, with its roots in their places: the same file again, and an undo. */
    SAYS(VOXDAG_OK, voxdag_dag(&w, out, sizeof out, &again)); IS(again == sizeof file && !memcmp(out, file, sizeof file));
    SAYS(VOXDAG_FORGOTTEN, voxdag_undo(&w)); SAYS(VOXDAG_OK, voxdag_fill(&w, &good)); SAYS(VOXDAG_OK, voxdag_undo(&w));
    bool is = false;
    SAYS(VOXDAG_OK, voxdag_same(&w, 2, 4, &is)); IS(is);
    SAYS(VOXDAG_OK, voxdag_close(&w));
    if (held(file, sizeof file)) return 1;
    SAYS(VOXDAG_OK, voxdag_open(&w, 4096)); SAYS(VOXDAG_OK, voxdag_about(&w, &plan)); IS(plan.side == 4096 && plan.cap == 128 && !plan.keep && !plan.tints);
    SAYS(VOXDAG_OK, voxdag_close(&w));
    return 0;
}

/* A journal that is gone on with, and what is wrong with others: each with the status and the line that it is told by. */
static int journals(void)
{
#define HEAD "voxdag journal 1\nside 64\n"
#define ONE "1 0 1 fill 0 0 0 8 8 8\n"
    static const struct { const char *text; uint32_t status, line; } rows[] = {
        {HEAD "end\n", VOXDAG_OK, 77}, {HEAD ONE "end\n", VOXDAG_OK, 77},
        {"", VOXDAG_BAD_JOURNAL, 1}, {"voxdag journal 3\n", VOXDAG_BAD_JOURNAL, 1}, {"voxdag journal 1\nside 65\nend\n", VOXDAG_BAD_JOURNAL, 2},
        {HEAD, VOXDAG_BAD_JOURNAL, 3}, {HEAD "2 0 1 fill 0 0 0 8 8 8\nend\n", VOXDAG_BAD_JOURNAL, 3}, {HEAD ONE "end", VOXDAG_BAD_JOURNAL, 4},
        {HEAD ONE "mark 1 1 0 2\nend\n", VOXDAG_BAD_JOURNAL, 4}, {HEAD ONE "end\n\n", VOXDAG_BAD_JOURNAL, 5},
        {HEAD "1 0 1 undo\nend\n", VOXDAG_NOT_LEGAL, 3}, {HEAD ONE "2 0 2 redo\nend\n", VOXDAG_NOT_LEGAL, 4}, {HEAD "1 0 1 stamp 0 0 0 0\nend\n", VOXDAG_NOT_LEGAL, 3},
        {HEAD ONE "2 0 3 undo\nmark 0 1 0 2\nend\n", VOXDAG_NOT_LEGAL, 4}, {"voxdag journal 2\nside 16\nend\n", VOXDAG_OK, 77},
        {"voxdag journal 2\nside 16\n1 0 1 fill 0 0 0 2 2 2 7\nend\n", VOXDAG_OK, 77},
    };
    const voxdag_plan usual = {0, 0, 0, 0}, caps[] = {{64, 257, 0, 0}, {64, UINT32_MAX, 0, 0}};
    const voxdag_plan kinds[] = {{64, 0, 0, 2}, {64, 0, 0, UINT32_MAX}, {2048, 0, 0, 1}, {4096, 0, 0, 1}, {2, 0, 0, 1}};
    const uint8_t *good_one = (const uint8_t *)rows[1].text;
    const size_t length = strlen(rows[1].text);
    uint8_t broken[] = "VOX \226\0\0\0MAIM", out[256];
    voxdag_world w = VOXDAG_CLOSED;
    uint32_t line = 77;
    size_t needed = 0;
    for (size_t k = 0; k < NUMBER(rows); k++) {
        line = 77;
        SAYS(rows[k].status, voxdag_open_journal(&w, &usual, NULL, 0, (const uint8_t *)rows[k].text, strlen(rows[k].text), &line)); IS(line == rows[k].line);
        if (rows[k].status) { SAYS(VOXDAG_IS_CLOSED, voxdag_close(&w)); continue; }
        SAYS(VOXDAG_OK, voxdag_journal(&w, out, sizeof out, &needed)); IS(needed == strlen(rows[k].text) && !memcmp(out, rows[k].text, needed));
        SAYS(VOXDAG_OK, voxdag_close(&w));
    }
    line = 77;
    for (size_t k = 0; k < NUMBER(caps); k++) SAYS(VOXDAG_BAD_PLAN, voxdag_open_as(&w, &caps[k], NULL, 0));
    for (size_t k = 0; k < NUMBER(kinds); k++) SAYS(VOXDAG_BAD_PLAN, voxdag_open_as(&w, &kinds[k], NULL, 0));
    for (size_t k = 0; k < NUMBER(caps); k++) SAYS(VOXDAG_BAD_PLAN, voxdag_open_journal(&w, &caps[k], broken, 5, NULL, 0, &line));
    SAYS(VOXDAG_BAD_FILE, voxdag_open_journal(&w, &usual, broken, 5, NULL, 0, &line));
    SAYS(VOXDAG_NULL, voxdag_open_journal(NULL, &usual, NULL, 0, good_one, length, &line)); SAYS(VOXDAG_NULL, voxdag_open_journal(&w, NULL, NULL, 0, good_one, length, &line));
    SAYS(VOXDAG_NULL, voxdag_open_journal(&w, &usual, NULL, 1, good_one, length, &line)); SAYS(VOXDAG_NULL, voxdag_open_journal(&w, &usual, NULL, 0, NULL, 1, &line));
    SAYS(VOXDAG_NULL, voxdag_open_journal(&w, &usual, NULL, 0, good_one, length, NULL));
    SAYS(VOXDAG_OK, voxdag_open(&w, 16)); SAYS(VOXDAG_IS_OPEN, voxdag_open_journal(&w, &caps[0], NULL, 0, good_one, length, &line));
    SAYS(VOXDAG_OK, voxdag_close(&w)); IS(line == 77);
    return 0;
}

/* A world that keeps its last two versions, and goes on with them. */
static int keeping(void)
{
    const voxdag_plan two = {8, 0, 2, 0};
#define THREE "voxdag journal 1\nside 8\n1 0 1 fill 0 0 0 8 8 8\n2 0 3 fill 0 0 0 8 8 8\n3 0 4 fill 0 0 0 8 8 8\n"
    static const char before[] = THREE "mark 0 1 0 2\nmark 1 3 0 4\nend\n";
    static const char after[] = THREE "4 0 6 fill 0 0 0 8 8 8\nmark 0 1 0 2\nmark 1 3 0 4\nmark 2 4 0 6\nend\n";
    voxdag_world w = VOXDAG_CLOSED;
    voxdag_box all = {{0, 0, 0}, {8, 8, 8}};
    uint64_t n = 0;
    uint32_t line = 77;
    size_t needed = 0;
    uint8_t out[256];
    SAYS(VOXDAG_NULL, voxdag_open_as(NULL, &two, NULL, 0)); SAYS(VOXDAG_NULL, voxdag_open_as(&w, NULL, NULL, 0)); SAYS(VOXDAG_NULL, voxdag_open_as(&w, &two, NULL, 1));
    SAYS(VOXDAG_OK, voxdag_open_as(&w, &two, NULL, 0)); SAYS(VOXDAG_IS_OPEN, voxdag_open_as(&w, &two, NULL, 0));
    SAYS(VOXDAG_OK, voxdag_fill(&w, &all)); SAYS(VOXDAG_OK, voxdag_count(&w, 0, &all, &n)); IS(n == 0);
    SAYS(VOXDAG_OK, voxdag_undo(&w)); SAYS(VOXDAG_FORGOTTEN, voxdag_count(&w, 0, &all, &n)); SAYS(VOXDAG_OK, voxdag_count(&w, 1, &all, &n)); IS(n == 512);
    SAYS(VOXDAG_OK, voxdag_redo(&w)); SAYS(VOXDAG_FORGOTTEN, voxdag_forget(&w, 1)); SAYS(VOXDAG_FORGOTTEN, voxdag_undo(&w));
    SAYS(VOXDAG_OK, voxdag_close(&w));
    /* By hand, version 0 is forgotten before it falls out. */
    SAYS(VOXDAG_OK, voxdag_open_as(&w, &two, NULL, 0)); SAYS(VOXDAG_OK, voxdag_fill(&w, &all)); SAYS(VOXDAG_OK, voxdag_forget(&w, 0));
    SAYS(VOXDAG_OK, voxdag_fill(&w, &all)); SAYS(VOXDAG_OK, voxdag_count(&w, 1, &all, &n)); SAYS(VOXDAG_OK, voxdag_fill(&w, &all));
    SAYS(VOXDAG_FORGOTTEN, voxdag_count(&w, 1, &all, &n));
    SAYS(VOXDAG_OK, voxdag_journal(&w, out, sizeof out, &needed)); IS(needed == sizeof before - 1 && !memcmp(out, before, needed));
    SAYS(VOXDAG_OK, voxdag_close(&w));
    SAYS(VOXDAG_OK, voxdag_open_journal(&w, &two, NULL, 0, (const uint8_t *)before, sizeof before - 1, &line)); IS(line == 77);
    SAYS(VOXDAG_OK, voxdag_count(&w, 2, &all, &n)); SAYS(VOXDAG_OK, voxdag_fill(&w, &all)); SAYS(VOXDAG_FORGOTTEN, voxdag_count(&w, 2, &all, &n));
    SAYS(VOXDAG_OK, voxdag_journal(&w, out, sizeof out, &needed)); IS(needed == sizeof after - 1 && !memcmp(out, after, needed));
    SAYS(VOXDAG_OK, voxdag_close(&w));
    return 0;
}

/* A world with tints, and what the other kind of world says to its calls. */
static int tints(void)
{
    const voxdag_plan kind = {16, 0, 0, 1};
    const uint32_t none[] = {0, 256, 257, UINT32_MAX};
    voxdag_world w = VOXDAG_CLOSED;
    voxdag_box all = {{0, 0, 0}, {16, 16, 16}}, part = {{0, 0, 0}, {2, 2, 2}}, far = {{15, 0, 0}, {2, 1, 1}}, least;
    voxdag_place in = {1, 1, 1}, outside = {16, 0, 0};
    voxdag_shown seen[8];
    uint8_t tint = 99, out[128];
    uint64_t n = 0;
    size_t needed = 0;
    bool same = false;
    SAYS(VOXDAG_IS_CLOSED, voxdag_fill_tint(&w, &part, 0)); SAYS(VOXDAG_IS_CLOSED, voxdag_ball_tint(&w, &in, 0, 1)); SAYS(VOXDAG_IS_CLOSED, voxdag_colour(&w, 0, &in, &tint));
    SAYS(VOXDAG_NULL, voxdag_fill_tint(NULL, &part, 1)); SAYS(VOXDAG_NULL, voxdag_fill_tint(&w, NULL, 1)); SAYS(VOXDAG_NULL, voxdag_ball_tint(NULL, &in, 0, 1));
    SAYS(VOXDAG_NULL, voxdag_ball_tint(&w, NULL, 0, 1)); SAYS(VOXDAG_NULL, voxdag_colour(NULL, 0, &in, &tint)); SAYS(VOXDAG_NULL, voxdag_colour(&w, 0, NULL, &tint));
    SAYS(VOXDAG_NULL, voxdag_colour(&w, 0, &in, NULL));
    SAYS(VOXDAG_OK, voxdag_open(&w, 16));
    SAYS(VOXDAG_OTHER_KIND, voxdag_fill_tint(&w, &far, 0)); SAYS(VOXDAG_OTHER_KIND, voxdag_ball_tint(&w, &outside, 0, 1)); SAYS(VOXDAG_OTHER_KIND, voxdag_colour(&w, 9, &outside, &tint));
    SAYS(VOXDAG_OK, voxdag_close(&w)); IS(tint == 99);
    SAYS(VOXDAG_OK, voxdag_open_as(&w, &kind, NULL, 0));
    for (size_t k = 0; k < NUMBER(none); k++) { SAYS(VOXDAG_BAD_TINT, voxdag_fill_tint(&w, &far, none[k])); SAYS(VOXDAG_BAD_TINT, voxdag_ball_tint(&w, &outside, 0, none[k])); }
    SAYS(VOXDAG_OUTSIDE, voxdag_fill_tint(&w, &far, 7)); SAYS(VOXDAG_OUTSIDE, voxdag_fill(&w, &far)); SAYS(VOXDAG_OUTSIDE, voxdag_ball_tint(&w, &outside, 0, 7));
    SAYS(VOXDAG_OUTSIDE, voxdag_ball_tint(&w, &in, 4096, 7)); SAYS(VOXDAG_OUTSIDE, voxdag_colour(&w, 9, &outside, &tint)); SAYS(VOXDAG_NO_VERSION, voxdag_colour(&w, 1, &in, &tint));
    IS(tint == 99);
    SAYS(VOXDAG_OK, voxdag_fill_tint(&w, &part, 7)); SAYS(VOXDAG_OK, voxdag_colour(&w, 1, &in, &tint)); IS(tint == 7);
    SAYS(VOXDAG_OK, voxdag_colour(&w, 0, &in, &tint)); IS(tint == 0);
    SAYS(VOXDAG_OK, voxdag_count(&w, 1, &all, &n)); IS(n == 8);
    SAYS(VOXDAG_OK, voxdag_save(&w, 1, &part, out, sizeof out, &needed)); IS(needed == 92);
    for (size_t k = 0; k < 8; k++) IS(out[60 + 4 * k + 3] == 7);
    SAYS(VOXDAG_OK, voxdag_fill(&w, &part)); SAYS(VOXDAG_OK, voxdag_colour(&w, 2, &in, &tint)); IS(tint == 1);
    SAYS(VOXDAG_OK, voxdag_fill_tint(&w, &part, 7));
    same = true; SAYS(VOXDAG_OK, voxdag_same(&w, 1, 2, &same)); IS(!same);
    SAYS(VOXDAG_OK, voxdag_same(&w, 1, 3, &same)); IS(same);
    SAYS(VOXDAG_OK, voxdag_ball_tint(&w, &in, 0, 255)); SAYS(VOXDAG_OK, voxdag_colour(&w, 4, &in, &tint)); IS(tint == 255);
    SAYS(VOXDAG_OK, voxdag_carve(&w, &in, 0)); SAYS(VOXDAG_OK, voxdag_colour(&w, 5, &in, &tint)); IS(tint == 0);
    SAYS(VOXDAG_OUTSIDE, voxdag_surface(&w, 9, &far, seen, 8, &needed)); SAYS(VOXDAG_NO_VERSION, voxdag_surface(&w, 9, &part, seen, 8, &needed)); IS(needed == 92);
    SAYS(VOXDAG_OK, voxdag_surface(&w, 4, &part, seen, 8, &needed)); IS(needed == 8 && seen[0].tint == 7 && seen[0].sides == 21 && seen[7].tint == 255 && seen[7].sides == 42);
    SAYS(VOXDAG_TOO_SMALL, voxdag_surface(&w, 5, &part, seen, 6, &needed)); IS(needed == 7 && seen[6].x == 0 && seen[6].y == 1 && seen[6].z == 1);
    SAYS(VOXDAG_OK, voxdag_surface(&w, 5, &part, seen, 7, &needed)); IS(needed == 7 && seen[6].x == 0 && seen[6].tint == 7 && seen[6].sides == 63 - 4 - 16 && seen[7].tint == 255);
    SAYS(VOXDAG_OK, voxdag_surface(&w, 0, &all, NULL, 0, &needed)); IS(needed == 0); needed = 92;
    SAYS(VOXDAG_NO_VERSION, voxdag_changes(&w, 5, 6, &same, &least)); SAYS(VOXDAG_NO_VERSION, voxdag_changes(&w, 9, 0, &same, &least));
    SAYS(VOXDAG_OK, voxdag_changes(&w, 1, 2, &same, &least)); IS(same && least.at.x == 0 && least.at.z == 0 && least.size.x == 2 && least.size.z == 2);
    SAYS(VOXDAG_OK, voxdag_changes(&w, 1, 3, &same, &least)); IS(!same && least.size.x == 2);
    SAYS(VOXDAG_OK, voxdag_changes(&w, 4, 3, &same, &least)); IS(same && least.at.x == 1 && least.at.y == 1 && least.at.z == 1 && least.size.x == 1 && least.size.y == 1 && least.size.z == 1);
    n = 8; SAYS(VOXDAG_OUTSIDE, voxdag_flood(&w, 9, &far, &in, &n, out, sizeof out, &needed)); IS(n == 8 && needed == 92);
    SAYS(VOXDAG_OK, voxdag_flood(&w, 4, &part, &in, &n, out, sizeof out, &needed)); IS(n == 0 && needed == 60);
    SAYS(VOXDAG_OK, voxdag_flood(&w, 5, &part, &in, &n, out, sizeof out, &needed)); IS(n == 1 && needed == 64);
    SAYS(VOXDAG_OK, voxdag_close(&w));
    return 0;
}

/* What a hand-made file says of its scene: a model of two cells with the colours 5 and 9 stands at (9, 20, 3), and turned by
 * a quarter at (12, 19, 3), if all is as in `usual`. `more` of its nodes say that they have more pairs than they have, and
 * `again` is how often the group has the unturned model besides. */
typedef struct said { uint32_t id, child, model, more, again; const char *turn, *move; } said;
static const said usual_scene = {4, 3, 0, 0, 0, "17", "12 20 3"};

static uint8_t *number(uint8_t *p, uint32_t n) { for (int k = 0; k < 4; k++) *p++ = (uint8_t)(n >> 8 * k); return p; }
static uint8_t *string(uint8_t *p, const char *s) { p = number(p, (uint32_t)strlen(s)); memcpy(p, s, strlen(s)); return p + strlen(s); }
static uint8_t *head(uint8_t *p, const char *name, uint32_t size) { memcpy(p, name, 4); return number(number(p + 4, size), 0); }

/* A node that turns and moves another one. */
static uint8_t *moves(uint8_t *p, uint32_t id, uint32_t child, uint32_t more, const char *turn, const char *move)
{
    const uint32_t pairs = (turn ? 1u : 0u) + (move ? 1u : 0u);
    p = head(p, "nTRN", 28 + (turn ? 10 + (uint32_t)strlen(turn) : 0) + (move ? 10 + (uint32_t)strlen(move) : 0));
    p = number(number(number(number(p, id), 0), child), UINT32_MAX);
    p = number(number(number(p, 0), 1), pairs + more);
    if (turn) p = string(string(p, "_r"), turn);
    return move ? string(string(p, "_t"), move) : p;
}

/* Its bytes: the chunks of the nodes 0 to 3 stand at 68, 108, 140 and 197, and that of the last one at 229. */
static size_t scene_bytes(uint8_t *out, const said *s)
{
    uint8_t *p = head(head(out, "VOX ", 150) - 4, "MAIN", 0);
    p = number(number(number(head(p, "SIZE", 12), 2), 1), 1);
    p = number(number(number(head(p, "XYZI", 12), 2), 5u << 24), 9u << 24 | 1u);
    p = moves(p, 0, 1, 0, NULL, NULL);
    p = number(number(number(head(p, "nGRP", 20 + 4 * s->again), 1), 0), 2 + s->again);
    p = number(number(p, 2), 4);
    for (uint32_t k = 0; k < s->again; k++) p = number(p, 3);
    p = moves(p, 2, 3, 0, NULL, "10 20 3");
    p = number(number(number(number(number(head(p, "nSHP", 20), 3), 0), 1), s->model), 0);
    p = moves(p, s->id, s->child, s->more, s->turn, s->move);
    number(out + 16, (uint32_t)(p - out) - 20);
    return (size_t)(p - out);
}

/* The scene of a file as a world, and what is wrong with others: each with the kind and the place of its first fault. */
static int scenes(void)
{
    static const struct { said says; voxdag_scene told; } faults[] = {
        {{4, 3, 0, 1, 0, "17", "12 20 3"}, {0, 1, 229}}, {{2, 3, 0, 0, 0, "17", "12 20 3"}, {0, 2, 229}}, {{4, 3, 0, 0, 0, "16", "12 20 3"}, {0, 3, 229}},
        {{4, 3, 0, 0, 0, "17", "12 20 x"}, {0, 4, 229}}, {{4, 9, 0, 0, 0, "17", "12 20 3"}, {0, 5, 9}},
        {{4, 1, 0, 0, 0, "17", "12 20 3"}, {0, 6, 2}}, /* the group is below itself: 64 nodes down it comes to node 2 */
        {{4, 3, 1, 0, 0, "17", "12 20 3"}, {0, 7, 3}}, {{4, 3, 0, 0, 1023, "17", "12 20 3"}, {0, 8, 3}}, {{4, 3, 0, 0, 0, "17", "9999 20 3"}, {0, 9, 0}},
    };
    static const char text[] = "voxdag journal 1\nside 4\n1 0 1 stamp 0 0 1 0\n2 0 2 stamp 1 3 0 0\nend\n";
    static uint8_t file[8192], out[256];
    const voxdag_plan usual = {0, 0, 0, 0}, tinted = {0, 0, 0, 1}, four = {4, 0, 0, 0}, eight = {8, 5, 3, 0};
    const voxdag_plan none[] = {{3, 0, 0, 0}, {8192, 0, 0, 0}, {0, 257, 0, 0}, {4, 0, 0, 2}, {2048, 0, 0, 1}};
    const voxdag_box all = {{0, 0, 0}, {4, 4, 4}}, first = {{0, 1, 0}, {2, 1, 1}}, second = {{3, 0, 0}, {1, 2, 1}};
    const voxdag_place cells[] = {{0, 1, 0}, {1, 1, 0}, {3, 0, 0}, {3, 1, 0}};
    said says = usual_scene;
    voxdag_scene told = {7, 7, 7};
    voxdag_world w = VOXDAG_CLOSED;
    voxdag_plan plan = {7, 7, 7, 7};
    voxdag_place size = in;
    uint32_t version = 0;
    uint64_t n = 0;
    uint8_t tint = 0;
    size_t length = scene_bytes(file, &says), needed = 0;
    SAYS(VOXDAG_NULL, voxdag_open_scene(NULL, &usual, file, length, &told)); SAYS(VOXDAG_NULL, voxdag_open_scene(&w, NULL, file, length, &told));
    SAYS(VOXDAG_NULL, voxdag_open_scene(&w, &usual, NULL, length, &told)); SAYS(VOXDAG_NULL, voxdag_open_scene(&w, &usual, file, length, NULL));
    for (size_t k = 0; k < NUMBER(none); k++) SAYS(VOXDAG_BAD_PLAN, voxdag_open_scene(&w, &none[k], file, 9, &told));
    for (size_t k = 0; k < 68; k++) SAYS(VOXDAG_BAD_FILE, voxdag_open_scene(&w, &usual, k ? file : NULL, k, &told));
    IS(told.placements == 7 && told.kind == 7 && told.at == 7);
    SAYS(VOXDAG_OK, voxdag_open_scene(&w, &usual, file, length, &told)); IS(told.placements == 2 && !told.kind && !told.at);
    told.at = 7;
    SAYS(VOXDAG_IS_OPEN, voxdag_open_scene(&w, &none[2], file, length, &told)); IS(told.placements == 2 && told.at == 7);
    SAYS(VOXDAG_OK, voxdag_about(&w, &plan)); IS(plan.side == 4 && plan.cap == 128 && !plan.keep && !plan.tints);
    SAYS(VOXDAG_OK, voxdag_newest(&w, &version)); IS(version == 2);
    SAYS(VOXDAG_OK, voxdag_model_size(&w, 1, &size)); IS(size.x == 1 && size.y == 2 && size.z == 1); SAYS(VOXDAG_NO_MODEL, voxdag_model_size(&w, 2, &size));
    SAYS(VOXDAG_OK, voxdag_count(&w, 1, &all, &n)); IS(n == 2); SAYS(VOXDAG_OK, voxdag_count(&w, 1, &first, &n)); IS(n == 2);
    SAYS(VOXDAG_OK, voxdag_count(&w, 2, &all, &n)); IS(n == 4); SAYS(VOXDAG_OK, voxdag_count(&w, 2, &second, &n)); IS(n == 2);
    SAYS(VOXDAG_OK, voxdag_journal(&w, out, sizeof out, &needed)); IS(needed == sizeof text - 1 && !memcmp(out, text, needed));
    SAYS(VOXDAG_OK, voxdag_undo(&w)); SAYS(VOXDAG_OK, voxdag_count(&w, 3, &all, &n)); IS(n == 2);
    SAYS(VOXDAG_OK, voxdag_close(&w));
    SAYS(VOXDAG_OK, voxdag_open_scene(&w, &tinted, file, length, &told)); IS(told.placements == 2 && !told.at);
    for (size_t k = 0; k < NUMBER(cells); k++) { SAYS(VOXDAG_OK, voxdag_colour(&w, 2, &cells[k], &tint)); IS(tint == (k % 2 ? 9 : 5)); }
    SAYS(VOXDAG_OK, voxdag_close(&w));
    /* The last ones are counted from the next change on. */
    SAYS(VOXDAG_OK, voxdag_open_scene(&w, &eight, file, length, &told)); SAYS(VOXDAG_OK, voxdag_about(&w, &plan));
    IS(plan.side == 8 && plan.cap == 5 && plan.keep == 3 && !plan.tints);
    SAYS(VOXDAG_OK, voxdag_count(&w, 0, &all, &n)); SAYS(VOXDAG_OK, voxdag_fill(&w, &all)); SAYS(VOXDAG_FORGOTTEN, voxdag_count(&w, 0, &all, &n));
    SAYS(VOXDAG_OK, voxdag_close(&w));
    says.again = 1022;
    length = scene_bytes(file, &says);
    SAYS(VOXDAG_OK, voxdag_open_scene(&w, &usual, file, length, &told)); IS(told.placements == 1024 && !told.kind);
    SAYS(VOXDAG_OK, voxdag_about(&w, &plan)); IS(plan.side == 32); SAYS(VOXDAG_OK, voxdag_newest(&w, &version)); IS(version == 1024);
    SAYS(VOXDAG_OK, voxdag_close(&w));
    told.at = 7;
    says = usual_scene;
    says.move = "14 20 3"; /* the turned model ends at 6, and so needs a side of 8 */
    length = scene_bytes(file, &says);
    SAYS(VOXDAG_OUTSIDE, voxdag_open_scene(&w, &four, file, length, &told)); IS(told.placements == 1024 && told.at == 7);
    SAYS(VOXDAG_OK, voxdag_open_scene(&w, &eight, file, length, &told)); SAYS(VOXDAG_OK, voxdag_close(&w)); IS(told.placements == 2);
    says.move = "1500 20 3"; /* 2,048, which no world with tints has */
    length = scene_bytes(file, &says);
    told.at = 7;
    SAYS(VOXDAG_OUTSIDE, voxdag_open_scene(&w, &tinted, file, length, &told)); IS(told.at == 7);
    SAYS(VOXDAG_OK, voxdag_open_scene(&w, &usual, file, length, &told)); SAYS(VOXDAG_OK, voxdag_about(&w, &plan)); IS(plan.side == 2048);
    SAYS(VOXDAG_OK, voxdag_close(&w));
    for (size_t k = 0; k < NUMBER(faults); k++) {
        told.placements = 7;
        length = scene_bytes(file, &faults[k].says);
        SAYS(VOXDAG_BAD_SCENE, voxdag_open_scene(&w, &four, file, length, &told));
        IS(!told.placements && told.kind == faults[k].told.kind && told.at == faults[k].told.at);
        SAYS(VOXDAG_IS_CLOSED, voxdag_close(&w));
    }
    return 0;
}

/* The journal of the open world goes on in buckets as large, with the same bytes, and not in buckets of one node. */
static int narrow(voxdag_world *w)
{
    const voxdag_plan usual = {0, 0, 0, 0}, one = {0, 1, 0, 0};
    voxdag_world again = VOXDAG_CLOSED;
    uint32_t line = 77;
    size_t needed = 0, same = 0;
    SAYS(VOXDAG_TOO_SMALL, voxdag_journal(w, NULL, 0, &needed));
    uint8_t *text = malloc(2 * needed);
    IS(text);
    SAYS(VOXDAG_OK, voxdag_journal(w, text, needed, &same)); IS(same == needed);
    SAYS(VOXDAG_STORE_FULL, voxdag_open_journal(&again, &one, NULL, 0, text, needed, &line));
    SAYS(VOXDAG_OK, voxdag_open_journal(&again, &usual, NULL, 0, text, needed, &line)); IS(line == 77);
    SAYS(VOXDAG_OK, voxdag_journal(&again, text + needed, needed, &same)); IS(same == needed && !memcmp(text, text + needed, needed));
    SAYS(VOXDAG_OK, voxdag_close(&again));
    free(text);
    return 0;
}

int main(void)
{
    voxdag_world w = VOXDAG_CLOSED;
    uint64_t n = 0;
    uint8_t broken[] = "VOX \226\0\0\0MAIM";
    if (nulls(&w) || closed(&w)) return 1;
    const uint32_t sides[] = {0, 1, 2, 3, 65, 8192, UINT32_MAX}, caps[] = {257, 65536, 65537, UINT32_MAX};
    for (size_t k = 0; k < NUMBER(sides); k++) SAYS(VOXDAG_BAD_PLAN, voxdag_open(&w, sides[k]));
    for (size_t k = 0; k < NUMBER(caps); k++) SAYS(VOXDAG_BAD_PLAN, voxdag_open_with(&w, 64, caps[k], NULL, 0));
    for (size_t k = 1; k < sizeof broken; k++) SAYS(VOXDAG_BAD_FILE, voxdag_open_with(&w, 64, 0, broken, k));
    if (closed(&w)) return 1;
    SAYS(VOXDAG_OK, voxdag_open(&w, 64)); SAYS(VOXDAG_IS_OPEN, voxdag_open(&w, 64)); SAYS(VOXDAG_IS_OPEN, voxdag_open_with(&w, 64, 257, NULL, 0));
    if (nulls(&w) || outside(&w) || outputs(&w)) return 1;
    SAYS(VOXDAG_OK, voxdag_fill(&w, &good)); SAYS(VOXDAG_OK, voxdag_count(&w, 1, &good, &n)); IS(n == 512);
    SAYS(VOXDAG_OK, voxdag_count(&w, 0, &good, &n)); IS(n == 0);
    if (bytes(&w, 1) || cells(&w, 1) || region(&w, 1)) return 1;
    bool is = true;
    voxdag_box least = good;
    size_t needed = 7;
    SAYS(VOXDAG_OK, voxdag_forget(&w, 0)); SAYS(VOXDAG_FORGOTTEN, voxdag_changes(&w, 0, 1, &is, &least)); SAYS(VOXDAG_FORGOTTEN, voxdag_changes(&w, 1, 0, &is, &least));
    SAYS(VOXDAG_FORGOTTEN, voxdag_surface(&w, 0, &good, NULL, 0, &needed)); IS(is && least.size.x == 8 && needed == 7); SAYS(VOXDAG_FORGOTTEN, voxdag_count(&w, 0, &good, &n)); SAYS(VOXDAG_FORGOTTEN, voxdag_undo(&w));
    SAYS(VOXDAG_FORGOTTEN, voxdag_forget(&w, 0)); IS(n == 0);
    SAYS(VOXDAG_OK, voxdag_close(&w));
    if (closed(&w)) return 1;
    /* Buckets of one node: the second content of a bucket has no room, and the world can still be asked. */
    SAYS(VOXDAG_OK, voxdag_open_with(&w, 64, 1, NULL, 0));
    unsigned full = 0;
    for (uint32_t k = 0; k < 20000 && !full; k++) {
        voxdag_box b = {{k % 61, k / 61 % 61, k / 3721 % 61}, {1 + k % 3, 1 + k % 2, 1}};
        voxdag_status s = voxdag_fill(&w, &b);
        IS(s == VOXDAG_OK || s == VOXDAG_STORE_FULL);
        full = s == VOXDAG_STORE_FULL;
    }
    IS(full);
    uint32_t newest = 0;
    SAYS(VOXDAG_OK, voxdag_newest(&w, &newest)); SAYS(VOXDAG_OK, voxdag_count(&w, newest, &good, &n)); IS(newest > 0 && n > 0);
    SAYS(VOXDAG_OK, voxdag_close(&w));
    if (versions() || journals() || scenes() || tints() || keeping()) return 1;
    /* As many fills in buckets of the usual size. */
    SAYS(VOXDAG_OK, voxdag_open(&w, 64));
    for (uint32_t k = 0; k <= newest; k++) {
        voxdag_box b = {{k % 61, k / 61 % 61, k / 3721 % 61}, {1 + k % 3, 1 + k % 2, 1}};
        SAYS(VOXDAG_OK, voxdag_fill(&w, &b));
    }
    if (narrow(&w)) return 1;
    SAYS(VOXDAG_OK, voxdag_close(&w));
    puts("refusals: all as they should be");
    return 0;
}
